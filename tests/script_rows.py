"""What the tests of scripts share: rows, each an input recording with the output that answers it."""

from __future__ import annotations

import unittest
from dataclasses import dataclass

from shared.causes import OK, Cause
from shared.kinds import Status
from shared.recordings import input_of
from shared.records import Command, Done, Record, Result, Step, Text
from shared.script_faults import script_fault
from shared.script_text import lines_of
from tests import TOP, made
from tests.replays import replayed
from tests.script_model import numbered, refusal
from tests.test_replay import read_all

FIRST = b"#!ipxe\n"
UNFINISHED = Done(Status.UNFINISHED)
# as many commands as may begin in one step
MOST = 4_096


@dataclass(frozen=True)
class Row:
    """An input recording, and the output recording that answers it."""

    inputs: list[Record]
    outputs: list[Record]


def ran(words: bytes, result: Cause = OK, line: int = 2, place: int = 0) -> list[Record]:
    """A command that is over at once; an `echo` that is Ok prints what its words say."""
    cut = tuple(words.split(b" "))
    printed = [Text(b" ".join(cut[1:]) + b"\n")] if cut[0] == b"echo" and result == OK else []
    return [Command(1, line, place, True, cut), *printed, Result(result)]


def row(script: bytes, *commands: list[Record], cause: Cause = OK) -> Row:
    """A script after its first line, its commands, and the cause with which it is left."""
    return text(FIRST + script, *commands, cause=cause)


def text(script: bytes, *commands: list[Record], cause: Cause = OK) -> Row:
    """The same, of a whole text."""
    records = [record for command in commands for record in command]
    return Row([made.start(script)], [Step(1), made.enter(), *records, *left(cause)])


def left(cause: Cause = OK) -> list[Record]:
    """The first script is left, and with it the run ends."""
    return [made.leave(cause), Done(Status.ENDED if cause == OK else Status.SCRIPT_FAILED)]


def steps(first: int, *each: list[Record]) -> list[Record]:
    """What each record brings, from the one of this number on."""
    return [record for number, step in enumerate(each, first) for record in (Step(number), *step)]


def unexpanded(words: bytes, refusal: Cause, line: int = 2, place: int = 0) -> list[Record]:
    """A command whose words can't be expanded stands as it is written."""
    return [Command(1, line, place, False, tuple(words.split(b" "))), Result(refusal)]


def printed(words: bytes, text: bytes, line: int = 2, place: int = 0) -> list[Record]:
    """A command that prints a text and is Ok."""
    return [Command(1, line, place, True, tuple(words.split(b" "))), Text(text), Result(OK)]


def example(name: str) -> list[Record]:
    """The records of an example's input."""
    return [timed.record for timed in input_of(TOP / "examples" / f"{name}.rec")]


class RowCase(unittest.TestCase):
    maxDiff = 2_000

    def same(self, case: str, row: Row) -> None:
        """The program answers a row's input by its output."""
        run = replayed()[case]
        self.assertEqual(run.ending, "ended")
        if run.output != made.spelled(row.outputs):
            self.assertEqual(read_all(run.output), row.outputs)
        self.assertEqual(run.status, row.outputs[-1].status)


def same_lines(case: unittest.TestCase, script: bytes) -> None:
    """The tools and the second reading cut a text into the same lines, and refuse the same texts."""
    found = {line.first: line.text for line in lines_of(script)}
    case.assertEqual(found, numbered(script))
    case.assertEqual(script_fault(script) is None, not script or refusal(script) is None)
