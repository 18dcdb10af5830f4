#!/usr/bin/env python3
"""Prints a recording of netboot as text, one record a line."""

from __future__ import annotations

import argparse
import sys
from pathlib import Path
from typing import BinaryIO, Iterable, Iterator

from shared.apart import check_apart
from shared.command_line import Refused, read_stream, run
from shared.describe import Lines
from shared.drawing import pictures
from shared.frames import ends_of, packet_of
from shared.full_steps import MOST_COMMANDS, FullSteps
from shared.kinds import GraphEvent, ObjectKind, OpenKind, ScriptMove
from shared.objects import MOST_OBJECTS, SOLE_KINDS
from shared.pairing import check_pair
from shared.parts import write_parts
from shared.recordings import Timed, input_of, open_recording, read_input, read_output
from shared.records import (
    KINDS,
    Advance,
    Command,
    Direction,
    Ended,
    Graph,
    Open,
    Received,
    Record,
    Script,
    Sent,
    Start,
    Step,
    Text,
    Try,
)
from shared.script_text import Line, command_of, script_of
from shared.texts import PrintedText, word
from shared.why import reasons

# the events that stand before the OPEN of their objects
BEGINNINGS = (GraphEvent.MADE, GraphEvent.HELD, GraphEvent.PLUGGED)
FIRST_OWN_PORT = 49_152
OWN_PORTS = 16_384

DESCRIPTION = """\
Prints a recording of netboot as text, one record a line. Which of the two kinds it is shows
from its first record. docs/RECORDS.md describes the format."""

EPILOG = """\
examples:
  tools/boot.py examples/tftp-boot.rec --output boot.out   makes boot.out
  tools/show.py examples/tftp-boot.rec                     the records that a run was given
  tools/show.py boot.out                                   what it did
  tools/show.py boot.out --input examples/tftp-boot.rec    with the time and the record of each step
  tools/show.py boot.out --text                            what its commands printed
  tools/show.py boot.out --type TRY --type ENDED           only records of these types
  tools/show.py boot.out --open 0                          what belongs to its first open
  tools/show.py boot.out --input examples/tftp-boot.rec --why     how it ended, in a sentence
  tools/show.py boot.out --graph                           a picture of the objects of each open
  tools/show.py boot.out --parts parts                     writes kernel, initrds and command line"""


class OfOpen:
    """Tells which records belong to an open: its own, its objects', and the frames between its ends.

    In an output recording the ends are those of its OPEN record. Its objects were made since the OPEN before it, or
    waited for what that one asked; up to the next OPEN what waits belongs to the one that asks. An input recording
    shows only its own port, which the START record and the open's number give.
    """

    def __init__(self, number: int) -> None:
        self.number = number
        self.own: int | None = None
        self.opened: Open | None = None
        self.opens = 0
        # the objects that no OPEN followed yet, with their kinds, those of the open, and what waits beside them
        self.made: dict[int, ObjectKind] = {}
        self.objects: set[int] = set()
        self.beside: set[int] = set()
        self.is_tried = False

    def has(self, record: Record) -> bool:
        was_tried, self.is_tried = self.is_tried, False
        if isinstance(record, Start):
            self.own = FIRST_OWN_PORT + (record.w + self.number) % OWN_PORTS
        if isinstance(record, (Open, Try, Advance, Ended)):
            return self._has_own(record)
        if isinstance(record, Graph):
            return self._has_event(record)
        if isinstance(record, Sent):
            return was_tried or self._has_frame(record.frame)
        return isinstance(record, Received) and self._has_frame(record.frame)

    def _has_event(self, event: Graph) -> bool:
        if event.event is GraphEvent.MADE and len(self.made) < MOST_OBJECTS:
            self.made[event.object] = ObjectKind(event.other)
        is_next = self.opens == self.number and event.event in BEGINNINGS and event.object in self.made
        if event.event is GraphEvent.FREED:
            self.made.pop(event.object, None)
        is_beside = event.event is not GraphEvent.PLUGGED and event.object in self.beside
        return is_next or is_beside or event.object in self.objects

    def _has_own(self, record: Open | Try | Advance | Ended) -> bool:
        is_own = record.number == self.number
        if isinstance(record, Open):
            self.opens += 1
            claimed = {one for one, kind in self.made.items() if SOLE_KINDS.get(record.kind, kind) is kind}
            self.made = {one: kind for one, kind in self.made.items() if one not in claimed}
            self.beside = set(self.made) if is_own else set()
            if is_own:
                self.opened, self.own, self.objects = record, record.own, claimed
        self.is_tried = is_own and isinstance(record, Try)
        return is_own

    def _has_frame(self, frame: bytes) -> bool:
        packet = packet_of(frame)
        if packet is None or self.own is None or self._is_ping():
            return False
        ends = ends_of(packet)
        if self.opened is None:
            return ends.target_port == self.own
        return ends.source_port == self.own and ends.target == self.opened.server

    def _is_ping(self) -> bool:
        """Whether its frames have no ports: then they are those after its TRYs."""
        return self.opened is not None and self.opened.kind is OpenKind.PING


class Written:
    """Shows how the words of a command are written in the first script, where they were expanded."""

    def __init__(self) -> None:
        self.script: dict[int, Line] = {}

    def see(self, record: Record) -> None:
        """Another script may take the place of the first, whose lines aren't known."""
        if isinstance(record, Script) and record.move is ScriptMove.REPLACED and record.depth == 1:
            self.script = {}

    def watch(self, inputs: Iterator[Timed]) -> Iterator[Timed]:
        for timed in inputs:
            if isinstance(timed.record, Start):
                self.script = script_of(timed.record.script)
            yield timed

    def of(self, record: Record) -> str:
        """A further line for a command of other words than are written; else nothing."""
        if not isinstance(record, Command) or not record.expanded or record.depth != 1:
            return ""
        line = self.script.get(record.line)
        written = command_of(line.text, record.place) if line else ()
        if written in ((), record.words):
            return ""
        return "\n    written as: " + " ".join(word(text) for text in written)


def input_lines(records: Iterable[Timed], arguments: argparse.Namespace) -> Iterator[str]:
    """A line for each chosen record, with its number and time."""
    lines = Lines()
    of_open = None if arguments.open is None else OfOpen(arguments.open)
    for timed in records:
        is_chosen = of_open is None or of_open.has(timed.record)
        text = lines.of(timed.record)
        if is_chosen and is_of_type(timed.record, arguments.type):
            yield f"{timed.number:>6} {timed.time:>9} ms  {text}"


def output_lines(
    records: Iterable[Record], inputs: Iterator[Timed] | None, arguments: argparse.Namespace
) -> Iterator[str]:
    """A line for each chosen record, indented under its step."""
    lines, full, script = Lines(), FullSteps(), Written()
    inputs = script.watch(inputs) if inputs else None
    of_open = None if arguments.open is None else OfOpen(arguments.open)
    waiting_step = None
    for record in records:
        is_chosen = of_open is None or of_open.has(record)
        full.take(record)
        script.see(record)
        if isinstance(record, Step):
            text = step_line(record, inputs, lines) + after_full(full.before)
            waiting_step = text if of_open else None
        else:
            text = f"  {lines.of(record)}{script.of(record)}"
        if not is_chosen or not is_of_type(record, arguments.type):
            continue
        if waiting_step and not arguments.type:
            yield waiting_step
            waiting_step = None
        yield text


def step_line(step: Step, inputs: Iterator[Timed] | None, lines: Lines) -> str:
    """A step's line, with the time and the record that it answers where these are known."""
    if inputs is None:
        return lines.of(step)
    timed = next(inputs, None)
    if timed is None:
        raise Refused(f"the input recording has no record {step.number}: it is another run's")
    return f"{lines.of(step)} at {timed.time} ms, on {lines.of(timed.record)}"


def after_full(step: int | None) -> str:
    """Why a script went on in a step without having waited for anything."""
    if step is None:
        return ""
    return f", after {MOST_COMMANDS} commands in step {step}, the most that may begin in one"


def is_of_type(record: Record, names: list[str]) -> bool:
    return not names or record.NAME in names


def type_name(text: str) -> str:
    """A record type's name as it is written in the format."""
    names = {kind.NAME for kinds in KINDS.values() for kind in kinds.values()}
    if text.upper() not in names:
        raise argparse.ArgumentTypeError(f"{text} is none of {', '.join(sorted(names))}")
    return text.upper()


def parse(words: list[str]) -> argparse.Namespace:
    parser = argparse.ArgumentParser(
        description=DESCRIPTION,
        epilog=EPILOG,
        formatter_class=argparse.RawDescriptionHelpFormatter,
    )
    parser.add_argument("recording", type=Path, help="an input or an output recording")
    parser.add_argument(
        "--input",
        type=Path,
        metavar="IN",
        help="the input recording that this output recording answers",
    )
    add_filters(parser)
    add_reports(parser)
    return parser.parse_args(words)


def add_filters(parser: argparse.ArgumentParser) -> None:
    parser.add_argument(
        "--type",
        type=type_name,
        action="append",
        default=[],
        metavar="NAME",
        help="only records of this type, as STEP or TEXT; may be given several times",
    )
    parser.add_argument(
        "--open",
        type=int,
        metavar="N",
        help="only records of open N, counted from 0, of its objects, and its frames",
    )


def add_reports(parser: argparse.ArgumentParser) -> None:
    """What can be asked for in place of the records; one at a time."""
    reports = parser.add_mutually_exclusive_group()
    reports.add_argument(
        "--text", action="store_true", help="what the commands printed, and nothing else"
    )
    reports.add_argument(
        "--why",
        action="store_true",
        help="how the run ended: a sentence, and then the records that show it",
    )
    reports.add_argument(
        "--graph",
        action="store_true",
        help="the objects of each open: from when to when they lived, their links, and what closed them",
    )
    reports.add_argument(
        "--parts",
        type=Path,
        metavar="DIR",
        help="write the parts of the hand-off into this new folder, print lengths and SHA-256",
    )


def refuse_for_input(arguments: argparse.Namespace) -> None:
    for name in ("text", "why", "graph", "parts", "input"):
        if getattr(arguments, name):
            raise Refused(f"--{name} needs an output recording, and this is an input recording")


def printed_texts(records: Iterable[Record]) -> Iterator[str]:
    """What a run's commands printed, however its TEXT records cut it."""
    text = PrintedText()
    for record in records:
        if isinstance(record, Text):
            yield text.of(record.text)
    yield text.end()


def report(arguments: argparse.Namespace, records: Iterator[Record]) -> Iterable[str]:
    """The lines on an output recording that were asked for."""
    if arguments.parts:
        return write_parts(records, arguments.parts)
    inputs = input_of(arguments.input) if arguments.input else None
    if arguments.graph:
        return pictures(records, inputs, arguments.open)
    return output_lines(records, inputs, arguments)


def show_output(arguments: argparse.Namespace, stream: BinaryIO) -> None:
    path = arguments.recording
    if arguments.input:
        check_pair(stream, arguments.input)
    if arguments.why:
        for line in reasons(path, stream, arguments.input):
            print(line)
        return
    records = read_stream(path, stream, read_output)
    if arguments.text:
        for piece in printed_texts(records):
            sys.stdout.write(piece)
        return
    for line in report(arguments, records):
        print(line)


def show(words: list[str]) -> None:
    arguments = parse(words)
    path = arguments.recording
    check_apart({"--parts": arguments.parts}, {"the recording": path, "--input": arguments.input})
    with open_recording(path) as (direction, stream):
        if direction is Direction.OUTPUT:
            show_output(arguments, stream)
            return
        refuse_for_input(arguments)
        for line in input_lines(read_stream(path, stream, read_input), arguments):
            print(line)


if __name__ == "__main__":
    raise SystemExit(run(show, sys.argv))
