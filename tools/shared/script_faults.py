"""Why a script was left by its own text, and not by a command: the line to blame (docs/SCRIPTS.md)."""

from __future__ import annotations

import re
from typing import NamedTuple

from shared.causes import OK, Cause, Code
from shared.records import Command
from shared.script_text import JOINS, lines_of, words_of
from shared.texts import word

MOST_SCRIPT = 1_048_576
MOST_BYTES = 4_096
MOST_WORDS = 64
FIRST_LINE = re.compile(rb"#!ipxe[ \t]*\r?")
TOO_MANY_WORDS = Cause(Code.TOO_MANY, 1)


class Fault(NamedTuple):
    """The line that a text fails at, from 1, and what is wrong with it, as a part of a sentence."""

    line: int
    why: str


def fault_of(text: bytes, cause: Cause, last: Command | None, result: Cause) -> Fault | None:
    """Why a script of this text was left with this cause.

    `last` is the command that ended last in it, with its result.
    """
    if cause.code in (Code.NOT_SCRIPT, Code.TOO_LONG):
        return script_fault(text)
    if cause == TOO_MANY_WORDS:
        return _list_fault(text, _passed(text, last, result))
    return None


def script_fault(text: bytes) -> Fault | None:
    """What makes this text no script; the empty one stands for the built-in one."""
    first = text.split(b"\n", 1)[0]
    if not text:
        return None
    if not FIRST_LINE.fullmatch(first):
        return Fault(1, f"line 1 is {word(first[:60])}, and a script begins with the line `#!ipxe`")
    if len(text) > MOST_SCRIPT:
        return Fault(1, f"the script has {len(text)} bytes, more than {MOST_SCRIPT}")
    for line in lines_of(text):
        if len(line.text) > MOST_BYTES:
            why = f"{line.has()} {len(line.text)} bytes, more than {MOST_BYTES}"
            return Fault(line.first, why)
    return None


def _passed(text: bytes, last: Command | None, result: Cause) -> int:
    """The number of the last line that was passed before a list that isn't run."""
    if last is None:
        return 1
    if last.words[0] == b"goto" and result == OK:
        labels = (line.first for line in lines_of(text) if line.label() == last.words[-1])
        return next(labels, last.line)
    return last.line


def _list_fault(text: bytes, passed: int) -> Fault | None:
    """The first list after this line that has too many words or joins."""
    for line in lines_of(text):
        if line.first <= passed or not line.is_list():
            continue
        words = words_of(line.text)
        joins = sum(found in JOINS for found in words)
        if len(words) - joins > MOST_WORDS:
            said = f"{len(words) - joins} words, more than {MOST_WORDS}"
            return Fault(line.first, f"{line.has()} {said}")
        if joins > MOST_WORDS:
            said = f"{joins} joins (`&&`, `||` and `;`), more than {MOST_WORDS}"
            return Fault(line.first, f"{line.has()} {said}")
    return None
