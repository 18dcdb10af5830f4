"""Whole recordings: which of the two kinds a file is, and the order of the records in it."""

from __future__ import annotations

from contextlib import contextmanager
from dataclasses import dataclass
from pathlib import Path
from typing import BinaryIO, Iterator

from shared.command_line import Refused, opened, read_stream
from shared.fields import Damaged
from shared.records import (
    Direction,
    Done,
    Placed,
    Record,
    Start,
    Step,
    Tick,
    read_records,
)

TYPE_OFFSET = 4
OUTPUT_BIT = 0x80
CAPTURE_MAGICS = frozenset(
    bytes.fromhex(magic) for magic in ("a1b2c3d4", "d4c3b2a1", "a1b23c4d", "4d3cb2a1", "0a0d0d0a")
)


@dataclass(frozen=True, slots=True)
class Timed:
    """An input record, its number from 1, and the time at it in milliseconds."""

    number: int
    time: int
    record: Record


@contextmanager
def open_recording(path: Path) -> Iterator[tuple[Direction, BinaryIO]]:
    """A recording and its kind, which shows from the type of its first record."""
    with opened(path) as stream:
        yield _direction_of(path, stream), stream


def _direction_of(path: Path, stream: BinaryIO) -> Direction:
    head = stream.peek(TYPE_OFFSET + 1)
    if head[:TYPE_OFFSET] in CAPTURE_MAGICS:
        raise Refused(f"{path} is a capture, and record.py makes a recording of it")
    if head.startswith(b"#!"):
        raise Refused(f"{path} is a script, and record.py makes a recording of it")
    if not head:
        raise Refused(f"{path}: the file is empty")
    if len(head) <= TYPE_OFFSET:
        raise Refused(f"{path}: the file ends after {len(head)} bytes, inside its first record")
    return Direction.OUTPUT if head[TYPE_OFFSET] & OUTPUT_BIT else Direction.INPUT


def input_of(path: Path) -> Iterator[Timed]:
    """The records of a file that must be an input recording."""
    with open_recording(path) as (direction, stream):
        if direction is not Direction.INPUT:
            raise Refused(f"{path} is an output recording, and an input recording is needed")
        yield from read_stream(path, stream, read_input)


def output_of(path: Path) -> Iterator[Record]:
    """The records of a file that must be an output recording."""
    with open_recording(path) as (direction, stream):
        if direction is not Direction.OUTPUT:
            raise Refused(f"{path} is an input recording, and an output recording is needed")
        yield from read_stream(path, stream, read_output)


def read_input(stream: BinaryIO) -> Iterator[Timed]:
    """The records of an input recording: START first and once, then any others."""
    time = 0
    for number, (offset, record) in enumerate(read_records(stream, Direction.INPUT), 1):
        if isinstance(record, Start) != (number == 1):
            why = "the first record is not START" if number == 1 else "a second START"
            raise Damaged(offset, why)
        if isinstance(record, Tick):
            time += record.milliseconds
        yield Timed(number, time, record)


def read_output(stream: BinaryIO) -> Iterator[Record]:
    """The records of an output recording: steps numbered from 1, nothing after DONE."""
    step = 0
    done = False
    for placed in read_records(stream, Direction.OUTPUT):
        if done:
            raise Damaged(placed.offset, "a record after DONE")
        step = _checked_step(placed, step)
        done = isinstance(placed.record, Done)
        yield placed.record


def _checked_step(placed: Placed, step: int) -> int:
    """The number of the step that a record stands in, after step number `step`."""
    if isinstance(placed.record, Step):
        if placed.record.number != step + 1:
            raise Damaged(placed.offset, f"STEP {placed.record.number} after STEP {step}")
        return step + 1
    if step == 0 and not isinstance(placed.record, Done):
        raise Damaged(placed.offset, f"{placed.record.NAME} before the first STEP")
    return step
