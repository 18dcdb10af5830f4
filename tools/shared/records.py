"""Reads and writes netboot's recordings, exactly as docs/RECORDS.md describes them.

A recording is a file of records. An input recording holds what the client met, an output
recording what it did. Reading goes record by record and never holds the whole file.
"""

from __future__ import annotations

import dataclasses
from dataclasses import dataclass
from enum import Enum
from functools import lru_cache
from ipaddress import IPv4Address
from typing import BinaryIO, ClassVar, Iterator, NamedTuple
from uuid import UUID

from shared.causes import OK, Cause
from shared.fields import (
    Address,
    Body,
    CauseField,
    Choice,
    Counted,
    CutOff,
    Damaged,
    Field,
    Fixed,
    Flag,
    Identifier,
    Number,
    Rest,
    Words,
)
from shared.kinds import GraphEvent, ObjectKind, OpenKind, PartKind, ScriptMove, Status
from shared.texts import count

MAX_LENGTH = 131_072
MIN_FRAME = 14
MAX_FRAME = 1_522
MAX_TICK = 60_000
MAX_PIECE = 65_536
MOST_REPEATED = 256


class Direction(Enum):
    """Which of the two kinds of recording."""

    INPUT = "input"
    OUTPUT = "output"


class Record:
    """A record: its type number, and the fields of its body in order."""

    TYPE: ClassVar[int]
    NAME: ClassVar[str]
    LAYOUT: ClassVar[tuple[Field, ...]] = ()

    __slots__ = ()

    def fault(self) -> str | None:
        """What is wrong with fields that are each in their range, if anything."""
        return None


@dataclass(frozen=True, slots=True)
class Start(Record):
    """The client's addresses, its key for starting numbers, and the first script."""

    TYPE = 0x01
    NAME = "START"
    LAYOUT = (
        Number("the version", 1, 1, 1),
        Fixed("mac", 6),
        Identifier("uuid"),
        Fixed("key", 32),
        Number("arch", 2),
        Number("w", 2, 0, 16_383),
        Address("ip"),
        Address("mask"),
        Address("gateway"),
        Address("dns"),
        Rest("the script", 0, 130_996),
    )
    version: int
    mac: bytes
    uuid: UUID
    key: bytes
    arch: int
    w: int
    ip: IPv4Address
    mask: IPv4Address
    gateway: IPv4Address
    dns: IPv4Address
    script: bytes


@dataclass(frozen=True, slots=True)
class Received(Record):
    """A frame that came in, without its check sequence."""

    TYPE = 0x02
    NAME = "FRAME"
    LAYOUT = (Rest("the frame", MIN_FRAME, MAX_FRAME),)
    frame: bytes


@dataclass(frozen=True, slots=True)
class Tick(Record):
    """Time that passed, in milliseconds."""

    TYPE = 0x03
    NAME = "TICK"
    LAYOUT = (Number("the milliseconds", 2, 1, MAX_TICK),)
    milliseconds: int


@dataclass(frozen=True, slots=True)
class Off(Record):
    """Power-off."""

    TYPE = 0x04
    NAME = "OFF"


@dataclass(frozen=True, slots=True)
class Step(Record):
    """The output of input record `number` begins."""

    TYPE = 0x81
    NAME = "STEP"
    LAYOUT = (Number("the record number", 4, 1),)
    number: int


@dataclass(frozen=True, slots=True)
class Sent(Record):
    """A frame that the client sent, not padded."""

    TYPE = 0x82
    NAME = "FRAME"
    LAYOUT = (Rest("the frame", MIN_FRAME, MAX_FRAME),)
    frame: bytes


@dataclass(frozen=True, slots=True)
class Text(Record):
    """What a command printed."""

    TYPE = 0x83
    NAME = "TEXT"
    LAYOUT = (Rest("the text", 0, 4_160),)
    text: bytes


@dataclass(frozen=True, slots=True)
class Command(Record):
    """A command begins, with its words as expanded (or as written, where that failed)."""

    TYPE = 0x84
    NAME = "COMMAND"
    LAYOUT = (
        Number("the depth", 1, 1, 8),
        Number("the line", 4, 1),
        Number("the place in the list", 1, 0, 64),
        Flag("expanded"),
        Words("words"),
    )
    depth: int
    line: int
    place: int
    expanded: bool
    words: tuple[bytes, ...]


@dataclass(frozen=True, slots=True)
class Result(Record):
    """The last command that began and has no result yet ends."""

    TYPE = 0x85
    NAME = "RESULT"
    LAYOUT = (CauseField("the cause"),)
    cause: Cause


@dataclass(frozen=True, slots=True)
class Script(Record):
    """A script is entered, left or replaced."""

    TYPE = 0x86
    NAME = "SCRIPT"
    LAYOUT = (
        Choice("what happened to the script", ScriptMove),
        Number("the depth", 1, 1, 8),
        CauseField("the cause"),
    )
    move: ScriptMove
    depth: int
    cause: Cause = OK

    def fault(self) -> str | None:
        if self.move is not ScriptMove.LEAVE and self.cause != OK:
            return f"a script is {self.move.name} with a cause other than Ok"
        return None


@dataclass(frozen=True, slots=True)
class Open(Record):
    """A conversation with a server begins."""

    TYPE = 0x87
    NAME = "OPEN"
    LAYOUT = (
        Number("the open's number", 2, 0, 16_383),
        Choice("the open's kind", OpenKind),
        Address("the server"),
        Number("the server's port", 2),
        Number("the own port", 2),
        Counted("the target"),
    )
    number: int
    kind: OpenKind
    server: IPv4Address
    port: int
    own: int
    target: bytes


@dataclass(frozen=True, slots=True)
class Try(Record):
    """A message that a retry timer covers is sent; its frame stands directly after."""

    TYPE = 0x88
    NAME = "TRY"
    LAYOUT = (Number("the open's number", 2, 0, 16_383), Number("the try", 1, 1))
    number: int
    attempt: int


@dataclass(frozen=True, slots=True)
class Advance(Record):
    """The TFTP block taken, or the least place of a stream that is missing, grew."""

    TYPE = 0x89
    NAME = "ADVANCE"
    LAYOUT = (Number("the open's number", 2, 0, 16_383), Number("the place", 4))
    number: int
    place: int


@dataclass(frozen=True, slots=True)
class Ended(Record):
    """An open ends."""

    TYPE = 0x8A
    NAME = "ENDED"
    LAYOUT = (Number("the open's number", 2, 0, 16_383), CauseField("the cause"))
    number: int
    cause: Cause


# The fields beside `object` that an event may have other than 0.
GRAPH_FIELDS: dict[GraphEvent, frozenset[str]] = {
    GraphEvent.MADE: frozenset({"other"}),
    GraphEvent.HELD: frozenset(),
    GraphEvent.LET_GO: frozenset(),
    GraphEvent.PLUGGED: frozenset({"slot", "other", "other_slot"}),
    GraphEvent.ENTERED: frozenset({"slot", "other_slot"}),
    GraphEvent.LEFT: frozenset({"slot"}),
    GraphEvent.DROPPED: frozenset({"slot"}),
    GraphEvent.CLOSED: frozenset({"slot", "cause"}),
    GraphEvent.UNPLUGGED: frozenset({"slot", "other", "other_slot"}),
    GraphEvent.FREED: frozenset(),
}


@dataclass(frozen=True, slots=True)
class Graph(Record):
    """An event of the object graph."""

    TYPE = 0x8B
    NAME = "GRAPH"
    LAYOUT = (
        Choice("the event", GraphEvent),
        Number("the object", 8, 1),
        Number("the slot", 1, 0, 4),
        Number("the other", 8),
        Number("the other slot", 1, 0, 3),
        CauseField("the cause"),
    )
    event: GraphEvent
    object: int
    slot: int = 0
    other: int = 0
    other_slot: int = 0
    cause: Cause = OK

    def fault(self) -> str | None:
        named = GRAPH_FIELDS[self.event]
        for field in ("slot", "other", "other_slot"):
            if field not in named and getattr(self, field) != 0:
                return f"{self.event.name} has no {field}, and it is {getattr(self, field)}"
        if "cause" not in named and self.cause != OK:
            return f"{self.event.name} has no cause, and it is {self.cause}"
        if self.event is GraphEvent.MADE and self.other not in list(ObjectKind):
            return f"object kind {self.other} is not known"
        return None


@dataclass(frozen=True, slots=True)
class Part(Record):
    """A piece of the hand-off."""

    TYPE = 0x8C
    NAME = "PART"
    LAYOUT = (
        Choice("the part's kind", PartKind),
        Number("the index", 2),
        Number("the offset", 4),
        Rest("the piece", 0, MAX_PIECE),
    )
    kind: PartKind
    index: int
    offset: int
    piece: bytes

    def fault(self) -> str | None:
        if self.index and self.kind not in (PartKind.INITRD, PartKind.INITRD_NAME):
            return f"{self.kind.name} has index {self.index}, not 0"
        return None


@dataclass(frozen=True, slots=True)
class Done(Record):
    """The run has ended: the last record of an output recording."""

    TYPE = 0x8D
    NAME = "DONE"
    LAYOUT = (Choice("the status", Status),)
    status: Status


INPUT_RECORDS: tuple[type[Record], ...] = (Start, Received, Tick, Off)
OUTPUT_RECORDS: tuple[type[Record], ...] = (
    Step,
    Sent,
    Text,
    Command,
    Result,
    Script,
    Open,
    Try,
    Advance,
    Ended,
    Graph,
    Part,
    Done,
)
KINDS: dict[Direction, dict[int, type[Record]]] = {
    Direction.INPUT: {kind.TYPE: kind for kind in INPUT_RECORDS},
    Direction.OUTPUT: {kind.TYPE: kind for kind in OUTPUT_RECORDS},
}


class Placed(NamedTuple):
    """A record and the offset in the file at which its length stands."""

    offset: int
    record: Record


def spell(record: Record) -> bytes:
    """The bytes of a record. `ValueError` where a field is out of its range."""
    fault = record.fault()
    if fault:
        raise ValueError(fault)
    names = [field.name for field in dataclasses.fields(record)]
    body = b"".join(
        field.write(getattr(record, name)) for name, field in zip(names, record.LAYOUT, strict=True)
    )
    length = len(body) + 1
    if length > MAX_LENGTH:
        raise ValueError(f"a {record.NAME} of {length} bytes is over {MAX_LENGTH}")
    return length.to_bytes(4, "big") + bytes([record.TYPE]) + body


def record_of(kinds: dict[int, type[Record]], content: bytes, offset: int) -> Record:
    """The record whose type and body `content` is; `offset` is where that stands in the file."""
    kind = kinds.get(content[0])
    if kind is None:
        raise Damaged(offset, f"type 0x{content[0]:02x} is not one of this recording's")
    if kind is not Graph:
        return _read(kind, content, offset)
    try:
        return _graph_of(content)
    except Damaged as damage:
        raise Damaged(damage.offset + offset, damage.why) from None


@lru_cache(maxsize=MOST_REPEATED)
def _graph_of(content: bytes) -> Record:
    """A GRAPH record: a fetch has the same few for each of its blocks, which are read once."""
    return _read(Graph, content, 0)


def _read(kind: type[Record], content: bytes, offset: int) -> Record:
    body = Body(content[1:], offset + 1)
    record = kind(*[field.read(body) for field in kind.LAYOUT])
    if body.left:
        raise Damaged(body.offset, f"{count(body.left, 'byte')} after the end of {kind.NAME}")
    fault = record.fault()
    if fault:
        raise Damaged(offset + 1, fault)
    return record


def read_records(stream: BinaryIO, direction: Direction) -> Iterator[Placed]:
    """Every record of a stream, one by one; `Damaged` at the first byte that is wrong."""
    kinds = KINDS[direction]
    offset = 0
    while head := stream.read(4):
        if len(head) < 4:
            raise CutOff(offset, f"the file ends inside a length, after {len(head)} of 4 bytes")
        length = int.from_bytes(head, "big")
        if not 1 <= length <= MAX_LENGTH:
            raise Damaged(offset, f"the length is {length}, not 1 to {MAX_LENGTH}")
        content = stream.read(length)
        if len(content) < length:
            raise CutOff(
                offset, f"the file ends inside a record: {len(content)} of {length} bytes"
            )
        yield Placed(offset, record_of(kinds, content, offset + 4))
        offset += 4 + length
