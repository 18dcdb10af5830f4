"""Whether an input recording is the one that an output recording answers: what both show is compared.

Each step answers a record. The client sends from START's hardware address, its opens have the ports that START gives,
its first script's commands stand in START's text, and what came for an open came in a frame.
"""

from __future__ import annotations

from pathlib import Path
from typing import BinaryIO, Iterable, Iterator

from shared.causes import Cause, Code
from shared.command_line import Refused
from shared.fields import Damaged
from shared.frames import datagram_in
from shared.kinds import OpenKind, ScriptMove, Status
from shared.recordings import Timed, input_of, read_output
from shared.records import (
    Advance,
    Command,
    Done,
    Ended,
    Off,
    Open,
    Received,
    Record,
    Result,
    Script,
    Sent,
    Start,
    Step,
)
from shared.script_text import Line, command_of, script_of
from shared.wire import Opcode

FIRST_OWN_PORT, OWN_PORTS = 49_152, 16_384
BY_W = (OpenKind.TFTP, OpenKind.HTTP, OpenKind.ISCSI, OpenKind.DNS)


class Pair:
    """Takes an output's records in order, with the records of an input beside them; refuses where they don't fit."""

    def __init__(self, path: Path) -> None:
        self.path = path
        self.inputs = input_of(path)
        self.current: Timed | None = None
        self.start: Start | None = None
        self.script: dict[int, Line] = {}
        self.kinds: dict[int, OpenKind] = {}
        # the first script has given its place to another; the input can't be read on
        self.is_replaced = self.is_over = False

    def take(self, record: Record) -> None:
        if self.is_over:
            return
        match record:
            case Step():
                self._step(record)
            case Sent() if self.start and record.frame[6:12] != self.start.mac:
                self._refuse("the client that sends in the output has another hardware address than START")
            case Script() if record.move is ScriptMove.REPLACED:
                self.is_replaced = True
            case Command():
                self._command(record)
            case Open():
                self._open(record)
            case Advance():
                self._advance(record)
            case Ended() | Result():
                self._cause(record.cause)
            case Done() if record.status is Status.UNFINISHED:
                self._end()

    def _refuse(self, why: str) -> None:
        raise Refused(f"{self.path} isn't the input of that output: {why}")

    def _step(self, step: Step) -> None:
        try:
            self.current = next(self.inputs, None)
        except Refused:
            # what is wrong with the input itself, its reader says
            self.is_over = True
            return
        if self.current is None:
            self._refuse(f"it has no record {step.number}: it is another run's")
        elif isinstance(self.current.record, Start):
            self.start = self.current.record
            self.script = script_of(self.start.script)

    def _command(self, command: Command) -> None:
        """A command of the first script, where its words as written have nothing to expand."""
        if command.depth != 1 or self.start is None or self.is_replaced:
            return
        line = self.script.get(command.line)
        written = command_of(line.text, command.place) if line else ()
        is_expanded = command.expanded and any(b"${" in text for text in written)
        if not written or (not is_expanded and written != command.words):
            self._refuse(f"the command of line {command.line} in the output isn't that of START's script")

    def _open(self, opened: Open) -> None:
        if len(self.kinds) < OWN_PORTS:
            self.kinds[opened.number] = opened.kind
        if self.start is None or opened.kind not in BY_W:
            return
        if opened.own != FIRST_OWN_PORT + (self.start.w + opened.number) % OWN_PORTS:
            self._refuse(f"open {opened.number} in the output has another port than START's w gives")

    def _advance(self, advance: Advance) -> None:
        """What has grown came in this step's frame: for TFTP, that block."""
        if self.current is None or self.start is None:
            return
        record = self.current.record
        if not isinstance(record, Received):
            self._refuse(f"open {advance.number} goes on at record {self.current.number}, which is no FRAME")
        elif self.kinds.get(advance.number) is OpenKind.TFTP and not _is_block(record.frame, advance.place):
            self._refuse(f"block {advance.place} came at record {self.current.number}, and that is another frame")

    def _cause(self, cause: Cause) -> None:
        if cause.code not in (Code.REFUSED, Code.BROKEN) or self.current is None:
            return
        if cause.a == self.current.number and not isinstance(self.current.record, Received):
            self._refuse(f"record {cause.a} decided in the output, and it is no FRAME")

    def _end(self) -> None:
        """A run that the input's end ended has used all of it, or its last record was OFF."""
        if self.current is None or isinstance(self.current.record, Off):
            return
        try:
            more = next(self.inputs, None)
        except Refused:
            return
        if more is not None:
            self._refuse(f"the output ends with the input, after record {self.current.number}, and more follows here")


def _is_block(frame: bytes, number: int) -> bool:
    body = datagram_in(frame)
    return body is not None and body[:4] == bytes((0, Opcode.DATA)) + (number & 0xFFFF).to_bytes(2, "big")


def paired(records: Iterable[Record], path: Path | None) -> Iterator[Record]:
    """The records of an output, compared with an input where one is given."""
    pair = Pair(path) if path else None
    for record in records:
        if pair:
            pair.take(record)
        yield record


def check_pair(stream: BinaryIO, path: Path) -> None:
    """Refuses an input that isn't that of this output, where that can be read twice; damage of the output is no matter."""
    if not stream.seekable():
        return
    begin, pair = stream.tell(), Pair(path)
    try:
        for record in read_output(stream):
            pair.take(record)
    except Damaged:
        pass
    stream.seek(begin)
