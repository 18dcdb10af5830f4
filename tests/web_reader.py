"""A second reading of a response by HTTP (RFC 9112), piece by piece, each as far as it decides or fills a block."""

from __future__ import annotations

import re
from dataclasses import dataclass
from typing import NamedTuple

from shared.causes import OK, Cause, Code

MOST_BODY = 268_435_456
MOST_HEAD, MOST_FIELDS, BLOCK = 16_384, 64, 4_096
# a phrase and a value have no control byte but the tab
STATUS_LINE = re.compile(rb"HTTP/1\.[01] (\d{3})(?: [\t\x20-\x7e\x80-\xff]*)?\r?\n")
FIELD = re.compile(rb"([!#$%&'*+.^_`|~0-9A-Za-z-]+):[ \t]*([\t\x20-\x7e\x80-\xff]*?)[ \t]*\r?\n")
# a size line is broken at the first byte with which it can't be one any more
SIZE = re.compile(rb"([0-9A-Fa-f]{1,16})[ \t]*(?:;[^\r\n]*)?\r\n")
SIZE_SO_FAR = re.compile(rb"[0-9A-Fa-f]{1,16}(?:[ \t]*(?:;[^\r\n]*)?\r?)?")
MOVES = (301, 302, 303, 307, 308)
TOO_LONG, TOO_LARGE, TOO_MANY = Cause(Code.TOO_LONG, 6), Cause(Code.TOO_LARGE, 1), Cause(Code.TOO_MANY, 7)


class Taken(NamedTuple):
    """What one call of the reader took of a piece, whether some of the body goes up, and how it decides."""

    count: int
    gives: bool = False
    cause: Cause | None = None
    moved: bytes | None = None


@dataclass
class Reader:
    """The response of a stream."""

    head: bytes = b""
    line: bytes = b""
    body: bytes = b""
    # how the body is framed, and what is left of it or of the chunk
    framing: str = "head"
    left: int = 0
    lines: int = 0

    def take(self, rec: int, piece: bytes) -> Taken:
        return getattr(self, f"_{self.framing}")(rec, piece)

    def finish(self, rec: int) -> Cause:
        return OK if self.framing == "open" else Cause(Code.BROKEN, rec)

    def _head(self, rec: int, piece: bytes) -> Taken:
        before, at = len(self.head), 0
        bytes_ = self.head + piece[: MOST_HEAD - before]
        for count in range(1, MOST_FIELDS + 4):
            end = bytes_.find(b"\n", at) + 1
            if end == 0:
                self.head = bytes_
                whole = len(bytes_) == MOST_HEAD
                return Taken(len(bytes_) - before, cause=TOO_LONG if whole else None)
            if bytes_[at:end] in (b"\n", b"\r\n"):
                self.head = b""
                return self._block(rec, bytes_[:end])._replace(count=end - before)
            if count == MOST_FIELDS + 2:
                return Taken(end - before, cause=TOO_MANY)
            at = end
        raise AssertionError

    def _block(self, rec: int, block: bytes) -> Taken:
        broken = Taken(0, cause=Cause(Code.BROKEN, rec))
        status = STATUS_LINE.match(block)
        if status is None:
            return broken
        fields, at = [], status.end()
        while block[at:] not in (b"\n", b"\r\n"):
            found = FIELD.match(block, at)
            if found is None:
                return broken
            fields.append((found[1].lower(), found[2]))
            at = found.end()
        if len(fields) > MOST_FIELDS:
            return Taken(0, cause=TOO_MANY)
        return self._framed(rec, int(status[1]), fields)

    def _framed(self, rec: int, status: int, fields: list[tuple[bytes, bytes]]) -> Taken:
        broken = Taken(0, cause=Cause(Code.BROKEN, rec))
        values = lambda name: [value for field_name, value in fields if field_name == name]  # noqa: E731
        if 100 <= status < 200:
            return Taken(0)
        places = values(b"location")
        if status in MOVES and places and places[0]:
            return Taken(0, cause=OK, moved=places[0])
        if status != 200:
            return Taken(0, cause=Cause(Code.REFUSED, rec, status))
        codings, lengths = values(b"transfer-encoding"), values(b"content-length")
        if codings:
            self.framing, self.lines = "chunked", 0
            return Taken(0) if len(codings) == 1 and codings[0].lower() == b"chunked" else broken
        if not lengths:
            self.framing = "open"
            return Taken(0)
        if not all(re.fullmatch(rb"[0-9]+", length) for length in lengths) or len(set(map(int, lengths))) > 1:
            return broken
        self.left = int(lengths[0])
        self.framing = "sized"
        if self.left > MOST_BODY:
            return Taken(0, cause=TOO_LARGE)
        return Taken(0, cause=None if self.left else OK)

    def _sized(self, rec: int, piece: bytes) -> Taken:
        taken = piece[: self.left]
        self.body += taken
        self.left -= len(taken)
        return Taken(len(taken), taken != b"", None if self.left else OK)

    def _open(self, rec: int, piece: bytes) -> Taken:
        self.body += piece
        return Taken(len(piece), piece != b"")

    def _chunked(self, rec: int, piece: bytes) -> Taken:
        """Up to where the block is full or the body is decided."""
        gathered = 0
        for at, byte in enumerate(piece):
            if gathered == BLOCK:
                return Taken(at, True)
            data, cause = self._byte(rec, bytes([byte]))
            gathered += data
            if cause:
                return Taken(at + 1, gathered > 0, cause)
        return Taken(len(piece), gathered > 0)

    def _byte(self, rec: int, byte: bytes) -> tuple[int, Cause | None]:
        """A byte of a chunked body: whether it is data, and how it decides."""
        if self.left > 0:
            self.left -= 1
            self.body += byte
            if self.left == 0:
                self.line = b"data"
            return 1, None
        broken = Cause(Code.BROKEN, rec)
        if self.line.startswith(b"data"):
            self.line += byte
            if self.line not in (b"data\r", b"data\r\n"):
                return 0, broken
            if self.line == b"data\r\n":
                self.line, self.lines = b"", 0
            return 0, None
        self.line += byte
        self.lines += 1
        if self.line.startswith(b"last"):
            if byte == b"\n":
                if self.line in (b"last\n", b"last\r\n"):
                    return 0, OK
                self.line = b"last"
        elif found := SIZE.fullmatch(self.line):
            self.left = int(found[1], 16)
            self.line = b"" if self.left else b"last"
        elif SIZE_SO_FAR.fullmatch(self.line) is None:
            return 0, broken
        return 0, TOO_LONG if self.lines == MOST_HEAD else None
