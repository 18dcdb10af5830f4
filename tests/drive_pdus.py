"""The PDUs of iSCSI (RFC 7143) that the tests' initiator and target say to one another."""

from __future__ import annotations

import re
from base64 import b64decode
from typing import NamedTuple

HEAD = 48
LOGIN_REQUEST, LOGIN_RESPONSE, REJECT = 0x03, 0x23, 0x3F
COMMAND, RESPONSE, DATA_IN = 0x01, 0x21, 0x25
PING_OUT, PING_IN = 0x00, 0x20
IMMEDIATE, FINAL, STATUS = 0x40, 0x80, 0x01
NO_TAG = b"\xff" * 4
BLOCK = 512
GOOD, CHECK_CONDITION, BUSY = 0, 2, 8


class Pdu(NamedTuple):
    """A head, and the segment of data after it without its padding."""

    head: bytes
    data: bytes = b""

    @property
    def opcode(self) -> int:
        return self.head[0] & 0x3F

    @property
    def flags(self) -> int:
        return self.head[1]

    @property
    def tag(self) -> bytes:
        return self.head[16:20]

    def keys(self) -> dict[bytes, bytes]:
        """The texts of a login's message."""
        return dict(text.split(b"=", 1) for text in self.data.split(b"\0") if b"=" in text)

    def spelled(self) -> bytes:
        length = len(self.data)
        return self.head[:5] + length.to_bytes(3, "big") + self.head[8:] + self.data + bytes(-length % 4)


def word(number: int) -> bytes:
    return number.to_bytes(4, "big")


def head(opcode: int, flags: int, *parts: bytes) -> bytes:
    """A head of an opcode, its flags, and parts of eight bytes and more from byte 8 on; zeros follow."""
    return (bytes([opcode, flags]) + bytes(6) + b"".join(parts)).ljust(HEAD, b"\0")


def texts(*keys: bytes) -> bytes:
    return b"".join(key + b"\0" for key in keys)


def length_at(stream: bytes) -> int | None:
    """How long the PDU is with which a stream begins; None where its head isn't there as far as that."""
    if len(stream) < 8:
        return None
    length = int.from_bytes(stream[5:8], "big")
    return HEAD + length + -length % 4


def cut(stream: bytes) -> tuple[list[Pdu], bytes]:
    """The whole PDUs with which a stream begins, and what is left of it."""
    found = []
    while (size := length_at(stream)) is not None and len(stream) >= size:
        length = int.from_bytes(stream[5:8], "big")
        found.append(Pdu(stream[:HEAD], stream[HEAD : HEAD + length]))
        stream = stream[size:]
    return found, stream


def number_of(text: bytes) -> int | None:
    """A number: decimal, or `0x` and hexadecimal."""
    return int(text, 0) if re.fullmatch(rb"0[xX][0-9A-Fa-f]+|0|[1-9][0-9]*", text) else None


def value_of(text: bytes) -> bytes | None:
    """A binary value: `0x` and pairs of hexadecimal digits, or `0b` and base64."""
    if re.fullmatch(rb"0[xX]([0-9A-Fa-f]{2}){1,1024}", text):
        return bytes.fromhex(text[2:].decode())
    if re.fullmatch(rb"0[bB][0-9A-Za-z+/]+=*", text):
        return b64decode(text[2:])
    return None
