"""Writes DNS queries and answers (RFC 1035, section 4).

The made examples and the tests build their look-ups with it; the tools themselves only read.
"""

from __future__ import annotations

from ipaddress import IPv4Address

PORT = 53
A, CNAME = 1, 5
IN = 1
QUERY, ANSWER = 0x0100, 0x8180
POINTER = 0xC000
# where the name of a message's question stands
ASKED = 12
SECONDS = 3_600


def written(name: bytes) -> bytes:
    """A name as its labels, each with its length before it, and the root; a dot at its end adds nothing."""
    labels = name.removesuffix(b".").split(b".")
    return b"".join(bytes((len(label),)) + label for label in labels) + b"\0"


def pointer(place: int) -> bytes:
    """In place of a name or of its last labels: they stand at this place of the message."""
    return (POINTER | place).to_bytes(2, "big")


def record(owner: bytes, kind: int, data: bytes, group: int = IN) -> bytes:
    """A resource record; the owner is a name as it stands in the message."""
    head = _numbers(kind, group) + SECONDS.to_bytes(4, "big") + _numbers(len(data))
    return owner + head + data


def alias(owner: bytes, name: bytes) -> bytes:
    """The owner is another name, as it stands in the message."""
    return record(owner, CNAME, name)


def address(owner: bytes, ip: IPv4Address) -> bytes:
    return record(owner, A, ip.packed)


def query(number: int, name: bytes) -> bytes:
    """Which addresses has a name?"""
    return _numbers(number, QUERY, 1, 0, 0, 0) + _question(name)


def answer(number: int, name: bytes, *records: bytes, rcode: int = 0) -> bytes:
    """An answer on a name, with these records as its answer section."""
    head = _numbers(number, ANSWER | rcode, 1, len(records), 0, 0)
    return head + _question(name) + b"".join(records)


def _question(name: bytes) -> bytes:
    return written(name) + _numbers(A, IN)


def _numbers(*values: int) -> bytes:
    return b"".join(value.to_bytes(2, "big") for value in values)
