"""Reads an iSCSI Boot Firmware Table by iBFT 1.03 alone: what an operating system would find in it.

It knows none of the client's own choices: parts are found by the offsets of the control part, and
texts by theirs.
"""

from __future__ import annotations

import struct
from ipaddress import IPv4Address, IPv6Address

CONTROL, INITIATOR, NIC, TARGET = 1, 2, 3, 4
VALID, FIRMWARE_BOOT = 1, 2
HEADER = 48


class NoTable(Exception):
    """The bytes are no table."""


def address(raw: bytes) -> str | None:
    """An address of 16 bytes: IPv4 ones are mapped into IPv6, and zeros are none."""
    if not any(raw):
        return None
    whole = IPv6Address(raw)
    if whole.ipv4_mapped is None:
        raise NoTable(f"{whole} is no IPv4 address")
    return str(IPv4Address(whole.ipv4_mapped))


class Table:
    """A table whose lengths and sum are right."""

    def __init__(self, raw: bytes) -> None:
        self.raw = raw
        if len(raw) < HEADER or raw[:4] != b"iBFT":
            raise NoTable("it doesn't begin with iBFT")
        (length,) = struct.unpack_from("<I", raw, 4)
        if length != len(raw):
            raise NoTable(f"it says {length} bytes, and has {len(raw)}")
        if raw[8] != 1:
            raise NoTable(f"it is of revision {raw[8]}")
        if sum(raw) % 256:
            raise NoTable("its bytes don't sum to 0")

    def text(self, part: int, at: int) -> bytes:
        """The text whose length and offset stand there; a zero byte follows it."""
        length, offset = struct.unpack_from("<HH", self.raw, part + at)
        if length == 0:
            return b""
        if offset + length >= len(self.raw) or self.raw[offset + length]:
            raise NoTable(f"the text at {offset} has no end")
        return self.raw[offset : offset + length]

    def part(self, offset: int, number: int, length: int) -> int:
        """Checks the head of a part; returns its index."""
        found, version, size, index, flags = struct.unpack_from("<BBHBB", self.raw, offset)
        if (found, version, size) != (number, 1, length):
            raise NoTable(f"no part {number} of {length} bytes at {offset}")
        if number != CONTROL and not flags & VALID:
            raise NoTable(f"part {number} at {offset} isn't valid")
        return index

    def offsets(self) -> tuple[int, list[int], list[int]]:
        """Where the initiator, the interfaces and the targets stand."""
        self.part(HEADER, CONTROL, 18)
        named = struct.unpack_from("<5H", self.raw, HEADER + 8)
        initiator, first_nic, first, second_nic, second = named
        return initiator, [n for n in (first_nic, second_nic) if n], [n for n in (first, second) if n]

    def initiator(self) -> bytes:
        offset, _, _ = self.offsets()
        self.part(offset, INITIATOR, 74)
        return self.text(offset, 70)

    def interface(self, offset: int) -> dict[str, object]:
        self.part(offset, NIC, 102)
        at = {"address": 6, "gateway": 24, "first dns": 40, "second dns": 56, "dhcp": 72}
        found: dict[str, object] = {
            name: address(self.raw[offset + place : offset + place + 16])
            for name, place in at.items()
        }
        found["prefix"] = self.raw[offset + 22]
        found["mac"] = self.raw[offset + 90 : offset + 96].hex(":")
        found["host"] = self.text(offset, 98)
        return found

    def target(self, offset: int) -> dict[str, object]:
        index = self.part(offset, TARGET, 54)
        texts = ("name", "user", "secret", "reverse user", "reverse secret")
        found: dict[str, object] = {
            name: self.text(offset, 34 + 4 * place) for place, name in enumerate(texts)
        }
        found["index"] = index
        found["address"] = address(self.raw[offset + 6 : offset + 22])
        (found["port"],) = struct.unpack_from("<H", self.raw, offset + 22)
        found["lun"] = self.raw[offset + 24 : offset + 32]
        found["chap"] = self.raw[offset + 32]
        return found
