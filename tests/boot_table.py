"""A second writer of the iSCSI Boot Firmware Table, by the layout that docs/SAN.md states."""

from __future__ import annotations

import struct
from dataclasses import dataclass
from ipaddress import IPv4Address

CONTROL_AT, INITIATOR_AT, INTERFACE_AT, TARGETS_AT = 48, 80, 160, (272, 336)
CONTROL_LENGTH, INITIATOR_LENGTH, INTERFACE_LENGTH, TARGET_LENGTH = 18, 74, 102, 54
# the part is there, and the system boots by it
VALID_AND_BOOTED = 3
NONE = IPv4Address(0)


@dataclass(frozen=True)
class BootTarget:
    """A drive that is described."""

    address: IPv4Address
    name: bytes
    port: int = 3_260
    lun: bytes = bytes(8)
    chap: int = 0
    user: bytes = b""
    secret: bytes = b""
    reverse_user: bytes = b""
    reverse_secret: bytes = b""

    @property
    def texts(self) -> tuple[bytes, ...]:
        return self.name, self.user, self.secret, self.reverse_user, self.reverse_secret


@dataclass(frozen=True)
class BootClient:
    """The client as the table has it; an address that is 0 isn't there."""

    initiator: bytes
    mac: bytes
    address: IPv4Address
    prefix: int = 24
    host: bytes = b""
    gateway: IPv4Address = NONE
    first_dns: IPv4Address = NONE
    second_dns: IPv4Address = NONE
    dhcp: IPv4Address = NONE


def mapped(address: IPv4Address) -> bytes:
    return bytes(16) if address == NONE else bytes(10) + b"\xff\xff" + address.packed


def part(number: int, length: int, index: int = 0, flags: int = VALID_AND_BOOTED) -> bytes:
    return struct.pack("<BBHBB", number, 1, length, index, flags)


class Writer:
    """Parts at their offsets, and texts after the last of them."""

    def __init__(self, targets: int) -> None:
        last = TARGETS_AT[targets - 1] + TARGET_LENGTH
        self.raw = bytearray(last + -last % 16)

    def put(self, at: int, raw: bytes) -> None:
        self.raw[at : at + len(raw)] = raw

    def text(self, text: bytes) -> bytes:
        """Its length and offset; it stands after those before it, with a zero byte."""
        if not text:
            return bytes(4)
        found = struct.pack("<HH", len(text), len(self.raw))
        self.raw += text + b"\0"
        return found


def boot_table(client: BootClient, *targets: BootTarget) -> bytes:
    writer = Writer(len(targets))
    offsets = (INITIATOR_AT, INTERFACE_AT, TARGETS_AT[0], 0, TARGETS_AT[1] if len(targets) == 2 else 0)
    writer.put(CONTROL_AT, part(1, CONTROL_LENGTH, flags=0) + struct.pack("<H5H", 0, *offsets))
    writer.put(INITIATOR_AT, part(2, INITIATOR_LENGTH) + bytes(64) + writer.text(client.initiator))
    ways = b"".join(map(mapped, (client.gateway, client.first_dns, client.second_dns, client.dhcp)))
    interface = mapped(client.address) + bytes([client.prefix, 0]) + ways + bytes(2) + client.mac + bytes(2)
    writer.put(INTERFACE_AT, part(3, INTERFACE_LENGTH) + interface + writer.text(client.host))
    for index, target in enumerate(targets):
        way = mapped(target.address) + struct.pack("<H", target.port) + target.lun + bytes([target.chap, 0])
        texts = b"".join(map(writer.text, target.texts))
        writer.put(TARGETS_AT[index], part(4, TARGET_LENGTH, index) + way + texts)
    first = b"iBFT" + struct.pack("<IBB", len(writer.raw), 1, 0) + b"NETBT NETBOOT "
    writer.put(0, first)
    writer.raw[9] = -sum(writer.raw) % 256
    return bytes(writer.raw)
