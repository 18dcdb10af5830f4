"""Writes DHCP messages, as a client that boots and as servers send them (RFC 2131, 2132, 3396, 4578).

The made examples and the tests build their leases with it; the tools themselves only read, by the same numbers.
"""

from __future__ import annotations

from dataclasses import dataclass
from enum import IntEnum
from ipaddress import IPv4Address
from typing import Iterable
from uuid import UUID

from shared.wire import BROADCAST, Station, udp_frame

SERVER_PORT, CLIENT_PORT = 67, 68
COOKIE = bytes.fromhex("63825363")
SNAME_BYTES, FILE_BYTES = 64, 128
UNSET = IPv4Address(0)
EVERYONE = Station(BROADCAST, IPv4Address("255.255.255.255"))
ETHERNET = b"\1\6\0"
TO_ALL = b"\x80\0"
MOST_VALUE = 255
END = b"\xff"

# An option is its tag and its value.
Option = tuple[int, bytes]


class Operation(IntEnum):
    """Who sends a message."""

    CLIENT = 1
    SERVER = 2


class Kind(IntEnum):
    """What a message is (RFC 2132, section 9.6)."""

    DISCOVER = 1
    OFFER = 2
    REQUEST = 3
    DECLINE = 4
    ACK = 5
    NAK = 6
    RELEASE = 7
    INFORM = 8


class Tag(IntEnum):
    """The options that are named here (RFC 2132, 4578, 3004)."""

    NETMASK = 1
    GATEWAY = 3
    DNS = 6
    DOMAIN = 15
    ADDRESS = 50
    OVERLOAD = 52
    KIND = 53
    SERVER = 54
    WANTED = 55
    MESSAGE = 56
    LONGEST = 57
    CLASS = 60
    CLIENT = 61
    FILENAME = 67
    USER_CLASS = 77
    ARCH = 93
    INTERFACE = 94
    MACHINE = 97
    IPXE = 175


# what is wanted of a server: mask, gateway, name servers, names, paths, and the options of iPXE and iSCSI
WANTED = bytes((1, 3, 6, 12, 15, 17, 66, 67, 175, 203))


@dataclass(frozen=True, slots=True)
class Asker:
    """A client that asks for a lease, and the number of its transaction."""

    mac: bytes
    xid: int
    uuid: UUID = UUID(int=0)
    arch: int = 0


def options_text(options: Iterable[Option]) -> bytes:
    """Options one after the other; a value that is too long for one stands in several (RFC 3396)."""
    text = b""
    for tag, value in options:
        pieces = [value[at : at + MOST_VALUE] for at in range(0, len(value), MOST_VALUE)] or [b""]
        text += b"".join(bytes((tag, len(piece))) + piece for piece in pieces)
    return text


def message(
    operation: Operation,
    asker: Asker,
    options: bytes,
    given: IPv4Address = UNSET,
    next_server: IPv4Address = UNSET,
    sname: bytes = b"",
    file: bytes = b"",
    flags: bytes = TO_ALL,
) -> bytes:
    """A message of these options: what stands before them has 240 bytes."""
    head = bytes((operation,)) + ETHERNET + asker.xid.to_bytes(4, "big") + b"\0\0" + flags
    addresses = UNSET.packed + given.packed + next_server.packed + UNSET.packed
    fixed = head + addresses + asker.mac.ljust(16, b"\0")
    return fixed + sname.ljust(SNAME_BYTES, b"\0") + file.ljust(FILE_BYTES, b"\0") + COOKIE + options


def _asking(asker: Asker, kind: Kind, *chosen: Option) -> bytes:
    options = [
        (Tag.KIND, bytes((kind,))),
        *chosen,
        (Tag.LONGEST, (1_500).to_bytes(2, "big")),
        (Tag.ARCH, asker.arch.to_bytes(2, "big")),
        (Tag.INTERFACE, b"\1\2\1"),
        (Tag.CLASS, b"PXEClient:Arch:%05d:UNDI:002001" % asker.arch),
        (Tag.USER_CLASS, b"iPXE"),
        (Tag.WANTED, WANTED),
        (Tag.CLIENT, b"\1" + asker.mac),
        (Tag.MACHINE, b"\0" + asker.uuid.bytes),
    ]
    return message(Operation.CLIENT, asker, options_text(options) + END)


def discover(asker: Asker) -> bytes:
    """Who offers a lease?"""
    return _asking(asker, Kind.DISCOVER)


def request(asker: Asker, server: IPv4Address, address: IPv4Address) -> bytes:
    """The lease of an address that a server offered is asked for."""
    return _asking(asker, Kind.REQUEST, (Tag.SERVER, server.packed), (Tag.ADDRESS, address.packed))


def answer(
    asker: Asker,
    kind: Kind,
    server: IPv4Address,
    *options: Option,
    given: IPv4Address = UNSET,
    next_server: IPv4Address = UNSET,
    sname: bytes = b"",
    file: bytes = b"",
) -> bytes:
    """What a server says to a client: its kind and its own address, and then these options."""
    text = options_text([(Tag.KIND, bytes((kind,))), (Tag.SERVER, server.packed), *options]) + END
    return message(Operation.SERVER, asker, text, given, next_server, sname, file)


def to_servers(asker: Asker, body: bytes) -> bytes:
    """The frame of a client without an address, to all hosts."""
    return udp_frame(Station(asker.mac, UNSET), EVERYONE, (CLIENT_PORT, SERVER_PORT), body)


def to_client(server: Station, body: bytes, to: Station = EVERYONE, port: int = SERVER_PORT) -> bytes:
    """The frame of a server's answer, to all hosts, as the client asks for, or to one."""
    return udp_frame(server, to, (port, CLIENT_PORT), body)
