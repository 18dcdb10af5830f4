"""What frames say of leases: the offer that a client took, and what its server gave or why it refused."""

from __future__ import annotations

from ipaddress import IPv4Address
from typing import NamedTuple

from shared.frames import datagram_in, ends_of, packet_of
from shared.messages import LeaseMessage, lease_message
from shared.texts import word
from shared.wire_dhcp import CLIENT_PORT, SERVER_PORT, Kind, Tag

UNSET = IPv4Address(0)


class Offer(NamedTuple):
    """The offer of a lease that a client took: whose, and of which address."""

    server: IPv4Address
    address: IPv4Address


class Lease(NamedTuple):
    """What a server gave; None stands for what it left out or set to 0."""

    server: IPv4Address | None
    address: IPv4Address | None
    mask: IPv4Address | None
    gateway: IPv4Address | None
    name_server: IPv4Address | None


def offer_taken(asked: list[bytes]) -> Offer | None:
    """The offer of which the last of these frames asks for the lease."""
    message = lease_message_in(asked[-1]) if asked else None
    if message is None or message.kind != Kind.REQUEST:
        return None
    server, address = message.address(Tag.SERVER), message.address(Tag.ADDRESS)
    return Offer(server, address) if server and address else None


def lease_given(frame: bytes) -> Lease | None:
    """The lease that a frame acknowledges, where all its options stand in the field for them."""
    message = lease_message_in(frame)
    if message is None or message.kind != Kind.ACK or message.option(Tag.OVERLOAD):
        return None
    mask = message.address(Tag.NETMASK)
    gateway, name_server = (_set(message.address(tag)) for tag in (Tag.GATEWAY, Tag.DNS))
    return Lease(message.address(Tag.SERVER), _set(message.given), mask, gateway, name_server)


def names_file(script: bytes) -> bool:
    """Whether a script boots what a lease names; the built-in one does."""
    return not script or b"filename" in script or b"${67" in script


def of_unnamed(frame: bytes, offered: dict[IPv4Address, bytes]) -> str:
    """On a lease that names no file, the end of a sentence; the files that servers offered are known by these."""
    message = lease_message_in(frame)
    if message is None or message.kind != Kind.ACK or message.boot_file():
        return ""
    said = f"; the lease from {message.address(Tag.SERVER)} names no file to boot"
    others = [f"{server} offered {word(name)}" for server, name in offered.items() if server != message.address(Tag.SERVER)]
    return f"{said}, and {' and '.join(others)}, which wasn't taken" if others else said


def refusal_text(frame: bytes) -> bytes | None:
    """Why a server refuses a lease, in its own words, where it says so."""
    message = lease_message_in(frame)
    return message.option(Tag.MESSAGE) if message else None


def lease_message_in(frame: bytes) -> LeaseMessage | None:
    """What a frame says by DHCP, where it goes from a port of DHCP to the other."""
    packet, body = packet_of(frame), datagram_in(frame)
    if packet is None or body is None:
        return None
    ends = ends_of(packet)
    return lease_message(body) if {ends.source_port, ends.target_port} == {CLIENT_PORT, SERVER_PORT} else None


def _set(address: IPv4Address | None) -> IPv4Address | None:
    return None if address == UNSET else address
