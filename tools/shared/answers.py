"""Packets that answer what an open asked, whether the client takes them or not."""

from __future__ import annotations

from ipaddress import IPv4Address

from shared.frames import Packet, ends_of, icmp_name
from shared.kinds import OpenKind
from shared.messages import lease_message
from shared.records import Open
from shared.texts import word
from shared.wire import PROTOCOL_ICMP, PROTOCOL_UDP, Opcode
from shared.wire_dhcp import Operation

UDP_HEADER = 8
# a message on a host or port that can't be reached, and the packet in it that it is about (RFC 792)
UNREACHABLE, PORT_UNREACHABLE, INNER_TARGET = 3, (3, 3), slice(24, 28)
# RFC 1350, section 5, and RFC 2347
TFTP_ERRORS = {
    1: "file not found",
    2: "access violation",
    3: "disk full or allocation exceeded",
    4: "illegal TFTP operation",
    5: "unknown transfer ID",
    6: "file already exists",
    7: "no such user",
    8: "option negotiation refused",
}


def is_answer(packet: Packet, opened: Open) -> bool:
    """Whether a packet comes from the host that was asked, or from any server of leases where all were."""
    if opened.kind is OpenKind.DHCP:
        message = lease_message(packet.body[UDP_HEADER:]) if packet.protocol == PROTOCOL_UDP else None
        return message is not None and message.operation == Operation.SERVER
    return packet.source == opened.server


def unreachable(packet: Packet, opened: Open) -> str | None:
    """What an ICMP message says of the host or port that was asked, where it says that it can't be reached."""
    body = packet.body
    if packet.protocol != PROTOCOL_ICMP or len(body) < INNER_TARGET.stop or body[0] != UNREACHABLE:
        return None
    if IPv4Address(body[INNER_TARGET]) != opened.server:
        return None
    if (body[0], body[1]) == PORT_UNREACHABLE and packet.source == opened.server:
        return f"nobody listens at port {opened.port} of {opened.server}, as it answered by ICMP (port unreachable)"
    return f"{packet.source} answered by ICMP on {opened.server}: {icmp_name(body)}"


def refused(packet: Packet, opened: Open, reason: str) -> str | None:
    """What a TFTP ERROR of the server says that the client didn't take."""
    body = packet.body[UDP_HEADER:]
    is_error = body[:2] == Opcode.ERROR.to_bytes(2, "big") and len(body) >= 4
    is_tftp = opened.kind is OpenKind.TFTP and packet.protocol == PROTOCOL_UDP
    if not (is_error and is_tftp and packet.source == opened.server) or ends_of(packet).target_port == 0:
        return None
    code, text = int.from_bytes(body[2:4], "big"), body[4:].rstrip(b"\0")
    said = TFTP_ERRORS.get(code) or word(text)
    return f"{opened.server} answered: {said} ({word(opened.target)}), which the client didn't take: {reason}"
