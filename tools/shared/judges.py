"""Judges the packets that came while an open lived as the client does: why one didn't count for it."""

from __future__ import annotations

import re
from abc import ABC, abstractmethod
from ipaddress import IPv4Address

from shared.frames import ECHO_REPLY, ECHO_REQUEST, Ends, Packet
from shared.frames import datagram_of, ends_of, icmp_name, is_message_sound, is_syn, packet_of
from shared.kinds import OpenKind
from shared.messages import LeaseMessage, lease_message, name_message
from shared.records import Open
from shared.texts import mac, word
from shared.wire import PROTOCOL_ICMP, PROTOCOL_TCP, PROTOCOL_UDP, Opcode, pseudo_header, sum16
from shared.wire_dhcp import SERVER_PORT, Kind, Operation, Tag

ALL_HOSTS = IPv4Address("255.255.255.255")
# of a segment's flags the one with which it acknowledges
ACK = 0x10
# what stands in a reason where the like came before, and counted
AGAIN, ALREADY = " again", " already"
ECHO_ANSWERED = "an echo request, which was answered"
# the options that a transfer asks for, each with the number that its value is below (RFC 2348, 2349)
OPTIONS = ((b"blksize", 1 << 16), (b"tsize", 1 << 32))


class Judge(ABC):
    """Of an open: its client's address, its OPEN, and the frames of the tries of what it sent last."""

    def __init__(self, client: IPv4Address, opened: Open, asked: list[bytes]) -> None:
        self.client, self.opened, self.asked = client, opened, asked

    @abstractmethod
    def reason(self, packet: Packet) -> str | None:
        """Why a sound packet didn't count, or None where it did."""

    def asked_text(self) -> bytes | None:
        """The datagram that was sent last, where one was and not an ARP request in its place."""
        packet = packet_of(self.asked[-1]) if self.asked else None
        return datagram_of(packet) if packet and packet.protocol == PROTOCOL_UDP else None


class OfDatagrams(Judge):
    """Of an open over UDP."""

    # what the open is, and what its server was asked for
    NAME, WANTED = "transfer", "the file was asked of"

    def reason(self, packet: Packet) -> str | None:
        if not self.may_be_for(packet.target):
            return f"to the address {packet.target}, which isn't the client's, {self.client}"
        if packet.is_fragment:
            return "a fragment of an IPv4 packet"
        if packet.protocol == PROTOCOL_ICMP and len(packet.body) >= 8:
            return f"ICMP from {packet.source}, {icmp_name(packet.body)}, which is no answer"
        if packet.protocol != PROTOCOL_UDP:
            return f"IPv4 protocol {packet.protocol}, which isn't UDP"
        body = datagram_of(packet)
        if body is None:
            return f"UDP from {packet.source} with a wrong checksum or length"
        ends = ends_of(packet)
        if ends.target_port != self.opened.own:
            return f"to port {ends.target_port}, and the {self.NAME}'s port is {self.opened.own}"
        if not self.may_come_from(packet.source):
            return f"from {packet.source}, and {self.WANTED} {self.opened.server}"
        return self.message_reason(ends, body)

    def may_be_for(self, target: IPv4Address) -> bool:
        return target in (self.client, ALL_HOSTS)

    def may_come_from(self, source: IPv4Address) -> bool:
        return source == self.opened.server

    @abstractmethod
    def message_reason(self, ends: Ends, body: bytes) -> str | None:
        """The same of what a datagram says that came to the open's port from its server."""


class OfTransfer(OfDatagrams):
    """Of a transfer by TFTP: the first OACK, or block 1, is the agreement (RFC 2347)."""

    def __init__(self, client: IPv4Address, opened: Open, asked: list[bytes]) -> None:
        super().__init__(client, opened, asked)
        self.port: int | None = None
        self.blocks = 0

    def message_reason(self, ends: Ends, body: bytes) -> str | None:
        port = ends.source_port
        if self.port is not None and port != self.port:
            return f"from port {port}, and the transfer is with port {self.port}"
        opcode = int.from_bytes(body[:2], "big")
        if opcode == Opcode.OACK:
            return self._grant_reason(port, body)
        if len(body) < 4 or opcode not in (Opcode.DATA, Opcode.ERROR):
            return "no TFTP packet that a server sends in answer"
        if opcode != Opcode.DATA:
            return None
        number = int.from_bytes(body[2:4], "big")
        if number != self.blocks + 1:
            again = AGAIN if number <= self.blocks else ""
            return f"block {number}{again}, and block {self.blocks + 1} was waited for"
        self.port, self.blocks = port, number
        return None

    def _grant_reason(self, port: int, body: bytes) -> str | None:
        if not is_grant(body):
            return "a TFTP OACK that isn't well-formed, or whose size is no number"
        if self.port is not None:
            return f"a TFTP OACK, and the blocks' size is agreed{ALREADY}"
        self.port = port
        return None


def is_grant(body: bytes) -> bool:
    """Whether this is an OACK as the client reads one: of two values for a name the first counts."""
    *texts, rest = body[2:].split(b"\0")
    names = [text.lower() for text in texts[0::2]]
    if rest or len(texts) % 2:
        return False
    values = [(texts[2 * names.index(name) + 1], most) for name, most in OPTIONS if name in names]
    return all(re.fullmatch(rb"[0-9]+", value) and int(value) < most for value, most in values)


class OfLease(OfDatagrams):
    """Of a lease by DHCP, whose answers may come from any address, and for any (RFC 2131, section 4.1)."""

    NAME = "lease"

    def __init__(self, client: IPv4Address, opened: Open, asked: list[bytes]) -> None:
        super().__init__(client, opened, asked)
        self.own = lease_message(self.asked_text() or b"")
        self.server: IPv4Address | None = None

    def may_be_for(self, target: IPv4Address) -> bool:
        return True

    def may_come_from(self, source: IPv4Address) -> bool:
        return True

    def message_reason(self, ends: Ends, body: bytes) -> str | None:
        if ends.source_port != SERVER_PORT:
            return f"from port {ends.source_port}, and a DHCP server answers from port {SERVER_PORT}"
        message = lease_message(body)
        if message is None or not message.is_sound():
            return "no well-formed DHCP message"
        name = f"a DHCP {message.name}"
        if message.operation != Operation.SERVER:
            return f"{name} of a client"
        if self.own and message.xid != self.own.xid:
            return f"{name} for another transaction, 0x{message.xid:08x}, and the client's is 0x{self.own.xid:08x}"
        if self.own and message.mac != self.own.mac:
            return f"{name} for another client, {mac(message.mac)}"
        return self._offer_reason(message, name) if self.server is None else self._verdict_reason(message, name)

    def _offer_reason(self, message: LeaseMessage, name: str) -> str | None:
        server = message.address(Tag.SERVER)
        if message.kind != Kind.OFFER:
            return f"{name}, and an OFFER was waited for"
        if server is None:
            return f"{name} that doesn't say its server (option {Tag.SERVER})"
        if not int(message.given):
            return f"{name} that gives no address"
        self.server = server
        return None

    def _verdict_reason(self, message: LeaseMessage, name: str) -> str:
        """A verdict that counts ends the open, and so doesn't come here."""
        server = message.address(Tag.SERVER)
        if message.kind not in (Kind.ACK, Kind.NAK):
            return f"{name}, and the offer of {self.server} was taken{ALREADY}"
        return f"{name} of {server or 'no server'}, and the offer of {self.server} was taken"


class OfLookUp(OfDatagrams):
    """Of a look-up by DNS: an answer that counts ends it, and so doesn't come here."""

    NAME, WANTED = "look-up", "the name was asked of"

    def message_reason(self, ends: Ends, body: bytes) -> str | None:
        if ends.source_port != self.opened.port:
            return f"from port {ends.source_port}, and a name server answers from port {self.opened.port}"
        message, own = name_message(body), name_message(self.asked_text() or b"")
        if message is None:
            return "no well-formed DNS message with one question"
        if not message.is_answer:
            return "a DNS query, and an answer was waited for"
        if own and message.number != own.number:
            return f"a DNS answer to query 0x{message.number:04x}, and the client's is 0x{own.number:04x}"
        if message.name.lower() != self.opened.target.lower().removesuffix(b"."):
            return f"a DNS answer on {word(message.name)}, and {word(self.opened.target)} was asked for"
        return "a DNS answer that isn't well-formed: its records, or a name in them"


class OfConnection(Judge):
    """Of a connection by TCP: a segment that counts is one of the server's port that was asked (RFC 9293)."""

    def reason(self, packet: Packet) -> str | None:
        if packet.target != self.client:
            return f"to the address {packet.target}, which isn't the client's, {self.client}"
        if packet.is_fragment:
            return "a fragment of an IPv4 packet"
        if packet.protocol == PROTOCOL_ICMP and len(packet.body) >= 8:
            return f"ICMP from {packet.source}, {icmp_name(packet.body)}, which is no answer"
        if packet.protocol != PROTOCOL_TCP:
            return f"IPv4 protocol {packet.protocol}, which isn't TCP"
        if not is_segment_sound(packet):
            return f"TCP from {packet.source} with a wrong checksum or length"
        ends = ends_of(packet)
        if ends.target_port != self.opened.own:
            return f"to port {ends.target_port}, and the connection's port is {self.opened.own}"
        if packet.source != self.opened.server:
            return f"from {packet.source}, and the connection is with {self.opened.server}"
        if ends.source_port != self.opened.port:
            return f"from port {ends.source_port}, and the connection is with port {self.opened.port}"
        return self._of_syn(packet)

    def _of_syn(self, packet: Packet) -> str | None:
        """Why a segment isn't the answer to our SYN, where that was sent last."""
        asked = packet_of(self.asked[-1]) if self.asked else None
        if asked is None or not is_syn(asked):
            return None
        ours, flags = int.from_bytes(asked.body[4:8], "big"), packet.body[13]
        if not flags & ACK or int.from_bytes(packet.body[8:12], "big") != (ours + 1) & 0xFFFF_FFFF:
            return "a segment that doesn't acknowledge the client's SYN"
        return None if is_syn(packet) else "a segment without SYN, and the server's SYN was waited for"


def is_segment_sound(packet: Packet) -> bool:
    """Whether a TCP segment's checksum and header length are right."""
    body = packet.body
    head = (body[12] >> 4) * 4 if len(body) >= 20 else 0
    pseudo = pseudo_header(packet.source, packet.target, PROTOCOL_TCP, len(body))
    return 20 <= head <= len(body) and sum16(pseudo + body) == 0xFFFF


class OfPing(Judge):
    """Of a ping: a reply that counts ends it, and so doesn't come here."""

    def reason(self, packet: Packet) -> str | None:
        if packet.target != self.client:
            return f"to the address {packet.target}, which isn't the client's, {self.client}"
        if packet.is_fragment:
            return "a fragment of an IPv4 packet"
        if packet.protocol != PROTOCOL_ICMP:
            return f"IPv4 protocol {packet.protocol}, which isn't ICMP"
        body = packet.body
        if len(body) < 8 or not is_message_sound(body):
            return f"ICMP from {packet.source} with a wrong checksum or length"
        if (body[0], body[1]) == (ECHO_REQUEST, 0):
            return ECHO_ANSWERED
        if (body[0], body[1]) != (ECHO_REPLY, 0):
            return f"ICMP from {packet.source}, {icmp_name(body)}, which is no echo reply"
        if packet.source != self.opened.server:
            return f"an echo reply from {packet.source}, and {self.opened.server} was pinged"
        identifier = int.from_bytes(body[4:6], "big")
        return f"an echo reply with identifier {identifier}, and the ping's is {self.opened.own}"


JUDGES: dict[OpenKind, type[Judge]] = {
    OpenKind.TFTP: OfTransfer,
    OpenKind.DHCP: OfLease,
    OpenKind.DNS: OfLookUp,
    OpenKind.PING: OfPing,
    OpenKind.HTTP: OfConnection,
    OpenKind.ISCSI: OfConnection,
}


def judge_of(client: IPv4Address, opened: Open, asked: list[bytes]) -> Judge | None:
    """Of an open whose answers are judged here; those of a drive aren't yet."""
    kind = JUDGES.get(opened.kind)
    return kind(client, opened, asked) if kind else None
