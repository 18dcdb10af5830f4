"""Checks which input records enter the objects of an open: each time and each message for it, and no other.

What a frame brings is read here anew, from RFC 791, 768, 792, 826 and 9293, without the tools' own reading.
"""

from __future__ import annotations

from dataclasses import dataclass, field
from ipaddress import IPv4Address
from typing import Iterable

from shared.causes import OK
from shared.kinds import GraphEvent, ObjectKind, OpenKind, Way
from shared.records import Command, Ended, Graph, Open, Received, Record, Result, Start, Step, Tick
from tests.graph_records import BELOW, SOLE_KINDS, STREAM_KINDS, TIMER, entered

UNSET = IPv4Address(0)
EVERYONE, ALL_HOSTS = b"\xff" * 6, b"\xff" * 4
IPV4, ICMP, TCP, UDP = 0x0800, 1, 6, 17
# a ones' complement sum that is zero; all bits 0 is the sum of zeros alone
ZEROS = (0xFFFF, 0)
LEAST_HEAD = 20
ECHO_REPLY = b"\0\0"
DNS_PORT, DHCP_PORT = 53, 67
# the object of an open that uses the network
LOWEST = {**SOLE_KINDS, OpenKind.TFTP: ObjectKind.TFTP, **dict.fromkeys(STREAM_KINDS, ObjectKind.TCP)}
# where a DHCP message has the address that it gives, after the heads of frame, packet and datagram
GIVEN = slice(58, 62)


@dataclass
class Client:
    """The addresses of the client, and the opens that live; of each open the object that messages and times enter."""

    mac: bytes
    ip: IPv4Address
    live: dict[int, Open] = field(default_factory=dict)
    lowest: dict[int, int] = field(default_factory=dict)


def ones(data: bytes) -> int:
    """The ones' complement sum of 16-bit words."""
    total = sum(int.from_bytes(data[at : at + 2].ljust(2, b"\0"), "big") for at in range(0, len(data), 2))
    while total >> 16:
        total = (total & 0xFFFF) + (total >> 16)
    return total


def brings(frame: bytes, client: Client, opened: Open) -> bool:
    """Whether a frame brings the open a message of its server."""
    if frame[:6] not in (client.mac, EVERYONE) or int.from_bytes(frame[12:14], "big") != IPV4:
        return False
    packet = frame[14:]
    if len(packet) < LEAST_HEAD:
        return False
    head, total = (packet[0] & 15) * 4, int.from_bytes(packet[2:4], "big")
    is_whole = packet[0] >> 4 == 4 and LEAST_HEAD <= head <= total <= len(packet)
    if not is_whole or ones(packet[:head]) != 0xFFFF or int.from_bytes(packet[6:8], "big") & 0x3FFF:
        return False
    source, target, body = packet[12:16], packet[16:20], packet[head:total]
    if opened.kind is not OpenKind.DHCP and source != opened.server.packed:
        return False
    if opened.kind is OpenKind.PING:
        return packet[9] == ICMP and target == client.ip.packed and is_reply(body, opened)
    if opened.kind in STREAM_KINDS:
        return packet[9] == TCP and target == client.ip.packed and is_segment(source, target, body, opened)
    return packet[9] == UDP and is_datagram(source, target, body, client, opened)


def is_reply(body: bytes, opened: Open) -> bool:
    """Whether it is an echo reply with the number of the ping."""
    is_echo = len(body) >= 8 and body[:2] == ECHO_REPLY and ones(body) in ZEROS
    return is_echo and int.from_bytes(body[4:6], "big") == opened.own


def is_segment(source: bytes, target: bytes, body: bytes, opened: Open) -> bool:
    """Whether it is a segment from the server's port to the open's own."""
    head = (body[12] >> 4) * 4 if len(body) >= LEAST_HEAD else 0
    ports = opened.port.to_bytes(2, "big") + opened.own.to_bytes(2, "big")
    pseudo = source + target + bytes([0, TCP]) + len(body).to_bytes(2, "big")
    return LEAST_HEAD <= head <= len(body) and body[:4] == ports and ones(pseudo + body) == 0xFFFF


def is_datagram(source: bytes, target: bytes, body: bytes, client: Client, opened: Open) -> bool:
    """Whether it is a datagram for the open's own port; what a DHCP server sends may be for any address."""
    is_lease = opened.kind is OpenKind.DHCP
    if len(body) < 8 or not (is_lease or target in (client.ip.packed, ALL_HOSTS)):
        return False
    port, own, length = (int.from_bytes(body[at : at + 2], "big") for at in (0, 2, 4))
    wanted = {OpenKind.DHCP: DHCP_PORT, OpenKind.DNS: DNS_PORT}.get(opened.kind, port)
    if not 8 <= length <= len(body) or (port, own) != (wanted, opened.own):
        return False
    pseudo = source + target + bytes([0, UDP]) + body[4:6]
    return body[6:8] == b"\0\0" or ones(pseudo + body[:length]) == 0xFFFF


def entries_of(record: Record, client: Client) -> list[Graph]:
    """The entries that an input record is of the opens that live, by their numbers."""
    if isinstance(record, Tick):
        return [entered(client.lowest[number], TIMER, Way.TIME) for number in client.live]
    if not isinstance(record, Received):
        return []
    come = (number for number, opened in client.live.items() if brings(record.frame, client, opened))
    return [entered(client.lowest[number], BELOW, Way.UP) for number in come]


def lease_in(record: Record) -> IPv4Address:
    """The address that a server's message gives."""
    assert isinstance(record, Received)
    return IPv4Address(record.frame[GIVEN])


@dataclass
class Entries:
    """Goes over an output: the client, the commands that run, and the entries that are due in this step."""

    inputs: list[Record]
    client: Client
    step: int = 0
    due: list[Graph] = field(default_factory=list)
    is_first: bool = False
    is_leased: bool = False
    made: dict[int, int] = field(default_factory=dict)
    words: tuple[bytes, ...] = ()

    def fault(self, record: Record) -> str | None:
        """What is wrong with a record where it stands, if anything."""
        is_first, self.is_first = self.is_first, False
        if isinstance(record, Graph) and record.event is GraphEvent.ENTERED:
            is_outer = record.slot == TIMER or (record.object in self.client.lowest.values() and record.slot == BELOW)
            if is_outer and record not in self.due[:1]:
                return f"step {self.step} has {record}, and its record is {self.inputs[self.step - 1]}"
            if is_outer:
                del self.due[0]
                return None
        if self.due and (is_first or isinstance(record, (Step, Command, Result))):
            return f"step {self.step} begins with {record}, not with {self.due[0]}"
        return None

    def take(self, record: Record) -> None:
        match record:
            case Step():
                self.step, self.is_first = record.number, True
                self.due = entries_of(self.inputs[self.step - 1], self.client) if self.step > 1 else []
            case Command():
                self.words = record.words
            case Graph() if record.event is GraphEvent.MADE:
                self.made[record.other] = record.object
            case Open():
                self.client.live[record.number] = record
                self.client.lowest[record.number] = self.made[LOWEST[record.kind]]
            case Ended():
                opened = self.client.live.pop(record.number, None)
                self.is_leased = opened is not None and opened.kind is OpenKind.DHCP
            case Result():
                self._has_result(record)

    def _has_result(self, result: Result) -> None:
        start = self.inputs[0]
        # what START gives goes before a lease
        if self.is_leased and result.cause == OK and isinstance(start, Start) and start.ip == UNSET:
            self.client.ip = lease_in(self.inputs[self.step - 1])
        self.client.ip = address_after(self.words, result, self.client.ip)
        self.is_leased = False


def entries_fault(inputs: list[Record], outputs: Iterable[Record]) -> str | None:
    """The first step that doesn't begin with the entry of its input record, or has one that isn't its own."""
    start = next((record for record in inputs[:1] if isinstance(record, Start)), None)
    entries = Entries(inputs, Client(start.mac, start.ip) if start else Client(b"", UNSET))
    for record in outputs:
        fault = entries.fault(record)
        if fault:
            return fault
        entries.take(record)
    return None


def address_after(words: tuple[bytes, ...], result: Result, ip: IPv4Address) -> IPv4Address:
    """The client's address after a command that sets it, or clears it."""
    if result.cause != OK or words[1:2] != (b"net0/ip",) or words[0] not in (b"set", b"clear"):
        return ip
    value = b" ".join(words[2:])
    return IPv4Address(value.decode()) if value else UNSET
