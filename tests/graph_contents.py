"""Checks what enters the lowest object of each open, and what goes down out of it.

A second reading of crates/nb_boot/specs/Entries.antt, which names no kind of open: the lowest object is the one made
last of those that live at the OPEN. What a frame is, is read here from RFC 826, 791, 768, 792 and 9293.
"""

from __future__ import annotations

from dataclasses import dataclass, field
from typing import Iterable, NamedTuple

from shared.causes import OK
from shared.kinds import GraphEvent, OpenKind, Way
from shared.records import Advance, Command, Ended, Graph, Open, Received, Record, Result, Sent, Start, Step, Tick, Try
from tests.graph_entries import ICMP, IPV4, TCP, UDP, UNSET, Client, address_after, brings, lease_in
from tests.graph_records import STREAM_KINDS

ARP = 0x0806
ARP_REQUEST, ARP_REPLY = 1, 2
ECHO_REPLY = 0
FROM_OUTSIDE = (Way.UP, Way.TIME)


class Arrival(NamedTuple):
    """Something that comes to an open, or enters an object: in which step, and how."""

    step: int
    way: Way


@dataclass
class Seen:
    """The graph so far, and by the number of each open its lowest object, and what entered that from outside."""

    step: int = 0
    living: list[int] = field(default_factory=list)
    running: list[int] = field(default_factory=list)
    lowest: dict[int, int] = field(default_factory=dict)
    entries: dict[int, list[Arrival]] = field(default_factory=dict)

    def take(self, record: Record) -> None:
        match record:
            case Step():
                self.step = record.number
            case Open():
                self.lowest[record.number] = self.living[-1]
            case Graph():
                self._event(record)

    def _event(self, event: Graph) -> None:
        match event.event:
            case GraphEvent.MADE:
                self.living.append(event.object)
            case GraphEvent.FREED:
                self.living.remove(event.object)
            case GraphEvent.ENTERED:
                if event.other_slot in FROM_OUTSIDE:
                    for number in self.opens_of(event.object):
                        self.entries.setdefault(number, []).append(Arrival(self.step, Way(event.other_slot)))
                self.running.append(event.object)
            case GraphEvent.LEFT:
                self.running.pop()

    def opens_of(self, number: int) -> list[int]:
        """The opens whose lowest object this is: one at most."""
        return [opened for opened, lowest in self.lowest.items() if lowest == number]

    def within(self) -> list[int]:
        """The opens of whose lowest object the entry is that runs as the innermost."""
        return self.opens_of(self.running[-1]) if self.running else []


@dataclass
class Network:
    """The client, the opens that live, and what came to each open, by the input records."""

    inputs: list[Record]
    client: Client
    is_leased: bool = False
    words: tuple[bytes, ...] = ()
    arrivals: dict[int, list[Arrival]] = field(default_factory=dict)

    def take(self, record: Record) -> None:
        match record:
            case Step() if self.client.live:
                self._used(record.number)
            case Command():
                self.words = record.words
            case Open():
                self.client.live[record.number] = record
            case Ended():
                opened = self.client.live.pop(record.number, None)
                self.is_leased = opened is not None and opened.kind is OpenKind.DHCP
            case Result():
                self._has_result(record)

    def _used(self, number: int) -> None:
        """A record is used while opens live."""
        self.last = record = self.inputs[number - 1]
        for opened in self.client.live.values():
            if isinstance(record, Tick):
                self.arrivals.setdefault(opened.number, []).append(Arrival(number, Way.TIME))
            elif isinstance(record, Received) and brings(record.frame, self.client, opened):
                self.arrivals.setdefault(opened.number, []).append(Arrival(number, Way.UP))

    def _has_result(self, result: Result) -> None:
        """A lease that is taken gives the address, unless START has given one."""
        start = self.inputs[0]
        if self.is_leased and result.cause == OK and isinstance(start, Start) and start.ip == UNSET:
            self.client.ip = lease_in(self.last)
        self.client.ip = address_after(self.words, result, self.client.ip)
        self.is_leased = False


def may_send(frame: bytes, opened: Open) -> bool:
    """Whether a frame is a message of the open by its own port or number, or the ARP request for its next hop."""
    kind = int.from_bytes(frame[12:14], "big")
    if kind == ARP:
        return int.from_bytes(frame[20:22], "big") == ARP_REQUEST
    packet = frame[14:]
    body = packet[(packet[0] & 15) * 4 :]
    if opened.kind is OpenKind.PING:
        is_request = (kind, packet[9]) == (IPV4, ICMP) and body[0] != ECHO_REPLY
        return is_request and int.from_bytes(body[4:6], "big") == opened.own
    carrier = TCP if opened.kind in STREAM_KINDS else UDP
    return (kind, packet[9]) == (IPV4, carrier) and int.from_bytes(body[:2], "big") == opened.own


def is_reply(frame: bytes) -> bool:
    """Whether a frame is an ARP reply, an echo reply or a reset."""
    if int.from_bytes(frame[12:14], "big") == ARP:
        return int.from_bytes(frame[20:22], "big") == ARP_REPLY
    packet = frame[14:]
    body = packet[(packet[0] & 15) * 4 :]
    return packet[9] == TCP or (packet[9] == ICMP and body[0] == ECHO_REPLY)


def place_fault(record: Record, before: Record | None, seen: Seen, live: dict[int, Open]) -> str | None:
    """What is wrong with where a FRAME, a TRY or an ADVANCE stands."""
    within = seen.within()
    if isinstance(record, (Try, Advance)):
        return None if within == [record.number] else f"{record} stands within {within}"
    if not isinstance(record, Sent):
        return None
    if seen.running:
        opened = live.get(within[0]) if len(within) == 1 else None
        is_its_own = opened is not None and may_send(record.frame, opened)
        return None if is_its_own else f"within {within} stands {record}"
    is_first = isinstance(before, Step) and is_reply(record.frame)
    return None if is_first else f"outside of all entries stands {record}"


def contents_fault(inputs: list[Record], outputs: Iterable[Record]) -> str | None:
    """What is wrong with what enters the lowest objects of the opens, or with what goes down out of them."""
    start = inputs[0] if inputs and isinstance(inputs[0], Start) else None
    network = Network(inputs, Client(start.mac, start.ip) if start else Client(b"", UNSET))
    seen, before = Seen(), None
    for record in outputs:
        fault = place_fault(record, before, seen, network.client.live)
        if fault:
            return f"step {seen.step}: {fault}"
        network.take(record)
        seen.take(record)
        before = record
    if len(set(seen.lowest.values())) != len(seen.lowest):
        return f"two opens have the same lowest object: {seen.lowest}"
    for number in seen.lowest:
        entered, came = seen.entries.get(number, []), network.arrivals.get(number, [])
        if entered != came:
            return f"open {number} was entered by {entered}, and what came is {came}"
    return None
