"""What a capture shows of clients that boot: the leases that each took, and the files that each asked for, by TFTP or HTTP."""

from __future__ import annotations

from dataclasses import dataclass, field
from ipaddress import IPv4Address
from typing import Iterable

from shared.capture import Packet
from shared.captured_web import Connections, segment_of
from shared.frames import ends_of, packet_of
from shared.leases import UNSET
from shared.messages import LeaseMessage, lease_message
from shared.wire import ARP, PROTOCOL_TCP, PROTOCOL_UDP, Opcode
from shared.wire_dhcp import CLIENT_PORT, SERVER_PORT, Kind, Operation, Tag

TFTP_PORT = 69
UDP_HEADER = 8
ARP_REPLY = b"\0\2"
# what is kept of a capture, whatever it holds
MOST_CLIENTS, MOST_KEPT = 256, 64


@dataclass(frozen=True, slots=True)
class Request:
    """A request in a capture, by TFTP or HTTP: its time, its client, its server and its path.

    `to` is the hardware address that it goes to, the server's or a gateway's. One by HTTP begins with its connection.
    """

    time: int
    mac: bytes
    to: bytes
    ip: bytes
    port: int
    server: bytes
    path: bytes
    # the server's port by HTTP, and the host as the request names it
    web_port: int | None = None
    host: bytes = b""

    @property
    def protocol(self) -> str:
        return "TFTP" if self.web_port is None else "HTTP"


@dataclass(slots=True)
class Transfer:
    """A request, the blocks that came to its port, and the hardware address that they came from."""

    request: Request
    blocks: int = 0
    sender: bytes | None = None


@dataclass(frozen=True, slots=True)
class Sighting:
    """A DHCP message of a client or for it, its frame, and when it passed."""

    time: int
    frame: bytes
    message: LeaseMessage

    @property
    def server(self) -> IPv4Address | None:
        return self.message.address(Tag.SERVER)


@dataclass(frozen=True, slots=True)
class LeaseTaken:
    """A lease that a client took: when it asked last before the offer, the offer that it took, and its acknowledgement."""

    asked: int
    offer: Sighting | None
    ack: Sighting


@dataclass(slots=True)
class Client:
    """A machine that asked for leases or files."""

    asked: list[int] = field(default_factory=list)
    answers: list[Sighting] = field(default_factory=list)
    transfers: dict[int, Transfer] = field(default_factory=dict)
    # the last answer by ARP of each address that came to it
    hosts: dict[bytes, bytes] = field(default_factory=dict)

    def first_fetch(self) -> Transfer | None:
        """The first file that was asked for, by the request for it that brought blocks if one did.

        Firmware asks for a file's size alone first, and gives that transfer up.
        """
        transfers = list(self.transfers.values())
        same = [one for one in transfers if one.request.path == transfers[0].request.path]
        return next((one for one in same if one.blocks), same[0] if same else None)

    def lease_before(self, time: int) -> LeaseTaken | None:
        """The lease that was acknowledged last before this time."""
        acks = [one for one in self.answers if one.message.kind == Kind.ACK and one.time <= time and one.server]
        if not acks:
            return None
        ack = acks[-1]
        offers = [one for one in self.answers if _is_offer_of(one, ack)]
        offer = offers[-1] if offers else None
        begun = (offer or ack).time
        return LeaseTaken(max((at for at in self.asked if at <= begun), default=begun), offer, ack)


def _is_offer_of(one: Sighting, ack: Sighting) -> bool:
    """Whether this offered what was acknowledged."""
    is_before = one.message.kind == Kind.OFFER and one.time <= ack.time
    given = one.message.given
    return is_before and one.server == ack.server and given == ack.message.given and given != UNSET


class Requests:
    """Finds the requests among packets, in their order."""

    def __init__(self) -> None:
        self.connections = Connections()

    def of(self, packet: Packet) -> Request | None:
        """The request that a packet carries, or by which one is whole."""
        segment = segment_of(packet.frame)
        if segment is None:
            return request_of(packet)
        connection = self.connections.sends(segment, packet.time)
        if connection is None or connection.asked is None:
            return None
        ends, asked = segment.ends, connection.asked
        between = (packet.frame[6:12], packet.frame[:6], ends.source.packed, ends.source_port, ends.target.packed)
        return Request(connection.time, *between, asked.path, ends.target_port, asked.host)


class Conversations:
    """The clients of a capture, by their hardware addresses, in the order in which they were seen."""

    def __init__(self, packets: Iterable[Packet]) -> None:
        self.clients: dict[bytes, Client] = {}
        self._requests = Requests()
        self._ports: dict[tuple[bytes, int], Transfer] = {}
        for packet in packets:
            self._take(packet)

    def asking(self, device: bytes | None) -> tuple[bytes, Client] | None:
        """The client that asked for a file first, or this one."""
        found = [(mac, one) for mac, one in self.clients.items() if one.transfers and device in (None, mac)]
        first = min(found, key=lambda pair: next(iter(pair[1].transfers.values())).request.time, default=None)
        return first

    def _client(self, mac: bytes) -> Client:
        if mac not in self.clients and len(self.clients) == MOST_CLIENTS:
            return Client()
        return self.clients.setdefault(mac, Client())

    def _take(self, packet: Packet) -> None:
        frame = packet.frame
        if frame[12:14] == ARP.to_bytes(2, "big") and frame[20:22] == ARP_REPLY and len(frame) >= 42:
            hosts = self._client(frame[:6]).hosts
            if len(hosts) < MOST_KEPT:
                hosts[frame[28:32]] = frame
            return
        request = self._requests.of(packet)
        if request:
            self._ask(request)
            return
        found = packet_of(frame)
        if found is None or found.is_fragment or found.protocol not in (PROTOCOL_UDP, PROTOCOL_TCP):
            return
        ends = ends_of(found)
        if found.protocol == PROTOCOL_TCP:
            if b"HTTP/1." in found.body[20:100]:
                self._count(found.target.packed, ends.target_port, frame)
            return
        body = found.body[UDP_HEADER:]
        if {ends.source_port, ends.target_port} == {SERVER_PORT, CLIENT_PORT}:
            self._take_of_lease(packet, body)
        elif body[:2] == Opcode.DATA.to_bytes(2, "big"):
            self._count(found.target.packed, ends.target_port, frame)

    def _take_of_lease(self, packet: Packet, body: bytes) -> None:
        message = lease_message(body)
        if message is None or not message.is_sound():
            return
        client = self._client(message.mac)
        if message.operation == Operation.CLIENT and len(client.asked) < MOST_KEPT:
            client.asked.append(packet.time)
        elif message.operation == Operation.SERVER and len(client.answers) < MOST_KEPT:
            client.answers.append(Sighting(packet.time, packet.frame, message))

    def _ask(self, request: Request) -> None:
        transfers = self._client(request.mac).transfers
        if request.port not in transfers and len(transfers) < MOST_KEPT:
            transfers[request.port] = self._ports[request.ip, request.port] = Transfer(request)

    def _count(self, to: bytes, port: int, frame: bytes) -> None:
        transfer = self._ports.get((to, port))
        if transfer:
            transfer.blocks += 1
            transfer.sender = transfer.sender or frame[6:12]


def request_of(packet: Packet) -> Request | None:
    """The read request by TFTP that a packet carries, if it carries one."""
    found = packet_of(packet.frame)
    if found is None or found.protocol != PROTOCOL_UDP or found.is_fragment:
        return None
    ends = ends_of(found)
    body = found.body[UDP_HEADER:]
    if ends.target_port != TFTP_PORT or body[:2] != Opcode.RRQ.to_bytes(2, "big"):
        return None
    path = body[2:].split(b"\0", 1)[0]
    sender, server = ends.source.packed, ends.target.packed
    return Request(packet.time, packet.frame[6:12], packet.frame[:6], sender, ends.source_port, server, path)
