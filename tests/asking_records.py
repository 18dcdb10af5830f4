"""The records of an open that asks and is answered: a lease by DHCP, a look-up by DNS, a ping.

They are built from docs/RECORDS.md and the RFCs alone. Each of the three gives the records with which it begins, tries
and ends, and what its server sends to it.
"""

from __future__ import annotations

from abc import ABC, abstractmethod
from dataclasses import dataclass
from ipaddress import IPv4Address
from uuid import UUID

from shared import wire_dhcp, wire_dns
from shared.causes import Cause
from shared.kinds import OpenKind
from shared.records import Open, Received, Record, Sent, Try
from shared.wire import PROTOCOL_ICMP, Station, arp_request, echo, packet_frame, udp_frame
from shared.wire_dhcp import Asker, Kind, Option, Tag
from tests import graph_records, made
from tests.graph_records import Cast, cast_for
from shared.random_words import query_number, xid_of

LEASED = IPv4Address("10.0.0.50")
# the client with the address of its lease
LEASED_CLIENT = Station(made.CLIENT.mac, LEASED)
FOUND = IPv4Address("10.0.0.9")
NETMASK = (Tag.NETMASK, IPv4Address("255.255.255.0").packed)
ECHO_REQUEST, ECHO_REPLY = 8, 0


@dataclass(frozen=True, slots=True)
class Asking(ABC):
    """Open `number`, whose one object is `object`."""

    number: int = 0
    object: int = 1
    client: Station = made.CLIENT

    @property
    @abstractmethod
    def opened(self) -> Open:
        """Its OPEN."""

    @property
    def cast(self) -> Cast:
        return cast_for(self.opened, self.object)

    def begins(self, *put: Record) -> list[Record]:
        """After its COMMAND: its object is made, and asks."""
        return graph_records.asked(self.opened, *put, cast=self.cast)

    def turned_back(self, cause: Cause) -> list[Record]:
        """There is no way to its server."""
        return graph_records.turned_back(self.opened, cause, self.cast)

    def came(self, *put: Record, over: Cause | None = None) -> list[Record]:
        """A message comes for it; it ends the open with a cause, or not."""
        return graph_records.came(self.cast, *put, over=over)

    def passed(self, *put: Record, over: Cause | None = None) -> list[Record]:
        """Time passes, and a try may be due; after the last one the open ends."""
        return graph_records.passed(self.cast, *put, over=over)

    def shut(self) -> list[Record]:
        """The run ends while it lives."""
        return graph_records.shut(self.cast)

    def tried(self, attempt: int, frame: bytes) -> list[Record]:
        """A try, and the frame that goes out."""
        return [Try(self.number, attempt), Sent(frame)]


@dataclass(frozen=True, slots=True)
class Lease(Asking):
    """A lease that the server 10.0.0.1 may give, by START's key of zeros."""

    key: bytes = bytes(32)
    uuid: UUID = UUID(int=0)
    arch: int = 0

    @property
    def opened(self) -> Open:
        everyone = wire_dhcp.EVERYONE.ip
        return Open(self.number, OpenKind.DHCP, everyone, 67, 68, b"")

    @property
    def asker(self) -> Asker:
        return Asker(self.client.mac, xid_of(self.number, self.key), self.uuid, self.arch)

    def discovers(self, attempt: int = 1) -> list[Record]:
        return self.tried(attempt, wire_dhcp.to_servers(self.asker, wire_dhcp.discover(self.asker)))

    def requests(
        self, attempt: int = 1, address: IPv4Address = LEASED, server: IPv4Address = made.SERVER.ip
    ) -> list[Record]:
        body = wire_dhcp.request(self.asker, server, address)
        return self.tried(attempt, wire_dhcp.to_servers(self.asker, body))

    def answer(
        self,
        kind: Kind,
        *options: Option,
        given: IPv4Address = LEASED,
        next_server: IPv4Address = wire_dhcp.UNSET,
        server: Station = made.SERVER,
        sname: bytes = b"",
        file: bytes = b"",
    ) -> Record:
        """What a server says to it, to all hosts."""
        body = wire_dhcp.answer(
            self.asker, kind, server.ip, *options, given=given, next_server=next_server, sname=sname, file=file
        )
        return self.received(body, server)

    def received(
        self, body: bytes, server: Station = made.SERVER, to: Station = wire_dhcp.EVERYONE, port: int = 67
    ) -> Record:
        return Received(wire_dhcp.to_client(server, body, to, port))

    def offer(self, server: Station = made.SERVER) -> Record:
        return self.answer(Kind.OFFER, NETMASK, server=server)

    def nak(self, server: Station = made.SERVER) -> Record:
        return self.answer(Kind.NAK, given=wire_dhcp.UNSET, server=server)


@dataclass(frozen=True, slots=True)
class Routed(Asking):
    """What goes to one host, whose hardware address is asked for first where it isn't known."""

    host: IPv4Address = made.SERVER.ip

    def asks_for(self, attempt: int = 1, hop: IPv4Address | None = None) -> list[Record]:
        """In its place the hardware address of the host, or of the gateway, is asked for."""
        return self.tried(attempt, arp_request(self.client, hop or self.host))


@dataclass(frozen=True, slots=True)
class LookUp(Routed):
    """A look-up of a name by the name server `host`."""

    name: bytes = b"a.b"

    @property
    def opened(self) -> Open:
        own = made.OWN_PORT + self.number
        return Open(self.number, OpenKind.DNS, self.host, wire_dns.PORT, own, self.name)

    @property
    def query_number(self) -> int:
        return query_number(self.number)

    def queries(self, attempt: int = 1, to: Station = made.SERVER) -> list[Record]:
        body = wire_dns.query(self.query_number, self.name)
        ports = (self.opened.own, wire_dns.PORT)
        return self.tried(attempt, udp_frame(self.client, Station(to.mac, self.host), ports, body))

    def answer(self, *records: bytes, rcode: int = 0) -> Record:
        """The server's answer with these records."""
        return self.received(wire_dns.answer(self.query_number, self.name, *records, rcode=rcode))

    def received(self, body: bytes, server: Station = made.SERVER, port: int = wire_dns.PORT) -> Record:
        return Received(udp_frame(server, self.client, (port, self.opened.own), body))

    def found(self, ip: IPv4Address = FOUND) -> Record:
        """The name has this address."""
        return self.answer(wire_dns.address(wire_dns.pointer(wire_dns.ASKED), ip))


@dataclass(frozen=True, slots=True)
class Ping(Routed):
    """A ping of the host."""

    @property
    def opened(self) -> Open:
        return Open(self.number, OpenKind.PING, self.host, 0, self.number, b"")

    def pings(self, attempt: int = 1, to: Station = made.SERVER) -> list[Record]:
        """The echo request, which is the same at each try."""
        message = echo(ECHO_REQUEST, self.number, 0, b"")
        host = Station(to.mac, self.host)
        return self.tried(attempt, packet_frame(self.client, host, PROTOCOL_ICMP, message))

    def reply(
        self, sender: Station = made.SERVER, identifier: int | None = None, number: int = 0, body: bytes = b""
    ) -> Record:
        """A host's reply, by default the one that is waited for."""
        message = echo(ECHO_REPLY, self.number if identifier is None else identifier, number, body)
        return Received(packet_frame(sender, self.client, PROTOCOL_ICMP, message))
