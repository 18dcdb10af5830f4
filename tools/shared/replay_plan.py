"""How a capture of a boot becomes a run of the same boot: what is taken of it, and what is changed.

A run's client has its own numbers: the transaction number of its lease and the ports of its transfers. The capture's
answers get those. Time begins where the client took its lease, or else where it asked for its first file, and what
stands before and between is left out.
"""

from __future__ import annotations

from dataclasses import dataclass, field
from ipaddress import IPv4Address, IPv4Network
from typing import Iterator
from urllib.parse import quote

from shared.addresses import UNSET
from shared.boot_capture import LeaseReplayed, Met, Reader, Span
from shared.captured_web import host_of
from shared.command_line import Refused
from shared.conversations import Client, Conversations, LeaseTaken, Request, Transfer
from shared.cooked import UNKNOWN
from shared.links import USUAL_MASK
from shared.random_words import xid_of
from shared.script_text import JOINS, lines_of, words_of
from shared.texts import count, mac
from shared.wire import Station, arp_reply
from shared.wire_dhcp import Tag

# commands that wait for what a cut would leave out
WAITING = {b"ping", b"nslookup", b"sleep"}


@dataclass(frozen=True, slots=True)
class Addresses:
    """What START says of the client's way to others."""

    ip: IPv4Address = UNSET
    mask: IPv4Address = UNSET
    gateway: IPv4Address = UNSET
    dns: IPv4Address = UNSET


@dataclass(frozen=True, slots=True)
class Wishes:
    """What a person asked for: the client, its addresses by START, and the script where it isn't to be made."""

    device: bytes | None = None
    given: Addresses | None = None
    is_static: bool = False
    script: bytes | None = None

    def commands(self) -> set[bytes]:
        """The first words of the script's commands."""
        found: set[bytes] = set()
        for line in lines_of(self.script or b""):
            is_first = line.is_list()
            for text in words_of(line.text) if is_first else []:
                if is_first:
                    found.add(text)
                is_first = text in JOINS
        return found

    def takes_lease(self) -> bool:
        """Whether the run takes a lease, where the capture has one."""
        is_written = not self.script or b"dhcp" in self.commands()
        return is_written and self.given is None and not self.is_static


@dataclass(slots=True)
class Plan:
    """What is taken of a capture: the first file that its client asked for, and the lease where there is one."""

    client: Client
    transfer: Transfer
    lease: LeaseTaken | None
    is_leased: bool
    wishes: Wishes
    changed: list[str] = field(default_factory=list)

    @property
    def request(self) -> Request:
        return self.transfer.request

    def addresses(self) -> Addresses:
        """START's addresses: none where a lease is taken; else those of the lease, or the one that asked."""
        return Addresses() if self.is_leased or self.wishes.given else self._way()

    def _way(self) -> Addresses:
        """The client's way to others, however it comes by it."""
        if self.wishes.given:
            return self.wishes.given
        if self.lease is None:
            return Addresses(IPv4Address(self.request.ip), gateway=self._gateway_without())
        message = self.lease.ack.message
        others = (message.address(tag) or UNSET for tag in (Tag.NETMASK, Tag.GATEWAY, Tag.DNS))
        return Addresses(message.given, *others)

    def _gateway_without(self) -> IPv4Address:
        """Without a lease: the host of the client's net to which the request went, by any name where none is known."""
        net = IPv4Network((self.request.ip, str(USUAL_MASK)), strict=False)
        if IPv4Address(self.request.server) in net:
            return UNSET
        known = [IPv4Address(ip) for ip, frame in self.client.hosts.items() if frame[6:12] == self.request.to]
        others = (host for host in net.hosts() if host.packed != self.request.ip)
        return next((host for host in known if host in net), next(others))

    def script(self) -> bytes:
        """A script that takes the lease, if one is taken, and fetches the file."""
        lease = b"dhcp\n" if self.is_leased else b""
        return b"#!ipxe\n" + lease + f"imgexec {self.uri()}\n".encode()

    def uri(self) -> str:
        if self.request.web_port is not None:
            host = host_of(IPv4Address(self.request.server), self.request.web_port).decode()
            return f"http://{host}{self.request.path.decode('ascii', 'replace')}"
        path = quote(self.request.path.removeprefix(b"/"), safe="/!&'()*+,;:@")
        return f"tftp://{IPv4Address(self.request.server)}/{path}"

    def spans(self) -> tuple[Span, ...]:
        """The lease and the fetch; or all from the one or the other on, where a command waits for something else."""
        fetch = Span(self.request.time)
        if not self.is_leased or self.lease is None:
            return (fetch,)
        is_whole = self.wishes.commands() & WAITING
        if is_whole:
            return (Span(self.lease.asked),)
        return (Span(self.lease.asked, self.lease.ack.time), fetch)

    def replayed(self, key: bytes) -> LeaseReplayed | None:
        server = self.lease.ack.server if self.is_leased and self.lease else None
        return LeaseReplayed(server, xid_of(0, key)) if server else None

    def opens_before(self) -> int:
        """How many opens the run has before its first transfer."""
        return int(self.is_leased)

    def _hop(self) -> IPv4Address:
        """The host to which the request goes first."""
        server, found = IPv4Address(self.request.server), self._way()
        mask = USUAL_MASK if found.mask == UNSET else found.mask
        is_near = int(server) & int(mask) == int(IPv4Address(self.request.ip)) & int(mask)
        return server if is_near or found.gateway == UNSET else found.gateway

    def answer(self) -> bytes | None:
        """An answer by ARP for the beginning of the fetch: the capture's own, or one made of the frames' addresses."""
        hop = self._hop()
        kept = self.client.hosts.get(hop.packed)
        if kept:
            self.changed.append(f"the ARP answer of {hop} is received where the request begins")
            return kept
        sender = self.request.to if self.request.to != UNKNOWN else self.transfer.sender
        if sender is None:
            return None
        self.changed.append(f"the capture has no ARP answer of {hop}: one is made, of its frames' address {mac(sender)}")
        return arp_reply(Station(sender, hop), Station(self.request.mac, IPv4Address(self.request.ip)))

    def lines(self) -> Iterator[str]:
        """What is taken, line by line, before the capture is gone over."""
        client, server = IPv4Address(self.request.ip), IPv4Address(self.request.server)
        if self.wishes.device is None:
            yield f"the client is {mac(self.request.mac)}, which asked {server} for a file first"
        if self.is_leased and self.lease:
            yield f"its lease of {client} from {self.lease.ack.server} is replayed; --static gives the address by START"
        elif self.wishes.given is None:
            yield f"START gives it {self._said_addresses()}"
        if self.wishes.script is None:
            first = "dhcp, and then " if self.is_leased else ""
            yield f"the script is made of the capture's first request: {first}imgexec {self.uri()}"
        elif self.wishes.is_static and b"dhcp" in self.wishes.commands():
            yield "the script takes a lease itself, by `dhcp`, which --static leaves out of the capture"

    def _begin(self) -> str:
        if len(self.spans()) > 1:
            return f"its lease, and goes on at its first request by {self.request.protocol}"
        return "its lease" if self.is_leased else f"its first request by {self.request.protocol}"

    def _said_addresses(self) -> str:
        found = self.addresses()
        named = {"--ip": found.ip, "--mask": found.mask, "--gateway": found.gateway, "--dns": found.dns}
        said = ", ".join(f"{name} {address}" for name, address in named.items() if address != UNSET)
        return f"{said}, as its lease did" if self.lease else f"{said}, by which it asked"

    def done(self, met: Met, key: bytes) -> Iterator[str]:
        """What was changed, line by line, once the capture was gone over."""
        yield from self.changed
        if met.outside:
            yield f"time begins at {self._begin()}: {count(met.outside, 'other packet')} {_are(met.outside)} left out"
        if met.offers_left_out:
            answers = count(met.offers_left_out, "DHCP answer")
            yield f"{answers} of other servers {_are(met.offers_left_out)} left out: their offers weren't taken"
        if met.renumbered and self.lease:
            old, new = self.lease.ack.message.xid, xid_of(0, key)
            yield (f"{count(met.renumbered, 'DHCP answer')} got the transaction number 0x{new:08x}, "
                   f"by which this client asks, in place of 0x{old:08x}")
        if met.readdressed:
            yield f"{count(met.readdressed, 'frame')} got the port by which this client asks, in place of the capture's"
        if met.acknowledged:
            yield (f"{count(met.acknowledged, 'segment')} got the port and the numbers of this client's connections, "
                   "in place of the capture's")
        if met.joined:
            yield f"{count(met.joined, 'frame')} that a card had joined {_were(met.joined)} cut into {met.cut_into}"
        if met.unfilled:
            yield f"{count(met.unfilled, 'frame')} got the checksum that was left to a network card"


def _are(number: int) -> str:
    return "is" if number == 1 else "are"


def _were(number: int) -> str:
    return "was" if number == 1 else "were"


def plan_of(reader: Reader, wishes: Wishes) -> Plan | None:
    """How a capture is replayed; None where nobody asks for a file in it."""
    found = Conversations(reader.packets()).asking(wishes.device)
    transfer = found[1].first_fetch() if found else None
    if found is None or transfer is None:
        return None
    client = found[1]
    lease = client.lease_before(transfer.request.time)
    if lease and lease.ack.message.given.packed != transfer.request.ip:
        lease = None
    if wishes.is_static and lease is None:
        raise Refused(f"{reader.name}: it has no lease of {mac(transfer.request.mac)} for --static to take the address of")
    is_leased = lease is not None and lease.offer is not None and wishes.takes_lease()
    return Plan(client, transfer, lease, is_leased, wishes)
