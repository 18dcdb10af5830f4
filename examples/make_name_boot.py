#!/usr/bin/env python3
"""Makes name-boot.rec and name-unknown.rec: what a client meets that runs name-boot.ipxe.

The server 10.0.0.1 gives leases, with the domain `lan` and itself as the name server. In the first recording it knows
that boot.lan is 10.0.0.9, which speaks TFTP, grants the options that are asked for (RFC 2347) and has the kernel. In
the second one it knows no such name. Everything here is fixed, so each run makes the same bytes.
"""

from __future__ import annotations

import sys
from ipaddress import IPv4Address
from pathlib import Path
from typing import Iterator

HERE = Path(__file__).resolve().parent
sys.path.insert(0, str(HERE.parent / "tools"))

from shared import wire_dns  # noqa: E402
from shared.records import Received, Record, Tick  # noqa: E402
from shared.wire import arp_reply, padded, tftp_data, tftp_oack, udp_frame  # noqa: E402
from shared.wire_dhcp import Asker, Kind, Tag, to_client  # noqa: E402
from shared.wire_dhcp import answer as lease_answer  # noqa: E402
from stations import CLIENT, FILES, FIRST_OWN_PORT, LEASED, SERVER, UNSET, answer, start, write  # noqa: E402

# the numbers of the first open's transaction and of the second one's query, by START's key of zeros
ASKER, QUERY_NUMBER = Asker(CLIENT.mac, 0x2FEF003E), 0xAED2
NAME, NO_SUCH_NAME = b"boot.lan", 3
BLOCK_BYTES = 1_432
KERNEL = (b"\x7fELF\x02\x01\x01" + b"a kernel from a server with a name").ljust(2_000, b".")
OPTIONS = (
    (Tag.NETMASK, IPv4Address("255.255.255.0").packed),
    (Tag.DNS, SERVER.ip.packed),
    (Tag.DOMAIN, b"lan"),
)


def leases(kind: Kind) -> Received:
    """The server's offer or acknowledgement of the lease, to all hosts."""
    body = lease_answer(ASKER, kind, SERVER.ip, *OPTIONS, given=LEASED.ip)
    return Received(padded(to_client(SERVER, body)))


def name_answer(*found: bytes, rcode: int = 0) -> Received:
    """The server's answer to the second open, a look-up."""
    body = wire_dns.answer(QUERY_NUMBER, NAME, *found, rcode=rcode)
    return Received(padded(udp_frame(SERVER, LEASED, (wire_dns.PORT, FIRST_OWN_PORT + 1), body)))


def from_files(body: bytes) -> Received:
    """What the host of the files sends to the third open, a transfer."""
    return answer(2, body, FILES, LEASED)


def until_asked(script: bytes) -> Iterator[Record]:
    """Up to the query: in comments what the client does."""
    yield start(script, UNSET)  # sends a DISCOVER
    yield Tick(1)
    yield leases(Kind.OFFER)  # sends a REQUEST
    yield Tick(1)
    yield leases(Kind.ACK)  # has its lease, and asks by ARP for the name server's hardware address
    yield Received(padded(arp_reply(SERVER, LEASED)))
    yield Tick(250)  # its first try was never sent: now it asks which address boot.lan has
    yield Tick(2)


def booted(script: bytes) -> Iterator[Record]:
    """The recording of the boot."""
    yield from until_asked(script)
    yield name_answer(wire_dns.address(wire_dns.pointer(wire_dns.ASKED), FILES.ip))  # asks by ARP for that host
    yield Received(padded(arp_reply(FILES, LEASED)))
    yield Tick(250)  # asks for vmlinuz
    yield from_files(tftp_oack(blksize=BLOCK_BYTES, tsize=len(KERNEL)))  # acknowledges 0
    yield from_files(tftp_data(1, KERNEL[:BLOCK_BYTES]))  # acknowledges 1
    yield from_files(tftp_data(2, KERNEL[BLOCK_BYTES:]))  # the last block: acknowledges 2, hands off


def unknown(script: bytes) -> Iterator[Record]:
    """The recording in which there is no such name: the command fails, and so do the script and the boot."""
    yield from until_asked(script)
    yield name_answer(rcode=NO_SUCH_NAME)


if __name__ == "__main__":
    write("name-boot", booted)
    write("name-unknown", unknown, "name-boot")
