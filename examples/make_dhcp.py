#!/usr/bin/env python3
"""Makes dhcp.rec: what a client meets that runs dhcp.ipxe, where a server gives leases and has the file.

The server is 10.0.0.1. The first DISCOVER doesn't reach it, and at the second it offers 10.0.0.50. It names the file
`k`, with a zero byte at its end as some servers have. By TFTP it knows no options (RFC 1350). Everything here is
fixed, so each run makes the same bytes.
"""

from __future__ import annotations

import sys
from ipaddress import IPv4Address
from pathlib import Path
from typing import Iterator

HERE = Path(__file__).resolve().parent
sys.path.insert(0, str(HERE.parent / "tools"))

from shared.records import Received, Record, Tick  # noqa: E402
from shared.wire import arp_reply, padded, tftp_data  # noqa: E402
from shared.wire_dhcp import Asker, Kind, Tag, to_client  # noqa: E402
from shared.wire_dhcp import answer as lease_answer  # noqa: E402
from stations import CLIENT, LEASED, SERVER, UNSET, answer, start, write  # noqa: E402

# the number of the first open's transaction, by START's key of zeros
ASKER = Asker(CLIENT.mac, 0x2FEF003E)
KERNEL = b"\x7fELF\x02\x01\x01" + b"a kernel that a lease named"
OPTIONS = (
    (Tag.NETMASK, IPv4Address("255.255.255.0").packed),
    (Tag.DNS, SERVER.ip.packed),
    (Tag.DOMAIN, b"lan"),
    (Tag.FILENAME, b"k\0"),
)


def leases(kind: Kind) -> Received:
    """The server's offer or acknowledgement of the lease, to all hosts."""
    body = lease_answer(ASKER, kind, SERVER.ip, *OPTIONS, given=LEASED.ip, next_server=SERVER.ip)
    return Received(padded(to_client(SERVER, body)))


def records(script: bytes) -> Iterator[Record]:
    """The recording: in comments what the client does."""
    yield start(script, UNSET)  # sends a DISCOVER, which is lost
    yield Tick(500)
    yield Tick(500)  # sends it again
    yield Tick(1)
    yield leases(Kind.OFFER)  # sends a REQUEST
    yield Tick(1)
    yield leases(Kind.ACK)  # has its lease, says so, and asks by ARP for the server's address
    yield Received(padded(arp_reply(SERVER, LEASED)))
    yield Tick(250)  # its first try was never sent: now it asks for k
    yield answer(1, tftp_data(1, KERNEL), client=LEASED)  # the last block: acknowledges 1, hands off


if __name__ == "__main__":
    write("dhcp", records)
