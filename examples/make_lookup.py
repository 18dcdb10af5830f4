#!/usr/bin/env python3
"""Makes lookup.rec: what a client meets that runs lookup.ipxe, where the name and its host are there.

The name server is 10.0.0.1. It answers pings, and says that boot.lan is files.lan, which is 10.0.0.9. That one speaks
TFTP and knows no options (RFC 1350). Everything here is fixed, so each run makes the same bytes.
"""

from __future__ import annotations

import sys
from pathlib import Path
from typing import Iterator

HERE = Path(__file__).resolve().parent
sys.path.insert(0, str(HERE.parent / "tools"))

from shared import wire_dns  # noqa: E402
from shared.records import Received, Record, Tick  # noqa: E402
from shared.wire import PROTOCOL_ICMP, arp_reply, echo, packet_frame, padded  # noqa: E402
from shared.wire import tftp_data, udp_frame  # noqa: E402
from stations import CLIENT, FILES, FIRST_OWN_PORT, SERVER, answer, start, write  # noqa: E402

ECHO_REPLY = 0
# the number of the second open's query, by START's key of zeros
QUERY_NUMBER = 0xAED2
ASKED = wire_dns.pointer(wire_dns.ASKED)
KERNEL = b"\x7fELF\x02\x01\x01" + b"a kernel from a host with a name"


def pong() -> Received:
    """The reply to the first open, a ping."""
    return Received(padded(packet_frame(SERVER, CLIENT, PROTOCOL_ICMP, echo(ECHO_REPLY, 0, 0, b""))))


def found() -> Received:
    """The answer to the second open, a look-up."""
    alias, address = wire_dns.written(b"files.lan"), wire_dns.written(b"files.lan")
    records = (wire_dns.alias(ASKED, alias), wire_dns.address(address, FILES.ip))
    body = wire_dns.answer(QUERY_NUMBER, b"boot.lan", *records)
    return Received(padded(udp_frame(SERVER, CLIENT, (wire_dns.PORT, FIRST_OWN_PORT + 1), body)))


def records(script: bytes) -> Iterator[Record]:
    """The recording: in comments what the client does."""
    yield start(script, dns=SERVER.ip)  # pings the name server: asks by ARP for its address
    yield Received(padded(arp_reply(SERVER, CLIENT)))
    yield Tick(250)  # its first try was never sent: now it sends the echo request
    yield Tick(2)
    yield pong()  # the server is there: sends the query for boot.lan
    yield Tick(3)
    yield found()  # says which address that is, and asks by ARP for its hardware address
    yield Received(padded(arp_reply(FILES, CLIENT)))
    yield Tick(250)  # asks for k
    yield answer(2, tftp_data(1, KERNEL), FILES)  # the last block: acknowledges 1, hands off


if __name__ == "__main__":
    write("lookup", records)
