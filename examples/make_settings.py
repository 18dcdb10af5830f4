#!/usr/bin/env python3
"""Makes settings.rec: what a client meets that runs settings.ipxe, where its kernel is there after a while.

The server is 10.0.0.1, speaks TFTP and knows no options (RFC 1350). It refuses the first request, and answers
the second, which comes two seconds later. Everything here is fixed, so each run makes the same bytes.
"""

from __future__ import annotations

import sys
from pathlib import Path
from typing import Iterator

HERE = Path(__file__).resolve().parent
sys.path.insert(0, str(HERE.parent / "tools"))

from shared.records import Received, Record, Tick  # noqa: E402
from shared.wire import arp_reply, padded, tftp_data, tftp_error  # noqa: E402
from stations import CLIENT, SERVER, answer, start, write  # noqa: E402

NOT_FOUND = 1
KERNEL = b"\x7fELF\x02\x01\x01" + b"a kernel that came late"


def records(script: bytes) -> Iterator[Record]:
    """The recording: in comments what the client does."""
    yield start(script)  # sets its settings, and asks by ARP for the server's address
    yield Received(padded(arp_reply(SERVER, CLIENT)))
    yield Tick(250)  # its first try was never sent: now it asks for 52-54-00-00-00-01
    yield answer(0, tftp_error(NOT_FOUND, b"File not found"))  # goes on after ||, and sleeps
    yield Tick(1_000)
    yield Tick(1_000)  # two seconds have passed: it goes to :again, and asks anew
    yield Tick(1)
    yield answer(1, tftp_data(1, KERNEL))  # the last block: acknowledges 1, hands off


if __name__ == "__main__":
    write("settings", records)
