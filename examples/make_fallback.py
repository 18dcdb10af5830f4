#!/usr/bin/env python3
"""Makes fallback.rec: what a client meets that runs fallback.ipxe, where one file of three is there.

The server is 10.0.0.1, speaks TFTP and knows no options (RFC 1350). It refuses `initrd` and `mine`,
and sends `k`, which is shorter than a block. Everything here is fixed, so each run makes the same
bytes.
"""

from __future__ import annotations

import sys
from pathlib import Path
from typing import Iterator

HERE = Path(__file__).resolve().parent
sys.path.insert(0, str(HERE.parent / "tools"))

from shared.records import Received, Record, Tick  # noqa: E402
from shared.wire import arp_reply, padded, tftp_data, tftp_error  # noqa: E402
from stations import CLIENT, SERVER, answer, start, write  # noqa: E402

NOT_FOUND = 1
KERNEL = b"\x7fELF\x02\x01\x01" + b"a kernel that is shorter than a block"


def records(script: bytes) -> Iterator[Record]:
    """The recording: in comments what the client does."""
    yield start(script)  # asks by ARP for the server's address
    yield Received(padded(arp_reply(SERVER, CLIENT)))
    yield Tick(250)  # its first try was never sent: now it asks for initrd
    yield answer(0, tftp_error(NOT_FOUND, b"File not found"))  # goes on after ||, asks for mine
    yield Tick(1)
    yield answer(1, tftp_error(NOT_FOUND, b"File not found"))  # goes to :all, asks for k
    yield Tick(1)
    yield answer(2, tftp_data(1, KERNEL))  # the last block: acknowledges 1, hands off


if __name__ == "__main__":
    write("fallback", records)
