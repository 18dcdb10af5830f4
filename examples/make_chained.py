#!/usr/bin/env python3
"""Makes chained.rec: the server 10.0.0.1 has no script of this machine's own, and one for all.

That one boots a kernel and an initrd that stand beside it. Everything here is fixed, so each run makes the same bytes.
"""

from __future__ import annotations

import sys
from pathlib import Path
from typing import Iterator

HERE = Path(__file__).resolve().parent
sys.path.insert(0, str(HERE.parent / "tools"))

from shared.records import Received, Record, Tick  # noqa: E402
from shared.wire import arp_reply, padded, tftp_data, tftp_error  # noqa: E402
from stations import CLIENT, SERVER, answer, start, write  # noqa: E402

ALL = b"#!ipxe\necho booting what all machines boot\nkernel vmlinuz console=ttyS0 ip=dhcp\ninitrd initrd.img\nboot\n"
# the first blocks of a Linux kernel for x86, which says so at byte 514
KERNEL = b"MZ" + bytes(512) + b"HdrS and more"
INITRD = b"an initrd"
BLOCK = 512


def records(script: bytes) -> Iterator[Record]:
    """The recording: in comments what the client does."""
    yield start(script)  # asks by ARP for the server's address
    yield Received(padded(arp_reply(SERVER, CLIENT)))
    yield Tick(250)  # its first try was never sent: now it asks for own.ipxe
    yield answer(0, tftp_error(1, b"File not found"))  # goes on, and asks for all.ipxe
    yield Tick(3)
    yield answer(1, tftp_data(1, ALL))  # runs it, and asks for the kernel beside it
    yield Tick(2)
    yield answer(2, tftp_data(1, KERNEL[:BLOCK]))  # acknowledges 1
    yield answer(2, tftp_data(2, KERNEL[BLOCK:]))  # has it, and asks for the initrd
    yield Tick(2)
    yield answer(3, tftp_data(1, INITRD))  # has that too, and hands both off


def main() -> None:
    write("chained", records)


if __name__ == "__main__":
    main()
