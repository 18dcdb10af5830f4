#!/usr/bin/env python3
"""Makes tftp-boot.rec: what a client meets that boots a small kernel by TFTP over a bad network.

The server is 10.0.0.1, speaks TFTP and knows no options (RFC 1350). The kernel looks like an ELF
file and has five blocks. Block 2 comes twice. Block 3 is lost; the server sends it again after
a second, and once more because the client repeated its acknowledgement. That last copy and
block 4 are swapped on their way. Everything here is fixed, so each run makes the same bytes.
"""

from __future__ import annotations

import sys
from pathlib import Path
from typing import Iterator

HERE = Path(__file__).resolve().parent
sys.path.insert(0, str(HERE.parent / "tools"))

from shared.records import Received, Record, Tick, spell  # noqa: E402
from shared.wire import arp_reply, padded, tftp_data, udp_frame  # noqa: E402
from stations import CLIENT, SERVER, start  # noqa: E402

CLIENT_PORT = 49_152
SERVER_PORT = 40_000
BLOCK = 512
KERNEL_LENGTH = 4 * BLOCK + 200
SCRIPT = b"#!ipxe\nimgexec tftp://10.0.0.1/k\n"


def kernel() -> bytes:
    """A file that begins as a 64-bit ELF file does, and goes on with a fixed pattern."""
    head = b"\x7fELF\x02\x01\x01"
    return head + bytes((31 * place + 7) % 256 for place in range(len(head), KERNEL_LENGTH))


class Server:
    """Sends blocks of the kernel; its packets are numbered as they are sent."""

    def __init__(self) -> None:
        self.sent = 0

    def block(self, number: int) -> Received:
        self.sent += 1
        data = kernel()[(number - 1) * BLOCK : number * BLOCK]
        ports = (SERVER_PORT, CLIENT_PORT)
        frame = udp_frame(SERVER, CLIENT, ports, tftp_data(number, data), self.sent)
        return Received(padded(frame))


def records() -> Iterator[Record]:
    """The recording: in comments what the client does."""
    server = Server()
    yield start(SCRIPT)  # asks by ARP for the server's address
    yield Received(padded(arp_reply(SERVER, CLIENT)))
    yield Tick(250)  # its first try was never sent: now it sends the read request
    yield Tick(2)
    yield server.block(1)  # acknowledges 1
    yield Tick(1)
    doubled = server.block(2)
    yield doubled  # acknowledges 2
    yield doubled  # acknowledges 2 again
    server.block(3)  # lost on its way
    yield Tick(250)  # acknowledges 2 again, its second try
    yield Tick(250)
    yield Tick(250)  # and its third, after 500 ms more
    late = server.block(3)  # the server's answer to that try, which is overtaken
    yield Tick(250)
    yield server.block(3)  # the server's own repeat: acknowledges 3
    yield Tick(1)
    yield server.block(4)  # acknowledges 4
    yield late  # an old block: no answer
    yield Tick(1)
    yield server.block(5)  # shorter than 512 bytes, so the last: acknowledges 5, hands off


def main() -> None:
    recording = HERE / "tftp-boot.rec"
    recording.write_bytes(b"".join(spell(record) for record in records()))
    print(f"wrote {recording.name}, with a kernel of {KERNEL_LENGTH} bytes")


if __name__ == "__main__":
    main()
