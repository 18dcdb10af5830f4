"""A wire by pipes: sends each frame that comes on standard input, and prints each that is received, in hexadecimal.

It runs in a network namespace, for a test that stays outside.
"""

from __future__ import annotations

import os
import select
import sys

from shared.devices import Interface


def main(device: str) -> None:
    wire, rest = Interface(device), b""
    print("ready", flush=True)
    while True:
        readable, _, _ = select.select([sys.stdin, wire], [], [])
        if sys.stdin in readable:
            # Read past sys.stdin's buffer: a line that waits in it would not wake the next select.
            piece = os.read(sys.stdin.fileno(), 65_536)
            if not piece:
                return
            *lines, rest = (rest + piece).split(b"\n")
            for line in lines:
                wire.send(bytes.fromhex(line.decode()))
        if wire in readable:
            frame = wire.receive()
            if frame is not None:
                print(frame.hex(), flush=True)


if __name__ == "__main__":
    main(sys.argv[1])
