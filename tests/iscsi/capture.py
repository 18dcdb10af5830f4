#!/usr/bin/env python3
"""An initiator by RFC 7143 and RFC 1994 alone; prints what it and a target say to one another.

    capture.py PORT NAMES COMMAND..

PORT is the target's on 127.0.0.1. NAMES is `-`, or the user and its secret, and where the target
is to prove itself its user and secret, joined by commas. A command is `read:5:3` (three blocks from
block 5), `write:7` or `wait:3` (seconds, in which the target may ask whether we live).
"""

from __future__ import annotations

import contextlib
import hashlib
import socket
import sys
import time

NAMES = (
    b"InitiatorName=iqn.2026-11.lan.boot:client\0TargetName=iqn.2026-11.lan.boot:disk\0"
    b"SessionType=Normal\0"
)
ISID = bytes.fromhex("801234560000")
LUN = bytes.fromhex("0001000000000000")
OPERATIONAL = (
    b"HeaderDigest=None\0DataDigest=None\0MaxConnections=1\0InitialR2T=Yes\0ImmediateData=No\0"
    b"MaxRecvDataSegmentLength=8192\0MaxBurstLength=262144\0FirstBurstLength=65536\0"
    b"DefaultTime2Wait=0\0DefaultTime2Retain=0\0MaxOutstandingR2T=1\0DataPDUInOrder=Yes\0"
    b"DataSequenceInOrder=Yes\0ErrorRecoveryLevel=0\0"
)
IDENTIFIER, CHALLENGE = 7, bytes(range(16))
BLOCK = 512
NO_TAG = b"\xff" * 4


def word(number: int) -> bytes:
    return number.to_bytes(4, "big")


def value(text: bytes) -> bytes:
    return bytes.fromhex(text[2:].decode())


class Initiator:
    """One session over one connection."""

    def __init__(self, port: int) -> None:
        self.line = socket.create_connection(("127.0.0.1", port), timeout=10)
        self.command, self.answer, self.tag = 1, 0, 2

    def send(self, pdu: bytes) -> None:
        pdu += bytes(-len(pdu) % 4)
        print(f"> {pdu.hex()}")
        self.line.sendall(pdu)

    def take(self, length: int) -> bytes:
        taken = b""
        while len(taken) < length:
            part = self.line.recv(length - len(taken))
            if not part:
                raise EOFError("the target closed")
            taken += part
        return taken

    def receive(self) -> bytes:
        """The next PDU that isn't a ping; a ping is answered."""
        while True:
            pdu = self.receive_any()
            if pdu[0] & 0x3F != 0x20:
                return pdu
            self.answer_ping(pdu)

    def answer_ping(self, pdu: bytes) -> None:
        if pdu[20:24] != NO_TAG:
            head = bytes([0x40, 0x80, 0, 0]) + bytes(4) + pdu[8:16] + NO_TAG + pdu[20:24]
            self.send(head + word(self.command) + word(self.answer) + bytes(16))

    def receive_any(self) -> bytes:
        head = self.take(48)
        length = int.from_bytes(head[5:8], "big")
        pdu = head + self.take(length + -length % 4)
        print(f"< {pdu.hex()}")
        # a ready-to-transfer and data without a status have no number of their own
        if pdu[0] & 0x3F in (0x21, 0x23) or (pdu[0] & 0x3F == 0x25 and pdu[1] & 1):
            self.answer = int.from_bytes(pdu[24:28], "big") + 1
        return pdu

    def ask(self, flags: int, keys: bytes) -> dict[bytes, bytes]:
        """A login request, and the keys of what answers it."""
        head = bytes([0x43, flags, 0, 0]) + word(len(keys)) + ISID + bytes(2) + word(1)
        self.send(head + bytes(4) + word(1) + word(self.answer) + bytes(16) + keys)
        pdu = self.receive()
        if pdu[36]:
            raise PermissionError(f"class {pdu[36]}, detail {pdu[37]}")
        length = int.from_bytes(pdu[5:8], "big")
        texts = (text for text in pdu[48 : 48 + length].split(b"\0") if text)
        return dict(text.split(b"=", 1) for text in texts)

    def login(self, names: list[str]) -> None:
        method = b"AuthMethod=CHAP,None\0" if names else b"AuthMethod=None\0"
        self.ask(0x81, NAMES + method)
        if names:
            self.prove(*(name.encode() for name in names))
        self.ask(0x87, OPERATIONAL)

    def prove(self, user: bytes, secret: bytes, back: bytes = b"", other: bytes = b"") -> None:
        asked = self.ask(0x00, b"CHAP_A=5\0")
        response = hashlib.md5(bytes([int(asked[b"CHAP_I"])]) + secret + value(asked[b"CHAP_C"]))
        keys = b"CHAP_N=%s\0CHAP_R=0x%s\0" % (user, response.hexdigest().encode())
        if back:
            keys += b"CHAP_I=%d\0CHAP_C=0x%s\0" % (IDENTIFIER, CHALLENGE.hex().encode())
        answered = self.ask(0x81, keys)
        wanted = hashlib.md5(bytes([IDENTIFIER]) + other + CHALLENGE).digest()
        if back and (answered[b"CHAP_N"], value(answered[b"CHAP_R"])) != (back, wanted):
            raise PermissionError("the target has another secret")

    def do(self, flags: int, length: int, block: bytes, out: bytes = b"") -> int:
        """A command, with what it writes, and its status."""
        tag = word(self.tag)
        head = bytes([1, flags, 0, 0]) + bytes(4) + LUN + tag + word(length)
        self.send(head + word(self.command) + word(self.answer) + block.ljust(16, b"\0"))
        self.command, self.tag = self.command + 1, self.tag + 1
        while True:
            pdu = self.receive()
            kind = pdu[0] & 0x3F
            if kind == 0x31:
                self.hand(tag, pdu, out)
            if kind == 0x21 or (kind == 0x25 and pdu[1] & 1):
                return pdu[3]

    def hand(self, tag: bytes, asked: bytes, out: bytes) -> None:
        """The bytes that a ready-to-transfer asks for."""
        at, length = (int.from_bytes(asked[i : i + 4], "big") for i in (40, 44))
        head = bytes([5, 0x80, 0, 0]) + word(length) + LUN + tag + asked[20:24] + bytes(4)
        self.send(head + word(self.answer) + bytes(8) + word(at) + bytes(4) + out[at : at + length])


    def wait(self, seconds: int) -> None:
        """Answers pings alone, for so many seconds."""
        end = time.monotonic() + seconds
        self.line.settimeout(1)
        while time.monotonic() < end:
            with contextlib.suppress(TimeoutError):
                self.answer_ping(self.receive_any())
        self.line.settimeout(10)


def main(port: str, names: str, *commands: str) -> None:
    one = Initiator(int(port))
    one.login([] if names == "-" else names.split(","))
    while one.do(0x81, 0, bytes(6)):
        pass
    one.do(0xC1, 8, b"\x25")
    for command in commands:
        kind, at, *count = command.split(":")
        if kind == "wait":
            one.wait(int(at))
            continue
        blocks = int(count[0]) if count else 1
        code, flags = (b"\x28", 0xC1) if kind == "read" else (b"\x2a", 0xA1)
        block = code + b"\0" + word(int(at)) + b"\0" + blocks.to_bytes(2, "big")
        one.do(flags, BLOCK * blocks, block, bytes([0x5A]) * BLOCK * blocks)


if __name__ == "__main__":
    if len(sys.argv) < 3:
        raise SystemExit(__doc__)
    main(*sys.argv[1:])
