#!/usr/bin/env python3
"""Makes disk-boot.rec and disk-refused.rec: what a client meets that runs disk-boot.ipxe.

The target is at 10.0.0.1, and wants CHAP (RFC 7143, RFC 1994). In the first recording it lets the client in, and says
that its disk has 2,048 blocks. Where the first block is asked for, it pings the client and sends the block; the ping is
lost, and comes again after the block. In the second recording it knows another secret than the client, and refuses.
The client's texts stand here, as they are acknowledged. Everything is fixed, so each run makes the same bytes.
"""

from __future__ import annotations

import sys
from hashlib import md5
from pathlib import Path
from typing import Iterator

HERE = Path(__file__).resolve().parent
sys.path.insert(0, str(HERE.parent / "tools"))

from shared.iscsi import DATA_IN, HEAD, LOGIN_RESPONSE, SCSI_RESPONSE, USUAL_PORT  # noqa: E402
from shared.random_words import words_of  # noqa: E402
from shared.records import Received, Record, Tick  # noqa: E402
from shared.wire import PROTOCOL_TCP, arp_reply, packet_frame, padded, segment  # noqa: E402
from stations import CLIENT, FIRST_OWN_PORT, SERVER, start, write  # noqa: E402

SYN, PSH, ACK, WINDOW = 2, 8, 16, 65_535
# maximum segment size 1,460 (RFC 9293, section 3.7.1)
SIZE = bytes.fromhex("020405b4")
# flags: of a command's last PDU, and one with a status; of a login that stays in its stage, goes to the next one, ends
FINAL, STATUS, STAYS, GOES_ON, ENDS = 0x80, 0x01, 0x00, 0x81, 0x87
NOP_IN, NO_TAG, GOOD, WRONG_SECRET = 0x20, b"\xff" * 4, b"\0\0", b"\2\1"
CLIENT_SECRET, OTHER_SECRET = b"a-secret-of-16-b", b"another-of-16-by"
IDENTIFIER, CHALLENGE = 1, bytes(range(16))
# the random words of the client's first open, by START's key of zeros
WORDS = words_of(bytes(32), 0)
BLOCKS, BLOCK = 2_048, 512
# it halts the processor (cli, hlt); its last two bytes mark a block that can be started
SECTOR = (b"\xfa\xf4" + b"the first block of a disk").ljust(BLOCK - 2, b"\0") + b"\x55\xaa"
# what the client says at its login
NAMES = (b"InitiatorName=iqn.2026-11.lan.boot:client", b"TargetName=iqn.2026-11.lan.boot:disk",
         b"SessionType=Normal", b"AuthMethod=CHAP,None")  # fmt: skip
OPERATION = (
    b"HeaderDigest=None", b"DataDigest=None", b"MaxConnections=1", b"InitialR2T=Yes", b"ImmediateData=No",
    b"MaxRecvDataSegmentLength=8192", b"MaxBurstLength=262144", b"FirstBurstLength=65536", b"DefaultTime2Wait=0",
    b"DefaultTime2Retain=0", b"MaxOutstandingR2T=1", b"DataPDUInOrder=Yes", b"DataSequenceInOrder=Yes",
    b"ErrorRecoveryLevel=0",
)  # fmt: skip


def word(number: int) -> bytes:
    return number.to_bytes(4, "big")


def joined(texts: tuple[bytes, ...]) -> bytes:
    return b"".join(text + b"\0" for text in texts)


def proof(secret: bytes) -> tuple[bytes, ...]:
    """The answer to the challenge by this secret (RFC 1994)."""
    digest = md5(bytes([IDENTIFIER]) + secret + CHALLENGE).hexdigest()
    return b"CHAP_N=client", b"CHAP_R=0x" + digest.encode()


class Target:
    """The target's side of the client's first open: its next numbers, in the streams and of PDUs."""

    def __init__(self) -> None:
        self.ours, self.theirs = 1_000_000, WORDS[0] + 1
        self.answer, self.command = 0x1000, 1

    def connects(self) -> Received:
        """It takes the connection."""
        self.ours += 1
        return self._frame(self.ours - 1, SYN | ACK, options=SIZE)

    def got(self, *texts: bytes) -> Target:
        """A login's request was received; or a command, which has no texts."""
        length = len(joined(texts))
        self.theirs += HEAD + length + -length % 4
        self.command += 0 if texts else 1
        return self

    def logs_in(self, flags: int, *texts: bytes, status: bytes = GOOD) -> Received:
        """The answer to a login's request, which lets the client go on unless its status is another."""
        session = b"\x80" + word(WORDS[1])[1:] + bytes(2) + (b"\0\1" if flags == ENDS else bytes(2))
        return self._says(LOGIN_RESPONSE, flags, session + word(1) + bytes(4), joined(texts), status)

    def answers(self, data: bytes = b"") -> Received:
        """Good status for the last command, with the data that it asked for. Its tag is one more than its number."""
        opcode, flags, tag = (DATA_IN, FINAL | STATUS, NO_TAG) if data else (SCSI_RESPONSE, FINAL, bytes(4))
        return self._says(opcode, flags, bytes(8) + word(self.command) + tag, data)

    def pings(self) -> Received:
        """A NOP-In that asks for an answer; it is none itself, and so isn't counted."""
        return self._says(NOP_IN, FINAL, bytes(8) + NO_TAG + b"ping", counts=0)

    def _says(
        self, opcode: int, flags: int, tags: bytes, data: bytes = b"", status: bytes = b"", counts: int = 1
    ) -> Received:
        """A PDU: its tags are bytes 8 to 23, and a login's status stands at byte 36."""
        numbers = word(self.answer) + word(self.command) + word(self.command + 8)
        head = bytes([opcode, flags, 0, 0]) + word(len(data)) + tags + numbers + status
        pdu, number = head.ljust(HEAD, b"\0") + data + bytes(-len(data) % 4), self.ours
        self.ours, self.answer = self.ours + len(pdu), self.answer + counts
        return self._frame(number, PSH | ACK, pdu)

    def _frame(self, number: int, flags: int, body: bytes = b"", options: bytes = b"") -> Received:
        numbers, ports = (number, self.theirs), (USUAL_PORT, FIRST_OWN_PORT)
        text = segment(SERVER.ip, CLIENT.ip, ports, numbers, flags, WINDOW, body, options)
        return Received(padded(packet_frame(SERVER, CLIENT, PROTOCOL_TCP, text)))


def login(script: bytes, target: Target, secret: bytes) -> Iterator[Record]:
    """Up to the answer of a target with this secret: in comments what the client does."""
    yield start(script)  # asks by ARP for the target's address
    yield Received(padded(arp_reply(SERVER, CLIENT)))
    yield Tick(250)  # sends its SYN, the second try
    yield Tick(1)
    yield target.connects()  # acknowledges it, and says who it is
    yield Tick(1)
    yield target.got(*NAMES).logs_in(STAYS, b"TargetPortalGroupTag=1", b"AuthMethod=CHAP")  # offers MD5
    asks = b"CHAP_A=5", b"CHAP_I=%d" % IDENTIFIER, b"CHAP_C=0x" + CHALLENGE.hex().encode()
    yield target.got(b"CHAP_A=5").logs_in(STAYS, *asks)  # proves itself
    said = target.got(*proof(CLIENT_SECRET))
    yield said.logs_in(GOES_ON) if proof(secret) == proof(CLIENT_SECRET) else said.logs_in(STAYS, status=WRONG_SECRET)


def booted(script: bytes) -> Iterator[Record]:
    """The recording of the boot."""
    target = Target()
    yield from login(script, target, CLIENT_SECRET)  # says how it would go on
    yield target.got(*OPERATION).logs_in(ENDS, *OPERATION)  # is in: TEST UNIT READY
    yield target.got().answers()  # READ CAPACITY
    yield Tick(1)
    yield target.got().answers(word(BLOCKS - 1) + word(BLOCK))  # the disk is hooked; READ of block 0
    lost, block = target.got().pings(), target.answers(SECTOR)
    yield block  # keeps it, and acknowledges what came before the hole
    yield Tick(200)
    yield lost  # answers the ping, has the block, resets the connection, and hands off


def refused(script: bytes) -> Iterator[Record]:
    """The recording in which the secrets differ: the command fails, and so does the script."""
    yield from login(script, Target(), OTHER_SECRET)


if __name__ == "__main__":
    write("disk-boot", booted)
    write("disk-refused", refused, "disk-boot")
