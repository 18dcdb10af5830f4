"""An iSCSI target over bytes, written by RFC 7143 and RFC 1994 alone: it reads what an initiator says, and answers."""

from __future__ import annotations

from dataclasses import dataclass, field
from hashlib import md5, sha256

from tests.drive_pdus import (
    BLOCK, CHECK_CONDITION, COMMAND, DATA_IN, FINAL, GOOD, LOGIN_REQUEST, LOGIN_RESPONSE, NO_TAG, PING_IN, PING_OUT,
    RESPONSE, STATUS, Pdu, cut, head, texts, value_of, word,
)  # fmt: skip

TEST_UNIT_READY, READ_CAPACITY, READ = 0x00, 0x25, 0x28
FAILED_LOGIN = (2, 1)


def block_of(name: bytes, lun: bytes, place: int) -> bytes:
    """A block of a unit, which no other block of any unit is."""
    return sha256(name + b"\0" + lun + word(place)).digest() * (BLOCK // 32)


class Wrong(AssertionError):
    """The initiator has said what it may not say."""


@dataclass
class Target:
    """A target with a unit of so many blocks, and how it deviates from a plain one."""

    name: bytes
    lun: bytes = bytes(8)
    blocks: int = 2_048
    block: int = BLOCK
    # the initiator's user and secret, and the target's own
    user: bytes = b""
    secret: bytes = b""
    own_user: bytes = b""
    own_secret: bytes = b""
    identifier: int = 97
    challenge: bytes = b"c"
    # how often the unit isn't ready, and the status of the login's first answer
    checks: int = 0
    refuses: tuple[int, int] | None = None
    # its own answer to a challenge is another
    is_wrong: bool = False
    # where a read's bytes are cut into several Data-Ins, its status, and whether that comes in a message of its own
    cuts: tuple[int, ...] = ()
    reads_with: int = GOOD
    is_apart: bool = False
    number: int = 0x1000
    left: bytes = b""
    received: list[Pdu] = field(default_factory=list)
    initiator: bytes = b""
    expected: int = 1

    def receives(self, said: bytes) -> bytes:
        """Its answers to what is said next."""
        found, self.left = cut(self.left + said)
        self.received += found
        return b"".join(self._answer(pdu) for pdu in found)

    def _answer(self, pdu: Pdu) -> bytes:
        match pdu.opcode:
            case _ if pdu.head[0] == 0x40 | LOGIN_REQUEST:
                return self._login(pdu)
            case _ if pdu.head[0] == COMMAND:
                return self._command(pdu)
            case _ if pdu.head[0] == 0x40 | PING_OUT:
                return b""
        raise Wrong(f"opcode {pdu.head[0]:#x}")

    # the login

    def _login(self, pdu: Pdu) -> bytes:
        keys = pdu.keys()
        if self.refuses:
            return self.says(pdu, 0, b"", self.refuses)
        if b"InitiatorName" in keys:
            return self._begin(pdu, keys)
        if keys.get(b"CHAP_A") == b"5":
            challenge = b"CHAP_C=0x" + self.challenge.hex().encode()
            return self.says(pdu, 0, texts(b"CHAP_A=5", b"CHAP_I=%d" % self.identifier, challenge))
        if b"CHAP_N" in keys:
            return self._prove(pdu, keys)
        if pdu.flags != 0x87:
            raise Wrong(f"the flags {pdu.flags:#x} of the last request")
        return self.says(pdu, 0x87, texts(b"HeaderDigest=None", b"DataDigest=None", b"MaxRecvDataSegmentLength=65536"))

    def _begin(self, pdu: Pdu, keys: dict[bytes, bytes]) -> bytes:
        self.initiator = keys[b"InitiatorName"]
        if keys[b"TargetName"] != self.name or keys[b"SessionType"] != b"Normal":
            raise Wrong(f"it asks for {keys}")
        if not self.user:
            return self.says(pdu, 0x81, texts(b"TargetPortalGroupTag=1", b"AuthMethod=None"))
        return self.says(pdu, 0, texts(b"TargetPortalGroupTag=1", b"AuthMethod=CHAP"))

    def _prove(self, pdu: Pdu, keys: dict[bytes, bytes]) -> bytes:
        wanted = md5(bytes([self.identifier]) + self.secret + self.challenge).digest()
        if (keys[b"CHAP_N"], value_of(keys[b"CHAP_R"])) != (self.user, wanted):
            return self.says(pdu, 0, b"", FAILED_LOGIN)
        if b"CHAP_I" not in keys:
            return self.says(pdu, 0x81, b"")
        challenge = value_of(keys[b"CHAP_C"]) or b""
        answer = md5(bytes([int(keys[b"CHAP_I"])]) + self.own_secret + challenge).hexdigest()
        if self.is_wrong:
            answer = answer[::-1]
        return self.says(pdu, 0x81, texts(b"CHAP_N=" + self.own_user, b"CHAP_R=0x" + answer.encode()))

    def says(self, pdu: Pdu, flags: int, keys: bytes, status: tuple[int, int] = (0, 0)) -> bytes:
        """A login's response; one that lets the initiator in has a handle of the session."""
        session = pdu.head[8:14] + (b"\0\1" if flags & 3 == 3 else bytes(2))
        numbers = (pdu.tag, bytes(4), self._counted(), word(self.expected), word(self.expected + 8))
        whole = head(LOGIN_RESPONSE, flags, session, *numbers)
        return Pdu(whole[:36] + bytes(status) + whole[38:], keys).spelled()

    def _counted(self) -> bytes:
        self.number += 1
        return word(self.number - 1)

    # the commands

    def _command(self, pdu: Pdu) -> bytes:
        number = int.from_bytes(pdu.head[24:28], "big")
        if pdu.head[8:16] != self.lun or number != self.expected:
            raise Wrong(f"command {number} of unit {pdu.head[8:16].hex()}")
        self.expected += 1
        match pdu.head[32]:
            case code if code == TEST_UNIT_READY:
                self.checks -= 1
                return self.answers(pdu.tag, CHECK_CONDITION if self.checks >= 0 else GOOD)
            case code if code == READ_CAPACITY:
                return self.gives(pdu.tag, word((self.blocks - 1) & 0xFFFF_FFFF) + word(self.block))
            case code if code == READ:
                return self._reads(pdu)
        raise Wrong(f"command {pdu.head[32]:#x}")

    def _reads(self, pdu: Pdu) -> bytes:
        """The blocks that are asked for, in as many Data-Ins as there are cuts."""
        place, count = int.from_bytes(pdu.head[34:38], "big"), int.from_bytes(pdu.head[39:41], "big")
        spelled = bytes([READ, 0]) + word(place) + bytes([0]) + count.to_bytes(2, "big") + bytes(7)
        is_asked = pdu.flags == 0xC1 and pdu.head[20:24] == word(BLOCK * count)
        if not is_asked or pdu.head[32:48] != spelled or place + count > self.blocks:
            raise Wrong(f"the read {pdu.head.hex()}")
        data = b"".join(block_of(self.name, self.lun, at) for at in range(place, place + count))
        ends = (*self.cuts, len(data))
        last = len(ends) - 1
        said = b""
        for number, (begin, end) in enumerate(zip((0, *ends), ends)):
            is_decided = number == last and not self.is_apart
            said += self.piece(pdu.tag, data[begin:end], begin, number, self.reads_with if is_decided else None)
        return said + (self.answers(pdu.tag, self.reads_with) if self.is_apart else b"")

    def piece(self, tag: bytes, data: bytes, place: int, number: int = 0, status: int | None = GOOD) -> bytes:
        """A Data-In with bytes from a place on, with a status or none."""
        ends = FINAL | STATUS if status is not None else 0
        counted = bytes(4) if status is None else self._counted()
        numbers = (tag, NO_TAG, counted, word(self.expected), word(self.expected + 8), word(number), word(place))
        whole = head(DATA_IN, ends, self.lun, *numbers)
        return Pdu(whole[:3] + bytes([status or 0]) + whole[4:], data).spelled()

    def answers(self, tag: bytes, status: int) -> bytes:
        """A SCSI Response."""
        numbers = (tag, bytes(4), self._counted(), word(self.expected), word(self.expected + 8))
        whole = head(RESPONSE, FINAL, bytes(8), *numbers)
        return Pdu(whole[:3] + bytes([status]) + whole[4:]).spelled()

    def gives(self, tag: bytes, data: bytes) -> bytes:
        """A Data-In with all that was asked for, and good status."""
        numbers = (tag, NO_TAG, self._counted(), word(self.expected), word(self.expected + 8))
        return Pdu(head(DATA_IN, FINAL | STATUS, self.lun, *numbers), data).spelled()

    def pings(self, tag: bytes) -> bytes:
        """A NOP-In, which asks for an answer where it has a tag of its own."""
        numbers = (NO_TAG, tag, word(self.number), word(self.expected), word(self.expected + 8))
        return Pdu(head(PING_IN, FINAL, self.lun, *numbers)).spelled()
