"""A second reading of a session with an iSCSI target, as its initiator has it (RFC 7143, RFC 1994, docs/SAN.md).

It says what is said to each PDU of the target's, and how the session ends. Nothing here is taken from the program.
"""

from __future__ import annotations

from dataclasses import dataclass, replace
from hashlib import md5
from typing import NamedTuple

from shared.causes import Cause, Code
from tests.drive_pdus import (
    BLOCK, CHECK_CONDITION, COMMAND, DATA_IN, FINAL, GOOD, IMMEDIATE, LOGIN_REQUEST, LOGIN_RESPONSE, NO_TAG, PING_IN,
    PING_OUT, RESPONSE, STATUS, Pdu, head, number_of, texts, value_of, word,
)  # fmt: skip

OPERATIONAL = texts(
    b"HeaderDigest=None", b"DataDigest=None", b"MaxConnections=1", b"InitialR2T=Yes", b"ImmediateData=No",
    b"MaxRecvDataSegmentLength=8192", b"MaxBurstLength=262144", b"FirstBurstLength=65536", b"DefaultTime2Wait=0",
    b"DefaultTime2Retain=0", b"MaxOutstandingR2T=1", b"DataPDUInOrder=Yes", b"DataSequenceInOrder=Yes",
    b"ErrorRecoveryLevel=0",
)  # fmt: skip
MOST_AGAIN, MOST_CHECKS = 4, 4
MOST_DATA = 8_192
NO_SECRET = Cause(Code.NO_SECRET)
# the flags of the requests: that the stage is left, from which one and to which
FLAGS = {"names": 0x81, "method": 0x00, "proof": 0x81, "operation": 0x87}
LEAVES = 0x80


def sent(name: bytes) -> bytes:
    """What is sent of a name: it ends before its first zero byte, which would end its key's text."""
    return name.split(b"\0", 1)[0]


@dataclass(frozen=True)
class Names:
    """Who logs in, and to what; a secret or a user that isn't set is empty."""

    initiator: bytes
    target: bytes
    lun: bytes = bytes(8)
    user: bytes = b""
    secret: bytes = b""
    reverse_user: bytes = b""
    reverse_secret: bytes = b""

    def sent(self) -> Names:
        """What counts of them: of the initiator's name and the user what is sent, of the others all bytes."""
        return replace(self, initiator=sent(self.initiator), user=sent(self.user))


class Said(NamedTuple):
    """What a PDU makes of the session: what is said, whether it is open by that, and how it ends."""

    text: bytes = b""
    opens: bool = False
    cause: Cause | None = None


@dataclass
class Session:
    """The session, with the random words of its open."""

    names: Names
    words: list[int]
    stage: str = "names"
    again: int = 0
    # the number that the target's next answer has, and those of the next command
    answer: int = 0
    command: int = 1
    tag: int = 2
    checks: int = 0
    # the bytes that the command at work asks for, and those that came for it
    wanted: int = 0
    got: bytes = b""
    chap: int = 0
    blocks: int | None = None
    # what was read last
    read: bytes | None = None

    @property
    def is_open(self) -> bool:
        return self.stage in ("ready", "size", "idle", "block")

    def first(self) -> bytes:
        names = self.names
        method = b"AuthMethod=CHAP,None" if names.user and names.secret else b"AuthMethod=None"
        keys = (b"InitiatorName=" + names.initiator, b"TargetName=" + names.target, b"SessionType=Normal", method)
        return self._request(texts(*keys))

    def _request(self, keys: bytes) -> bytes:
        """A login's request of the stage."""
        session = bytes([0x80]) + word(self.words[1])[1:] + bytes(2) + bytes(2)
        numbers = (word(1), bytes(4), word(1), word(self.answer))
        return Pdu(head(IMMEDIATE | LOGIN_REQUEST, FLAGS[self.stage], session, *numbers), keys).spelled()

    def takes(self, rec: int, pdu: Pdu) -> Said:
        return self._does(rec, pdu) if self.is_open else self._logs_in(rec, pdu)

    # the login

    def _logs_in(self, rec: int, pdu: Pdu) -> Said:
        broken = Said(cause=Cause(Code.BROKEN, rec))
        if pdu.opcode != LOGIN_RESPONSE:
            return broken
        self.answer = int.from_bytes(pdu.head[24:28], "big") + 1
        kind, detail = pdu.head[36:38]
        if kind:
            return Said(cause=Cause(Code.REFUSED, rec, kind * 256 + detail))
        flags, leaves = FLAGS[self.stage], pdu.flags & LEAVES != 0
        if leaves and (not flags & LEAVES or pdu.flags & 3 != flags & 3):
            return broken
        keys = pdu.keys()
        if {keys.get(name, b"None") for name in (b"HeaderDigest", b"DataDigest")} != {b"None"}:
            return broken
        return getattr(self, f"_{self.stage}")(keys, leaves) or broken

    def _goes_to(self, stage: str, keys: bytes) -> Said:
        self.stage = stage
        return Said(self._request(keys))

    def _repeats(self) -> Said | None:
        """The stage isn't left: the same request without keys, four times in all."""
        self.again += 1
        return Said(self._request(b"")) if self.again <= MOST_AGAIN else None

    def _names(self, keys: dict[bytes, bytes], leaves: bool) -> Said | None:
        names, method = self.names, keys.get(b"AuthMethod")
        if method == b"CHAP":
            if not (names.user and names.secret):
                return Said(cause=NO_SECRET)
            return self._goes_to("method", texts(b"CHAP_A=5"))
        if names.reverse_user and (leaves or method is not None):
            return None
        return self._goes_to("operation", OPERATIONAL) if leaves else self._repeats()

    def _method(self, keys: dict[bytes, bytes], leaves: bool) -> Said | None:
        challenge, number = value_of(keys.get(b"CHAP_C", b"")), number_of(keys.get(b"CHAP_I", b""))
        if keys.get(b"CHAP_A") != b"5" or challenge is None or number is None or number > 255:
            return None
        names = self.names
        response = md5(bytes([number]) + names.secret + challenge).hexdigest().encode()
        said = [b"CHAP_N=" + names.user, b"CHAP_R=0x" + response]
        if names.reverse_user:
            said += [b"CHAP_I=%d" % self._own()[0], b"CHAP_C=0x" + self._own()[1].hex().encode()]
        return self._goes_to("proof", texts(*said))

    def _own(self) -> tuple[int, bytes]:
        """Our identifier and challenge."""
        return self.words[2] & 0xFF, b"".join(map(word, self.words[3:7]))

    def _proof(self, keys: dict[bytes, bytes], leaves: bool) -> Said | None:
        names, (number, challenge) = self.names, self._own()
        self.chap = 1
        if names.reverse_user:
            wanted = md5(bytes([number]) + names.reverse_secret + challenge).digest()
            if (keys.get(b"CHAP_N"), value_of(keys.get(b"CHAP_R", b""))) != (names.reverse_user, wanted):
                return None
            self.chap = 2
        return self._goes_to("operation", OPERATIONAL) if leaves else self._repeats()

    def _operation(self, keys: dict[bytes, bytes], leaves: bool) -> Said | None:
        if not leaves:
            return self._repeats()
        self.stage = "ready"
        return Said(self._asks(0x81, 0, b""), opens=True)

    # the commands

    def reads(self, place: int, count: int) -> bytes:
        """Blocks are asked for, where no command is at work."""
        assert self.stage == "idle"
        self.stage, self.read = "block", None
        return self._asks(0xC1, BLOCK * count, b"\x28\0" + word(place) + b"\0" + count.to_bytes(2, "big") + b"\0")

    def _asks(self, flags: int, length: int, block: bytes) -> bytes:
        """A SCSI command."""
        self.wanted, self.got = length, b""
        numbers = (word(self.tag), word(length), word(self.command), word(self.answer))
        self.tag, self.command = self.tag + 1, self.command + 1
        return Pdu(head(COMMAND, flags, self.names.lun, *numbers, block)).spelled()

    def _does(self, rec: int, pdu: Pdu) -> Said:
        broken = Said(cause=Cause(Code.BROKEN, rec))
        if pdu.opcode == PING_IN:
            return self._answers(pdu)
        if pdu.opcode not in (RESPONSE, DATA_IN) or self.stage == "idle" or pdu.tag != word(self.tag - 1):
            return broken
        has_status = pdu.opcode == RESPONSE or pdu.flags & STATUS != 0
        if pdu.opcode == DATA_IN:
            place = int.from_bytes(pdu.head[40:44], "big")
            if place != len(self.got) or len(self.got) + len(pdu.data) > self.wanted:
                return broken
            self.got += pdu.data
        elif pdu.head[2]:
            return broken
        if not has_status:
            return Said()
        self.answer = int.from_bytes(pdu.head[24:28], "big") + 1
        return self._is_done(rec, pdu.head[3]) or broken

    def _answers(self, pdu: Pdu) -> Said:
        """A NOP-In: where it has a tag, it is answered."""
        if pdu.head[20:24] == NO_TAG:
            return Said()
        numbers = (NO_TAG, pdu.head[20:24], word(self.command), word(self.answer))
        return Said(Pdu(head(IMMEDIATE | PING_OUT, FINAL, pdu.head[8:16], *numbers)).spelled())

    def _is_done(self, rec: int, status: int) -> Said | None:
        """The command at work has this status."""
        if self.stage == "ready" and status == CHECK_CONDITION and self.checks + 1 < MOST_CHECKS:
            self.checks += 1
            return Said(self._asks(0x81, 0, b""))
        if status != GOOD:
            return Said(cause=Cause(Code.REFUSED, rec, status))
        if self.stage == "ready":
            self.stage = "size"
            return Said(self._asks(0xC1, 8, b"\x25"))
        if len(self.got) != self.wanted:
            return None
        if self.stage == "block":
            self.stage, self.read = "idle", self.got
            return Said()
        last, length = int.from_bytes(self.got[:4], "big"), int.from_bytes(self.got[4:], "big")
        if length != BLOCK or last == 0xFFFF_FFFF:
            return None
        self.stage, self.blocks = "idle", last + 1
        return Said()
