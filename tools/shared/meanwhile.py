"""What came while a command waited, and why it didn't count."""

from __future__ import annotations

from collections import Counter
from dataclasses import dataclass, field
from ipaddress import IPv4Address

from shared.frames import packet_of
from shared.answers import is_answer, refused, unreachable
from shared.judges import AGAIN, ALREADY, ECHO_ANSWERED, Judge, judge_of
from shared.kinds import OpenKind
from shared.records import Open, Start
from shared.texts import count, mac
from shared.wire import ARP, IPV4

GROUP_BIT = 1
MOST_REASONS = 64
# where an ARP request has its sender's address, and where an IPv4 packet has it, in their frames
SENDERS = {ARP: slice(28, 32), IPV4: slice(26, 30)}


def sender_of(asked: list[bytes]) -> IPv4Address | None:
    """The address from which the last of these frames was sent."""
    frame = asked[-1] if asked else b""
    place = SENDERS.get(int.from_bytes(frame[12:14], "big"))
    address = frame[place] if place else b""
    return IPv4Address(address) if len(address) == 4 else None


@dataclass(slots=True)
class Meanwhile:
    """The frames that came while an open lived, judged as the client judges them."""

    start: Start
    judge: Judge
    opened: Open
    reasons: Counter[str] = field(default_factory=Counter)
    # what came of the host that was asked, or on it by ICMP, and of it what says more than that it came
    answers: Counter[str] = field(default_factory=Counter)
    said: str | None = None
    hosts: set[IPv4Address] = field(default_factory=set)

    def take(self, frame: bytes) -> None:
        """Counts a frame that brought the open nothing; one that did begins the count anew."""
        reason = self._reason(frame)
        if reason is None:
            self.reasons.clear()
            self.answers.clear()
            self.said = None
            return
        self._note_answer(frame, reason)
        if reason in self.reasons or len(self.reasons) < MOST_REASONS:
            self.reasons[reason] += 1

    def lines(self) -> list[str]:
        """What came since the open went on last, the most first."""
        return [f"{count(n, 'frame')}: {reason}" for reason, n in self.reasons.most_common(8)]

    def answer(self) -> str | None:
        """The beginning of a sentence on an answer that came and didn't count, where one came."""
        if self.said or not self.answers:
            return self.said
        reason, number = self.answers.most_common(1)[0]
        who = "a DHCP server" if self.opened.kind is OpenKind.DHCP else str(self.opened.server)
        return f"{who} answered, and the client didn't take it: {count(number, 'frame')}, {reason}"

    def _note_answer(self, frame: bytes, reason: str) -> None:
        packet = packet_of(frame)
        if packet is None or reason == ECHO_ANSWERED or AGAIN in reason or reason.endswith(ALREADY):
            return
        refusal = unreachable(packet, self.opened) or refused(packet, self.opened, reason)
        self.said = self.said or refusal
        if is_answer(packet, self.opened) and (reason in self.answers or len(self.answers) < MOST_REASONS):
            self.answers[reason] += 1

    def _reason(self, frame: bytes) -> str | None:
        """Why a frame didn't count, or None where it did."""
        to, kind = frame[:6], int.from_bytes(frame[12:14], "big")
        if to != self.start.mac and not to[0] & GROUP_BIT:
            return f"the hardware address {mac(to)} isn't the client's, {mac(self.start.mac)}"
        if kind == ARP:
            if len(frame) >= 42 and len(self.hosts) < MOST_REASONS:
                self.hosts.add(IPv4Address(frame[28:32]))
            return "ARP, which only says where hosts are"
        if kind != IPV4:
            return f"Ethernet type 0x{kind:04x}, which is neither ARP nor IPv4"
        packet = packet_of(frame)
        if packet is None or not packet.is_sound:
            return "no well-formed IPv4 packet, or its header's checksum is wrong"
        return self.judge.reason(packet)


def meanwhile_of(start: Start, opened: Open, asked: list[bytes]) -> Meanwhile | None:
    """Of an open, with the frames of the tries of what it sent last; None where its answers can't be judged yet."""
    judge = judge_of(sender_of(asked) or start.ip, opened, asked)
    return Meanwhile(start, judge, opened) if judge else None
