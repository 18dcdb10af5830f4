"""One live run: frames of a device and time go to a client as records, and what it says is taken.

The session never waits for one side while the other has something: what the client hasn't read yet
stands in a buffer, and frames that come while that is full are lost, as on a card without room.
"""

from __future__ import annotations

import select
import socket
import time
from contextlib import suppress
from dataclasses import dataclass, field
from typing import Callable, Protocol

from shared.capture import PcapWriter
from shared.command_line import Refused
from shared.devices import Device, silence
from shared.fields import Damaged
from shared.joined import cut
from shared.kinds import Status
from shared.records import (
    KINDS,
    MAX_FRAME,
    MAX_LENGTH,
    MIN_FRAME,
    Advance,
    Command,
    Direction,
    Done,
    Ended,
    Off,
    Open,
    Record,
    Result,
    Sent,
    Step,
    Text,
    Tick,
    record_of,
    spell,
)

# Between two TICKs at most a quarter of a second passes; finer ones make tries come at their times.
TICK_SECONDS = 0.05
# A client that hasn't begun with what it was given gets time in larger pieces, and in the end none, so
# that a script that never waits has no more than these records before an OFF.
AHEAD_SECONDS, BUSY_SECONDS = 0.2, 0.01
MOST_AHEAD = 5
MOST_MILLISECONDS = 60_000
MOST_SILENT_MILLISECONDS = 5_000
# A client that reads no more than this behind loses frames.
MOST_WAITING = 4 << 20
# below the size from which each buffer would be mapped anew
PIECE = 1 << 16
GROUP_BIT = 1
HEAD = 5
# where an IPv4 packet says its length (RFC 791, section 3.1)
PACKET_LENGTH = slice(16, 18)
FRAME_IN = b"\x02"
FRAME_TYPE, STEP_TYPE, ADVANCE_TYPE = Sent.TYPE, Step.TYPE, Advance.TYPE
OUTPUT_TYPES = frozenset(KINDS[Direction.OUTPUT])
# What a person sees of a run; the rest is only kept.
SHOWN = frozenset(kind.TYPE for kind in (Text, Command, Result, Open, Ended, Done))
# ARP and IPv4, which show that a device is connected
SPOKEN = (b"\x08\x06", b"\x08\x00")
# A client that has said DONE, or was told OFF, closes its side in this time.
MOST_SECONDS_TO_END = 10.0


class ClientFault(Exception):
    """What the client did that no client does."""


class Overdue(Exception):
    """The run didn't end in time after its power was switched off."""


@dataclass(slots=True)
class Counts:
    """What passed, and what was lost."""

    received: int = 0
    sent: int = 0
    joined: int = 0
    cut_into: int = 0
    too_long: int = 0
    not_taken: int = 0
    not_sent: int = 0
    lost: int = 0


class Written(Protocol):
    """A file that a recording is kept in."""

    def write(self, data: bytes) -> object: ...

    def flush(self) -> None: ...

    def truncate(self, size: int) -> object: ...

    def seek(self, place: int) -> object: ...


@dataclass(slots=True)
class Kept:
    """Files that a run is kept in, each where it is wanted."""

    input: Written
    output: Written
    pcap: PcapWriter | None = None

    def cut(self, whole: int) -> None:
        """Leaves the bytes of whole records of the output."""
        self.output.flush()
        self.output.truncate(whole)
        self.output.seek(whole)


class Records:
    """Cuts what the client sends into records."""

    def __init__(self) -> None:
        self.held = b""
        self.passed = 0

    def take(self, piece: bytes) -> list[bytes]:
        """The types and bodies of the records that are complete now."""
        held, at, found = self.held + piece if self.held else piece, 0, []
        size = len(held)
        while size - at >= HEAD:
            end = at + 4 + int.from_bytes(held[at : at + 4], "big")
            if not at + 4 < end <= at + 4 + MAX_LENGTH:
                raise ClientFault(f"byte {self.passed + at} of its output begins no record")
            if end > size:
                break
            found.append(held[at + 4 : end])
            at = end
        self.held = held[at:]
        self.passed += at
        return found


def quick(client: socket.socket) -> None:
    """What is sent goes out at once."""
    client.setsockopt(socket.IPPROTO_TCP, socket.TCP_NODELAY, 1)


@dataclass
class Session:
    """A client that is connected, and the device that it is led to.

    What comes is passed on first, and written down and shown afterwards, while the other side works. Where `loses` says so
    a frame is lost, either way, as on a bad network.
    """

    client: socket.socket
    device: Device
    mac: bytes
    kept: Kept
    take: Callable[[int, Record], None]
    say: Callable[[str], None]
    loses: Callable[[], bool] = lambda: False
    counts: Counts = field(default_factory=Counts)
    status: Status | None = None
    is_off: bool = False
    wants_off: bool = False
    is_overdue: bool = False
    is_showing: bool = False

    def run(self, start: bytes) -> None:
        """Runs from START to the client's end. `ClientFault` where it is no client of ours."""
        self.records, self.waiting = Records(), bytearray()
        self.last = time.monotonic()
        self.step, self.now, self.is_ended = 0, 0, False
        self.silent_from: int | None = 0
        self.lengths: dict[int, int] = {}
        self.number, self.waits_to_send = 0, False
        quick(self.client)
        self.client.setblocking(False)
        with select.epoll() as self.poll:
            self.poll.register(self.client, select.EPOLLIN)
            self.poll.register(self.device, select.EPOLLIN)
            self._put(start)
            while not self.is_ended and not self.is_overdue:
                self._turn()
        if self.is_off and self.status is None:
            self.kept.cut(self.records.passed)

    def switch_off(self) -> None:
        """The client's power is switched off at the next turn."""
        self.wants_off = True

    def give_up(self) -> None:
        """The client isn't waited for any more; from a signal's handler, also while the terminal is."""
        self.is_overdue = True
        if self.is_showing:
            raise Overdue

    def _put(self, spelled: bytes) -> None:
        """Gives the client a record, and keeps it."""
        self.waiting += spelled
        self.number += 1
        self._send()
        self.kept.input.write(spelled)

    def _turn(self) -> None:
        until = self.last + TICK_SECONDS - time.monotonic()
        least = BUSY_SECONDS if self.number > self.step else 0
        ready = self.poll.poll(max(until, least))
        self._pass_time()
        device = self.device.fileno()
        for number, events in ready:
            if number == device:
                self._take_frame()
            elif events & ~select.EPOLLOUT:
                self._take_output()
            elif not self.is_ended:
                self._send()

    def _pass_time(self) -> None:
        """A TICK for the milliseconds that passed; OFF where that is wanted."""
        passed = int((time.monotonic() - self.last) * 1000)
        if self.status is not None or self.is_off:
            self.is_ended = self.is_ended or passed > MOST_SECONDS_TO_END * 1000
            return
        if passed >= TICK_SECONDS * 1000 and not self._is_ahead(passed):
            passed = min(passed, MOST_MILLISECONDS)
            self.last += passed / 1000
            self.now += passed
            self._put(spell(Tick(passed)))
            self._notice_silence()
        if self.wants_off:
            self.is_off = True
            self._put(spell(Off()))

    def _is_ahead(self, passed: int) -> bool:
        """Whether the client has work enough, so that time waits."""
        ahead = self.number - self.step
        return ahead > MOST_AHEAD or (ahead > 1 and passed < AHEAD_SECONDS * 1000)

    def _notice_silence(self) -> None:
        """Says once that nobody speaks at the device."""
        if self.silent_from is None or self.now - self.silent_from < MOST_SILENT_MILLISECONDS:
            return
        self.silent_from = None
        self.say(silence(self.device.name, MOST_SILENT_MILLISECONDS // 1000))

    def _take_frame(self) -> None:
        try:
            frame = self.device.receive()
        except BlockingIOError:
            return
        except OSError as error:
            raise Refused(f"{self.device.name}: {error.strerror}") from error
        if frame is None or not self._is_for_client(frame):
            return
        if frame[12:14] in SPOKEN:
            self.silent_from = self.now
        for piece in self._pieces(frame):
            if self.loses():
                self.counts.lost += 1
            elif len(self.waiting) > MOST_WAITING:
                self.counts.not_taken += 1
            elif self.status is None and not self.is_off:
                self._put_frame(piece)

    def _pieces(self, frame: bytes) -> list[bytes]:
        """The frame, or the segments of one that was joined; none where no record holds it."""
        if MIN_FRAME <= len(frame) <= MAX_FRAME:
            return [frame]
        pieces = cut(frame)
        if not pieces:
            self.counts.too_long += 1
            return []
        self.counts.joined += 1
        self.counts.cut_into += len(pieces)
        return pieces

    def _is_for_client(self, frame: bytes) -> bool:
        is_to = frame[:6] == self.mac or (len(frame) > 0 and frame[0] & GROUP_BIT)
        return bool(is_to) and frame[6:12] != self.mac

    def _put_frame(self, frame: bytes) -> None:
        self._put((len(frame) + 1).to_bytes(4, "big") + FRAME_IN + frame)
        self.lengths[self.number] = int.from_bytes(frame[PACKET_LENGTH], "big")
        self.counts.received += 1
        if self.kept.pcap:
            self.kept.pcap.put(self.now, frame)

    def _send(self) -> None:
        """Sends what waits, as far as the client takes it."""
        try:
            if self.waiting:
                del self.waiting[: self.client.send(self.waiting)]
        except BlockingIOError:
            pass
        except ConnectionError:
            self.waiting.clear()
        if bool(self.waiting) != self.waits_to_send:
            self.waits_to_send = not self.waits_to_send
            wanted = select.EPOLLIN | (select.EPOLLOUT if self.waits_to_send else 0)
            self.poll.modify(self.client, wanted)

    def _take_output(self) -> None:
        try:
            piece = self.client.recv(PIECE)
        except BlockingIOError:
            return
        except ConnectionError:
            piece = b""
        if not piece:
            self.is_ended = True
            return
        contents = self.records.take(piece)
        for content in contents:
            if content[0] == FRAME_TYPE:
                self._send_frame(content[1:])
        self.kept.output.write(piece)
        for content in contents:
            self._take_record(content)

    def _send_frame(self, frame: bytes) -> None:
        self.counts.sent += 1
        if self.loses():
            self.counts.lost += 1
            return
        try:
            self.device.send(frame)
        except OSError:
            self.counts.not_sent += 1

    def _take_record(self, content: bytes) -> None:
        kind = content[0]
        if kind == FRAME_TYPE:
            if self.kept.pcap:
                self.kept.pcap.put(self.now, content[1:])
        elif kind == STEP_TYPE:
            self.lengths.pop(self.step, None)
            self.step = int.from_bytes(content[1:5], "big")
        elif kind == ADVANCE_TYPE:
            number, place = content[1:3], content[3:7]
            advance = Advance(int.from_bytes(number, "big"), int.from_bytes(place, "big"))
            self._give(advance)
        elif kind in SHOWN:
            self._show(content)
        elif kind not in OUTPUT_TYPES:
            raise ClientFault(f"a record of its output has type 0x{kind:02x}, which none has")

    def _show(self, content: bytes) -> None:
        try:
            record = record_of(KINDS[Direction.OUTPUT], content, 0)
        except Damaged as damage:
            raise ClientFault(f"a record of its output is damaged: {damage}") from damage
        if isinstance(record, Done):
            self.status, self.last = record.status, time.monotonic()
            self.waiting.clear()
            with suppress(OSError):
                self.client.shutdown(socket.SHUT_WR)
        self._give(record)

    def _give(self, record: Record) -> None:
        """Shows a record; a terminal that stands still holds that up, and nothing else."""
        self.is_showing = True
        try:
            self.take(self.lengths.get(self.step, 0), record)
        finally:
            self.is_showing = False
