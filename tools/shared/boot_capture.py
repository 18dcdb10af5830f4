"""A capture as the input of a run: which frames a client received, and when.

The capture is read once, packet by packet. What was met on the way is counted, for warnings.
"""

from __future__ import annotations

import shutil
import tempfile
from collections import Counter
from contextlib import contextmanager
from dataclasses import dataclass, field
from ipaddress import IPv4Address
from pathlib import Path
from typing import BinaryIO, Callable, Iterator, NamedTuple

from shared.capture import NANOSECONDS, Packet, read_capture
from shared.captured_web import ACK, Connections, Segment, host_of, length_asked, segment_of
from shared.checksums import Sums, filled, led_to, readdressed, renumbered, sums_of
from shared.command_line import STANDARD, Refused, opened, read_stream
from shared.conversations import Request, Requests, request_of
from shared.cooked import Receivers
from shared.fields import CutOff
from shared.frames import ends_of, packet_of
from shared.joined import cut
from shared.records import MAX_FRAME, MIN_FRAME, Received, Record, Tick
from shared.texts import count, mac
from shared.leases import lease_message_in
from shared.wire import PROTOCOL_UDP
from shared.wire_dhcp import Operation, Tag

MILLISECOND = NANOSECONDS // 1000
GROUP_BIT = 1
FIRST_OWN_PORT = 49_152
OWN_PORTS = 16_384
MOST_COUNTED = 1_024
# a day: what comes later is no boot, but a clock that jumped
LONGEST = 24 * 3600 * 1000


@contextmanager
def reopenable(path: Path) -> Iterator[Path]:
    """A file that can be read twice: the file itself, or a copy of what a pipe gives."""
    if path != STANDARD and path.is_file():
        yield path
        return
    with tempfile.NamedTemporaryFile(prefix="netboot-") as copy, opened(path) as stream:
        shutil.copyfileobj(stream, copy)
        copy.flush()
        yield Path(copy.name)


class Reader:
    """Reads the packets of a capture; a file that ends inside a packet ends the capture."""

    def __init__(self, path: Path, name: Path, known: dict[bytes, bytes]) -> None:
        self.path = path
        self.name = name
        self.known = known
        self.cut_off: str | None = None

    def packets(self) -> Iterator[Packet]:
        receivers = Receivers(self.known)
        with self.path.open("rb") as stream:
            for packet in read_stream(self.name, stream, self._until_cut_off):
                frame = receivers.complete(packet.frame)
                yield Packet(packet.offset, packet.time, frame, packet.length)

    def _until_cut_off(self, stream: BinaryIO) -> Iterator[Packet]:
        packets, number = read_capture(stream), 0
        try:
            for packet in packets:
                number += 1
                yield packet
        except CutOff as damage:
            if not number:
                raise
            self.cut_off = f"{damage}; {count(number, 'packet')} before it"


def first_request(reader: Reader, device: bytes | None) -> Request | None:
    """The first request in a capture, of this device where one is given."""
    requests = Requests()
    for packet in reader.packets():
        request = requests.of(packet)
        if request and device in (None, request.mac):
            return request
    return None


class Span(NamedTuple):
    """A part of a capture's time, in nanoseconds: its packets are taken, those at its ends too."""

    begin: int
    end: int | None = None


@dataclass(frozen=True, slots=True)
class LeaseReplayed:
    """How a lease's answers are changed: those of its server have the run's number, those of others are left out."""

    server: IPv4Address
    number: int


@dataclass(slots=True)
class Taken:
    """Which part of a capture is taken, for which device, and how.

    Where there are spans, time goes on from the end of one at the beginning of the next, where `first` is received. Where
    answers are led to the run's opens, these have ports, first numbers by TCP, and the hosts that the script names.
    """

    device: bytes
    longest_tick: int = 250
    begin: int | None = None
    is_trimmed: bool = False
    until: int | None = None
    skips: bool = False
    fills: bool = False
    own_port: Callable[[int], int] | None = None
    own_number: Callable[[int], int] = lambda _: 0
    script: bytes = b""
    spans: tuple[Span, ...] = ()
    first: bytes | None = None
    lease: LeaseReplayed | None = None


@dataclass(slots=True)
class Met:
    """What was met in a capture, counted."""

    packets: int = 0
    records: int = 0
    taken: int = 0
    skipped: int = 0
    unfilled: int = 0
    wrong: int = 0
    readdressed: int = 0
    acknowledged: int = 0
    connections: int = 0
    asked_again: int = 0
    joined: int = 0
    cut_into: int = 0
    renumbered: int = 0
    outside: int = 0
    offers_left_out: int = 0
    began_late: int = 0
    others: Counter[bytes] = field(default_factory=Counter)
    ports: dict[int, int] = field(default_factory=dict)


class Conversion:
    """The records of a capture: the frames that the device received, and the time between them."""

    def __init__(self, reader: Reader, taken: Taken) -> None:
        self.reader = reader
        self.taken = taken
        self.met = Met()
        self.connections = Connections()
        self.zero: int | None = None
        self.now = 0

    def records(self) -> Iterator[Record]:
        last = 0
        for packet in self.reader.packets():
            self.met.packets += 1
            time = self._time_of(packet)
            if time is None:
                continue
            if self.taken.spans and packet.time >= self.taken.spans[-1].begin:
                yield from self._first(time)
            if self.taken.until is not None and time > self.taken.until:
                break
            self._check_time(packet, time)
            last = max(last, time)
            for frame in self._received(packet):
                self.met.taken += 1
                yield from self.ticks(time)
                yield Received(frame)
        yield from self.ticks(last if self.taken.until is None else self.taken.until)

    def _check_time(self, packet: Packet, time: int) -> None:
        if time > LONGEST:
            where = f"{self.reader.name}: the packet at byte {packet.offset}"
            raise Refused(
                f"{where} comes {time // 1000} s after the beginning, over a day: --from, --trim "
                "and --until take a part of a capture"
            )

    def ticks(self, time: int) -> Iterator[Tick]:
        """TICKs from now to this time, in milliseconds."""
        while self.now < time:
            milliseconds = min(time - self.now, self.taken.longest_tick)
            self.now += milliseconds
            yield Tick(milliseconds)

    def _first(self, time: int) -> Iterator[Record]:
        """The frame that is received where the last span begins."""
        if self.taken.first:
            yield from self.ticks(time)
            yield Received(self.taken.first)
            self.taken.first = None

    def _time_of(self, packet: Packet) -> int | None:
        """A packet's time in milliseconds since the run's beginning, where it is of the run."""
        if not self.taken.spans:
            return (packet.time - (self.zero or 0)) // MILLISECOND if self._has_begun(packet) else None
        passed = 0
        for begin, end in self.taken.spans:
            if begin <= packet.time and (end is None or packet.time <= end):
                return (passed + packet.time - begin) // MILLISECOND
            passed += (end or begin) - begin
        self.met.outside += 1
        return None

    def _has_begun(self, packet: Packet) -> bool:
        """Whether the run's time has begun, which is the time of its first packet."""
        if self.zero is None:
            if self.taken.is_trimmed and not self._is_of_device(packet.frame):
                return False
            self.zero = packet.time + (self.taken.begin or 0)
        return self.taken.begin is None or packet.time >= self.zero

    def _is_of_device(self, frame: bytes) -> bool:
        return self.taken.device in (frame[:6], frame[6:12])

    def _received(self, packet: Packet) -> list[bytes]:
        """The frame, where the device receives it and a FRAME record holds it; of a joined one the segments."""
        frame = packet.frame
        if len(frame) < MIN_FRAME:
            return self._skipped(packet)
        if frame[6:12] == self.taken.device:
            self._note_sent(packet)
            return []
        if frame[:6] != self.taken.device and not frame[0] & GROUP_BIT:
            if len(self.met.others) < MOST_COUNTED or frame[:6] in self.met.others:
                self.met.others[frame[:6]] += 1
            return []
        if packet.length != len(frame):
            return self._skipped(packet)
        pieces = [frame] if len(frame) <= MAX_FRAME else self._cut(frame)
        if not pieces:
            return self._skipped(packet)
        found = (self._of_lease(self._checked(piece)) for piece in pieces)
        return [self._led(one) for one in found if one]

    def _cut(self, frame: bytes) -> list[bytes]:
        pieces = cut(frame)
        self.met.joined += bool(pieces)
        self.met.cut_into += len(pieces)
        return pieces

    def _of_lease(self, frame: bytes) -> bytes | None:
        """The frame, with the run's number where it answers for the lease; None where another server's does."""
        if self.taken.lease is None:
            return frame
        message = lease_message_in(frame)
        if message is None or message.operation != Operation.SERVER or message.mac != self.taken.device:
            return frame
        if message.address(Tag.SERVER) != self.taken.lease.server:
            self.met.offers_left_out += 1
            return None
        self.met.renumbered += 1
        return renumbered(frame, self.taken.lease.number)

    def _note_sent(self, packet: Packet) -> None:
        segment = segment_of(packet.frame)
        if segment is None:
            request = request_of(packet)
            self._note_asked(packet, request.port if request else None)
            return
        self.connections.sends(segment, packet.time)
        self.met.asked_again += segment.body.startswith(b"GET ") and self._requests_on(segment) > 1
        if segment.begins and not segment.flags & ACK:
            self.met.connections += segment.ends.source_port not in self.met.ports
            self._note_asked(packet, segment.ends.source_port)

    def _requests_on(self, segment: Segment) -> int:
        connection = self.connections.known.get(segment.ends)
        return connection.requests if connection else 0

    def _note_asked(self, packet: Packet, port: int | None) -> None:
        """From this port the device asks, for the first time or again."""
        if port is not None and port not in self.met.ports:
            self.met.ports[port] = len(self.met.ports)
            if len(self.met.ports) == 1 and not self.taken.spans:
                self.met.began_late = (packet.time - (self.zero or 0)) // MILLISECOND

    def _skipped(self, packet: Packet) -> list[bytes]:
        if self.taken.skips:
            self.met.skipped += 1
            return []
        kept = len(packet.frame)
        what = f"has {kept} bytes, not {MIN_FRAME} to {MAX_FRAME}"
        if packet.length != kept:
            what = f"was cut by the capture: {kept} of {packet.length} bytes"
        where = f"{self.reader.name}: the packet at byte {packet.offset}"
        raise Refused(f"{where} {what}; --skip leaves out such frames")

    def _checked(self, frame: bytes) -> bytes:
        sums = sums_of(frame)
        if sums is Sums.WRONG:
            self.met.wrong += 1
        if sums is not Sums.UNFILLED:
            return frame
        self.met.unfilled += 1
        return filled(frame) if self.taken.fills else frame

    def _led(self, frame: bytes) -> bytes:
        """The frame, led to the run's open where it answers one of the capture's."""
        if self.taken.own_port is None:
            return frame
        packet = packet_of(frame)
        number = self.met.ports.get(ends_of(packet).target_port) if packet and not packet.is_fragment else None
        if packet is None or number is None:
            return frame
        segment = segment_of(frame)
        if segment is not None:
            return self._acknowledging(frame, segment, number)
        if packet.protocol != PROTOCOL_UDP:
            return frame
        self.met.readdressed += 1
        return readdressed(frame, self.taken.own_port(number))

    def _acknowledging(self, frame: bytes, segment: Segment, number: int) -> bytes:
        """A segment, led to the run's connection: it acknowledges what that one sends."""
        connection = self.connections.answered(segment)
        if connection is None or self.taken.own_port is None:
            return frame
        length = 0
        if connection.asked:
            host = connection.asked.host
            is_named = host != b"" and b"//" + host in self.taken.script
            by_address = host_of(segment.ends.source, segment.ends.source_port)
            length = length_asked(connection.asked, host if is_named else by_address)
        self.met.acknowledged += 1
        acknowledged = connection.acknowledged(segment.acknowledged, self.taken.own_number(number), length)
        return led_to(frame, self.taken.own_port(number), acknowledged)


def warnings(conversion: Conversion, w: int) -> Iterator[str]:
    """What a person should know of a capture that was taken."""
    met, taken = conversion.met, conversion.taken
    if conversion.reader.cut_off:
        yield f"the capture is cut off: {conversion.reader.cut_off}"
    if not met.taken:
        yield _nothing(met, taken.device)
    if met.skipped:
        yield f"{count(met.skipped, 'frame')} skipped: cut by the capture, or not 14 to 1522 bytes"
    if met.unfilled and not taken.fills:
        yield (
            f"{met.unfilled} of {count(met.taken, 'frame')} have checksums that the network card "
            "fills in later, and the client drops them: --fix-checksums mends them"
        )
    if met.wrong:
        of_all = f"{met.wrong} of {count(met.taken, 'frame')}"
        yield f"{of_all} have wrong checksums, and the client drops them"
    if met.asked_again:
        yield (
            f"the capture's client asked {count(met.asked_again, 'time')} more on a connection that it had, and the run "
            "begins one for each file: what answers those isn't taken for it"
        )
    if taken.own_port is None:
        yield from _ports(met, w)
    if met.began_late >= 1_000 and not taken.is_trimmed and taken.begin is None:
        yield (
            f"the device's first request comes after {met.began_late / 1000:.3f} s: "
            "--trim begins at its first frame"
        )


def _nothing(met: Met, device: bytes) -> str:
    said = f"none of {count(met.packets, 'packet')} is for {mac(device)}"
    most = ", ".join(f"{n} for {mac(address)}" for address, n in met.others.most_common(3))
    return f"{said}; there are {most}" if most else said


def _ports(met: Met, w: int) -> Iterator[str]:
    if met.connections:
        yield (
            "the run's connections have other first numbers than the capture's, so what comes on those isn't taken: "
            "--map-ports leads it to them"
        )
        return
    wanted = [FIRST_OWN_PORT + (w + number) % OWN_PORTS for number in range(len(met.ports))]
    if list(met.ports) != wanted:
        asked = ", ".join(map(str, list(met.ports)[:4])) + (", .." if len(met.ports) > 4 else "")
        yield (
            f"the capture's client asked from port {asked}, and the run's opens have the ports "
            f"from {wanted[0]} on: --map-ports leads its answers to them"
        )
