"""A second reading of a fetch by HTTP: a connection (RFC 9293), its one response (RFC 9112), and the records of both.

It is written from the RFCs and docs/RECORDS.md. Bytes are kept one by one; web_reader.py reads the response.
"""

from __future__ import annotations

from dataclasses import dataclass, field, replace
from ipaddress import IPv4Address

from shared.causes import OK, Cause, Code
from shared.kinds import PartKind, Status
from shared.records import Advance, Done, Off, Part, Received, Record, Result, Sent, Step, Tick, Try
from shared.wire import PROTOCOL_TCP, Station, packet_frame, segment
from tests import made
from tests.script_rows import Row
from tests.web_reader import Reader, Taken
from tests.web_records import ACK, FIN, OUR_SIZE, RST, SYN, Connection, Segment, request

WINDOW = 65_535
ARP = b"\x08\x06"
HALF = 1 << 31
MOST_MOVES = 5
COMMON = (250, 500, 1_000, 2_000, 4_000, 8_000)
PROBES = (15_000,) * 5
MANY_MOVES = Cause(Code.TOO_MANY, 2)


def ahead(from_: int, to: int) -> int:
    """How far a number is ahead of another, or behind it."""
    distance = (to - from_) & 0xFFFF_FFFF
    return distance if distance < HALF else distance - (1 << 32)


@dataclass
class Timer:
    """One timer: the plan that runs, and when it is due."""

    plan: tuple[int, ...] = COMMON
    due: int = COMMON[0]
    tries: int = 1

    def start(self, plan: tuple[int, ...], now: int) -> None:
        self.plan, self.due, self.tries = plan, now + plan[0], 1 if plan is COMMON else 0

    def fires(self, now: int) -> int | None:
        """The number of a try that is due, 0 where the plan is over, None else."""
        if now < self.due:
            return None
        tried = self.tries if self.plan is COMMON else self.tries + 1
        if tried == len(self.plan):
            return 0
        self.tries += 1
        self.due = now + self.plan[tried]
        return self.tries


@dataclass
class Talk:
    """One open by HTTP, from its OPEN on."""

    wire: Connection
    text: bytes
    now: int
    is_open: bool = False
    held: dict[int, int] = field(default_factory=dict)
    stop: int | None = None
    next: int = 0
    acked: int = 0
    upto: int = 0
    sent: int = 0
    size: int = 536
    room: int = 0
    timer: Timer = field(default_factory=Timer)
    reader: Reader = field(default_factory=Reader)
    over: Cause | None = None
    moved: bytes | None = None
    # two FINs came at different places
    is_broken: bool = False

    def __post_init__(self) -> None:
        self.timer.start(COMMON, self.now)

    @property
    def has_ended(self) -> bool:
        return self.stop == self.next

    @property
    def taken(self) -> int:
        """What is acknowledged: a FIN that was reached counts one."""
        return self.next + self.has_ended

    def acks(self) -> Record:
        return self.wire.acks(self.taken, self.sent)

    def closing(self) -> Record | None:
        """What a close from above sends; nothing where the connection has ended by itself."""
        if self.is_broken:
            return None
        if not self.is_open:
            reset = Segment(self.wire.ours + 1, 0, RST | ACK, 0)
            return Sent(self.wire.frame_of(reset))
        if self.stop is None:
            return self.wire.resets(self.taken, self.sent)
        return self.wire.finishes(self.taken, self.sent)

    def goes_on(self, advanced: bool, now: int) -> list[Record]:
        """The next segment of the text, where there is one to send."""
        is_free = self.acked == self.sent and self.acked < len(self.text)
        if (advanced and self.acked < self.sent) or is_free:
            most = min(max(self.size, 1), max(self.room, 1), 1_460)
            self.upto = min(self.acked + most, len(self.text))
            self.sent = max(self.sent, self.upto)
            self.timer.start(COMMON, now)
            return self.tried(1)
        if self.acked == self.sent:
            self.timer.start(PROBES, now)
        return []

    def tried(self, attempt: int) -> list[Record]:
        return self.wire.text(self.text[self.acked : self.upto], attempt, self.acked, self.taken)

    # time

    def passes(self, now: int) -> list[Record]:
        attempt = self.timer.fires(now)
        if attempt is None:
            return self.wire.passed()
        if attempt == 0:
            self.over = Cause(Code.TIMED_OUT, 6 if self.timer.plan is COMMON else 4)
            return self.wire.passed(over=self.over)
        if not self.is_open:
            return self.wire.passed(*self.wire.syn(attempt))
        if self.acked < self.sent:
            return self.wire.passed(*self.tried(attempt))
        probe = self.wire.sent(ACK, self.sent - 1, self.taken)
        return self.wire.passed(Try(self.wire.number, attempt), probe)

    # segments

    def comes(self, rec: int, come: Segment, now: int) -> list[Record]:
        if not self.is_open:
            return self._asking(rec, come, now)
        before = (self.wire.theirs + 1 + self.next) & 0xFFFF_FFFF
        if come.flags & RST:
            distance = (come.number - before) & 0xFFFF_FFFF
            if distance == 0:
                return self._ends(Cause(Code.REFUSED, rec, 65_535))
            return self.wire.came([self.acks()] if distance < WINDOW else [])
        if come.flags & SYN:
            return self.wire.came([self.acks()])
        if not come.flags & ACK:
            return self.wire.came([])
        step = ahead(self.wire.ours + 1 + self.acked, come.acknowledges)
        if step > 0 and self.acked + step > self.sent:
            return self.wire.came([self.acks()])
        return self._taken(rec, come, step, now)

    def _asking(self, rec: int, come: Segment, now: int) -> list[Record]:
        if not come.flags & ACK:
            return self.wire.came([])
        if come.acknowledges != (self.wire.ours + 1) & 0xFFFF_FFFF:
            if come.flags & RST:
                return self.wire.came([])
            return self.wire.came([Sent(self.wire.frame_of(Segment(come.acknowledges, 0, RST, 0)))])
        if come.flags & RST:
            return self._ends(Cause(Code.REFUSED, rec, 65_535))
        if not come.flags & SYN:
            return self.wire.came([])
        self.is_open, self.wire = True, replace(self.wire, theirs=come.number)
        self.room = come.window
        if come.options[:2] == OUR_SIZE[:2]:
            self.size = int.from_bytes(come.options[2:4], "big")
        acks = self.acks()
        return self.wire.came([acks, *self.goes_on(False, now)])

    def _ends(self, cause: Cause, *put: Record) -> list[Record]:
        self.over = cause
        return self.wire.came([*put], over=cause)

    def _taken(self, rec: int, come: Segment, step: int, now: int) -> list[Record]:
        was, was_ended, stop = self.next, self.has_ended, self.stop
        place = self.next + ahead(self.wire.theirs + 1 + self.next, come.number)
        if come.flags & FIN and self.next <= place + len(come.body) <= self.next + WINDOW:
            self.is_broken = stop is not None and stop != place + len(come.body)
            self.stop = place + len(come.body) if stop is None else stop
        for at, byte in enumerate(come.body, place):
            if was <= at < was + WINDOW:
                self.held.setdefault(at, byte)
        while self.next in self.held and self.next != self.stop:
            self.next += 1
        if step >= 0:
            self.acked, self.room = self.acked + step, come.window
        put: list[Record] = [Advance(self.wire.number, self.next)] if self.next > was else []
        # the acknowledgement stands before the text that goes on, at the place of what was sent before it
        if come.body or come.flags & FIN:
            put.append(self.acks())
        put += self.goes_on(step > 0, now)
        ups = self._delivers(rec, bytes(self.held[at] for at in range(was, self.next))) if self.next > was else []
        if self.has_ended and not was_ended:
            ups += self._finishes(rec)
        own, ended = Cause(Code.BROKEN, rec) if self.is_broken else None, self.over
        self.over = ended or own
        return self.wire.came(put, *ups, over=own, ended=ended)

    def _delivers(self, rec: int, piece: bytes) -> list[list[Record]]:
        """In one entry the reader takes piece after piece, until all is taken or the response is decided."""
        within: list[Record] = []
        while piece and self.over is None:
            taken = self.reader.take(rec, piece)
            piece = piece[taken.count :]
            within += self._did(taken)
        return [self.wire.read(*within, rest=piece != b"")]

    def _did(self, taken: Taken) -> list[Record]:
        self.over, self.moved = taken.cause, taken.moved
        if taken.moved is not None:
            return self.wire.moving(self.closing())
        body = self.wire.given() if taken.gives else []
        return [*body, *(self.wire.deciding(taken.cause, self.closing()) if taken.cause is not None else [])]

    def _finishes(self, rec: int) -> list[list[Record]]:
        if self.over is not None:
            return [self.wire.end_dropped()]
        self.over = self.reader.finish(rec)
        return [self.wire.decides(self.over, self.closing())]


def segment_for(wire: Connection, frame: bytes) -> Segment | None:
    """What a frame brings the connection: a segment of its server, from the port that is asked, to its own."""
    packet = frame[14:]
    body = packet[20:]
    is_segment = frame[12:14] == b"\x08\0" and packet[9] == PROTOCOL_TCP
    ports = wire.port.to_bytes(2, "big") + wire.own.to_bytes(2, "big")
    if not is_segment or packet[12:16] != wire.server.ip.packed or body[:4] != ports:
        return None
    number, acknowledges = (int.from_bytes(body[at : at + 4], "big") for at in (4, 8))
    head = (body[12] >> 4) * 4
    return Segment(number, acknowledges, body[13], int.from_bytes(body[14:16], "big"), body[head:], body[20:head])


def reset_of(wire: Connection, frame: bytes) -> list[Record]:
    """The reset of a segment to a port that nobody has (RFC 9293, section 3.10.7.1); none of a reset."""
    sender = Station(frame[6:12], IPv4Address(frame[26:30]))
    body = frame[34:]
    ports = (int.from_bytes(body[2:4], "big"), int.from_bytes(body[:2], "big"))
    number, acknowledges, flags = int.from_bytes(body[4:8], "big"), int.from_bytes(body[8:12], "big"), body[13]
    if flags & RST:
        return []
    length = len(body) - (body[12] >> 4) * 4 + bool(flags & SYN) + bool(flags & FIN)
    numbers, own = ((acknowledges, 0), RST) if flags & ACK else ((0, number + length), RST | ACK)
    text = segment(wire.client.ip, sender.ip, ports, numbers, own)
    return [Sent(packet_frame(wire.client, sender, PROTOCOL_TCP, text))]


class Fetch:
    """`imgexec` of a file at 10.0.0.1, over the records that come."""

    def __init__(self, path: bytes) -> None:
        self.uri = b"http://10.0.0.1" + path
        self.name = path.partition(b"?")[0].rpartition(b"/")[2] or b"10.0.0.1"
        self.inputs: list[Record] = [made.start(b"#!ipxe\nimgexec " + self.uri + b"\n")]
        self.now = 0
        self.moves = 0
        self.is_known = self.is_done = False
        self.talk = Talk(Connection(self.uri), request(path), 0)
        begins = self.talk.wire.asked(*self.talk.wire.looks())
        self.outputs: list[Record] = [Step(1), made.enter(), made.command(b"imgexec " + self.uri), *begins]

    def finds(self) -> None:
        """The server's hardware address comes, and the SYN's second try."""
        self.uses(made.found())
        self.uses(Tick(250))

    def uses(self, record: Record) -> None:
        """A record is used, unless the run is over: an address, a time, or a segment, which may be another's."""
        if self.is_done:
            return
        self.inputs.append(record)
        self.outputs.append(Step(len(self.inputs)))
        if isinstance(record, Tick):
            self.now += record.milliseconds
            self.put(self._passes())
        elif isinstance(record, Received):
            self._receives(record.frame)

    def _receives(self, frame: bytes) -> None:
        if frame[12:14] == ARP:
            self.is_known = True
            return
        come = segment_for(self.talk.wire, frame)
        if come is not None:
            self.put(self.talk.comes(len(self.inputs), come, self.now))
        elif int.from_bytes(frame[36:38], "big") != self.talk.wire.own:
            self.outputs += reset_of(self.talk.wire, frame)

    def _passes(self) -> list[Record]:
        """Until the server's hardware address is known, that is asked for in place of the SYN."""
        if self.is_known:
            return self.talk.passes(self.now)
        attempt = self.talk.timer.fires(self.now)
        if attempt == 0:
            self.talk.over = Cause(Code.TIMED_OUT, 6)
            return self.talk.wire.passed(over=self.talk.over)
        return self.talk.wire.passed(*(self.talk.wire.looks(attempt) if attempt else []))

    def put(self, records: list[Record]) -> None:
        self.outputs += records
        if self.talk.over is None:
            return
        if self.talk.moved is not None:
            self._moves(self.talk.moved)
        elif self.talk.over != OK:
            self._fails(self.talk.over)
        elif self.talk.reader.body[:4] != b"\x7fELF":
            self._fails(Cause(Code.NOT_BOOTABLE))
        else:
            self._boots()

    def _moves(self, text: bytes) -> None:
        """Of the texts that come a path of this server alone is one that is fetched."""
        if self.moves == MOST_MOVES:
            self._fails(MANY_MOVES)
        elif not text.startswith(b"/"):
            self._fails(Cause(Code.NO_SCHEME))
        else:
            self.moves += 1
            wire = Connection(b"http://10.0.0.1" + text, self.moves, 1 + 3 * self.moves, theirs=self.talk.wire.theirs)
            self.talk = Talk(wire, request(text), self.now)
            self.outputs += wire.asked(*wire.syn(1))

    def _fails(self, cause: Cause) -> None:
        self.is_done = True
        self.outputs += made.fails(cause)

    def _boots(self) -> None:
        self.is_done = True
        body = self.talk.reader.body
        pieces = [(at, body[at : at + 65_536]) for at in range(0, len(body), 65_536)]
        kernel = [Part(PartKind.KERNEL, 0, at, piece) for at, piece in pieces]
        name = Part(PartKind.KERNEL_NAME, 0, 0, self.name)
        self.outputs += [Result(OK), name, *kernel, Part(PartKind.COMMAND_LINE, 0, 0, b""), Done(Status.HANDED_OFF)]

    def row(self, *, is_off: bool = False) -> Row:
        """The run ends, if it hasn't."""
        if not self.is_done:
            if is_off:
                self.inputs.append(Off())
                self.outputs.append(Step(len(self.inputs)))
            closing = self.talk.closing()
            self.outputs += [*self.talk.wire.shut(closing), Done(Status.UNFINISHED)]
        return Row(self.inputs, self.outputs)
