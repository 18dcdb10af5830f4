"""Checks where the GRAPH records of an output stand among the others.

`Order` has the events of each kind of open in their order, with what is sent among them, as docs/RECORDS.md has them: no
clause says that order. It asks more than `Traced` (crates/nb_traced/specs/Outputs.antt), which names no kind and allows any
number of opens: here one lives at a time, beside the drives that are hooked. `Ends` is a second reading of `OpensHavePieces` and `EndsAreTheirs`
(Openings.antt beside it), and asks more too: that an open's objects are made directly before its OPEN, or were made before
its look-up, and are freed directly before its ENDED.
"""

from __future__ import annotations

from collections import deque
from dataclasses import dataclass, field

from shared.causes import OK, Cause
from shared.kinds import GraphEvent, ObjectKind, OpenKind, Way
from shared.records import Advance, Command, Done, Ended, Graph, Open, Record, Result, Sent, Try
from tests import graph_records
from tests.graph_records import ABOVE, BELOW, SOLE_KINDS, TIMER, TOO_LARGE, Cast, Pair, Sole, Trio, Waiter

# a COMMAND, and the eight events that make the objects of an open by HTTP
LOOKED_BACK = 9
MOST_AT_TOO_LARGE = 40
# what is below the first object of an open by a connection
BY_MADE = {ObjectKind.HTTP: OpenKind.HTTP, ObjectKind.ISCSI: OpenKind.ISCSI}
# what waits while its open's server is looked up
WAITING = (ObjectKind.FETCH, ObjectKind.PING, ObjectKind.DISK)


class NotLegal(Exception):
    """What is wrong with a list of records, in words."""


class CutOff(Exception):
    """The records end before what was to come."""


@dataclass
class Live:
    """An open that lives, and the cause of the first close of one of its objects, once there is one."""

    cast: Cast
    first: Cause | None = None


@dataclass
class Ends:
    """Each OPEN has its objects made directly before it, and each ENDED has the cause of the first close since then."""

    recent: deque[Record] = field(default_factory=lambda: deque(maxlen=LOOKED_BACK))
    made: int = 0
    live: dict[int, Live] = field(default_factory=dict)
    waiter: Waiter | None = None
    # the open by HTTP that has ended well last: it may have been moved; and the drive's that has ended last
    moved: int | None = None
    dropped: Ended | None = None

    def take(self, record: Record) -> None:
        match record:
            case Open():
                self._began(record)
            case Ended():
                self._ended(record)
            case Graph() if record.event is GraphEvent.MADE:
                self.made += 1
            case Graph() if record.event is GraphEvent.CLOSED:
                self._closed(record)
            case Graph() if record.event is GraphEvent.LET_GO and self.waiter:
                self.waiter = None if record.object == self.waiter.object else self.waiter
        self.recent.append(record)

    def _began(self, opened: Open) -> None:
        is_next = self.waiter is not None
        below = len(graph_records.cast_for(opened, 1).objects()) - 1
        cast = self.waiter.opens(opened.number, self.made - below, opened.kind) if self.waiter else self._cast(opened)
        wanted = graph_records.completed(cast) if is_next else graph_records.made(cast)
        before = list(self.recent)
        if before[len(before) - len(wanted) :] != wanted:
            raise NotLegal(f"the objects of open {opened.number} aren't made directly before its OPEN")
        before = before[: len(before) - len(wanted)]
        self.waiter = None if is_next else self._waiting(opened, before)
        if self.waiter:
            del before[-2:]
        is_after = isinstance(before[-1], Ended if is_next else Command) or before[-1] == self.dropped
        if not (is_after or before[-1] == Ended(self.moved or 0, OK)):
            after = "the end of a look-up" if is_next else "a COMMAND"
            raise NotLegal(f"the objects of open {opened.number} aren't made directly after {after}")
        self.live[opened.number] = Live(cast)

    def _cast(self, opened: Open) -> Cast:
        """The objects of an open before which nothing has waited."""
        return graph_records.cast_for(opened, self.made + 1 - len(graph_records.cast_for(opened, 1).objects()))

    def _waiting(self, opened: Open, before: list[Record]) -> Waiter | None:
        """What was made directly before the resolver of a look-up, and waits for it."""
        for kind in WAITING if opened.kind is OpenKind.DNS else ():
            if before[-2:] == graph_records.one_made(self.made - 1, kind):
                return Waiter(self.made - 1, kind)
        return None

    def _closed(self, event: Graph) -> None:
        for live in self.live.values():
            if event.object in live.cast.objects():
                live.first = live.first or event.cause

    def _ended(self, ended: Ended) -> None:
        live = self.live.pop(ended.number, None)
        if live is None:
            raise NotLegal(f"open {ended.number} ends, and doesn't live")
        wanted = graph_records.freed(live.cast)
        if list(self.recent)[-len(wanted) :] != wanted:
            raise NotLegal(f"the objects of open {ended.number} aren't freed directly before its ENDED")
        if live.first != ended.cause:
            raise NotLegal(f"open {ended.number} ended with {ended.cause}, and the first close is {live.first}")
        self.moved = ended.number if isinstance(live.cast, Trio) and ended.cause == OK else None
        self.dropped = ended if is_drive(live.cast) else None


def is_drive(cast: Cast) -> bool:
    return isinstance(cast, Trio) and cast.is_drive


class Order:
    """Where the GRAPH records stand among the others."""

    def __init__(self, records: list[Record]) -> None:
        self.records, self.place = records, 0
        self.made = 0
        # the objects of the open that began last
        self.last: Cast | None = None
        # its TCP has closed its port below when its response was decided
        self.is_cut = True
        # the drives that are hooked, by the numbers of their opens
        self.drives: dict[int, Trio] = {}
        self.is_dropped = False

    def check(self) -> None:
        try:
            self._bare()
        except CutOff:
            if self.records[-1:] and isinstance(self.records[-1], Done):
                raise NotLegal("DONE stands within what an open writes") from None

    def _next(self) -> Record:
        if self.place == len(self.records):
            raise CutOff
        return self.records[self.place]

    def _expect(self, *wanted: Record) -> None:
        for record in wanted:
            if self._next() != record:
                raise NotLegal(f"in place of {record} there is {self._next()}")
            self.place += 1

    def _asides(self, is_drive: bool = False) -> None:
        """Records that the graph doesn't concern; what an open asks for stands in its entries alone."""
        ends = (Result,) if is_drive else ()
        while not isinstance(self._next(), (Graph, Open, Ended, Done, Advance, Try, *ends)):
            self.place += 1

    def _of_drive(self) -> bool:
        """What comes next, if it is of a drive that is hooked: a message or a time, or its end."""
        record = self._next()
        drive = next((one for one in self.drives.values() if isinstance(record, Graph) and record.object in one.objects()), None)
        if drive is None:
            return False
        if self._reads(drive):
            return True
        if not self._is_close():
            if self._call(drive):
                del self.drives[drive.number]
            return True
        cause = record.cause
        self._closes(drive, graph_records.closed_above(drive, cause))
        if self._is_close():
            self._expect(*graph_records.shut(drive, cause=cause)[len(graph_records.closed_above(drive, cause)) :])
        else:
            self._expect(*graph_records.freed(drive), Ended(drive.number, cause))
        del self.drives[drive.number]
        self.is_dropped = True
        return True

    def _reads(self, cast: Cast) -> bool:
        """The user asks a drive for blocks, which may send that, or leave it for later; whether it does."""
        if not is_drive(cast) or self._next() != graph_records.entered(list(cast.objects())[0], ABOVE, Way.DOWN):
            return False
        self._expect(*(graph_records.entered(number, ABOVE, Way.DOWN) for number in cast.objects()))
        self._sends()
        self._expect(*(graph_records.left(number, ABOVE) for number in reversed(cast.objects())))
        return True

    def _sends(self) -> None:
        """What an open puts within an entry."""
        while isinstance(self._next(), (Advance, Try, Sent)):
            self.place += 1

    def _bare(self) -> None:
        """No open lives but those of drives."""
        opens = 0
        while True:
            record = self._next()
            before = self.records[self.place - 1] if self.place else None
            is_moved = isinstance(before, Ended) and isinstance(self.last, Trio) and before == Ended(self.last.number, OK)
            is_moved = is_moved or (isinstance(before, Ended) and self.is_dropped)
            if self._of_drive():
                continue
            if isinstance(record, Graph) and (isinstance(before, Command) or is_moved):
                self.is_dropped = False
                opens += self._command(opens, record)
            elif isinstance(record, (Graph, Open, Ended, Advance, Try)):
                raise NotLegal(f"no open lives at {record}")
            elif isinstance(record, Done):
                return
            else:
                self.place += 1

    def _command(self, k: int, first: Graph) -> int:
        """A command's opens, of which the first is open k: how many it has."""
        waiter = self._waiter(first)
        if waiter is None:
            cast = self._cast(k, first)
            self._made(*graph_records.made(cast))
            self._open(cast)
            return 1
        self._made(*graph_records.one_made(*waiter))
        look_up = Sole(k, self.made + 1, ObjectKind.RESOLVER)
        self._made(*graph_records.made(look_up))
        if self._open(look_up, waiter):
            return 1
        return 1 + self._waited(k + 1, waiter)

    def _waited(self, k: int, waiter: Waiter) -> int:
        """The look-up of its server has ended: it is let go, or its own open begins; how many opens it has."""
        given_up = graph_records.one_freed(waiter.object)
        if self._next() == given_up[0]:
            self._expect(*given_up)
            return 0
        # a fetch gets a TFTP, or an HTTP and a TCP, and a disk an iSCSI and a TCP
        made = self._next()
        kind = BY_MADE.get(made.other, OpenKind.TFTP) if isinstance(made, Graph) and made.event is GraphEvent.MADE else OpenKind.TFTP
        cast = waiter.opens(k, self.made, kind)
        self._made(*graph_records.completed(cast))
        self._open(cast)
        return 1

    def _waiter(self, first: Graph) -> Waiter | None:
        """What waits for a look-up, whose resolver is made directly after it."""
        second = self.records[self.place + 2 : self.place + 3]
        is_resolver = [isinstance(one, Graph) and one.other == ObjectKind.RESOLVER for one in second] == [True]
        is_waiter = is_resolver and second[0].event is GraphEvent.MADE and first.other in WAITING
        return Waiter(self.made + 1, ObjectKind(first.other)) if is_waiter else None

    def _cast(self, k: int, first: Graph) -> Cast:
        """The objects of open k, whose first is made by this event."""
        if first.other in SOLE_KINDS.values():
            return Sole(k, self.made + 1, ObjectKind(first.other))
        if first.other == ObjectKind.DISK:
            return Trio(k, self.made + 1, None, True)
        second = self.records[self.place + 2 : self.place + 3]
        is_http = [isinstance(one, Graph) and one.other == ObjectKind.HTTP for one in second] == [True]
        return Trio(k, self.made + 1) if is_http else Pair(k, self.made + 1)

    def _made(self, *wanted: Record) -> None:
        """Objects are made."""
        self._expect(*wanted)
        self.made += sum(isinstance(one, Graph) and one.event is GraphEvent.MADE for one in wanted)

    def _open(self, cast: Cast, waiter: Waiter | None = None) -> bool:
        """An open, from its OPEN on, while something waits beside it or nothing does; whether it ends with the run."""
        opened, self.last = self._next(), cast
        if not isinstance(opened, Open) or opened.number != cast.number:
            raise NotLegal(f"in place of OPEN {cast.number} there is {opened}")
        if list(cast.objects().values()) != list(graph_records.cast_for(opened, 1).objects().values()):
            raise NotLegal(f"{opened} has the objects {cast}")
        front, back = _halves(graph_records.begins(opened, cast=cast), opened)
        self.place += 1
        self._expect(*front)
        place = self.place
        self._sends()
        is_sent = self.place > place
        self._expect(*back)
        if self._is_close():
            return self._closed_at_once(cast, waiter, self._next(), is_sent)
        return self._holding(cast, waiter)

    def _closed_at_once(self, cast: Cast, waiter: Waiter | None, first: Graph, is_sent: bool) -> bool:
        """The user has no way to the server, and nothing was sent; or the run ends directly after the request."""
        cause = first.cause
        if waiter and first.object == waiter.object:
            self._expect(*graph_records.shut_both(waiter, cast, cause))
            return True
        front = graph_records.closed_above(cast, cause)
        self._closes(cast, front)
        if self._is_close() and waiter is None:
            self._expect(*graph_records.shut(cast, cause=cause)[len(front) :])
            return True
        if is_sent:
            raise NotLegal(f"open {cast.number} sent its request, and is closed from above")
        self._expect(*graph_records.freed(cast), Ended(cast.number, cause))
        return False

    def _holding(self, cast: Cast, waiter: Waiter | None) -> bool:
        """The open lives; a drive's lives on once its command is Ok."""
        while True:
            self._asides(is_drive(cast))
            if isinstance(self._next(), Result):
                assert isinstance(cast, Trio)
                self.drives[cast.number] = cast
                return False
            if self._of_drive() or self._reads(cast):
                continue
            if self._is_close():
                cause = self._next().cause
                shut = graph_records.shut_both(waiter, cast, cause) if waiter else graph_records.shut(cast, cause=cause)
                self._closes(cast, shut)
                return True
            if self._call(cast):
                return False

    def _call(self, cast: Cast) -> bool:
        """A message or a time comes to it; whether that ends it."""
        record, number = self._next(), graph_records.lowest(cast)
        ways = [graph_records.entered(number, BELOW, Way.UP), graph_records.entered(number, TIMER, Way.TIME)]
        if record not in ways:
            raise NotLegal(f"open {cast.number} lives at {record}")
        self.place += 1
        self._sends()
        if isinstance(cast, Pair) and self._gives(cast, record.slot):
            return True
        decided = None
        if isinstance(cast, Trio):
            decided = self._session_rises(cast) if cast.is_drive else self._rises(cast)
        over = decided or (self._next().cause if self._is_close() else None)
        if over and decided is None:
            self._expect(*graph_records.closed_below(cast, over))
        elif over and not self.is_cut:
            self._expect(graph_records.closed(number, BELOW, self._next().cause))
        self._expect(graph_records.left(number, record.slot))
        if over:
            self._expect(*graph_records.freed(cast), Ended(cast.number, over))
        return over is not None

    def _gives(self, pair: Pair, slot: int) -> bool:
        """Bytes of the file go up, or none; whether there are too many by that, and the open has ended."""
        if self._next() != graph_records.entered(pair.fetch, BELOW, Way.UP):
            return False
        self.place += 1
        if self._next() == graph_records.closed(pair.fetch, ABOVE, TOO_LARGE):
            return self._too_large(pair, slot)
        self._expect(graph_records.left(pair.fetch, BELOW))
        return False

    def _closes(self, cast: Cast, wanted: list[Record]) -> None:
        """Ports are closed; a TCP that is closed from above may say so to the server."""
        closing = graph_records.entered(cast.tcp, ABOVE, Way.CLOSE) if isinstance(cast, Trio) else None
        for record in wanted:
            self._expect(record)
            if record == closing:
                self._sends()

    def _rises(self, trio: Trio) -> Cause | None:
        """What goes up from the TCP, piece by piece; the cause with which the response ends the open, if it does."""
        cause = None
        while True:
            record = self._next()
            if record == Graph(GraphEvent.DROPPED, trio.tcp, ABOVE):
                self.place += 1
            elif record == graph_records.entered(trio.http, BELOW, Way.UP) and cause is None:
                self.place += 1
                cause = self._read(trio)
            else:
                return cause

    def _read(self, trio: Trio) -> Cause | None:
        """An entry of the HTTP: bytes go up or not, and the response is decided or not."""
        cause, is_moved = None, False
        while self._next() == graph_records.entered(trio.fetch, BELOW, Way.UP):
            self.place += 1
            is_moved = self._is_close()
            if is_moved:
                self._expect(*graph_records.fetch_moved(trio))
            self._expect(graph_records.left(trio.fetch, BELOW))
        if self._is_close():
            cause = self._next().cause
            self._expect(*([] if is_moved else trio.fetch_closed(cause)))
            self._cut(trio, cause)
            if self._next() == Graph(GraphEvent.DROPPED, trio.http, BELOW):
                self.place += 1
        self._expect(graph_records.left(trio.http, BELOW))
        return cause

    def _session_rises(self, trio: Trio) -> Cause | None:
        """What goes up from a drive's TCP; the cause with which its session ends, if it does."""
        cause = None
        while True:
            record = self._next()
            if record == Graph(GraphEvent.DROPPED, trio.tcp, ABOVE):
                self.place += 1
            elif record == graph_records.entered(trio.http, BELOW, Way.UP) and cause is None:
                self.place += 1
                cause = self._session_reads(trio)
            else:
                return cause

    def _session_reads(self, trio: Trio) -> Cause | None:
        """An entry of the iSCSI: PDU after PDU, of which each is answered or not, or ends the session."""
        cause = None
        while cause is None and self._next() != graph_records.left(trio.http, BELOW):
            record = self._next()
            if record == graph_records.entered(trio.tcp, ABOVE, Way.DOWN):
                self._sends_down(trio)
            elif record == graph_records.entered(trio.fetch, BELOW, Way.UP):
                cause = self._unit(trio)
            elif self._is_close():
                cause = record.cause
                self._expect(*trio.fetch_closed(cause))
                self._cut(trio, cause)
            else:
                break
        if self._next() == Graph(GraphEvent.DROPPED, trio.http, BELOW) and cause is not None:
            self.place += 1
        self._expect(graph_records.left(trio.http, BELOW))
        return cause

    def _sends_down(self, trio: Trio) -> None:
        self._expect(graph_records.entered(trio.tcp, ABOVE, Way.DOWN))
        self._sends()
        self._expect(graph_records.left(trio.tcp, ABOVE))

    def _unit(self, trio: Trio) -> Cause | None:
        """An entry of the disk: it asks for something, or ends, or neither."""
        cause = None
        self._expect(graph_records.entered(trio.fetch, BELOW, Way.UP))
        if self._next() == graph_records.entered(trio.http, ABOVE, Way.DOWN):
            self.place += 1
            self._sends_down(trio)
            self._expect(graph_records.left(trio.http, ABOVE))
        elif self._is_close():
            cause = self._next().cause
            whole = trio.closed_above(cause)
            self._expect(*whole[:4])
            self._cut(trio, cause)
            self._expect(*whole[-2:])
        self._expect(graph_records.left(trio.fetch, BELOW))
        return cause

    def _cut(self, trio: Trio, cause: Cause) -> None:
        """The HTTP closes to the TCP, which may say so to the server, or has ended by itself."""
        self._expect(*trio.tcp_closed(cause)[:3])
        place = self.place
        self._sends()
        self.is_cut = self._is_close()
        if not self.is_cut and self.place > place:
            raise NotLegal(f"the TCP of open {trio.number} sends, and has ended by itself")
        self._expect(*trio.tcp_closed(cause, has_ended=not self.is_cut)[3:])

    def _is_close(self) -> bool:
        record = self._next()
        return isinstance(record, Graph) and record.event is GraphEvent.CLOSED

    def _too_large(self, pair: Pair, slot: int) -> bool:
        """The rest of a call with which the file has too many bytes; whether the transfer ended by it shows in it."""
        rest = self.records[self.place : self.place + MOST_AT_TOO_LARGE]
        for over in (None, *{record.cause for record in rest if isinstance(record, Graph)}):
            whole = graph_records.grew_too_large(pair, over=over)[2:]
            whole[-6] = graph_records.left(pair.tftp, slot)
            if rest[: len(whole)] == whole:
                self.place += len(whole)
                return True
        raise NotLegal(f"open {pair.number} doesn't end as one that grew too large")


def _halves(records: list[Record], middle: Record) -> tuple[list[Record], list[Record]]:
    """What stands between a record and the innermost place of the entries after it, and what stands after that."""
    later = records[records.index(middle) + 1 :]
    first_left = next(at for at, one in enumerate(later) if isinstance(one, Graph) and one.event is GraphEvent.LEFT)
    return later[:first_left], later[first_left:]
