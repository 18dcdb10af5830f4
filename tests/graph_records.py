"""The GRAPH records of an open, written by hand from docs/RECORDS.md.

An open by TFTP has a pair of objects: a fetch and, plugged to it, a TFTP. One by HTTP has three, a fetch, an HTTP and a
TCP (web_records.py has what happens to them), and so has a drive's, a disk, an iSCSI and a TCP (drive_records.py). One that
asks and is answered (by DNS, DHCP or a ping) has one object alone. Where the server of a fetch, a ping or a drive is a name,
its first object waits beside the resolver of the look-up. Where all opens before it are by TFTP, the objects of open k by TFTP are 2k + 1
and 2k + 2, and it is named by k; any other is named by its objects. Each function answers a list of records in their
order. What a message or a time makes the open send stands within its entry, and is given here as `put`. Nothing of
this file is taken from what the program writes.
"""

from __future__ import annotations

from typing import NamedTuple

from shared.causes import OK, Cause, Code
from shared.kinds import GraphEvent, ObjectKind, OpenKind, Way
from shared.records import Ended, Graph, Open, Record

STOPPED = Cause(Code.STOPPED)
TOO_LARGE = Cause(Code.TOO_LARGE, 1)
# the slots: to the user above, to what is used below, two that stay free, and the timer
ABOVE, BELOW, THIRD, FOURTH, TIMER = range(5)
# the object of an open that asks and is answered
SOLE_KINDS = {
    OpenKind.DNS: ObjectKind.RESOLVER,
    OpenKind.DHCP: ObjectKind.DHCP,
    OpenKind.PING: ObjectKind.PING,
}
# opens by a connection
STREAM_KINDS = (OpenKind.HTTP, OpenKind.ISCSI)


class Pair(NamedTuple):
    """An open by TFTP, and the number of its fetch; its TFTP has the next, unless the fetch has waited."""

    number: int
    fetch: int
    lower: int | None = None

    @property
    def tftp(self) -> int:
        return self.lower or self.fetch + 1

    def objects(self) -> dict[int, ObjectKind]:
        """Its objects by their numbers, from the uppermost to the lowest."""
        return {self.fetch: ObjectKind.FETCH, self.tftp: ObjectKind.TFTP}

    def links(self) -> list[Record]:
        return [Graph(GraphEvent.PLUGGED, self.fetch, BELOW, self.tftp, ABOVE)]

    def closed_above(self, cause: Cause) -> list[Record]:
        """The user closes both ports of the fetch, and the TFTP passes that on."""
        return [
            closed(self.fetch, ABOVE, cause),
            closed(self.fetch, BELOW, cause),
            closed(self.tftp, ABOVE, cause),
            entered(self.tftp, ABOVE, Way.CLOSE),
            closed(self.tftp, BELOW, cause),
            left(self.tftp, ABOVE),
            unplugged(self.fetch, BELOW, self.tftp, ABOVE),
        ]

    def closed_below(self, cause: Cause) -> list[Record]:
        """The TFTP closes its port above, the fetch passes that on, and then that below is closed."""
        return [
            closed(self.tftp, ABOVE, cause),
            closed(self.fetch, BELOW, cause),
            entered(self.fetch, BELOW, Way.CLOSE),
            closed(self.fetch, ABOVE, cause),
            left(self.fetch, BELOW),
            unplugged(self.tftp, ABOVE, self.fetch, BELOW),
            closed(self.tftp, BELOW, cause),
        ]


class Trio(NamedTuple):
    """An open by HTTP, and the number of its fetch; the others have the next ones, unless the fetch has waited.

    A drive's open has a disk in the place of the fetch, and an iSCSI in that of the HTTP.
    """

    number: int
    fetch: int
    lower: int | None = None
    is_drive: bool = False

    @property
    def http(self) -> int:
        return self.lower or self.fetch + 1

    @property
    def tcp(self) -> int:
        return self.http + 1

    def objects(self) -> dict[int, ObjectKind]:
        kinds = (ObjectKind.DISK, ObjectKind.ISCSI) if self.is_drive else (ObjectKind.FETCH, ObjectKind.HTTP)
        return {self.fetch: kinds[0], self.http: kinds[1], self.tcp: ObjectKind.TCP}

    def links(self) -> list[Record]:
        return [
            Graph(GraphEvent.PLUGGED, self.fetch, BELOW, self.http, ABOVE),
            Graph(GraphEvent.PLUGGED, self.http, BELOW, self.tcp, ABOVE),
        ]

    def closed_above(self, cause: Cause, *put: Record, has_ended: bool = False) -> list[Record]:
        """The user closes both ports of the fetch; the others pass that on, and the TCP says so to the server."""
        return [
            closed(self.fetch, ABOVE, cause),
            closed(self.fetch, BELOW, cause),
            closed(self.http, ABOVE, cause),
            entered(self.http, ABOVE, Way.CLOSE),
            *self.tcp_closed(cause, *put, has_ended=has_ended),
            left(self.http, ABOVE),
            unplugged(self.fetch, BELOW, self.http, ABOVE),
        ]

    def tcp_closed(self, cause: Cause, *put: Record, has_ended: bool = False) -> list[Record]:
        """The HTTP closes its port below; a connection that has ended by itself does nothing at that."""
        return [
            closed(self.http, BELOW, cause),
            closed(self.tcp, ABOVE, cause),
            entered(self.tcp, ABOVE, Way.CLOSE),
            *([] if has_ended else [*put, closed(self.tcp, BELOW, cause)]),
            left(self.tcp, ABOVE),
            unplugged(self.http, BELOW, self.tcp, ABOVE),
        ]

    def fetch_closed(self, cause: Cause) -> list[Record]:
        """The HTTP closes its port above."""
        return [
            closed(self.http, ABOVE, cause),
            closed(self.fetch, BELOW, cause),
            entered(self.fetch, BELOW, Way.CLOSE),
            closed(self.fetch, ABOVE, cause),
            left(self.fetch, BELOW),
            unplugged(self.http, ABOVE, self.fetch, BELOW),
        ]

    def closed_below(self, cause: Cause) -> list[Record]:
        """The TCP closes its port above, the others pass that on, and then that below is closed."""
        return [
            closed(self.tcp, ABOVE, cause),
            closed(self.http, BELOW, cause),
            entered(self.http, BELOW, Way.CLOSE),
            *self.fetch_closed(cause),
            left(self.http, BELOW),
            unplugged(self.tcp, ABOVE, self.http, BELOW),
            closed(self.tcp, BELOW, cause),
        ]


class Sole(NamedTuple):
    """An open that asks and is answered, and its object."""

    number: int
    object: int
    kind: ObjectKind

    def objects(self) -> dict[int, ObjectKind]:
        return {self.object: self.kind}

    def links(self) -> list[Record]:
        return []

    def closed_above(self, cause: Cause) -> list[Record]:
        return [closed(self.object, ABOVE, cause), closed(self.object, BELOW, cause)]

    def closed_below(self, cause: Cause) -> list[Record]:
        return self.closed_above(cause)


Cast = Pair | Trio | Sole


class Waiter(NamedTuple):
    """What waits while the server of its open is looked up: the fetch, the disk, or the object of a ping."""

    object: int
    kind: ObjectKind

    def opens(self, number: int, last: int, kind: OpenKind = OpenKind.TFTP) -> Cast:
        """It with all objects of its open, where `last` was made last before that."""
        if kind in STREAM_KINDS:
            return Trio(number, self.object, last + 1, kind is OpenKind.ISCSI)
        if self.kind is ObjectKind.FETCH:
            return Pair(number, self.object, last + 1)
        return Sole(number, self.object, self.kind)


def cast_of(k: int | Cast) -> Cast:
    """The objects of an open; one that is named by its number is by TFTP, as all before it."""
    return Pair(k, 2 * k + 1) if isinstance(k, int) else k


def cast_for(opened: Open, first: int) -> Cast:
    """The objects of an open, the first of which has this number."""
    if opened.kind in SOLE_KINDS:
        return Sole(opened.number, first, SOLE_KINDS[opened.kind])
    if opened.kind in STREAM_KINDS:
        return Trio(opened.number, first, None, opened.kind is OpenKind.ISCSI)
    return Pair(opened.number, first)


def lowest(k: int | Cast) -> int:
    """The object that uses the network: messages and times enter it."""
    return list(cast_of(k).objects())[-1]


def entered(number: int, slot: int, way: Way) -> Graph:
    return Graph(GraphEvent.ENTERED, number, slot, 0, way)


def left(number: int, slot: int) -> Graph:
    return Graph(GraphEvent.LEFT, number, slot)


def closed(number: int, slot: int, cause: Cause) -> Graph:
    return Graph(GraphEvent.CLOSED, number, slot, cause=cause)


def unplugged(number: int, slot: int, other: int, other_slot: int) -> Graph:
    return Graph(GraphEvent.UNPLUGGED, number, slot, other, other_slot)


def one_made(number: int, kind: ObjectKind) -> list[Record]:
    """An object is made, and held."""
    return [Graph(GraphEvent.MADE, number, other=kind), Graph(GraphEvent.HELD, number)]


def one_freed(number: int) -> list[Record]:
    """An object is let go, and freed by that."""
    return [Graph(event, number) for event in (GraphEvent.LET_GO, GraphEvent.FREED)]


def made(k: int | Cast) -> list[Record]:
    """Between COMMAND and OPEN: the objects are made, and plugged."""
    return _made_from(0, cast_of(k))


def completed(cast: Cast) -> list[Record]:
    """Between the end of a look-up and the OPEN after it: a fetch gets what is below it, a ping nothing."""
    return _made_from(1, cast)


def _made_from(first: int, cast: Cast) -> list[Record]:
    """Objects are made from this place on, and each but the uppermost is plugged to the one above it."""
    links = [[], *([link] for link in cast.links())]
    each = [[*one_made(*made_one), *links[at]] for at, made_one in enumerate(cast.objects().items())]
    return [event for events in each[first:] for event in events]


def begins(opened: Open, *put: Record, cast: Cast | None = None) -> list[Record]:
    """From its OPEN on: an open begins, and what its request puts stands in its entries."""
    cast = cast or cast_of(opened.number)
    downs = [entered(number, ABOVE, Way.DOWN) for number in cast.objects()]
    lefts = [left(number, ABOVE) for number in reversed(cast.objects())]
    # the text of a request goes down to the TCP after the connection is asked for, and waits there
    text = [lefts[0], downs[-1]] if isinstance(cast, Trio) else []
    return [opened, *downs, *put, *text, *lefts]


def asked(opened: Open, *put: Record, cast: Cast | None = None) -> list[Record]:
    """From the first record after COMMAND on."""
    cast = cast or cast_of(opened.number)
    return [*made(cast), *begins(opened, *put, cast=cast)]


def asked_next(opened: Open, *put: Record, cast: Cast) -> list[Record]:
    """From the first record after the end of the look-up of its server on."""
    return [*completed(cast), *begins(opened, *put, cast=cast)]


def freed(k: int | Cast) -> list[Record]:
    """All are let go, and freed by that."""
    return [event for number in cast_of(k).objects() for event in one_freed(number)]


def closed_above(k: int | Cast, cause: Cause, *put: Record) -> list[Record]:
    """The user closes the open from above; what a TCP says to the server stands in its entry."""
    cast = cast_of(k)
    return cast.closed_above(cause, *put) if isinstance(cast, Trio) else cast.closed_above(cause)


def ended_above(cast: Cast, cause: Cause, *put: Record) -> list[Record]:
    """The user closes the open, and it has ended."""
    return [*closed_above(cast, cause, *put), *freed(cast), Ended(cast.number, cause)]


def no_way(cast: Cast, cause: Cause) -> list[Record]:
    """There is no way to its server: nothing was sent, and the open ends at once."""
    return ended_above(cast, cause)


def turned_back(opened: Open, cause: Cause, cast: Cast | None = None) -> list[Record]:
    """As `asked`, of a server to which there is no way."""
    cast = cast or cast_of(opened.number)
    return [*asked(opened, cast=cast), *no_way(cast, cause)]


def closed_below(k: int | Cast, cause: Cause) -> list[Record]:
    """The open ends by itself, from its lowest object on."""
    return cast_of(k).closed_below(cause)


def given(pair: Pair) -> list[Record]:
    """Bytes of the file go up."""
    return [entered(pair.fetch, BELOW, Way.UP), left(pair.fetch, BELOW)]


def fetch_moved(trio: Trio) -> list[Record]:
    """A move goes up, at which the fetch closes its ports: the HTTP is through with it, and says no more."""
    return [
        closed(trio.fetch, ABOVE, OK),
        closed(trio.fetch, BELOW, OK),
        closed(trio.http, ABOVE, OK),
        entered(trio.http, ABOVE, Way.CLOSE),
        left(trio.http, ABOVE),
        unplugged(trio.fetch, BELOW, trio.http, ABOVE),
    ]


def _call(k: int | Cast, slot: int, way: Way, within: list[Record], over: Cause | None) -> list[Record]:
    cast = cast_of(k)
    number = lowest(cast)
    closes = closed_below(cast, over) if over else []
    ends = [*freed(cast), Ended(cast.number, over)] if over else []
    return [entered(number, slot, way), *within, *closes, left(number, slot), *ends]


def came(k: int | Cast, *put: Record, gives: bool = False, over: Cause | None = None) -> list[Record]:
    """A message comes from the server; its bytes go up, or not; it ends the open with a cause, or not."""
    cast = cast_of(k)
    assert isinstance(cast, Pair) or not gives
    return _call(cast, BELOW, Way.UP, [*put, *(given(cast) if gives else [])], over)


def passed(k: int | Cast, *put: Record, over: Cause | None = None) -> list[Record]:
    """Time passes, and a try may be due; after the last one the open ends."""
    return _call(k, TIMER, Way.TIME, [*put], over)


def grew_too_large(k: int | Pair, *put: Record, over: Cause | None = None) -> list[Record]:
    """A datagram comes with which the file has too many bytes; the transfer may end by it too, with a cause."""
    pair = cast_of(k)
    assert isinstance(pair, Pair)
    fetch, tftp = pair.fetch, pair.tftp
    below = closed(tftp, BELOW, over or TOO_LARGE)
    return [
        entered(tftp, BELOW, Way.UP),
        *put,
        entered(fetch, BELOW, Way.UP),
        closed(fetch, ABOVE, TOO_LARGE),
        closed(fetch, BELOW, TOO_LARGE),
        closed(tftp, ABOVE, TOO_LARGE),
        entered(tftp, ABOVE, Way.CLOSE),
        *([] if over else [below]),
        left(tftp, ABOVE),
        unplugged(fetch, BELOW, tftp, ABOVE),
        Graph(GraphEvent.DROPPED, fetch, BELOW),
        left(fetch, BELOW),
        *([below] if over else []),
        left(tftp, BELOW),
        *freed(pair),
        Ended(pair.number, TOO_LARGE),
    ]


def all_closed(number: int, cause: Cause) -> list[Record]:
    """All four ports of an object are closed, by rising slot."""
    return [closed(number, slot, cause) for slot in (ABOVE, BELOW, THIRD, FOURTH)]


def shut(k: int | Cast, *put: Record, cause: Cause = STOPPED) -> list[Record]:
    """The run ends while the open lives: all ports are closed by rising number and slot, and all objects let go."""
    cast = cast_of(k)
    spare = [closed(number, slot, cause) for number in cast.objects() for slot in (THIRD, FOURTH)]
    return [*closed_above(cast, cause, *put), *spare, *freed(cast), Ended(cast.number, cause)]


def shut_both(waiter: Waiter, cast: Cast, cause: Cause = STOPPED) -> list[Record]:
    """The run ends while the server of what waits is looked up."""
    objects = (waiter.object, *cast.objects())
    closes = [event for number in objects for event in all_closed(number, cause)]
    return [*closes, *[event for number in objects for event in one_freed(number)], Ended(cast.number, cause)]
