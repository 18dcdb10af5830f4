"""The objects of a run, as its GRAPH records have them: which lived when, their links, and what closed them."""

from __future__ import annotations

from collections import Counter, OrderedDict
from dataclasses import dataclass, field
from typing import NamedTuple

from shared.causes import Cause
from shared.command_line import Refused
from shared.kinds import GraphEvent, ObjectKind, OpenKind, Way
from shared.records import Ended, Graph, Open, Record

# What is kept of a recording, whatever it holds: the objects of opens that live, and those that are named.
MOST_OBJECTS = 1_024
MOST_NAMED = 4_096
# The object of an open that asks and is answered.
SOLE_KINDS = {
    OpenKind.DNS: ObjectKind.RESOLVER,
    OpenKind.DHCP: ObjectKind.DHCP,
    OpenKind.PING: ObjectKind.PING,
}
# An object's port 4 stands for its timer.
TIMER_SLOT = 4


def title(name: str) -> str:
    return name.replace("_", " ").lower()


class Names:
    """The kinds of the objects that live, so that a line can name one."""

    def __init__(self) -> None:
        self.kinds: OrderedDict[int, ObjectKind] = OrderedDict()

    def take(self, graph: Graph) -> None:
        """An event, before it is put into words."""
        if graph.event is GraphEvent.MADE:
            if len(self.kinds) == MOST_NAMED:
                self.kinds.popitem(last=False)
            self.kinds[graph.object] = ObjectKind(graph.other)

    def of(self, number: int) -> str:
        kind = self.kinds.get(number)
        return f"{title(kind.name) if kind else 'object'} {number}"

    def port(self, number: int, slot: int) -> str:
        """A port of an object; by the timer time comes to it."""
        return f"{self.of(number)} {'timer' if slot == TIMER_SLOT else f'slot {slot}'}"

    def drop(self, graph: Graph) -> None:
        """The same event, after that."""
        if graph.event is GraphEvent.FREED:
            self.kinds.pop(graph.object, None)


class When(NamedTuple):
    """A step, and its time in milliseconds where that is known."""

    step: int
    time: int | None = None

    def __str__(self) -> str:
        return f"step {self.step}" + ("" if self.time is None else f" at {self.time} ms")


class Close(NamedTuple):
    """A port's close: when, which one of its open's, counted from 1, and its cause."""

    when: When
    place: int
    port: str
    cause: Cause


def ending(cause: Cause, first: Close | None) -> str:
    """The cause with which an open ended, and which close it is that of, where that is known."""
    return f"{cause}, as {first.port} was closed first" if first and first.cause == cause else str(cause)


@dataclass(slots=True)
class Slot:
    """A port of an object, and the link that it has or had."""

    peer: tuple[int, int] | None = None
    plugged: When | None = None
    unplugged: When | None = None
    closed: Close | None = None
    entered: int = 0
    dropped: int = 0


@dataclass(slots=True)
class Thing:
    """An object, from its Made to its Freed."""

    number: int
    kind: ObjectKind
    made: When
    freed: When | None = None
    # the open that it is an object of, and whether it has waited beside one before
    open: int | None = None
    has_waited: bool = False
    slots: dict[int, Slot] = field(default_factory=dict)
    entries: Counter[Way] = field(default_factory=Counter)

    @property
    def name(self) -> str:
        return f"{title(self.kind.name)} {self.number}"

    def slot(self, number: int) -> Slot:
        return self.slots.setdefault(number, Slot())


@dataclass(slots=True)
class Family:
    """The objects of one open, with its beginning and its end; or objects that no OPEN followed yet.

    Beside a look-up the object waits that is to use the address, and isn't one of its objects.
    """

    things: dict[int, Thing] = field(default_factory=dict)
    beside: list[Thing] = field(default_factory=list)
    opened: Open | None = None
    ended: Ended | None = None
    over: When | None = None
    first: Close | None = None
    closes: int = 0


class Objects:
    """Goes over an output recording and gathers the objects of each open.

    The objects of an open are those that are made since the open before it, up to its OPEN; and what is plugged
    to one of them later. An open that asks and is answered has the one object of its kind. What waits beside a look-up
    is an object of the open after it, or of none where it is freed before.
    """

    def __init__(self) -> None:
        self.opens: dict[int, Family] = {}
        self.unclaimed = Family()
        self.where: dict[int, Family] = {}

    def take(self, when: When, record: Record) -> Family | None:
        """A record of this step; answers the open that it ends."""
        match record:
            case Graph():
                self._event(when, record)
            case Open():
                self._forget(self.opens.pop(record.number, None))
                self.opens[record.number] = self._claimed(record)
            case Ended():
                return self._ended(when, record)
        return None

    def _claimed(self, opened: Open) -> Family:
        """The objects of an open. What waits for the answer of one that asks belongs to a later open."""
        family, self.unclaimed = self.unclaimed, Family()
        family.opened = opened
        sole = SOLE_KINDS.get(opened.kind)
        for number, thing in list(family.things.items()):
            if sole in (None, thing.kind):
                thing.open = opened.number
                continue
            if not thing.has_waited:
                thing.has_waited = True
                family.beside.append(thing)
            self.unclaimed.things[number] = family.things.pop(number)
            self.where[number] = self.unclaimed
        return family

    def asked(self, graph: Graph) -> Open | None:
        """The open of a disk that its user has entered once more, and so asked for blocks: the first time it was begun."""
        if graph.event is not GraphEvent.ENTERED or graph.other_slot != Way.DOWN:
            return None
        family = self.where[graph.object]
        thing = family.things[graph.object]
        return family.opened if thing.kind is ObjectKind.DISK and thing.entries[Way.DOWN] > 1 else None

    def rest(self) -> list[Family]:
        """What is left at the recording's end: opens that didn't end, and objects of none."""
        waiting = {thing.number for family in self.opens.values() for thing in family.beside}
        is_drawn = self.unclaimed.things.keys() <= waiting
        return [*self.opens.values(), *([] if is_drawn else [self.unclaimed])]

    def _ended(self, when: When, ended: Ended) -> Family | None:
        family = self.opens.pop(ended.number, None)
        if family:
            family.ended, family.over = ended, when
        self._forget(family)
        return family

    def _forget(self, family: Family | None) -> None:
        """Of these objects no record speaks any more."""
        for number in family.things if family else ():
            del self.where[number]

    def _event(self, when: When, graph: Graph) -> None:
        if graph.event is GraphEvent.MADE:
            self._made(when, graph)
            return
        thing = self._thing(when, graph.object)
        slot = thing.slot(graph.slot)
        match graph.event:
            case GraphEvent.PLUGGED:
                self._plugged(when, graph, slot)
            case GraphEvent.UNPLUGGED:
                slot.unplugged = when
                self._thing(when, graph.other).slot(graph.other_slot).unplugged = when
            case GraphEvent.ENTERED:
                thing.entries[Way(graph.other_slot)] += 1
                slot.entered += 1
            case GraphEvent.DROPPED:
                slot.dropped += 1
            case GraphEvent.CLOSED:
                self._closed(when, graph, slot)
            case GraphEvent.FREED:
                thing.freed = when
                self._freed(graph.object)

    def _freed(self, number: int) -> None:
        """What is freed before an OPEN, as after a look-up that failed, is an object of none."""
        if self.where[number] is self.unclaimed:
            del self.unclaimed.things[number], self.where[number]

    def _thing(self, when: When, number: int) -> Thing:
        family = self.where.get(number)
        if family is None:
            raise Refused(f"step {when.step} speaks of object {number}, which was not made or whose open has ended")
        return family.things[number]

    def _made(self, when: When, graph: Graph) -> None:
        if graph.object in self.where:
            raise Refused(f"step {when.step} makes object {graph.object} a second time")
        if len(self.where) == MOST_OBJECTS:
            why = f"{MOST_OBJECTS} belong to no open that ended"
            raise Refused(f"step {when.step} makes object {graph.object}, and {why}")
        self.unclaimed.things[graph.object] = Thing(graph.object, ObjectKind(graph.other), when)
        self.where[graph.object] = self.unclaimed

    def _plugged(self, when: When, graph: Graph, upper: Slot) -> None:
        lower = self._thing(when, graph.other).slot(graph.other_slot)
        upper.peer, lower.peer = (graph.other, graph.other_slot), (graph.object, graph.slot)
        upper.plugged = lower.plugged = when
        self._join(self.where[graph.object], self.where[graph.other])

    def _join(self, one: Family, other: Family) -> None:
        """Objects of an open, and some of none that are plugged to them, are one family."""
        if one is other or (one.opened and other.opened):
            return
        kept, gone = (other, one) if other.opened else (one, other)
        kept.things.update(gone.things)
        for number in gone.things:
            self.where[number] = kept
        if gone is self.unclaimed:
            self.unclaimed = Family()

    def _closed(self, when: When, graph: Graph, slot: Slot) -> None:
        family = self.where[graph.object]
        family.closes += 1
        port = f"{family.things[graph.object].name} slot {graph.slot}"
        slot.closed = Close(when, family.closes, port, graph.cause)
        if family.opened and family.first is None:
            family.first = slot.closed
