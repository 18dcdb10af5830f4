"""Checks the GRAPH records of an output: that they are a legal run of objects, and stand in their places.

`Run` is a second reading of crates/nb_ledger/specs/GraphRun.antt, and looks at the events alone; graph_order.py looks
at the other records too. An output that is cut off is checked as far as it goes.
"""

from __future__ import annotations

import io
from dataclasses import dataclass, field
from enum import Enum
from typing import Iterable, Iterator, NamedTuple

from shared.causes import Cause
from shared.fields import CutOff as CutInBytes
from shared.kinds import GraphEvent, Way
from shared.recordings import read_output
from shared.records import Done, Graph, Record
from tests.graph_order import Ends, NotLegal, Order
from tests.graph_records import TIMER

SLOTS = range(4)


class Port(NamedTuple):
    object: int
    slot: int


class State(Enum):
    """Of a port: with a link or without one, on its way to be unplugged, or closed."""

    OPEN = "open"
    LINKED = "linked"
    LEAVING = "leaving"
    CLOSED = "closed"


class PortState(NamedTuple):
    state: State
    peer: Port | None = None

    def takes(self) -> bool:
        """Whether messages may enter by it."""
        return self.state in (State.OPEN, State.LINKED)

    def links(self) -> int:
        return 1 if self.state in (State.LINKED, State.LEAVING) else 0


OPEN, CLOSED = PortState(State.OPEN), PortState(State.CLOSED)


class Running(NamedTuple):
    at: Port
    way: Way


class MustClose(NamedTuple):
    at: Port
    cause: Cause


class MustEnter(NamedTuple):
    at: Port


class MustUnplug(NamedTuple):
    first: Port
    other: Port


class MustFree(NamedTuple):
    object: int


OnStack = Running | MustClose | MustEnter | MustUnplug | MustFree


@dataclass
class Run:
    """Counted objects: how many were made, which live, their holds and ports, and the stack of what runs or is due."""

    made: int = 0
    live: set[int] = field(default_factory=set)
    holds: dict[int, int] = field(default_factory=dict)
    ports: dict[Port, PortState] = field(default_factory=dict)
    stack: list[OnStack] = field(default_factory=list)

    def take(self, event: Graph) -> None:
        """One event more; `NotLegal` where it may not happen now."""
        at, other = Port(event.object, event.slot), Port(event.other, event.other_slot)
        match event.event:
            case GraphEvent.MADE:
                self._make(event.object)
            case GraphEvent.HELD:
                self._idle()
                self._need(event.object in self.live, "a dead object is held")
                self.holds[event.object] += 1
            case GraphEvent.LET_GO:
                self._idle()
                self._need(self.holds.get(event.object, 0) > 0, "a hold is let go that isn't there")
                self.holds[event.object] -= 1
                self._owe(event.object)
            case GraphEvent.PLUGGED:
                self._plug(at, other)
            case GraphEvent.ENTERED:
                self._enter(at, Way(event.other_slot))
            case GraphEvent.LEFT:
                top = self._pop(Running)
                if top.at != at:
                    raise NotLegal(f"an entry is left that isn't the innermost, {top.at}")
                self._owe(at.object)
            case GraphEvent.DROPPED:
                self._drop(at)
            case GraphEvent.CLOSED:
                self._close(at, event.cause)
            case GraphEvent.UNPLUGGED:
                self._unplug(at, other)
            case GraphEvent.FREED:
                top = self._pop(MustFree)
                self._need(top.object == event.object, f"object {top.object} is to be freed")
                self._forget(event.object)

    def is_bare(self) -> bool:
        """Nothing lives, and nothing runs or is due."""
        return not (self.live or any(self.holds.values()) or self.ports or self.stack)

    def port(self, port: Port) -> PortState:
        return self.ports.get(port, CLOSED)

    def _need(self, is_so: bool, why: str) -> None:
        if not is_so:
            raise NotLegal(why)

    def _idle(self) -> None:
        """Nothing has to happen next: no entry runs, or the innermost goes on."""
        if self.stack and not isinstance(self.stack[-1], Running):
            raise NotLegal(f"what has to happen next is {self.stack[-1]}")

    def _pop(self, kind: type) -> OnStack:
        if not self.stack or not isinstance(self.stack[-1], kind):
            raise NotLegal(f"no {kind.__name__} is on the stack's top, but {self.stack[-1:]}")
        return self.stack.pop()

    def _make(self, number: int) -> None:
        self._idle()
        self._need(number == self.made + 1, f"the next object is {self.made + 1}")
        self.made = number
        self.live.add(number)
        self.holds[number] = 0
        for slot in SLOTS:
            self.ports[Port(number, slot)] = OPEN

    def _plug(self, upper: Port, lower: Port) -> None:
        self._idle()
        self._need(self.port(upper) == OPEN and upper.slot >= 1, f"{upper} can't be plugged above")
        self._need(self.port(lower) == OPEN and lower.slot == 0, f"{lower} can't be plugged below")
        self.ports[upper] = PortState(State.LINKED, lower)
        self.ports[lower] = PortState(State.LINKED, upper)

    def _enter(self, at: Port, way: Way) -> None:
        if way is Way.CLOSE:
            top = self._pop(MustEnter)
            self._need(top.at == at, f"{top.at} is to be entered")
        else:
            self._idle()
            if not self._may_enter(at, way):
                raise NotLegal(f"{at} is entered by {way.name}")
        self.stack.append(Running(at, way))

    def _may_enter(self, at: Port, way: Way) -> bool:
        if way is Way.TIME:
            return at.slot == TIMER and at.object in self.live
        is_so = at.slot == 0 if way is Way.DOWN else 1 <= at.slot <= 3
        return is_so and self.port(at).takes()

    def _drop(self, at: Port) -> None:
        self._idle()
        match self.port(at).state:
            case State.OPEN:
                raise NotLegal(f"a message is dropped at {at}, which is open")
            case State.LINKED:
                top = self.stack[-1] if self.stack else None
                is_own = top is None or (isinstance(top, Running) and top.at.object == at.object)
                self._need(is_own, f"a message is dropped at {at}, which is linked")

    def _close(self, at: Port, cause: Cause) -> None:
        port = self.port(at)
        top = self.stack[-1] if self.stack else None
        if isinstance(top, MustClose):
            self._need(top == MustClose(at, cause), f"{top.at} is to be closed with {top.cause}")
            self._need(port.state is State.LINKED, f"{at} is closed, and isn't linked")
            self.stack.pop()
            self.ports[at] = PortState(State.LEAVING, port.peer)
            return
        self._idle()
        if port == OPEN:
            self.ports[at] = CLOSED
            return
        self._need(port.state is State.LINKED, f"{at} is closed twice, or was never open")
        self.ports[at] = PortState(State.LEAVING, port.peer)
        self.stack += [MustUnplug(at, port.peer), MustEnter(port.peer), MustClose(port.peer, cause)]

    def _unplug(self, first: Port, other: Port) -> None:
        top = self._pop(MustUnplug)
        self._need(top == MustUnplug(first, other), f"{top.first} and {top.other} are to be unplugged")
        self.ports[first] = self.ports[other] = CLOSED
        # of two that are to be freed the lower number goes first
        self._owe(max(first.object, other.object))
        self._owe(min(first.object, other.object))

    def _owe(self, number: int) -> None:
        """Something that the object counted fell away: at 0 it has to be freed next."""
        links = sum(self.port(Port(number, slot)).links() for slot in SLOTS)
        entries = sum(isinstance(one, Running) and one.at.object == number for one in self.stack)
        if self.holds.get(number, 0) + links + entries == 0:
            self.stack.append(MustFree(number))

    def _forget(self, number: int) -> None:
        self.live.discard(number)
        self.holds.pop(number, None)
        for slot in SLOTS:
            self.ports.pop(Port(number, slot), None)


def fault_of(records: Iterable[Record]) -> str | None:
    """What is wrong with the GRAPH records of an output, if anything."""
    found = list(records)
    run, ends, step = Run(), Ends(), 0
    try:
        for step, record in enumerate(found, 1):
            ends.take(record)
            if isinstance(record, Graph):
                run.take(record)
            elif run.stack and not isinstance(run.stack[-1], Running):
                raise NotLegal(f"{type(record).__name__} stands where {run.stack[-1]} is due")
            elif isinstance(record, Done) and not run.is_bare():
                raise NotLegal("something lives at DONE")
    except NotLegal as fault:
        return f"record {step} of the output, {found[step - 1]}: {fault}"
    order = Order(found)
    try:
        order.check()
    except NotLegal as fault:
        return f"record {order.place + 1} of the output: {fault}"
    return None


def fault_in(output: bytes) -> str | None:
    """The same of the bytes of an output, which may be cut off anywhere."""

    def whole() -> Iterator[Record]:
        try:
            yield from read_output(io.BytesIO(output))
        except CutInBytes:
            return

    return fault_of(whole())
