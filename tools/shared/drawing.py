"""Draws the objects of each open of a run as text: who stood on whom, from when to when, and what closed what."""

from __future__ import annotations

from typing import Iterable, Iterator

from shared.command_line import Refused
from shared.describe import server_of, target_text
from shared.kinds import Way
from shared.objects import Family, Objects, Slot, Thing, When, ending
from shared.open_sentences import meaning
from shared.recordings import Timed
from shared.records import Graph, Record, Step
from shared.sentences import times
from shared.texts import count

ABOVE = 0
BELOW = (1, 2, 3)
WAYS = {Way.DOWN: "from above", Way.UP: "from below", Way.CLOSE: "by a close", Way.TIME: "by time"}
ORDER = ("first", "second", "third", "fourth", "fifth", "sixth", "seventh", "eighth")
# how far what stands below one of several links of an object is moved to the right
BRANCH = 4
# between the column of ports and what is said of them
GAP = "   "


def pictures(records: Iterable[Record], inputs: Iterator[Timed] | None, only: int | None) -> Iterator[str]:
    """The lines of a picture of each open, in the order in which they ended; or of one open."""
    drawn = 0
    for family in _families(records, inputs):
        if _is_wanted(family, only):
            yield from _separated(family, drawn)
            drawn += 1
    if not drawn:
        yield "no open was made" if only is None else f"there is no open {only}"


def _families(records: Iterable[Record], inputs: Iterator[Timed] | None) -> Iterator[Family]:
    """The opens as they end, and then what is left; a look-up comes when what waited beside it has gone on."""
    objects, when, ended = Objects(), When(0), None
    try:
        for record in records:
            if isinstance(record, Step):
                when = When(record.number, _time_of(record, inputs))
            family = objects.take(when, record)
            if ended and not isinstance(record, Graph):
                yield ended
                ended = None
            if family and family.beside:
                ended = family
            elif family:
                yield family
    except Refused:
        # of a recording that can't be read to its end too, each open that ended is drawn
        yield from [ended] if ended else []
        raise
    yield from [ended] if ended else []
    yield from objects.rest()


def _time_of(step: Step, inputs: Iterator[Timed] | None) -> int | None:
    if inputs is None:
        return None
    timed = next(inputs, None)
    if timed is None:
        raise Refused(f"the input recording has no record {step.number}: it is another run's")
    return timed.time


def _is_wanted(family: Family, only: int | None) -> bool:
    return only is None or (family.opened is not None and family.opened.number == only)


def _separated(family: Family, drawn: int) -> Iterator[str]:
    if drawn:
        yield ""
    yield from Picture(family).lines()


class Picture:
    """The picture of one open: its title, its objects from the upper ones down, and how it ended."""

    def __init__(self, family: Family) -> None:
        self.family = family
        self.width = max((len(thing.name) for thing in family.things.values()), default=0) + 2
        self.drawn: set[int] = set()

    def lines(self) -> Iterator[str]:
        yield self._title()
        things = self.family.things
        if not things:
            yield "  there is no GRAPH record of its objects"
        uppermost = [thing for thing in things.values() if not self._has_upper(thing)]
        for thing in [*uppermost, *things.values()]:
            if thing.number not in self.drawn:
                yield from self._port(thing.slots.get(ABOVE), ABOVE, 0)
                yield from self._tree(thing, 0)
        yield from self._end()

    def _title(self) -> str:
        opened = self.family.opened
        if opened is None:
            return "objects of no open"
        target = f", target {target_text(opened)}" if opened.target else ""
        return f"open {opened.number}: {opened.kind.name} with {server_of(opened)}{target}"

    def _has_upper(self, thing: Thing) -> bool:
        slot = thing.slots.get(ABOVE)
        return slot is not None and slot.peer is not None and slot.peer[0] in self.family.things

    def _tree(self, thing: Thing, depth: int) -> Iterator[str]:
        """An object, the links below it, and what they lead to."""
        self.drawn.add(thing.number)
        yield f"{thing.name:>{self.width + depth}} {GAP}{_life(thing)}"
        slots = [(number, thing.slots[number]) for number in BELOW if number in thing.slots]
        linked = [(number, slot) for number, slot in slots if slot.peer]
        for number, slot in slots:
            if not slot.peer:
                yield from self._port(slot, number, depth)
        for number, slot in linked:
            yield from self._port(slot, number, depth)
            yield from self._link(slot, depth, depth + (BRANCH if len(linked) > 1 else 0))

    def _link(self, slot: Slot, depth: int, below: int) -> Iterator[str]:
        assert slot.peer is not None
        other = self.family.things.get(slot.peer[0])
        gone = f", unplugged in {slot.unplugged}" if slot.unplugged else ""
        yield f"{'|':>{self.width + depth}} {GAP}plugged in {slot.plugged}{gone}"
        if other and other.number not in self.drawn:
            yield from self._port(other.slots[slot.peer[1]], slot.peer[1], below)
            yield from self._tree(other, below)

    def _port(self, slot: Slot | None, number: int, depth: int) -> Iterator[str]:
        """A port, where it was used; else nothing."""
        if slot and (slot.peer or slot.closed or slot.entered or slot.dropped):
            yield f"{'|':>{self.width + depth}}{number}{GAP}{_state(slot)}"

    def _end(self) -> Iterator[str]:
        """How the open ended, and which close that was."""
        opened, ended, first = self.family.opened, self.family.ended, self.family.first
        if opened is None:
            return
        if ended is None:
            yield "  it didn't end in this recording"
        else:
            yield f"  ended in {self.family.over}: {ending(ended.cause, first)}; {meaning(opened, ended.cause)}"
        for thing in self.family.beside:
            yield f"  beside it {thing.name} {_wait(thing)}"


def _wait(thing: Thing) -> str:
    """How an object waited for an address: from when on, and what came of it."""
    if thing.open is not None:
        return f"waited for the address, made in {thing.made}; then it went on in open {thing.open}"
    if thing.freed:
        return f"waited for the address, made in {thing.made} and freed in {thing.freed}"
    return f"waits for the address, made in {thing.made}"


def _life(thing: Thing) -> str:
    """From when to when an object lived, and how often it was entered."""
    end = f"freed in {thing.freed}" if thing.freed else "not freed"
    ways = [f"{times(thing.entries[way])} {how}" for way, how in WAYS.items() if thing.entries[way]]
    entered = f"; entered {', '.join(ways)}" if ways else ""
    return f"made in {thing.made}, {end}{entered}"


def _state(slot: Slot) -> str:
    dropped = f"; {count(slot.dropped, 'message')} dropped" if slot.dropped else ""
    if slot.closed is None:
        return f"open{dropped}"
    place = slot.closed.place
    order = ORDER[place - 1] if place <= len(ORDER) else f"as number {place}"
    return f"closed {order}, in {slot.closed.when}: {slot.closed.cause}{dropped}"
