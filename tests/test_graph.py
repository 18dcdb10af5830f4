"""The object graph in the outputs: each open's events written out, and the checks that every output passes."""

from __future__ import annotations

import io
import unittest
from collections import Counter

from shared.causes import OK, Cause, Code
from shared.fields import Damaged
from shared.kinds import GraphEvent, ObjectKind, Way
from shared.recordings import read_input
from shared.records import Advance, Done, Ended, Graph, Record, Sent, Step
from shared.wire import tftp_ack
from tests import graph_records, made, test_drives, test_lease, test_lookup, test_names, test_ping, test_replay
from tests import transfer_rows
from tests.all_rows import all_inputs, expected
from tests.graph_entries import entries_fault
from tests.graph_run import NotLegal, Run, fault_of
from tests.replays import can_run, replayed
from tests.script_rows import Row

KINDS = {kind.name.lower(): kind for kind in ObjectKind}
WAYS = {way.name.lower(): way for way in Way}
CAUSES = {
    "ok": OK,
    "timed_out": Cause(Code.TIMED_OUT, 6),
    "refused": Cause(Code.REFUSED, 4, 1),
    "broken": Cause(Code.BROKEN, 4),
    "no_route": Cause(Code.NO_ROUTE, 0x0A000101),
    "stopped": Cause(Code.STOPPED),
    "too_large": Cause(Code.TOO_LARGE, 1),
    "nak": Cause(Code.REFUSED, 6, 6),
    "unleased": Cause(Code.TIMED_OUT, 4),
    "no_address": Cause(Code.REFUSED, 4, 0),
    "no_name": Cause(Code.REFUSED, 4, 3),
    "unreached": Cause(Code.NO_ROUTE, 0x0B000001),
    "lost": Cause(Code.NO_ROUTE, 0x0B000009),
    "login": Cause(Code.REFUSED, 5, 513),
    "lost_drive": Cause(Code.BROKEN, 9),
}

MADE = "made 1 fetch, held 1, made 2 tftp, held 2, plugged 1.1 2.0"
ASKED = "entered 1.0 down, entered 2.0 down, left 2.0, left 1.0"
TIMED = "entered 2.4 time, left 2.4"
IGNORED = "entered 2.1 up, left 2.1"
BLOCK = "entered 2.1 up, entered 1.1 up, left 1.1, left 2.1"
FREED = "letgo 1, freed 1, letgo 2, freed 2"
SHUT_LATER = (
    "closed 1.1 stopped, closed 2.0 stopped, entered 2.0 close, closed 2.1 stopped, left 2.0, unplugged 1.1 2.0, "
    "closed 1.2 stopped, closed 1.3 stopped, closed 2.2 stopped, closed 2.3 stopped"
)
SHUT = f"closed 1.0 stopped, {SHUT_LATER}"


def ends(cause: str) -> str:
    return (
        f"closed 2.0 {cause}, closed 1.1 {cause}, entered 1.1 close, closed 1.0 {cause}, left 1.1, "
        f"unplugged 2.0 1.1, closed 2.1 {cause}"
    )


# those of the last block, but for its Left
LAST = ["entered 2.1 up, entered 1.1 up, left 1.1", ends("ok")]

# the events of examples/tftp-boot.rec, a line for each of its records: block 2 comes twice, and is acknowledged twice
# more in the times after it; a late copy of block 3 comes after block 4
EXAMPLE = [
    MADE, ASKED, TIMED, TIMED,
    BLOCK, TIMED,
    BLOCK, IGNORED, TIMED, TIMED, TIMED, TIMED,
    BLOCK, TIMED,
    BLOCK, IGNORED, TIMED,
    *LAST, "left 2.1", FREED,
]  # fmt: skip

# the events of rows of test_replay.py, from the first to the last
EVENTS: dict[str, list[str]] = {
    # three blocks: the second comes twice, and the first late
    "twice_and_late": [MADE, ASKED, TIMED, BLOCK, BLOCK, IGNORED, IGNORED, *LAST, "left 2.1", FREED],
    # three blocks, of which the last has no bytes that could go up
    "an_empty_last_block": [MADE, ASKED, TIMED, BLOCK, BLOCK, "entered 2.1 up", ends("ok"), "left 2.1", FREED],
    "a_boot": [MADE, ASKED, TIMED, BLOCK, TIMED, *LAST, "left 2.1", FREED],
    "refused_at_once": [MADE, ASKED, TIMED, "entered 2.1 up", ends("refused"), "left 2.1", FREED],
    "a_block_too_long": [MADE, ASKED, TIMED, "entered 2.1 up", ends("broken"), "left 2.1", FREED],
    "silence": [MADE, ASKED, *[TIMED] * 62, "entered 2.4 time", ends("timed_out"), "left 2.4", FREED],
    "no_route": [MADE, ASKED, "closed 1.0 no_route, closed 1.1 no_route, closed 2.0 no_route, entered 2.0 close, "
                 "closed 2.1 no_route, left 2.0, unplugged 1.1 2.0", FREED],
    "power_off": [MADE, ASKED, TIMED, SHUT, FREED],
    "input_ends": [MADE, ASKED, TIMED, SHUT, FREED],
    "a_second_start": [MADE, ASKED, TIMED, SHUT, FREED],
    "power_off_at_once": [MADE, ASKED, SHUT, FREED],
    "input_ends_at_once": [MADE, ASKED, SHUT, FREED],
    # the nine frames before the three that reach the transfer write nothing
    "frames_that_bring_nothing": [MADE, ASKED, TIMED, *[IGNORED] * 3, *LAST, "left 2.1", FREED],
    "bad_uri": [],
    "no_start": [],
}  # fmt: skip

# those of opens with one object, by the cases of test_lease.py, test_ping.py and test_lookup.py
OF_ONE = {"lease": test_lease, "ping": test_ping, "lookup": test_lookup, "names": test_names}
ONE_ASKED, ONE_TIMED = "entered 1.0 down, left 1.0", "entered 1.4 time, left 1.4"
ONE_IGNORED, ONE_FREED = "entered 1.1 up, left 1.1", "letgo 1, freed 1"
ONE_SHUT = "closed 1.0 stopped, closed 1.1 stopped, closed 1.2 stopped, closed 1.3 stopped"


def one_ends(cause: str, entry: str = "entered 1.1 up", left: str = "left 1.1") -> str:
    return f"{entry}, closed 1.0 {cause}, closed 1.1 {cause}, {left}, {ONE_FREED}"


EVENTS_OF_ONE: dict[str, list[str]] = {
    # the offer doesn't end it, the acknowledgement does
    "lease_a_lease": ["made 1 dhcp, held 1", ONE_ASKED, ONE_IGNORED, one_ends("ok")],
    "lease_refused": ["made 1 dhcp, held 1", ONE_ASKED, ONE_TIMED, ONE_TIMED, ONE_IGNORED, ONE_TIMED, one_ends("nak")],
    "lease_nobody_offers": ["made 1 dhcp, held 1", ONE_ASKED, *[ONE_TIMED] * 14,
                            one_ends("unleased", "entered 1.4 time", "left 1.4")],
    "lease_power_off": ["made 1 dhcp, held 1", ONE_ASKED, ONE_SHUT, ONE_FREED],
    "ping_answered": ["made 1 ping, held 1", ONE_ASKED, ONE_TIMED, one_ends("ok")],
    "ping_no_gateway": ["made 1 ping, held 1", ONE_ASKED, "closed 1.0 no_route, closed 1.1 no_route", ONE_FREED],
    "ping_two_pings": ["made 1 ping, held 1", ONE_ASKED, ONE_TIMED, one_ends("ok"),
                       "made 2 ping, held 2, entered 2.0 down, left 2.0",
                       "entered 2.1 up, closed 2.0 ok, closed 2.1 ok, left 2.1, letgo 2, freed 2"],
    "lookup_an_alias_and_an_address": ["made 1 resolver, held 1", ONE_ASKED, ONE_TIMED, one_ends("ok")],
    "lookup_no_records": ["made 1 resolver, held 1", ONE_ASKED, ONE_TIMED, one_ends("no_address")],
}  # fmt: skip

# those of a command whose server is a name, by the cases of test_names.py: its first object waits beside a resolver
LOOKS_UP = ["made 2 resolver, held 2, entered 2.0 down, left 2.0", "entered 2.4 time, left 2.4"]
FOUND = "entered 2.1 up, closed 2.0 ok, closed 2.1 ok, left 2.1, letgo 2, freed 2"
OPENS = "made 3 tftp, held 3, plugged 1.1 3.0, entered 1.0 down, entered 3.0 down, left 3.0, left 1.0"
BOTH_SHUT = "closed 2.0 stopped, closed 2.1 stopped, closed 2.2 stopped, closed 2.3 stopped"
EVENTS_OF_NAMES: dict[str, list[str]] = {
    "names_a_file": [
        "made 1 fetch, held 1", *LOOKS_UP, FOUND, OPENS, "entered 3.4 time, left 3.4",
        "entered 3.1 up, entered 1.1 up, left 1.1, closed 3.0 ok, closed 1.1 ok, entered 1.1 close, closed 1.0 ok, "
        "left 1.1, unplugged 3.0 1.1, closed 3.1 ok, left 3.1, letgo 1, freed 1, letgo 3, freed 3",
    ],
    "names_no_such_name": [
        "made 1 fetch, held 1", *LOOKS_UP, "entered 2.1 up, closed 2.0 no_name, closed 2.1 no_name, left 2.1",
        "letgo 2, freed 2, letgo 1, freed 1",
    ],
    "names_no_name_server": [],
    "names_no_way_to_the_name_server": [
        "made 1 fetch, held 1", LOOKS_UP[0],
        "closed 2.0 unreached, closed 2.1 unreached, letgo 2, freed 2, letgo 1, freed 1",
    ],
    "names_no_way_to_the_server": [
        "made 1 fetch, held 1", *LOOKS_UP, FOUND, OPENS,
        "closed 1.0 lost, closed 1.1 lost, closed 3.0 lost, entered 3.0 close, closed 3.1 lost, left 3.0, "
        "unplugged 1.1 3.0, letgo 1, freed 1, letgo 3, freed 3",
    ],
    "names_power_off_in_the_look_up": ["made 1 fetch, held 1", LOOKS_UP[0], ONE_SHUT, BOTH_SHUT, FREED],
    "names_a_ping": ["made 1 ping, held 1", *LOOKS_UP, FOUND, ONE_ASKED, ONE_TIMED, one_ends("ok")],
    "names_a_ping_s_look_up_and_power_off": ["made 1 ping, held 1", *LOOKS_UP, ONE_SHUT, BOTH_SHUT, FREED],
}  # fmt: skip


# those of a drive, by the cases of test_drives.py: a disk, an iSCSI and a TCP
DRIVE_MADE = "made 1 disk, held 1, made 2 iscsi, held 2, plugged 1.1 2.0, made 3 tcp, held 3, plugged 2.1 3.0"
DRIVE_ASKED = (
    "entered 1.0 down, entered 2.0 down, entered 3.0 down, left 3.0, entered 3.0 down, left 3.0, left 2.0, left 1.0, "
    "entered 3.4 time, left 3.4, entered 3.1 up, left 3.1"
)
DRIVE_LOGS_IN = "entered 3.1 up, entered 2.1 up, entered 3.0 down, left 3.0, left 2.1, left 3.1"
DRIVE_COMMANDS = (
    "entered 3.1 up, entered 2.1 up, entered 1.1 up, entered 2.0 down, entered 3.0 down, left 3.0, left 2.0, left 1.1, left 2.1, "
    "left 3.1"
)
DRIVE_SIZED = "entered 3.1 up, entered 2.1 up, entered 1.1 up, left 1.1, left 2.1, left 3.1"
DRIVE_CLOSED = (
    "closed 1.0 stopped, closed 1.1 stopped, closed 2.0 stopped, entered 2.0 close, closed 2.1 stopped, closed 3.0 stopped, "
    "entered 3.0 close, closed 3.1 stopped, left 3.0, unplugged 2.1 3.0, left 2.0, unplugged 1.1 2.0"
)
DRIVE_SHUT = ", ".join(f"closed {number}.{slot} stopped" for number in (1, 2, 3) for slot in (2, 3))
DRIVE_FREED = "letgo 1, freed 1, letgo 2, freed 2, letgo 3, freed 3"
# the login fails, in the entry by which its answer came; and the stream of an open session ends
DRIVE_REFUSED = (
    "entered 3.1 up, entered 2.1 up, closed 2.0 login, closed 1.1 login, entered 1.1 close, closed 1.0 login, left 1.1, "
    "unplugged 2.0 1.1, closed 2.1 login, closed 3.0 login, entered 3.0 close, closed 3.1 login, left 3.0, unplugged 2.1 3.0, "
    "left 2.1, left 3.1"
)
DRIVE_LOST = (
    "entered 3.1 up, entered 2.1 up, entered 1.1 up, closed 1.0 lost_drive, closed 1.1 lost_drive, closed 2.0 lost_drive, "
    "entered 2.0 close, closed 2.1 lost_drive, closed 3.0 lost_drive, entered 3.0 close, closed 3.1 lost_drive, left 3.0, "
    "unplugged 2.1 3.0, left 2.0, unplugged 1.1 2.0, left 1.1, left 2.1, left 3.1"
)
DRIVE_READ = "entered 1.0 down, entered 2.0 down, entered 3.0 down, left 3.0, left 2.0, left 1.0"
DRIVE_READ_AND_LOST = DRIVE_LOST.replace("entered 2.1 up, ", "entered 2.1 up, entered 1.1 up, left 1.1, left 2.1, entered 2.1 up, ", 1)
DRIVE_HOOKED = [DRIVE_MADE, DRIVE_ASKED, DRIVE_LOGS_IN, DRIVE_COMMANDS, DRIVE_COMMANDS, DRIVE_SIZED]
EVENTS_OF_DRIVES: dict[str, list[str]] = {
    "plain": [*DRIVE_HOOKED, DRIVE_CLOSED, DRIVE_SHUT, DRIVE_FREED],
    "refused": [DRIVE_MADE, DRIVE_ASKED, DRIVE_REFUSED, DRIVE_FREED],
    "ends_asleep_by_fin": [*DRIVE_HOOKED, DRIVE_LOST, DRIVE_FREED],
    "pinged": [*DRIVE_HOOKED, DRIVE_COMMANDS.replace("left 1.1, left 2.1", "left 1.1, entered 1.1 up, left 1.1, left 2.1"),
               "entered 3.1 up, left 3.1", DRIVE_COMMANDS, "entered 3.4 time, left 3.4", DRIVE_CLOSED, DRIVE_SHUT, DRIVE_FREED],
    # the first block's answer goes up as that of the size does
    "boot_plain": [*DRIVE_HOOKED, DRIVE_READ, DRIVE_SIZED, DRIVE_CLOSED, DRIVE_SHUT, DRIVE_FREED],
    "booted_plain": [*DRIVE_HOOKED, DRIVE_READ, DRIVE_SIZED, DRIVE_CLOSED, DRIVE_SHUT, DRIVE_FREED],
    "boot_closed_with_its_block": [*DRIVE_HOOKED, DRIVE_READ, DRIVE_READ_AND_LOST, DRIVE_FREED],
}  # fmt: skip


def row_of(case: str) -> Row:
    """The row of a case of an open with one object, or of a server that is a name."""
    module, _, name = case.partition("_")
    return OF_ONE[module].ROWS[name]


def port(text: str) -> tuple[int, int]:
    number, _, slot = text.partition(".")
    return int(number), int(slot or 0)


def event(text: str) -> Graph:
    """An event as it is written above."""
    name, at, *more = text.split()
    number, slot = port(at)
    match name:
        case "made":
            return Graph(GraphEvent.MADE, number, other=KINDS[more[0]])
        case "letgo":
            return Graph(GraphEvent.LET_GO, number)
        case "plugged" | "unplugged":
            return Graph(GraphEvent[name.upper()], number, slot, *port(more[0]))
        case "entered":
            return Graph(GraphEvent.ENTERED, number, slot, 0, WAYS[more[0]])
        case "closed":
            return Graph(GraphEvent.CLOSED, number, slot, cause=CAUSES[more[0]])
    return Graph(GraphEvent[name.upper()], number, slot)


def events(*texts: str) -> list[Graph]:
    return [event(one) for text in texts for one in text.split(", ")]


def graph_of(records: list[Record]) -> list[Record]:
    return [record for record in records if isinstance(record, Graph)]


def whole_records(recording: bytes) -> list[Record]:
    """The records of an input, up to its end or the first place where it is none."""
    found: list[Record] = []
    try:
        for timed in read_input(io.BytesIO(recording)):
            found.append(timed.record)
    except Damaged:
        pass
    return found


class WrittenOut(unittest.TestCase):
    """What the tests expect is what is written out here, and is a legal run in its places."""

    def test_the_events_of_rows(self) -> None:
        for name, wanted in EVENTS.items():
            with self.subTest(name):
                self.assertEqual(graph_of(test_replay.ROWS[name].outputs), events(*wanted))
        for case, wanted in {**EVENTS_OF_ONE, **EVENTS_OF_NAMES}.items():
            with self.subTest(case):
                self.assertEqual(graph_of(row_of(case).outputs), events(*wanted))
        for name, wanted in EVENTS_OF_DRIVES.items():
            with self.subTest(name):
                self.assertEqual(graph_of(test_drives.ROWS[name].outputs), events(*wanted))

    def test_a_second_open_has_the_next_numbers(self) -> None:
        made_by = [record for record in graph_of(test_replay.ROWS["two_files"].outputs)
                   if record.event is GraphEvent.MADE]
        self.assertEqual(made_by, events("made 1 fetch, made 2 tftp, made 3 fetch, made 4 tftp"))

    def test_where_the_records_stand(self) -> None:
        """A whole output, with the kinds of its records in a line for each step."""
        lines: list[list[str]] = []
        for record in made.BOOT_OUTPUT:
            if isinstance(record, Step):
                lines.append([])
            name = record.event.name.lower() if isinstance(record, Graph) else record.NAME
            lines[-1].append(name)
        self.assertEqual(
            [" ".join(line) for line in lines],
            [
                "STEP SCRIPT COMMAND made held made held plugged OPEN entered entered TRY FRAME left left",
                "STEP",
                "STEP entered TRY FRAME left",
                "STEP entered ADVANCE TRY FRAME entered left left",
                "STEP entered left",
                "STEP entered ADVANCE FRAME entered left closed closed entered closed left unplugged closed left "
                "let_go freed let_go freed ENDED RESULT PART PART PART DONE",
            ],
        )

    def test_a_record_in_bytes(self) -> None:
        spelled = made.spelled(graph_records.closed_below(0, OK)[:1])
        self.assertEqual(spelled.hex(), "0000001d8b080000000000000002" + "00" * 19)

    def test_all_are_runs_of_the_graph(self) -> None:
        for name, row in expected().items():
            with self.subTest(name):
                self.assertIsNone(fault_of(row.outputs))

    def test_each_record_enters_as_it_should(self) -> None:
        for name, row in expected().items():
            with self.subTest(name):
                self.assertIsNone(entries_fault(row.inputs, row.outputs))

    def test_a_body_that_grows_too_large(self) -> None:
        begins = [*made.fetch_begins(test_replay.FETCH, b"f"), Step(2)]
        for over in (None, OK, Cause(Code.TOO_LONG, 4)):
            ack = [Advance(0, 1), made.to_server(tftp_ack(1))]
            grew = graph_records.grew_too_large(0, *ack, over=over)
            late = f"closed 2.1 {'ok' if over == OK else 'too_large'}"
            if over in (None, OK):
                self.assertEqual(graph_of(grew), events(
                    "entered 2.1 up, entered 1.1 up, closed 1.0 too_large, closed 1.1 too_large, closed 2.0 too_large, "
                    "entered 2.0 close", *([] if over else [late]), "left 2.0",
                    "unplugged 1.1 2.0, dropped 1.1, left 1.1",
                    *([late] if over else []), "left 2.1", FREED,
                ))
            ended = made.fails(graph_records.TOO_LARGE)
            self.assertIsNone(fault_of([*begins, *grew, *ended]))
            for place in range(len(begins) + 2, len(begins) + len(grew)):
                broken = [*begins, *grew, *ended]
                del broken[place]
                is_frame = isinstance(grew[place - len(begins)], (Advance, Sent))
                self.assertEqual(fault_of(broken) is None, is_frame, place)


class Counts(unittest.TestCase):
    """One fetch of a file in three blocks: two objects, one link."""

    def counted(self, records: list[Record]) -> None:
        found = Counter((record.event, record.object) for record in graph_of(records))
        for number in (1, 2):
            self.assertEqual((found[GraphEvent.MADE, number], found[GraphEvent.FREED, number]), (1, 1))
        links = Counter(record.event for record in graph_of(records))
        self.assertEqual((links[GraphEvent.MADE], links[GraphEvent.FREED]), (2, 2))
        self.assertEqual((links[GraphEvent.PLUGGED], links[GraphEvent.UNPLUGGED]), (1, 1))
        self.assertEqual(links[GraphEvent.ENTERED], links[GraphEvent.LEFT])

    def test_expected(self) -> None:
        for name in ("twice_and_late", "an_empty_last_block"):
            self.counted(test_replay.ROWS[name].outputs)

    @unittest.skipUnless(can_run(), "the program isn't built, and the toolchain's rt is missing")
    def test_written(self) -> None:
        for name in ("twice_and_late", "an_empty_last_block"):
            self.counted(test_replay.read_all(replayed()[name].output))


class Refusals(unittest.TestCase):
    """The checks refuse what is no run, at each place."""

    SHORT = {
        **{name: test_replay.ROWS[name].outputs
           for name in ("a_boot", "two_files", "no_route", "power_off", "a_foreign_port", "refused_later")},
        **{name: test_drives.ROWS[name].outputs
           for name in ("plain", "refused", "ends_asleep_by_fin", "pinged", "anew", "boot_plain", "boot_closed_with_its_block")},
        **{case: row_of(case).outputs
           for case in (*EVENTS_OF_ONE, *EVENTS_OF_NAMES, "lease_a_boot", "lease_power_off_in_the_transfer")},
    }  # fmt: skip

    def test_a_record_left_out_or_twice(self) -> None:
        for name, outputs in self.SHORT.items():
            for place, record in enumerate(outputs):
                if isinstance(record, (Graph, Ended)):
                    with self.subTest(name, place=place):
                        self.assertIsNotNone(fault_of(outputs[:place] + outputs[place + 1 :]))
                        self.assertIsNotNone(fault_of(outputs[: place + 1] + outputs[place:]))

    def test_two_records_in_the_other_order(self) -> None:
        for name, outputs in self.SHORT.items():
            for place in range(1, len(outputs)):
                pair = outputs[place - 1 : place + 1]
                if any(isinstance(record, Graph) for record in pair) and not self.is_beside(pair):
                    with self.subTest(name, place=place):
                        other = [*outputs[: place - 1], *reversed(pair), *outputs[place + 1 :]]
                        self.assertIsNotNone(fault_of(other))

    def is_beside(self, pair: list[Record]) -> bool:
        """The order of a frame or a STEP and an entry isn't the graph's: a frame may be a reply."""
        return any(isinstance(record, (Step, Sent)) for record in pair)

    def test_a_run_that_is_cut_off_is_one(self) -> None:
        for name, outputs in self.SHORT.items():
            for length in range(len(outputs)):
                self.assertIsNone(fault_of(outputs[:length]), (name, length))

    def test_an_entry_that_is_missing_or_not_its_record_s(self) -> None:
        inputs, outputs = made.BOOT_INPUT, made.BOOT_OUTPUT
        for place, record in enumerate(outputs):
            is_outer = isinstance(record, Graph) and (record.event, record.object) == (GraphEvent.ENTERED, 2)
            if is_outer and record.slot:
                without = [*outputs[:place], *outputs[place + 1 :]]
                self.assertIn("begins with", entries_fault(inputs, without))
        before = [*inputs[:1], *inputs[2:3], *inputs[1:2], *inputs[3:]]
        self.assertIsNotNone(entries_fault(before, outputs))

    def test_something_lives_at_done(self) -> None:
        begins = made.fetch_begins(test_replay.FETCH, b"f")
        self.assertIn("lives at DONE", fault_of([*begins, transfer_rows.ENDED_WELL[1]]))
        stopped = graph_records.shut(0)
        self.assertIsNone(fault_of([*begins, *stopped, transfer_rows.ENDED_WELL[1]]))
        other = [record if record != stopped[-1] else Ended(0, OK) for record in stopped]
        self.assertIn("the first close is", fault_of([*begins, *other, transfer_rows.ENDED_WELL[1]]))

    def test_what_is_no_step_of_the_relation(self) -> None:
        joined = "made 1 fetch, held 1, made 2 tftp, held 2, plugged 1.1 2.0"
        for texts in (
            ["made 2 fetch"],
            ["made 1 fetch, made 1 fetch"],
            ["held 1"],
            ["letgo 1"],
            ["made 1 fetch, letgo 1"],
            ["made 1 fetch, freed 1"],
            ["made 1 fetch, held 1, letgo 1, made 2 tftp"],
            [joined, "plugged 1.1 2.0"],
            [joined, "plugged 1.0 2.1"],
            [joined, "unplugged 1.1 2.0"],
            [joined, "entered 1.0 up"],
            [joined, "entered 1.1 down"],
            [joined, "entered 1.1 close"],
            [joined, "entered 3.4 time"],
            [joined, "entered 1.3 time"],
            [joined, "left 1.0"],
            [joined, "entered 1.0 down, left 1.1"],
            [joined, "dropped 2.1"],
            [joined, "entered 2.1 up, dropped 1.1"],
            [joined, "closed 1.4 ok"],
            [joined, "closed 2.0 ok, closed 1.1 stopped"],
            [joined, "closed 2.0 ok, closed 1.1 ok, closed 1.0 ok"],
            [joined, "closed 2.1 ok, closed 2.1 ok"],
            [joined, "closed 2.1 ok, entered 2.1 up"],
            [joined, "closed 2.0 ok, closed 1.1 ok, entered 1.1 close, unplugged 2.0 1.1"],
            [joined, "closed 2.0 ok, closed 1.1 ok, entered 1.1 close, left 1.1, unplugged 1.1 2.0"],
        ):  # fmt: skip
            *before, last = events(*texts)
            run = Run()
            for one in before:
                run.take(one)
            with self.subTest(texts), self.assertRaises(NotLegal):
                run.take(last)

    def test_what_is_one(self) -> None:
        joined = "made 1 fetch, held 1, made 2 tftp, held 2, plugged 1.1 2.0"
        for texts in (
            # the link keeps an object that was let go, and its entry does
            [joined, "letgo 2, closed 1.1 ok, closed 2.0 ok, entered 2.0 close, left 2.0, unplugged 1.1 2.0, freed 2",
             "letgo 1, freed 1"],
            ["made 1 fetch, held 1, entered 1.4 time, letgo 1, left 1.4, freed 1"],
            # of two that are freed by one event the lower number goes first
            [joined, "letgo 1, letgo 2, closed 1.1 ok, closed 2.0 ok, entered 2.0 close, left 2.0",
             "unplugged 1.1 2.0, freed 1, freed 2"],
            # a message is dropped where the port is closed, or outside all entries, or by an entry of its own object
            [joined, "dropped 1.1, entered 1.0 down, dropped 1.1, left 1.0, closed 1.0 ok, dropped 1.0", SHUT_LATER,
             FREED],
        ):  # fmt: skip
            run = Run()
            for one in events(*texts):
                run.take(one)
            self.assertTrue(run.is_bare(), texts)


@unittest.skipUnless(can_run(), "the program isn't built, and the toolchain's rt is missing")
class Outputs(unittest.TestCase):
    """Every output of the program that the tests look at: good, hostile and cut inputs, and scripts by chance."""

    # its 434,187 records are compared with a row, which is checked above
    LONGEST = "script_all_opens"

    def test_each_is_a_run_of_the_graph(self) -> None:
        for name, run in replayed().items():
            if run.output is not None and name != self.LONGEST:
                with self.subTest(name):
                    records = test_replay.read_all(run.output)
                    self.assertIsNone(fault_of(records))
                    self.assertIsInstance(records[-1], Done)

    def test_each_record_enters_as_it_should(self) -> None:
        for name, recording in all_inputs().items():
            output = replayed()[name].output
            if output is not None and name != self.LONGEST:
                with self.subTest(name):
                    self.assertIsNone(entries_fault(whole_records(recording), test_replay.read_all(output)))

    def test_the_events_of_rows(self) -> None:
        for name, wanted in {**EVENTS, **EVENTS_OF_ONE, **EVENTS_OF_NAMES, "example": EXAMPLE}.items():
            with self.subTest(name):
                output = test_replay.read_all(replayed()[name].output)
                self.assertEqual(graph_of(output), events(*wanted))


if __name__ == "__main__":
    unittest.main()
