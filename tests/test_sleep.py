"""Scripts that sleep, over times and frames: the program's whole output, record by record.

What is expected is written by hand from docs/SCRIPTS.md and docs/RECORDS.md.
"""

from __future__ import annotations

import unittest
from dataclasses import replace

from shared.causes import OK, Cause, Code
from shared.kinds import PartKind, Status
from shared.recordings import read_input
from shared.records import Advance, Command, Done, Off, Part, Received, Record, Result, Sent
from shared.records import Step, Text, Tick, Try
from shared.wire import arp_reply, arp_request, tftp_ack, tftp_request, udp_frame
from tests import made
from tests.case import TOP
from tests.graph_records import asked, came, passed, shut
from tests.replays import can_run
from tests.script_model import Model
from tests.script_rows import FIRST, MOST, UNFINISHED, Row, RowCase, ran, row

ENDED = [made.leave(OK), Done(Status.ENDED)]


def sleeps(script: bytes, *steps: tuple[Record, list[Record]], first: list[Record]) -> Row:
    """A script whose first step has these records, and then records with what each brings."""
    outputs = [Step(1), made.enter(), *first]
    for number, (_, brought) in enumerate(steps, 2):
        outputs += [Step(number), *brought]
    return Row([made.start(FIRST + script), *[record for record, _ in steps]], outputs)


def with_end(row: Row, *end: Record) -> Row:
    return Row(row.inputs, [*row.outputs, *end])


def sleeping() -> dict[str, Row]:
    begins = [made.command(b"sleep 1")]
    wanted = Received(arp_request(made.SERVER, made.CLIENT.ip))
    replied = [Sent(arp_reply(made.CLIENT, made.SERVER))]
    over = [Result(OK)]
    two = b"sleep 1 && sleep 2 ; echo a"
    second = [Command(1, 2, 1, True, (b"sleep", b"2"))]
    goes = ran(b"goto a", line=4)
    fetch = b"imgfetch tftp://10.0.0.1/f"
    return {
        "sleep": sleeps(b"sleep 1", (Tick(600), []), (Tick(600), [*over, *ENDED]), first=begins),
        "sleep_to_the_millisecond": sleeps(
            b"sleep 1", (Tick(999), []), (Tick(1), [*over, *ENDED]), first=begins
        ),
        "sleep_0": row(b"sleep 0 ; sleep 0x0 ; echo a", ran(b"sleep 0"), ran(b"sleep 0x0", place=1),
                       ran(b"echo a", place=2)),
        "sleep_over_frames": sleeps(
            b"sleep 1", (wanted, replied), (Tick(999), []), (wanted, replied), (Tick(60_000), [*over, *ENDED]),
            first=begins
        ),
        "two_sleeps": sleeps(
            two, (Tick(5_000), [*over, *second]), (Tick(1_999), []),
            (Tick(1), [*over, *ran(b"echo a", place=2), *ENDED]),
            first=begins,
        ),
        "sleep_and_power_off": sleeps(b"sleep 1 || echo a", (Tick(1), []), (Off(), [UNFINISHED]), first=begins),
        "sleep_and_the_input_ends": with_end(sleeps(b"sleep 1", (Tick(999), []), first=begins), UNFINISHED),
        "sleep_and_another_start": Row(
            [made.start(FIRST + b"sleep 1")] * 2, [Step(1), made.enter(), *begins, Done(Status.BAD_RECORD)]
        ),
        "sleep_for_long": sleeps(b"sleep 4000000", *[(Tick(60_000), [])] * 3, (Off(), [UNFINISHED]),
                                 first=[made.command(b"sleep 4000000")]),
        "sleep_by_a_setting": sleeps(
            b"set n:uint8 2 ; sleep ${n}", (Tick(2_000), [*over, *ENDED]),
            first=[*ran(b"set n:uint8 2"), Command(1, 2, 1, True, (b"sleep", b"0x2"))],
        ),
        "4096_after_a_sleep": with_end(
            sleeps(b"sleep 1\n:a\ngoto a", (Tick(1_000), [*over, *goes * MOST]), (wanted, [*replied, *goes * MOST]),
                   first=begins),
            UNFINISHED,
        ),
        "a_sleep_as_the_last_of_4096": sleeps(
            b"echo -n\n" * (MOST - 1) + b"sleep 1 ; exit", (Tick(999), []),
            (Tick(1), [*over, *ran(b"exit", line=MOST + 1, place=1), *ENDED]),
            first=[*[record for line in range(2, MOST + 1)
                     for record in (Command(1, line, 0, True, (b"echo", b"-n")), Text(b""), Result(OK))],
                   made.command(b"sleep 1", MOST + 1)],
        ),
        "a_fetch_after_a_sleep": with_end(
            sleeps(b"sleep 1\n" + fetch, (made.found(), []), (Tick(1_000), [*over, *fetch_after()]),
                   (Tick(249), passed(0)),
                   (Tick(1), passed(0, Try(0, 2), made.to_server(tftp_request(b"f"), 69))), first=begins),
            *shut(0), UNFINISHED,
        ),
    }  # fmt: skip


def fetch_after() -> list[Record]:
    """A fetch begins whose server's hardware address is known."""
    request = made.to_server(tftp_request(b"f"), 69)
    return [made.command(b"imgfetch tftp://10.0.0.1/f", 3), *asked(made.tftp_open(b"f"), Try(0, 1), request)]


def example() -> Row:
    """examples/settings.rec: a kernel isn't there at first, and is two seconds later."""
    refused = Cause(Code.REFUSED, 4, 1)
    server, tries = b"tftp://10.0.0.1", [b"set tries:int8 0", b"echo no kernel at try 1", b"iseq 1 3"]
    path, kernel = b"52-54-00-00-00-01", b"\x7fELF\x02\x01\x01a kernel that came late"
    boots = b"imgexec " + server + b"/" + path
    opened = replace(made.tftp_open(path), number=1, own=made.OWN_PORT + 1)

    def sends(number: int, port: int, body: bytes) -> Record:
        ends = (made.OWN_PORT + number, port)
        return Sent(udp_frame(made.CLIENT, made.SERVER, ends, body))

    outputs = [
        *[Step(1), made.enter(), *ran(b"set server " + server, line=8), *ran(tries[0], line=9)],
        *ran(b"echo 52:54:00:00:00:01 has the address 10.0.0.2, which is 0a:00:00:02", line=10),
        *[*ran(b"inc tries", line=13), made.command(boots, 14)],
        *asked(made.tftp_open(path), Try(0, 1), made.asked()),
        *[Step(2), Step(3), *passed(0, Try(0, 2), sends(0, 69, tftp_request(path)))],
        *[Step(4), *came(0, over=refused), Result(refused), *ran(tries[1], line=14, place=1)],
        *[*ran(tries[2], Cause(Code.FALSE), 15), made.command(b"sleep 2", 16)],
        *[Step(5), Step(6), Result(OK), *ran(b"goto again", line=17), *ran(b"inc tries", line=13)],
        *[made.command(boots, 14), *asked(opened, Try(1, 1), sends(1, 69, tftp_request(path)))],
        *[Step(7), *passed(1)],
        *[Step(8), *came(1, Advance(1, 1), sends(1, 40_001, tftp_ack(1)), gives=True, over=OK), Result(OK)],
        *[Part(PartKind.KERNEL_NAME, 0, 0, path), Part(PartKind.KERNEL, 0, 0, kernel)],
        *[Part(PartKind.COMMAND_LINE, 0, 0, b""), Done(Status.HANDED_OFF)],
    ]
    with (TOP / "examples" / "settings.rec").open("rb") as stream:
        return Row([timed.record for timed in read_input(stream)], outputs)


ROWS = {**sleeping(), "example": example()}
# the second reading fetches nothing that is there
FETCHES = ("a_fetch_after_a_sleep", "example")


def all_inputs() -> dict[str, bytes]:
    return {f"sleep_{name}": made.spelled(row.inputs) for name, row in ROWS.items()}


@unittest.skipUnless(can_run(), "the program isn't built, and the toolchain's rt is missing")
class Sleeps(RowCase):
    def test_rows(self) -> None:
        for name, row in ROWS.items():
            with self.subTest(name):
                self.same(f"sleep_{name}", row)


class Readings(unittest.TestCase):
    def test_the_model_answers_the_rows(self) -> None:
        for name, row in ROWS.items():
            if name not in FETCHES:
                with self.subTest(name):
                    start, *later = row.inputs
                    self.assertEqual(Model(start).run(later), row.outputs)


if __name__ == "__main__":
    unittest.main()
