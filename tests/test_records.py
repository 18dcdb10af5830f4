"""The reader and writer of records against bytes written from the format."""

from __future__ import annotations

import io
import re
import unittest
from ipaddress import IPv4Address
from pathlib import Path
from uuid import UUID

from shared.causes import Cause, Code
from shared.describe import Lines
from shared.fields import Damaged
from shared.kinds import GraphEvent, ObjectKind, OpenKind, PartKind, ScriptMove, Status
from shared.recordings import read_input, read_output
from shared.records import (
    INPUT_RECORDS,
    OUTPUT_RECORDS,
    Advance,
    Command,
    Direction,
    Done,
    Ended,
    Graph,
    Off,
    Open,
    Part,
    Received,
    Record,
    Result,
    Script,
    Sent,
    Start,
    Step,
    Text,
    Tick,
    Try,
    read_records,
    spell,
)
from tests.made import HELLO_INPUT, HELLO_OUTPUT, spelled, start

FRAME = bytes.fromhex("ffffffffffff 525400000001 0806")
SERVER = IPv4Address("10.0.0.1")

INPUTS: list[Record] = [
    Start(
        1,
        bytes.fromhex("525400abcdef"),
        UUID("00112233-4455-6677-8899-aabbccddeeff"),
        bytes(range(32)),
        7,
        16_383,
        IPv4Address("10.0.0.2"),
        IPv4Address("255.255.255.0"),
        IPv4Address("10.0.0.254"),
        IPv4Address("10.0.0.53"),
        b"#!ipxe\n",
    ),
    Received(FRAME),
    Received(FRAME + bytes(1_508)),
    Tick(1),
    Tick(60_000),
    Off(),
]
OUTPUTS: list[Record] = [
    Step(1),
    Sent(FRAME),
    Text(b""),
    Text(bytes(4_160)),
    Command(8, 2**32 - 1, 64, False, (b"", b"${x", b"\xff" * 4_096)),
    Result(Cause(Code.REFUSED, 12, 404)),
    Script(ScriptMove.ENTER, 1),
    Script(ScriptMove.LEAVE, 2, Cause(Code.EXIT, 255)),
    Script(ScriptMove.REPLACED, 1),
    Open(0, OpenKind.TFTP, SERVER, 69, 49_152, b"f"),
    Open(16_383, OpenKind.PING, SERVER, 0, 16_383, b""),
    Try(3, 6),
    Advance(3, 65_535),
    Ended(3, Cause(Code.NO_ROUTE, 0x0A000001)),
    Graph(GraphEvent.MADE, 1, other=ObjectKind.FETCH),
    Graph(GraphEvent.HELD, 1),
    Graph(GraphEvent.LET_GO, 1),
    Graph(GraphEvent.PLUGGED, 1, 1, 2, 0),
    Graph(GraphEvent.ENTERED, 2, 4, 0, 3),
    Graph(GraphEvent.LEFT, 2, 4),
    Graph(GraphEvent.DROPPED, 2, 1),
    Graph(GraphEvent.CLOSED, 2, 0, cause=Cause(Code.STOPPED)),
    Graph(GraphEvent.UNPLUGGED, 2, 0, 1, 1),
    Graph(GraphEvent.FREED, 2**64 - 1),
    Part(PartKind.INITRD, 1, 65_536, bytes(65_536)),
    Part(PartKind.TABLE, 0, 0, b""),
    Done(Status.TOO_MANY_RECORDS),
]


def read_all(data: bytes, direction: Direction) -> list[Record]:
    return [placed.record for placed in read_records(io.BytesIO(data), direction)]


class Spelling(unittest.TestCase):
    def test_every_type_is_written_and_read_back(self) -> None:
        for records, direction in ((INPUTS, Direction.INPUT), (OUTPUTS, Direction.OUTPUT)):
            data = spelled(records)
            self.assertEqual(read_all(data, direction), records)
            self.assertEqual(spelled(read_all(data, direction)), data)

    def test_no_type_is_left_out_above(self) -> None:
        self.assertEqual({type(record) for record in INPUTS}, set(INPUT_RECORDS))
        self.assertEqual({type(record) for record in OUTPUTS}, set(OUTPUT_RECORDS))

    def test_hello(self) -> None:
        found = [timed.record for timed in read_input(io.BytesIO(HELLO_INPUT))]
        self.assertEqual(len(HELLO_INPUT), 103)
        self.assertEqual(found[0].script, b"#!ipxe\necho hello\nexit\n")
        self.assertEqual(found[0].mac, bytes.fromhex("525400000001"))
        self.assertEqual(spelled(found), HELLO_INPUT)
        answer = list(read_output(io.BytesIO(HELLO_OUTPUT)))
        self.assertEqual(answer[2], Command(1, 2, 0, True, (b"echo", b"hello")))
        self.assertEqual(spelled(answer), HELLO_OUTPUT)

    def test_the_largest_start(self) -> None:
        data = spell(start(bytes(130_996)))
        self.assertEqual(data[:4], bytes.fromhex("00020000"))
        self.assertEqual(len(read_all(data, Direction.INPUT)), 1)

    def test_writing_refuses_what_has_no_spelling(self) -> None:
        for record in (
            start(bytes(130_997)),
            Received(FRAME[:13]),
            Sent(FRAME + bytes(1_509)),
            Tick(0),
            Tick(60_001),
            Step(0),
            Text(bytes(4_161)),
            Command(0, 1, 0, True, (b"a",)),
            Command(1, 1, 0, True, ()),
            Command(1, 1, 0, True, (b"a",) * 65),
            Script(ScriptMove.ENTER, 1, Cause(Code.EXIT, 1)),
            Result(Cause(Code.UNKNOWN, 1)),
            Result(Cause(Code.EXIT, 0)),
            Graph(GraphEvent.HELD, 1, slot=1),
            Part(PartKind.KERNEL, 1, 0, b""),
            Part(PartKind.KERNEL, 0, 0, bytes(65_537)),
        ):
            with self.subTest(record=str(record)[:80]), self.assertRaises(ValueError):
                spell(record)


class Damage(unittest.TestCase):
    """Bytes that are no recording, and the offset that is named."""

    INPUT = (
        ("00", 0, "inside a length"),
        ("00000000", 0, "the length is 0"),
        ("00020001", 0, "the length is 131073"),
        ("00000003 0300", 0, "inside a record"),
        ("00000001 05", 4, "type 0x05"),
        ("00000005 81 00000001", 4, "type 0x81"),
        ("00000003 03 0000", 5, "milliseconds"),
        ("00000003 03 ea61", 5, "milliseconds"),
        ("00000002 03 00", 5, "milliseconds"),
        ("00000004 03 00fa 00", 7, "1 byte after the end of"),
        ("00000002 04 00", 5, "1 byte after the end of"),
        ("0000000e 02" + "00" * 13, 5, "13 bytes"),
        ("00000001 04 00000001 04 00000001 7f", 14, "type 0x7f"),
        ("0000004c 01 02" + "00" * 74, 5, "version"),
        ("0000004b 01 01" + "00" * 73, 76, "dns"),
        ("0000004c 01 01" + "00" * 56 + "4000" + "00" * 16, 62, "w is 16384"),
    )
    OUTPUT = (
        ("00000002 03 fa", 4, "type 0x03"),
        ("00000005 81 00000000", 5, "record number"),
        ("0000000a 85 16 00000000 00000000", 5, "code 22"),
        ("0000000a 85 1d 00000000 00000000", 5, "code 29"),
        ("0000000a 85 13 00000001 00000000", 5, "UNKNOWN has no number"),
        ("0000000a 85 02 00000006 00000001", 5, "TIMED_OUT has no second"),
        ("0000000a 85 05 00000008 00000000", 5, "TOO_LONG has no 8"),
        ("00000009 85 00 00000000 000000", 10, "number of the cause"),
        ("0000000c 86 03 01 00 00000000 00000000", 5, "3 is not known"),
        ("0000000c 86 00 01 18 00000001 00000000", 5, "other than Ok"),
        ("0000000c 86 00 09 00 00000000 00000000", 6, "depth is 9"),
        ("0000000c 84 01 00000001 00 02 01 0001 61", 11, "expanded is 2"),
        ("0000000c 84 01 00000001 00 01 02 0001 61", 16, "a word"),
        ("0000000c 84 01 00000001 00 01 01 0002 61", 15, "a word needs 2"),
        ("0000000e 87 0000 07 0a000001 0045 c000 0000", 7, "kind 7"),
        ("0000000f 87 0000 01 0a000001 0045 c000 0002 6b", 18, "the target needs 2"),
        ("00000004 88 0000 00", 7, "try is 0"),
        ("0000001d 8b 02" + "00" * 7 + "01 01" + "00" * 18, 5, "HELD has no slot"),
        ("0000001d 8b 0b" + "00" * 27, 5, "event 11"),
        ("00000008 8c 07 0000 00000000", 5, "kind 7"),
        ("00000002 8d 02", 5, "status 2"),
    )

    def test_each_is_refused_at_its_place(self) -> None:
        for rows, direction in (
            (self.INPUT, Direction.INPUT),
            (self.OUTPUT, Direction.OUTPUT),
        ):
            for digits, offset, why in rows:
                with self.subTest(digits=digits):
                    with self.assertRaises(Damaged) as caught:
                        read_all(bytes.fromhex(digits), direction)
                    self.assertEqual(caught.exception.offset, offset)
                    self.assertIn(why, caught.exception.why)

    def test_a_recording_cut_anywhere(self) -> None:
        ends = {0, 9, 25, 51, 62, 76, 95, 109, 125, 131}
        self.assertEqual(len(HELLO_OUTPUT), max(ends))
        for cut in range(len(HELLO_OUTPUT)):
            data = io.BytesIO(HELLO_OUTPUT[:cut])
            if cut in ends:
                list(read_output(data))
                continue
            with self.subTest(cut=cut), self.assertRaises(Damaged) as caught:
                list(read_output(data))
            self.assertEqual(caught.exception.offset, max(end for end in ends if end < cut))

    def test_order(self) -> None:
        done = Done(Status.BAD_RECORD)
        for records, read in (
            ([Tick(1)], read_input),
            ([start(b""), start(b"")], read_input),
            ([Text(b"a")], read_output),
            ([Step(2)], read_output),
            ([Step(1), Step(3)], read_output),
            ([done, Step(1)], read_output),
        ):
            with self.subTest(records=records), self.assertRaises(Damaged):
                list(read(io.BytesIO(spelled(records))))
        self.assertEqual(list(read_output(io.BytesIO(spelled([done])))), [done])

    def test_time_is_the_sum_of_the_ticks(self) -> None:
        records = [start(b""), Tick(250), Received(FRAME), Tick(60_000), Off()]
        times = [timed.time for timed in read_input(io.BytesIO(spelled(records)))]
        self.assertEqual(times, [0, 250, 250, 60_250, 60_250])


class Document(unittest.TestCase):
    """docs/RECORDS.md: its worked records are read as it says."""

    def test_worked_records(self) -> None:
        document = Path(__file__).parents[1] / "docs" / "RECORDS.md"
        rows = re.findall(r"^\| `([0-9a-f ]+)` \| `(.+)` \|$", document.read_text(), re.M)
        self.assertGreaterEqual(len(rows), 28)
        for digits, line in rows:
            data = bytes.fromhex(digits)
            direction = Direction.OUTPUT if data[4] & 0x80 else Direction.INPUT
            [record] = read_all(data, direction)
            self.assertEqual(Lines().of(record), line)
            self.assertEqual(spell(record), data)
        hello = b"".join(bytes.fromhex(digits) for digits, _ in rows[:9])
        self.assertEqual(hello, HELLO_OUTPUT)


if __name__ == "__main__":
    unittest.main()
