"""`show.py --why`: how a run that fetches ended, on runs built by hand."""

from __future__ import annotations

import unittest
from ipaddress import IPv4Address

from shared.causes import OK, Cause, Code
from shared.command_line import Refused
from shared.kinds import OpenKind, ScriptMove, Status
from shared.records import Advance, Done, Ended, Graph, Off, Open, Record, Result, Sent, Step
from shared.records import Tick, Try
from shared.wire import arp_request, tftp_ack, tftp_data, tftp_error, tftp_oack, tftp_request
from shared.wire import udp_frame
from tests import made
from tests.graph_records import asked, came, left, passed, shut, turned_back
from tests.graph_records import made as made_for
from tests.graph_run import fault_of
from tests.test_why import sentence, why

TIMED_OUT = Cause(Code.TIMED_OUT, 6)


class Transfers(unittest.TestCase):
    FETCH = b"imgfetch tftp://10.0.0.1/f"
    SCRIPT = b"#!ipxe\n" + FETCH + b"\n"

    def begins(self) -> list[Record]:
        return made.fetch_begins(self.FETCH, b"f")

    def to(self, put: Record) -> list[Record]:
        """The first step, in which this is sent in place of the usual request."""
        opens = asked(made.tftp_open(b"f"), Try(0, 1), put)
        return [Step(1), made.enter(), made.command(self.FETCH), *opens]

    def test_timed_out_by_its_six_tries(self) -> None:
        inputs, outputs = made.silent_run()
        lines = why(outputs, inputs)
        self.assertEqual(
            lines[:2],
            [
                "10.0.0.1 never answered: its hardware address was asked for six times in 15.75 s",
                "line 2 failed in step 64 at 15750 ms: TimedOut(tries 6)",
            ],
        )
        tries = [line for line in lines if ": try " in line]
        asked = "ARP who has 10.0.0.1, asks 10.0.0.2 at 52:54:00:00:00:01; 42 bytes"
        times = ((1, 0), (2, 250), (4, 750), (8, 1750), (16, 3750), (32, 7750))
        for number, (line, (step, time)) in enumerate(zip(tries, times, strict=True), 1):
            said = f"  step {step} at {time} ms: try {number}: {asked}"
            self.assertEqual(line, said)
        ended = "  step 64 at 15750 ms: that ends: TimedOut(tries 6), as tftp 2 slot 0 was closed first"
        self.assertEqual(lines[-2:], [ended, "nothing came meanwhile"])

    def test_only_the_tries_since_the_last_answer(self) -> None:
        ack = made.to_server(tftp_ack(1))
        outputs = [*self.begins(), Step(2), *came(0, Try(0, 1), ack, gives=True)]
        outputs += [Step(3), *passed(0, Try(0, 2), ack), Step(4), *passed(0, over=TIMED_OUT)]
        lines = why(outputs + made.fails(TIMED_OUT))
        self.assertEqual(sum(": try " in line for line in lines), 2)
        self.assertIn("step 2: try 1: 10.0.0.2:49152", "".join(lines))

    def test_refused_by_its_message(self) -> None:
        inputs = [
            made.start(self.SCRIPT),
            made.found(),
            Tick(250),
            made.from_server(tftp_error(1, b"File not found")),
        ]
        cause = Cause(Code.REFUSED, 4, 1)
        outputs = [*self.begins(), Step(2), Step(3), *passed(0), Step(4), *came(0, over=cause)]
        outputs += made.fails(cause)
        lines = why(outputs, inputs)
        self.assertEqual(lines[0], "10.0.0.1 answered: file not found (f)")
        self.assertEqual(lines[1], "line 2 failed in step 4 at 250 ms: Refused(record 4, code 1)")
        self.assertEqual(
            lines[-1],
            "  record 4 at 250 ms: FRAME 10.0.0.1:40000 > 10.0.0.2:49152 "
            'TFTP ERROR 1 "File not found"; 61 bytes',
        )
        self.assertEqual(
            why(outputs)[-1],
            "  record 4: give the input recording by --input to see its message",
        )

    def test_a_refusal_by_the_servers_own_words(self) -> None:
        cause = Cause(Code.REFUSED, 3, 0)
        outputs = [*self.begins(), Step(2), Step(3), *came(0, over=cause), *made.fails(cause)]
        said = '10.0.0.1 answered: "no free slots", when asked for f'
        error = tftp_error(0, b"no free slots")
        for body in (error, error[:-1], error + b"x\0"):
            inputs = [made.start(self.SCRIPT), made.found(), made.from_server(body)]
            self.assertEqual(sentence(outputs, inputs), said)

    def test_silence_after_a_block_and_without_one(self) -> None:
        ack, request = made.to_server(tftp_ack(1)), made.to_server(tftp_request(b"f"), 69)
        end = [Step(4), *passed(0, over=TIMED_OUT), *made.fails(TIMED_OUT)]
        later = [Step(2), *came(0, Advance(0, 1), Try(0, 1), ack, gives=True), Step(3), *passed(0, Try(0, 2), ack)]
        said = "10.0.0.1 stopped answering after block 1 of f, which was acknowledged twice"
        self.assertEqual(sentence(self.begins() + later + end), said)
        zero = made.to_server(tftp_ack(0))
        later = [Step(2), *came(0, Try(0, 1), zero), Step(3), *passed(0, Try(0, 2), zero)]
        said = "10.0.0.1 stopped answering after its OACK for f, which was acknowledged twice"
        self.assertEqual(sentence(self.begins() + later + end), said)
        later = [Step(2), Step(3), *passed(0, Try(0, 2), request)]
        said = "10.0.0.1 gave no answer that counted: f was asked for once"
        self.assertEqual(sentence(self.begins() + later + end), said)

    def test_a_silent_gateway(self) -> None:
        request = Sent(arp_request(made.CLIENT, IPv4Address("10.0.0.254")))
        outputs = [*self.to(request), Step(2), *passed(0, over=TIMED_OUT), *made.fails(TIMED_OUT)]
        said = "the gateway 10.0.0.254 gave no answer that counted: its hardware address was asked for once"
        self.assertEqual(sentence(outputs), said)

    def test_broken_by_its_message(self) -> None:
        inputs = [made.start(self.SCRIPT), made.from_server(tftp_data(1, bytes(1_432)))]
        cause = Cause(Code.BROKEN, 2)
        outputs = [*self.begins(), Step(2), *came(0, over=cause), *made.fails(cause)]
        self.assertIn("TFTP DATA 1 of 1432 bytes", why(outputs, inputs)[-1])

    def test_deadline_by_its_times(self) -> None:
        inputs = [made.start(self.SCRIPT), Tick(250), Tick(250)]
        cause = Cause(Code.DEADLINE, 500)
        outputs = [*self.begins(), Step(2), *passed(0), Step(3), *passed(0, over=cause), *made.fails(cause)]
        lines = why(outputs, inputs)
        self.assertEqual(lines[1], "line 2 failed in step 3 at 500 ms: Deadline(ms 500)")
        self.assertIn("  step 1 at 0 ms: line 2 begins", lines[3])

    def test_no_route_by_the_addresses(self) -> None:
        cause = Cause(Code.NO_ROUTE, 0x0A000001)
        ends = turned_back(made.tftp_open(b"f"), cause)
        outputs = [Step(1), made.enter(), made.command(self.FETCH), *ends, *made.fails(cause)]
        lines = why(outputs, [made.start(self.SCRIPT)])
        self.assertEqual(
            lines[0],
            "line 2: 10.0.0.1 is outside the client's net 10.0.0.0/24, and no gateway is set",
        )
        self.assertEqual(lines[1], "line 2 failed in step 1 at 0 ms: NoRoute(10.0.0.1)")
        self.assertIn("that ends: NoRoute(10.0.0.1), as fetch 1 slot 0 was closed first", lines[-2])
        self.assertIn("ip 10.0.0.2, mask 255.255.255.0, gateway 0.0.0.0", lines[-1])

    def test_each_open_of_too_many_moves(self) -> None:
        outputs: list[Record] = [Step(1), made.enter(), made.command(b"imgfetch http://10.0.0.1/")]
        for number in range(6):
            own = made.OWN_PORT + number
            outputs.append(Open(number, OpenKind.HTTP, made.SERVER.ip, 80, own, b"u"))
            outputs += [Step(number + 2), Ended(number, OK)]
        cause = Cause(Code.TOO_MANY, 2)
        outputs += [Result(cause), made.leave(cause), Done(Status.SCRIPT_FAILED)]
        self.assertEqual(sum("u is asked for: HTTP" in line for line in why(outputs)), 6)

    def test_the_open_of_a_hooked_drive(self) -> None:
        drive = Open(0, OpenKind.ISCSI, made.SERVER.ip, 3260, made.OWN_PORT, b"iqn.x:t")
        cause = Cause(Code.REFUSED, 3, 65_535)
        outputs = [Step(1), made.enter(), made.command(b"sanhook iscsi:10.0.0.1::::iqn.x:t"), drive]
        outputs += [Step(2), Result(OK), made.command(b"sanboot --keep", 3), Step(3)]
        lines = why([*outputs, Ended(0, cause), *made.fails(cause)])
        self.assertIn("iqn.x:t is asked for: ISCSI with 10.0.0.1 port 3260", lines[4])

    def test_the_end_of_an_open_with_another_cause(self) -> None:
        """What it means is said where it isn't the command's."""
        cause = Cause(Code.NOT_BOOTABLE)
        outputs = [*self.begins(), Step(2), *came(0, Advance(0, 1), gives=True, over=OK), *made.fails(cause)]
        said = "  step 2: that ends: Ok, as tftp 2 slot 0 was closed first; it went well"
        self.assertIn(said, why(outputs))
        without = [record for record in outputs if not isinstance(record, Graph)]
        self.assertIn("  step 2: that ends: Ok; it went well", why(without))

    def test_a_bad_record(self) -> None:
        outputs = [*self.begins(), *shut(0), Done(Status.BAD_RECORD)]
        inputs = [made.start(self.SCRIPT), made.start(b"")]
        can_not = "input record 2 can't be used: "
        self.assertRegex(sentence(outputs, inputs), can_not + r".*at byte 114: a second START$")
        cut = made.spelled([*inputs[:1], made.found()])[:-1]
        self.assertRegex(sentence(outputs, cut), can_not + r".*in.rec: at byte 114: the file ends")
        broken = made.spelled(inputs[:1]) + b"\0\0\0\1\x09"
        self.assertRegex(sentence(outputs, broken), can_not + r".*at byte 118: type 0x09 is not")
        self.assertIn("the input ends after record 1", sentence(outputs, inputs[:1]))
        self.assertIn("give the input recording by --input", sentence(outputs))
        first = [Done(Status.BAD_RECORD)]
        said = r"record 1 can't .*the first record is not START$"
        self.assertRegex(sentence(first, [Tick(1)]), said)

    def test_an_output_that_is_cut_off(self) -> None:
        whole = made.spelled(self.begins())
        said = "the output is cut off: it ends without DONE, as where a read or a write failed"
        self.assertEqual(sentence(whole), f"{said}; line 2 was running")
        said = "the output is cut off: at byte 405: the file ends inside a record: 28 of 29 bytes"
        self.assertEqual(sentence(whole[:-1]), f"{said}; line 2 was running")

    def test_what_is_no_run_is_refused(self) -> None:
        for outputs in (
            [Step(1), Result(OK)],
            [Step(1), Try(0, 1)],
            [Step(1), Ended(0, OK)],
            [Step(1), left(1, 0)],
            [*self.begins(), Step(2), *came(0, over=OK), left(1, 0)],
            [Step(1), *made_for(0), *made_for(0)],
            [Step(1), *[one for number in range(513) for one in made_for(number)]],
        ):
            with self.assertRaises(Refused):
                why(outputs)
        inputs, outputs = made.silent_run()
        with self.assertRaisesRegex(Refused, "no record 64"):
            why(outputs, inputs[:60])

    def test_a_replaced_script(self) -> None:
        cause = Cause(Code.UNKNOWN)
        outputs = [
            Step(1),
            made.enter(),
            made.command(b"chain --replace tftp://10.0.0.1/f"),
            Result(OK),
            made.Script(ScriptMove.REPLACED, 1),
            made.command(b"foo"),
            Result(cause),
            made.leave(cause),
            Done(Status.SCRIPT_FAILED),
        ]
        self.assertEqual(len(why(outputs)), 4)


class Waiting(unittest.TestCase):
    """Runs that were ended from outside: what was waited for, and what came meanwhile."""

    START = made.start(b"#!ipxe\nimgfetch tftp://10.0.0.1/f\n")
    STOPPED = [*shut(0), Done(Status.UNFINISHED)]
    # what the last line of a run says that was ended from outside
    ENDS = (
        "that ends: Stopped, as fetch 1 slot 0 was closed first; it was closed from above: power-off, end of the run, "
        "hand-off or unhook"
    )

    def begins(self) -> list[Record]:
        return made.fetch_begins(b"imgfetch tftp://10.0.0.1/f", b"f")

    def test_the_recording_ends(self) -> None:
        outputs = [*self.begins(), Step(2), *passed(0), *self.STOPPED]
        lines = why(outputs, [self.START, Tick(200)])
        waited = "while line 2 waited for the hardware address of 10.0.0.1"
        self.assertEqual(lines[0], f"the recording ends after 0.2 s, {waited}")
        self.assertIn("  a silent server is given up after some 16 s: record.py --until 17", lines)
        self.assertIn(f"  step 2 at 200 ms: {self.ENDS}", lines)
        self.assertEqual(lines[-1], "nothing came meanwhile")
        without = "while line 2 waited for 10.0.0.1, whose hardware address was asked for"
        self.assertEqual(sentence(outputs), f"the input ended, or the power was switched off, {without}")

    def test_a_fetch_that_began_later(self) -> None:
        """A silent server is given up some 16 s after that."""
        over = [*passed(0, over=TIMED_OUT), Result(TIMED_OUT), made.command(b"imgfetch tftp://10.0.0.1/f")]
        opened = Open(1, OpenKind.TFTP, made.SERVER.ip, 69, made.OWN_PORT + 1, b"f")
        outputs = [*self.begins(), Step(2), *over, *asked(opened, Try(1, 1), made.asked())]
        outputs += [*shut(1), Done(Status.UNFINISHED)]
        lines = why(outputs, [self.START, Tick(15_750)])
        self.assertIn("  a silent server is given up after some 16 s: record.py --until 32", lines)

    def test_the_hardware_address_came_and_no_more(self) -> None:
        outputs = [*self.begins(), Step(2), Step(3), *passed(0), *self.STOPPED]
        said = "next try, as 10.0.0.1 had only said its hardware address: f is asked for then"
        self.assertTrue(sentence(outputs, [self.START, made.found(), Tick(9)]).endswith(said))

    def test_the_power_is_switched_off(self) -> None:
        ack = made.to_server(tftp_ack(1))
        took = came(0, Advance(0, 1), Try(0, 1), ack, gives=True)
        outputs = [*self.begins(), Step(2), *took, Step(3), *self.STOPPED]
        inputs = [self.START, made.from_server(tftp_data(1, bytes(512))), Off()]
        lines = why(outputs, inputs)
        waited = "while line 2 waited for block 2 of f from 10.0.0.1"
        self.assertEqual(lines[0], f"the power was switched off after 0 s, {waited}")
        self.assertFalse([line for line in lines if "--until" in line])
        self.assertIn(f"  step 3 at 0 ms: {self.ENDS}", lines)

    def test_why_what_came_did_not_count(self) -> None:
        good = made.from_server(tftp_data(1, b"abc")).frame
        other = made.Station(bytes.fromhex("525400000003"), IPv4Address("10.0.0.3"))
        ports = (made.SERVER_PORT, made.OWN_PORT)
        damaged = good[:40] + bytes([good[40] ^ 1]) + good[41:]
        wrong_head = good[:24] + bytes([good[24] ^ 1]) + good[25:]
        for frame, said, *taken in (
            (other.mac + good[6:], "the hardware address 52:54:00:00:00:03 isn't the client's"),
            (damaged, "UDP from 10.0.0.1 with a wrong checksum or length"),
            (wrong_head, "or its header's checksum is wrong"),
            (udp_frame(other, made.CLIENT, ports, tftp_data(1, b"a")), "from 10.0.0.3, and the"),
            (udp_frame(made.SERVER, made.CLIENT, (69, 1), b""), "to port 1, and the transfer's"),
            (made.found().frame, "ARP, which only says where hosts are"),
            (made.from_server(tftp_data(2, b"")).frame, "block 2, and block 1 was waited for", *came(0)),
            (made.from_server(tftp_oack(blksize="abc")).frame, "whose size is no number", *came(0)),
            (made.from_server(b"\0\6blksize").frame, "a TFTP OACK that isn't well-formed", *came(0)),
            (made.from_server(b"\0\x09").frame, "no TFTP packet that a server sends", *came(0)),
        ):
            with self.subTest(said):
                outputs = [*self.begins(), Step(2), *taken, Step(3), *taken, *self.STOPPED]
                self.assertIsNone(fault_of(outputs))
                lines = why(outputs, [self.START, made.Received(frame), made.Received(frame)])
                self.assertEqual(lines[-2], "what came meanwhile, and why it didn't count:")
                self.assertIn("  2 frames: ", lines[-1])
                self.assertIn(said, lines[-1])

    def test_an_oack_counts_once(self) -> None:
        ack, oack = made.to_server(tftp_ack(0)), made.from_server(tftp_oack(blksize=1432))
        granted = [Step(2), *came(0, Try(0, 1), ack)]
        again = [Step(3), *came(0, ack), *self.STOPPED]
        lines = why([*self.begins(), *granted, *again], [self.START, oack, oack])
        self.assertIn("while line 2 waited for block 1 of f from 10.0.0.1", lines[0])
        said = "  1 frame: a TFTP OACK, and the blocks' size is agreed already"
        self.assertEqual(lines[-1], said)

    def test_what_came_before_the_last_block_is_not_named(self) -> None:
        inputs = [self.START, made.found(), made.from_server(tftp_data(1, bytes(512)))]
        ack = made.to_server(tftp_ack(1))
        took = came(0, Advance(0, 1), Try(0, 1), ack, gives=True)
        outputs = [*self.begins(), Step(2), Step(3), *took, *self.STOPPED]
        self.assertEqual(why(outputs, inputs)[-1], "nothing came meanwhile")


if __name__ == "__main__":
    unittest.main()
