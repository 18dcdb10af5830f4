"""Counts of instructions, and the C loop that the program's count is compared with."""

from __future__ import annotations

import io
import os
import platform
import shutil
import subprocess
import unittest
from contextlib import redirect_stdout
from ipaddress import IPv4Address
from pathlib import Path
from unittest.mock import patch

from shared.command_line import Refused
from instructions import Counted, costs_of, count, missing, total_of
from boot import is_built
from boots import image, web_transfer, write_transfer
from measure import build_loop, count_loop, measure_all, report_instructions
from shared.records import Received, Record
from tests import made
from tests.case import Case
from shared.wire import padded, tftp_ack, tftp_data, udp_frame

# Laid out by the format's description in valgrind's manual ("Callgrind Format Specification").
PROFILE = """\
# callgrind format
version: 1
creator: callgrind-3.19.0
pid: 4711
cmd:  ./totals 99
part: 1

desc: I1 cache:
desc: Trigger: Program termination
positions: line
events: Ir
summary: 820

fl=(1) totals.c
fn=(1) main
16 400
cfn=(2) totals
calls=1 20
16 420
fn=(2)
20 420

totals: 820
"""

# A program of 1,004 instructions: 1,000 that do nothing, a jump, and three that end it in status 0.
EXACT = """\
    .globl _start
_start:
    .rept 1000
    nop
    .endr
    jmp end
end:
    mov $60, %eax
    xor %edi, %edi
    syscall
"""

OTHER = made.Station(bytes.fromhex("525400000003"), IPv4Address("10.0.0.3"))
PORTS = (made.SERVER_PORT, made.OWN_PORT)
FULL = bytes(range(255, -1, -1)) * 2
ODD = b"an odd end."


def flipped(record: Received, place: int) -> Record:
    """A frame with a bit turned over."""
    frame = bytearray(record.frame)
    frame[place] ^= 1
    return Received(bytes(frame))


class Profiles(unittest.TestCase):
    def test_the_total_of_a_profile(self) -> None:
        self.assertEqual(total_of(PROFILE), 820)

    def test_what_has_no_one_total(self) -> None:
        for why, profile in (
            ("empty", ""),
            ("cut", PROFILE.replace("totals: 820\n", "")),
            ("two parts", PROFILE * 2),
            ("two events", PROFILE.replace("totals: 820", "totals: 820 17")),
        ):
            with self.subTest(why), self.assertRaises(Refused):
                total_of(profile)

    def test_rates_and_what_is_beyond(self) -> None:
        one, three = Counted(1_000, 2_000, 9_500, 3_000), Counted(3_000, 5_000, 24_500, 8_000)
        said = "9.50 (3.00) for each byte of the image, 4.75 (1.50) of the input"
        self.assertEqual(one.rates(), f"{said}, 3.17 times the C loop's")
        self.assertEqual(three.beyond(one), Counted(2_000, 3_000, 15_000, 5_000))

    def test_the_functions_own_costs(self) -> None:
        """A call's cost isn't its caller's; positions may be relative, and names by number."""
        again = "fn=(1)\n+3 5\n* 6\ncfn=(2)\ncalls=1 20\n-2 99\n"
        profile = PROFILE.replace("\ntotals", again + "\ntotals")
        self.assertEqual(dict(costs_of(profile)), {"main": 411, "totals": 420})

    def test_missing_tools_are_named_in_a_line(self) -> None:
        printed = io.StringIO()
        with patch.dict(os.environ, PATH="/none"), redirect_stdout(printed):
            report_instructions(Path("none"), {}, Path("none"))
        said = "instructions aren't counted, as these are missing: valgrind, cc\n"
        self.assertEqual(printed.getvalue(), said)


@unittest.skipIf(missing(), "valgrind or cc is missing")
class Counts(Case):
    @unittest.skipUnless(platform.machine() == "x86_64", "the program is x86-64's")
    def test_a_program_of_1004_instructions(self) -> None:
        """callgrind leaves out what a program runs after its last jump, here the last three."""
        self.put("exact.s", EXACT.encode())
        words = "cc -nostdlib -static -o exact exact.s"
        subprocess.run(words.split(), cwd=self.folder, check=True)
        counted = count([str(self.folder / "exact")], self.folder / "profile")
        self.assertAlmostEqual(counted, 1_004, delta=3)

    def test_a_run_that_fails(self) -> None:
        with self.assertRaisesRegex(Refused, "ended with 1 under valgrind"):
            count([shutil.which("false") or "false"], self.folder / "profile")

    @unittest.skipUnless(is_built(), "the program isn't built")
    def test_the_whole_measurement(self) -> None:
        """Of one size: memory, instructions beside the C loop's, and the ten costliest functions."""
        printed = io.StringIO()
        with redirect_stdout(printed):
            measure_all(["1"])
        lines = printed.getvalue().splitlines()
        self.assertRegex(lines[0], r"^image of 1048576 bytes: status 0, peak \d+ bytes")
        self.assertRegex(lines[1], r"^instructions \(the C loop's\), .*\d\.\d\d times the C loop's$")
        shares = [float(line.split("%")[0]) for line in lines[-10:]]
        self.assertEqual(shares, sorted(shares, reverse=True))
        self.assertLess(sum(shares), 100.1)
        self.assertIn("nb_", printed.getvalue())

    def test_a_copy_that_is_not_the_image(self) -> None:
        loop, recording = build_loop(self.folder), self.folder / "boot.rec"
        write_transfer(1_000, recording)
        self.assertGreater(count_loop(loop, recording, 1_000), 1_000 / 2)
        with self.assertRaisesRegex(Refused, "isn't the image of 999 bytes"):
            count_loop(loop, recording, 999)


@unittest.skipUnless(shutil.which("cc"), "cc is missing")
class Loop(Case):
    def setUp(self) -> None:
        super().setUp()
        self.loop = build_loop(self.folder)

    def copied(self, records: list[Record]) -> bytes:
        self.put("in.rec", records)
        subprocess.run([self.loop, "in.rec", "copied"], cwd=self.folder, check=True)
        return self.get("copied")

    def test_what_the_c_loop_copies_of_a_stream(self) -> None:
        """The body at its places, also where segments are swapped, come twice, or are wrong and come again."""
        records = list(web_transfer(30_000))
        wrong = flipped(records[9], 100)
        for why, given in (
            ("in order", records),
            ("swapped", list(web_transfer(30_000, is_swapped=True))),
            ("twice, and backwards", [*records[:4], *reversed(records[4:]), *records[4:]]),
            ("a wrong byte", [*records[:9], wrong, *records[9:]]),
        ):
            self.assertEqual(self.copied(given), image(30_000), why)

    def test_what_the_c_loop_copies(self) -> None:
        first, last = made.from_server(tftp_data(1, FULL)), made.from_server(tftp_data(2, ODD))
        foreign = Received(udp_frame(OTHER, made.CLIENT, PORTS, tftp_data(1, FULL)))
        for why, records, image in (
            ("a boot", made.BOOT_INPUT, made.KERNEL),
            ("an odd end, padded", [first, Received(padded(last.frame))], FULL + ODD),
            ("no data", [made.start(b""), made.found(), made.from_server(tftp_ack(1))], b""),
            ("another sender", [foreign, last], ODD),
            ("a wrong sum of the header", [flipped(first, 24), last], ODD),
            ("a wrong sum of the datagram", [flipped(first, 40), last], ODD),
            ("a wrong byte", [flipped(first, 557), last], ODD),
            ("a wrong byte at an odd end", [first, flipped(last, 56)], FULL),
            ("a cut frame", [Received(first.frame[:-1]), last], ODD),
        ):
            with self.subTest(why):
                self.assertEqual(self.copied(records), image)


if __name__ == "__main__":
    unittest.main()
