"""An input recording that isn't the one of an output is refused, by what both show."""

from __future__ import annotations

import unittest
from dataclasses import replace

from shared.kinds import Status
from shared.records import Done, Off, Step, Tick
from shared.wire import tftp_data
from tests import made
from tests.case import Case

TOOLS = ("tools/show.py boot.out --input other.rec", "tools/show.py boot.out --input other.rec --why",
         "tools/show.py boot.out --input other.rec --graph", "tools/pcap.py other.rec boot.out --to a.pcap")


class Pairs(Case):
    def setUp(self) -> None:
        super().setUp()
        self.put("boot.out", made.BOOT_OUTPUT)

    def refused(self, inputs: list[object], said: str) -> None:
        self.put("other.rec", inputs)
        for line in TOOLS:
            with self.subTest(line):
                printed = self.fails(line, said)
                self.assertEqual(printed, "")
                self.assertFalse((self.folder / "a.pcap").exists())

    def test_its_own_is_taken(self) -> None:
        self.put("other.rec", [*made.BOOT_INPUT, made.found()])
        for line in TOOLS:
            self.assertEqual(self.call(line).status, 0)

    def test_another_machine(self) -> None:
        start = replace(made.BOOT_INPUT[0], mac=bytes.fromhex("525400000005"))
        self.refused([start, *made.BOOT_INPUT[1:]], "the client that sends in the output has another hardware address")

    def test_other_ports(self) -> None:
        start = replace(made.BOOT_INPUT[0], w=1)
        self.refused([start, *made.BOOT_INPUT[1:]], "open 0 in the output has another port than START's w gives")

    def test_another_script(self) -> None:
        for script in (b"#!ipxe\nimgexec tftp://10.0.0.1/x\n", b"#!ipxe\n\nimgexec tftp://10.0.0.1/k\n", b""):
            start = replace(made.BOOT_INPUT[0], script=script)
            self.refused([start, *made.BOOT_INPUT[1:]], "the command of line 2 in the output isn't that of START's script")

    def test_words_that_were_expanded_may_be_others(self) -> None:
        start = replace(made.BOOT_INPUT[0], script=b"#!ipxe\nimgexec ${x}\n")
        self.put("other.rec", [start, *made.BOOT_INPUT[1:]])
        for line in TOOLS:
            self.assertEqual(self.call(line).status, 0)

    def test_fewer_records(self) -> None:
        self.refused(made.BOOT_INPUT[:4], "it has no record 5: it is another run's")

    def test_other_records(self) -> None:
        inputs = [*made.BOOT_INPUT]
        inputs[3], inputs[4] = inputs[4], inputs[3]
        self.refused(inputs, "open 0 goes on at record 4, which is no FRAME")

    def test_other_frames(self) -> None:
        inputs = [*made.BOOT_INPUT]
        inputs[3] = made.from_server(tftp_data(2, made.KERNEL[512:]))
        self.refused(inputs, "block 1 came at record 4, and that is another frame")

    def test_more_records_than_the_output_ended_with(self) -> None:
        self.put("boot.out", [*made.fetch_begins(b"imgexec tftp://10.0.0.1/k", b"k"), Step(2), Done(Status.UNFINISHED)])
        said = "the output ends with the input, after record 2, and more follows"
        self.refused([made.BOOT_INPUT[0], Tick(1), Tick(1)], said)
        self.put("other.rec", [made.BOOT_INPUT[0], Off(), Tick(1)])
        self.assertEqual(self.call(TOOLS[0]).status, 0)

    def test_an_input_that_is_cut_off(self) -> None:
        """What is wrong with the input itself is said as ever."""
        self.put("other.rec", made.spelled(made.BOOT_INPUT)[:-1])
        self.fails(TOOLS[0], "other.rec: at byte ")


if __name__ == "__main__":
    unittest.main()
