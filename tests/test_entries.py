"""The instructions that a datagram takes through two objects of the graph, and a byte through a drive."""

from __future__ import annotations

import shutil
import unittest

from bench import is_built
from blocks import BLOCKS
from disk import DISK, of_the_drive
from entries import ENTRIES
from instructions import missing
from tests.counting import Counting

MOST_AN_ENTRY = 330
MOST_A_BLOCK = 800
MOST_A_BYTE = 1.0


@unittest.skipIf(missing() or not shutil.which("rt"), "valgrind, cc or rt is missing")
@unittest.skipUnless(is_built(ENTRIES), "nb_graph isn't built by `rt lib`")
class Entries(Counting):
    def test_the_cost_of_a_datagram_through_two_objects(self) -> None:
        self.assert_costs_at_most(ENTRIES, MOST_AN_ENTRY)


@unittest.skipIf(missing() or not shutil.which("rt"), "valgrind, cc or rt is missing")
@unittest.skipUnless(is_built(BLOCKS), "nb_nodes isn't built by `rt lib`")
class Blocks(Counting):
    def test_the_cost_of_a_block_through_a_tftp_and_a_fetch(self) -> None:
        self.assert_costs_at_most(BLOCKS, MOST_A_BLOCK)


@unittest.skipIf(missing() or not shutil.which("rt"), "valgrind, cc or rt is missing")
@unittest.skipUnless(is_built(DISK), "nb_disk isn't built by `rt lib`")
class Drives(Counting):
    def test_the_cost_of_a_byte_in_tasks_of_eight_blocks(self) -> None:
        self.assert_costs_at_most(DISK, MOST_A_BYTE)

    def test_the_drives_own_cost_of_a_byte_in_tasks_of_one_block(self) -> None:
        each = of_the_drive(self.folder)
        self.assertLessEqual(each, MOST_A_BYTE)
        self.assertGreater(each, 0)


if __name__ == "__main__":
    unittest.main()
