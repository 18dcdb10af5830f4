"""The instructions that a connection takes for each byte that comes in order."""

from __future__ import annotations

import shutil
import unittest

from bench import is_built
from instructions import missing
from stream import STREAM
from tests.counting import Counting

MOST = 1.2


@unittest.skipIf(missing() or not shutil.which("rt"), "valgrind, cc or rt is missing")
@unittest.skipUnless(is_built(STREAM), "nb_tcp isn't built by `rt lib`")
class Stream(Counting):
    def test_the_cost_of_a_byte_in_order(self) -> None:
        self.assert_costs_at_most(STREAM, MOST)


if __name__ == "__main__":
    unittest.main()
