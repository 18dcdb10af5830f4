"""A file of 1,024 bytes, its recording cut at each byte, over the built program.

Where the program isn't built the tests are skipped, saying so; the gate builds it where it proves
anew.
"""

from __future__ import annotations

import subprocess
import tempfile
import unittest
from itertools import accumulate
from pathlib import Path

from boot import BUILT, is_built
from shared.kinds import Status
from shared.records import Done, Record, Step
from tests import graph_records, made
from tests.graph_run import fault_of
from tests.test_replay import blocks

ROW = blocks()["an_empty_last_block"]
SPELLED = made.spelled(ROW.inputs)
# where each record ends
ENDS = list(accumulate(len(made.spelled([record])) for record in ROW.inputs))


def expected(length: int) -> list[Record]:
    """What is written where the input ends after this many bytes.

    The steps of its whole records, the end of the open that a command waits for with its objects, and DONE.
    """
    used = sum(end <= length for end in ENDS)
    if used == len(ENDS):
        return ROW.outputs
    later = ROW.outputs.index(Step(used + 1))
    closing = graph_records.shut(0) if used else []
    status = Status.UNFINISHED if length in ENDS else Status.BAD_RECORD
    return [*ROW.outputs[:later], *closing, Done(status)]


class Expected(unittest.TestCase):
    def test_each_is_a_run_of_the_graph(self) -> None:
        for length in sorted({0, *ENDS, *[end + 1 for end in ENDS[:-1]]}):
            with self.subTest(length):
                self.assertIsNone(fault_of(expected(length)))


@unittest.skipUnless(is_built(), "the program isn't built")
class Cuts(unittest.TestCase):
    def test_cut_at_each_byte(self) -> None:
        with tempfile.TemporaryDirectory() as folder:
            source, output = Path(folder) / "in.rec", Path(folder) / "out.rec"
            for length in range(len(SPELLED) + 1):
                source.write_bytes(SPELLED[:length])
                words = [BUILT, "replay", source, output]
                subprocess.run(words, capture_output=True, check=False)
                with self.subTest(length):
                    self.assertEqual(output.read_bytes(), made.spelled(expected(length)))


if __name__ == "__main__":
    unittest.main()
