"""What the tests of the benches share: a count below a bound, and its parts."""

from __future__ import annotations

import subprocess

from bench import Bench, build, count_units
from tests.case import Case

# Starting with one word costs some instructions more than with another, which is shared by all units.
STARTING = 0.05


class Counting(Case):
    def assert_costs_at_most(self, bench: Bench, most: float) -> None:
        """A unit costs at most so many; the program refuses other words than a number."""
        program = build(bench, self.folder)
        counts = count_units(bench, program, self.folder)
        self.assertLessEqual(counts.each, most)
        self.assertGreater(counts.each, 0)
        shares = [cost for _, cost in counts.costliest]
        self.assertEqual(shares, sorted(shares, reverse=True))
        self.assertLessEqual(sum(shares), counts.each + STARTING)
        for words in ([], ["few"]):
            done = subprocess.run([program, *words], capture_output=True, check=False)
            self.assertEqual(done.returncode, 1, words)
