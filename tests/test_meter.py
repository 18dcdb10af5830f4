"""The meter's figures, of programs whose memory, time and end are known."""

from __future__ import annotations

import io
import os
import resource
import shutil
import subprocess
import unittest
from contextlib import redirect_stdout
from pathlib import Path
from unittest.mock import patch

import compiler
from shared.command_line import Refused
from meter import Measured, build_meter, measure
from boots import MEGABYTE
from measure import report_runs
from tests.case import Case

# Touches each page of 64 MiB.
TOUCHING = """\
static volatile char touched[64 << 20];
int main(void)
{
    for (unsigned place = 0; place < sizeof touched; place += 4096)
        touched[place] = 1;
    return 0;
}
"""

# Asks for its own processor time, itself a call of the system, until that is a fifth of a second.
BUSY = """\
#include <time.h>
int main(void)
{
    while (clock() < CLOCKS_PER_SEC / 5)
        ;
    return 0;
}
"""


def path_of(name: str) -> str:
    return shutil.which(name) or name


class Missing(unittest.TestCase):
    def test_a_missing_compiler_is_named_in_a_line(self) -> None:
        printed = io.StringIO()
        with patch.dict(os.environ, PATH="/none"), redirect_stdout(printed):
            report_runs(Path("none"), {1: Path("none")}, Path("none"))
        said = "memory and time aren't measured, as cc is missing\n"
        self.assertEqual(printed.getvalue(), said)


@unittest.skipUnless(compiler.has_compiler(), "cc is missing")
class Meter(Case):
    def setUp(self) -> None:
        super().setUp()
        self.meter = build_meter(self.folder)

    def measure(self, *words: str) -> Measured:
        return measure(self.meter, list(words))

    def compiled(self, source: str) -> str:
        self.put("child.c", source.encode())
        return str(compiler.build(self.folder / "child.c", self.folder))

    def test_the_peak_is_not_that_of_a_parent_of_200_mb(self) -> None:
        held = b"\1" * (200 * MEGABYTE)
        own = resource.getrusage(resource.RUSAGE_SELF).ru_maxrss * 1024
        self.assertGreaterEqual(own, len(held))
        self.assertLess(self.measure(path_of("true")).peak, 16 * MEGABYTE)

    def test_the_peak_of_a_child_that_touches_64_mb(self) -> None:
        peak = self.measure(self.compiled(TOUCHING)).peak
        self.assertGreaterEqual(peak, 64 * MEGABYTE)
        self.assertLess(peak, 96 * MEGABYTE)

    def test_the_processor_time(self) -> None:
        for why, words, seconds in (
            ("busy", [self.compiled(BUSY)], 0.2),
            ("asleep", [path_of("sleep"), "0.2"], 0.0),
        ):
            with self.subTest(why):
                self.assertAlmostEqual(self.measure(*words).seconds, seconds, delta=0.05)

    def test_how_a_child_ends(self) -> None:
        for script, status in (("exit 0", 0), ("exit 3", 3), ("kill -9 $$", -9)):
            with self.subTest(script):
                self.assertEqual(self.measure(path_of("sh"), "-c", script).status, status)

    def test_a_child_that_cannot_be_started(self) -> None:
        with self.assertRaisesRegex(Refused, "^/none/here can't be started$"):
            self.measure("/none/here")

    def test_what_a_child_prints_is_not_among_the_numbers(self) -> None:
        words = [self.meter, path_of("echo"), "1 2 3 4"]
        done = subprocess.run(words, capture_output=True, text=True, check=True)
        self.assertRegex(done.stdout, r"\A0 \d+ \d+ \d+\n\Z")
        self.assertEqual(done.stderr, "1 2 3 4\n")


if __name__ == "__main__":
    unittest.main()
