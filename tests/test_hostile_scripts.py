"""Scripts that are made to keep the built program busy: each run ends within seconds of the processor's time.

Scripts of settings, and loops, are compared with a plain one of the same length: they take at most so many times
as long.

START holds a script of at most 130,996 bytes, so of at most 130,990 lines. Where the program isn't built
the tests are skipped, saying so.
"""

from __future__ import annotations

import resource
import subprocess
import unittest

from boot import BUILT, is_built
from shared.causes import Cause, Code
from shared.kinds import Status
from shared.recordings import read_output
from shared.records import Command, Record, Script, Tick
from tests import made
from tests.case import Case
from tests.graph_run import fault_of

FIRST = b"#!ipxe\n"
MOST_BYTES = 130_996
MOST_SECONDS = 20
MOST_COMMANDS = 4_096
# How often a plain script is run, and the least that it counts as costing, in seconds.
PLAIN_RUNS = 5
LEAST_TIME = 0.001
MOST_TIMES = 100
# no script of MOST_BYTES has more commands than so many steps may begin
ENOUGH_TICKS = 10
NAMES = b"".join(b":%d\n" % number for number in range(20_000))
LONG_LINE, UNKNOWN = Cause(Code.TOO_LONG, 1), Cause(Code.UNKNOWN)
TOO_MANY = Cause(Code.TOO_MANY, 1)


def filled(line: bytes) -> bytes:
    """The longest script of such lines."""
    return FIRST + line * ((MOST_BYTES - len(FIRST)) // len(line))


# each ends at once: the cause with which it is left
ENDING = {
    "empty lines": (filled(b"\n"), Cause(Code.OK)),
    "comments": (filled(b"#\n"), Cause(Code.OK)),
    "lines joined to nothing": (filled(b"\\\n"), Cause(Code.OK)),
    "the same label": (filled(b":a\n"), Cause(Code.OK)),
    "long labels": (filled(b":" + b"a" * 4_094 + b"\n"), Cause(Code.OK)),
    "other labels": (FIRST + NAMES, Cause(Code.OK)),
    "joins": (filled(b"; " * 64 + b"\n"), Cause(Code.OK)),
    "skipped commands": (filled(b"|| x " * 64 + b"\n"), Cause(Code.OK)),
    "one line": (filled(b"x"), LONG_LINE),
    "joined lines": (filled(b"x" * 4_000 + b"\\\n"), LONG_LINE),
    "blanks": (filled(b" " * 4_096 + b"\n"), Cause(Code.OK)),
    "dollars": (filled(b"$" * 4_096 + b"\n"), UNKNOWN),
    "words": (filled(b"x " * 2_048 + b"\n"), TOO_MANY),
}



def loop_over(lines: bytes) -> bytes:
    """The longest loop of `goto` over such lines."""
    head, end = FIRST + b":a\n", b"goto a\n"
    return head + lines * ((MOST_BYTES - len(head) - len(end)) // len(lines)) + end


# each goes on for ever, by `goto`
ENDLESS = {
    "a loop over empty lines": loop_over(b"\n"),
    "a loop over comments": loop_over(b"#\n"),
    "a loop over labels": loop_over(b":b\n"),
    "a loop over lists of empty commands": loop_over(b"; ;\n"),
    "a loop over commands that are skipped": loop_over(b"|| x\n"),
    "a loop over long lists that are skipped": loop_over(b"|| x " * 31 + b"\n"),
    "a short loop": FIRST + b":a\ngoto a\n",
    "the last of many labels": FIRST + NAMES + b":a\ngoto a\n",
    "a loop of many lines": FIRST + b":a\n" + b"\n" * 60 + b"goto a\n",
    "a loop of joins": FIRST + b":a\n" + b"; " * 20 + b" goto a\n",
    "many words": FIRST + b":a\nx" + b" y" * 30 + b" || goto a\n",
    "many lines and a long name": filled(b"\n")[:-1_010] + b":%b\ngoto %b\n" % (b"a" * 250, b"a" * 250),
}

PLAIN = filled(b"echo one two three\n")
BIG = b"set b " + b"b" * 1_024 + b"\n"
# the root has 128 settings then, and net0 too: 124 beside mac, uuid, ip and netmask
FULL_BLOCKS = b"".join(b"set n%d v\n" % number for number in range(128))
FULL_BLOCKS += b"".join(b"set net0/n%d v\n" % number for number in range(124))
SHOW_ALL = b"".join(b"show n%d\nshow net0/n%d:hex\n" % (number, number % 124) for number in range(128))


def filled_after(beginning: bytes, lines: bytes) -> bytes:
    """The longest script that begins so, and then has such lines."""
    return FIRST + beginning + lines * ((MOST_BYTES - len(FIRST) - len(beginning)) // len(lines))


# each ends in Ok
OF_SETTINGS = {
    "parts that are never closed": filled(b"echo " + b"${" * 2_045 + b"\n"),
    "names that are never closed": filled(b"echo " + b"${a" * 1_363 + b"\n"),
    "parts in parts": filled(b"echo " + b"${a" * 1_022 + b"}" * 1_022 + b"\n"),
    "values until a word is too long": filled_after(BIG, b"echo " + b"${b}" * 1_021 + b" ||\n"),
    "values in a part that is never closed": filled_after(BIG, b"echo ${" + b"${b:hex}" * 510 + b" ||\n"),
    "escaped values": filled_after(BIG, b"echo ${" + b"${b:uristring}" * 290 + b" ||\n"),
    "names that no full block has": filled_after(FULL_BLOCKS, b"echo " + b"${a}" * 1_021 + b"\n"),
    "commands on full blocks": filled_after(FULL_BLOCKS, b"set n0 w\nclear n0\nset n0 v\n"),
    "counting in a full block": filled_after(FULL_BLOCKS, b"inc n0 ;\n"),
    "all settings": filled_after(FULL_BLOCKS, SHOW_ALL),
    "long settings": filled_after(BIG, b"show b:uristring\n"),
    "copies of long settings": filled_after(BIG, b"set c ${b}\n"),
}


@unittest.skipUnless(is_built(), "the program isn't built")
class Hostile(Case):
    def run_timed(self, script: bytes, ticks: int) -> tuple[float, list[Record]]:
        """The processor's time for a run, in seconds, and its output."""
        self.put("in.rec", [made.start(script), *[Tick(1)] * ticks])
        before = resource.getrusage(resource.RUSAGE_CHILDREN).ru_utime
        words = [BUILT, "replay", self.folder / "in.rec", self.folder / "out.rec"]
        done = subprocess.run(words, capture_output=True, check=False, timeout=30 * MOST_SECONDS)
        taken = resource.getrusage(resource.RUSAGE_CHILDREN).ru_utime - before
        with (self.folder / "out.rec").open("rb") as stream:
            records = list(read_output(stream))
        self.assertEqual(records[-1].status, done.returncode)
        self.assertIsNone(fault_of(records))
        return taken, records

    def run_in_time(self, script: bytes, ticks: int = 0) -> list[Record]:
        """The output of a run that takes few seconds."""
        taken, records = self.run_timed(script, ticks)
        self.assertLess(taken, MOST_SECONDS)
        return records

    def test_scripts_that_end(self) -> None:
        for name, (script, cause) in ENDING.items():
            with self.subTest(name):
                self.assertLessEqual(len(script), MOST_BYTES)
                records = self.run_in_time(script)
                left = [record.cause for record in records if isinstance(record, Script)]
                self.assertEqual(left[1:], [cause])

    def test_scripts_that_never_end(self) -> None:
        for name, script in ENDLESS.items():
            with self.subTest(name):
                self.assertLessEqual(len(script), MOST_BYTES)
                records = self.run_in_time(script, 1)
                begun = sum(isinstance(record, Command) for record in records)
                self.assertEqual(begun, 2 * MOST_COMMANDS)
                self.assertEqual(records[-1].status, Status.UNFINISHED)

    def plain_time(self) -> float:
        """What a plain script of the greatest length costs: the most of a few runs, since a busy machine counts some as nothing."""
        most = LEAST_TIME
        for _ in range(PLAIN_RUNS):
            plain, records = self.run_timed(PLAIN, ENOUGH_TICKS)
            self.assertEqual(records[-1].status, Status.ENDED)
            most = max(most, plain)
        return most

    def test_loops(self) -> None:
        """Two steps of 4,096 commands cost at most a hundred times what a plain script costs."""
        plain = self.plain_time()
        for name, script in ENDLESS.items():
            with self.subTest(name):
                taken, _ = self.run_timed(script, 1)
                self.assertLess(taken, MOST_TIMES * plain)

    def test_scripts_of_settings(self) -> None:
        """Each costs at most a hundred times what a plain script of its length costs."""
        plain = self.plain_time()
        for name, script in OF_SETTINGS.items():
            with self.subTest(name):
                self.assertLessEqual(len(script), MOST_BYTES)
                taken, records = self.run_timed(script, ENOUGH_TICKS)
                self.assertEqual(records[-1].status, Status.ENDED)
                self.assertLess(taken, MOST_TIMES * plain)


if __name__ == "__main__":
    unittest.main()
