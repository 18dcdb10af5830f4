"""What a gate's processes took, by crate and part: of made-up processes, figures and command lines."""

from __future__ import annotations

import os
import unittest
from collections import Counter
from unittest.mock import patch

import gate
import shares
from gate import dear, figures_of, joined, over, read_figures, report, write_figures
from shares import EDITS, PROOF, REST, TESTS, Seen, Share, Tally, seen_in, share_of

RATTLE = "/kit/bin/rattle"
BUILD = [RATTLE, "build", "--crate-name", "nb_retry", "src/lib.rt"]
OF_PROOF, OF_TESTS, OF_EDITS = (Share("nb_retry", part) for part in (PROOF, TESTS, EDITS))


class Words(unittest.TestCase):
    def test_what_a_process_works_at(self) -> None:
        checked = [RATTLE, "check", "--crate-name", "nb_retry", "src/lib.rt", "--jobs", "1"]
        for words, folder, share in (
            (BUILD, "/top/crates/nb_retry", OF_PROOF),
            (["/bin/python3", "-ISc", "starts it", *BUILD], "/top/crates/nb_retry", OF_PROOF),
            ([*BUILD, "--test", "-o", "out/nb_retry_tests.o"], "/top/crates/nb_retry", OF_TESTS),
            (checked, "/tmp/rt-edit-12-abc", OF_EDITS),
            (["rattle-link", "-o", "out/nb_retry_tests", "x.o"], "/top/crates/nb_retry", OF_TESTS),
            (["rattle-test", "--seconds", "60", "/tmp/x/bin/nb_retry_tests"], "/tmp/x", OF_TESTS),
            (["rattle-link", "-o", "out/nb_core_tests_tests"], "/top", Share("nb_core_tests", TESTS)),
            ([RATTLE, "fmt", "--check", "/top/crates/nb_core_tests"], "/top", None),
            (["/tmp/x/bin/netboot", "in", "out"], "/tmp/x/data", None),
            (["/bin/python3", "/kit/bin/rt", "ci", "nb_retry"], "/top", None),
            ([RATTLE, "--crate-name"], "/top", None),
        ):
            with self.subTest(words=words):
                self.assertEqual(share_of(words, folder), share)

    def test_a_line_of_the_system(self) -> None:
        """proc(5): the parent is field 4, the times fields 14 to 17, the start field 22."""
        fields = ["7", "(a (b) c)", "S", "3", *map(str, range(5, 14)), "100", "20", "3000", "400"]
        line = " ".join([*fields, *map(str, range(18, 22)), "555", "23", "24"])
        self.assertEqual(seen_in(line), Seen(parent=3, start=555, own=120, ended=3400))


class Sums(unittest.TestCase):
    """A process 1 starts others; 2 works at a proof, 3 at an edit, and 4 is started by 2."""

    def setUp(self) -> None:
        self.tally = Tally()
        self.named = {2: OF_PROOF, 3: OF_EDITS}

    def look(self, **seen: tuple[int, int, int]) -> None:
        now = {int(pid[1:]): Seen(parent, 9, own, ended) for pid, (parent, own, ended) in seen.items()}
        self.tally.look(now, self.named)

    def check(self, rest: float, proof: float, edits: float) -> None:
        found = [self.tally.spent[it] for it in (REST, OF_PROOF, OF_EDITS)]
        self.assertEqual(found, [rest, proof, edits])

    def test_what_is_seen_of_a_process_counts_once(self) -> None:
        self.look(p1=(0, 5, 0), p2=(1, 100, 0))
        self.look(p1=(0, 6, 0), p2=(1, 150, 0), p4=(2, 30, 0))
        self.check(6, 180, 0)
        self.look(p1=(0, 6, 0), p2=(1, 150, 30))
        self.check(6, 180, 0)
        self.look(p1=(0, 6, 180))
        self.check(6, 180, 0)

    def test_what_was_not_seen_before_an_end_counts(self) -> None:
        self.look(p1=(0, 5, 0), p2=(1, 100, 0))
        self.look(p1=(0, 5, 117))
        self.check(5, 117, 0)

    def test_two_that_end_between_two_looks(self) -> None:
        self.look(p1=(0, 5, 0), p2=(1, 100, 0), p3=(1, 50, 0))
        self.look(p1=(0, 5, 160))
        self.check(5, 105, 55)

    def test_an_end_that_shows_first_in_the_list(self) -> None:
        """The one that waits was looked at before the other had ended."""
        self.look(p1=(0, 5, 0), p2=(1, 100, 0))
        self.look(p1=(0, 5, 0))
        self.check(5, 100, 0)
        self.look(p1=(0, 5, 104))
        self.check(5, 104, 0)

    def test_a_process_and_what_it_started_end_together(self) -> None:
        self.look(p1=(0, 5, 0), p2=(1, 100, 7), p4=(2, 30, 0))
        self.look(p1=(0, 5, 140))
        self.check(5, 140, 0)

    def test_one_that_was_never_seen_is_its_starters(self) -> None:
        self.look(p1=(0, 5, 0), p2=(1, 100, 0))
        self.look(p1=(0, 5, 20), p2=(1, 100, 8))
        self.check(25, 108, 0)

    def test_a_number_that_is_given_again(self) -> None:
        self.look(p1=(0, 5, 0), p2=(1, 100, 0))
        self.tally.look({1: Seen(0, 9, 5, 110), 2: Seen(1, 77, 4, 0)}, {2: OF_EDITS})
        self.check(5, 110, 4)


class Running(unittest.TestCase):
    def test_all_of_a_command_is_counted(self) -> None:
        """A command that is no crate's, which takes a tenth of a second at least."""
        busy = "import time\nwhile time.process_time() < 0.1: pass"
        before, reports = shares.spent_by_ended(), []
        with patch.object(shares, "MINUTE", 0):
            words = ["python3", "-c", f"{busy}\nraise SystemExit(3)"]
            status, spent = shares.seconds_of(words, reports.append)
        self.assertEqual(status, 3)
        self.assertEqual(list(spent), [REST])
        self.assertGreaterEqual(spent[REST], 0.1)
        self.assertAlmostEqual(spent[REST], shares.spent_by_ended() - before)
        self.assertTrue(reports)

    def test_what_is_no_crates(self) -> None:
        self.assertIsNone(shares.read_share(os.getpid()))
        self.assertIsNone(shares.read_process(0))


class Figures(unittest.TestCase):
    KEPT = {"nb_old": {PROOF: 50, TESTS: 20, EDITS: 30}, "nb_retry": {TESTS: 40}}

    def test_written_and_read(self) -> None:
        text = write_figures(self.KEPT)
        self.assertEqual(text.splitlines()[1:], ["nb_old 50 20 30", "nb_retry - 40 -"])
        self.assertEqual(read_figures(text), self.KEPT)
        self.assertTrue(read_figures(gate.FIGURES.read_text()))

    def test_a_run_takes_the_place_of_what_it_measured(self) -> None:
        now = figures_of(Counter({OF_PROOF: 8.5, OF_TESTS: 3, REST: 2}))
        self.assertEqual(now, {"nb_retry": {PROOF: 8.5, TESTS: 3}})
        both = joined(self.KEPT, now)
        self.assertEqual(both, {"nb_old": self.KEPT["nb_old"], "nb_retry": {PROOF: 8.5, TESTS: 3}})

    def test_what_is_said_of_a_run(self) -> None:
        spent = Counter({OF_PROOF: 80, OF_TESTS: 150, OF_EDITS: 20, Share("nb_old", PROOF): 76, REST: 4})
        said = [" ".join(line.split()) for line in report(spent, self.KEPT).splitlines()]
        self.assertEqual(
            said,
            [
                "seconds of a processor proof kept tests kept edits kept",
                "nb_old 76 50 - 20 - 30",
                "nb_retry 80 - 150 40 20 -",
                "all of these 156 50 150 60 20 30",
                "in all 330.0 s (5.5 minutes), 4.0 of them no crate's",
                "nb_old: its proof took 50 s before, and 76 now",
                "nb_retry: its tests take 150 s, over 120",
                "nb_retry: its tests took 40 s before, and 150 now",
                "the tests take 2 minutes, over a third",
            ],
        )

    def test_a_crate_of_tests_alone(self) -> None:
        """Ten minutes, where a crate that has a proof of its own has two."""
        for crate, said in (("nb_old", ["nb_old: its tests take 590 s, over 120"]), ("nb_core_tests", [])):
            self.assertEqual(dear(crate, {PROOF: 8, TESTS: 590}, {}), said)

    def test_the_budget(self) -> None:
        within = {"nb_old": {PROOF: 6000, TESTS: 4000, EDITS: 4000}}
        self.assertEqual(over(within), [])
        self.assertEqual(
            over({"nb_old": {PROOF: 3000, TESTS: 3000, EDITS: 9300}}),
            ["the edits take 155 minutes, over a third", "all takes 255 minutes, over 250"],
        )
