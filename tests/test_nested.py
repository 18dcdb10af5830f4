"""Scripts within scripts and commands on images: the program's whole output, record by record."""

from __future__ import annotations

import random
import unittest

from tests import made
from tests.nested_chance import random_case
from tests.nested_model import Nested as Model
from tests.nested_rows import ROWS
from tests.replays import can_run
from tests.script_rows import Row, RowCase

SEED, BY_CHANCE = 9, 500


def by_chance() -> dict[str, Row]:
    """Scripts that run, free and select what a server has, by a second reading of the rules."""
    chance = random.Random(SEED)
    return {f"chance_{number}": Model(*random_case(chance)).run() for number in range(BY_CHANCE)}


READ_TWICE = by_chance()


def all_inputs() -> dict[str, bytes]:
    return {f"nested_{name}": made.spelled(row.inputs) for name, row in {**ROWS, **READ_TWICE}.items()}


@unittest.skipUnless(can_run(), "the program isn't built, and the toolchain's rt is missing")
class Nested(RowCase):
    def test_rows(self) -> None:
        for name, row in ROWS.items():
            with self.subTest(name):
                self.same(f"nested_{name}", row)

    def test_scripts_by_chance(self) -> None:
        for name, row in READ_TWICE.items():
            with self.subTest(name, script=row.inputs[0].script):
                self.same(f"nested_{name}", row)


if __name__ == "__main__":
    unittest.main()
