"""Runs all tests of this folder, and says which were skipped and why.

Many of them start servers, machines and bridges that go by the clock. What fails is run once more when all else is done, and
its report stands in any case: it failed where it fails again, and is named as unsteady where it doesn't.
"""

from __future__ import annotations

import re
import unittest
from collections import Counter
from collections.abc import Iterable

from tests import TOP

LOADER = unittest.defaultTestLoader


def name_of(test: unittest.TestCase) -> str:
    """What the loader finds a failed test by: its method, or its class or module where that couldn't be set up or read."""
    whole = test.test_case if hasattr(test, "test_case") else test
    set_up = re.fullmatch(r"(?:set|tear)\w+ \(([\w.]+)\)", whole.id())
    return (set_up[1] if set_up else whole.id()).removeprefix("unittest.loader._FailedTest.")


def failed_in(result: unittest.TestResult) -> list[str]:
    tests: Iterable[unittest.TestCase] = (test for test, _ in result.failures + result.errors)
    return sorted({*map(name_of, tests), *map(name_of, result.unexpectedSuccesses)})


def fail_again(names: list[str]) -> bool:
    print(f"tools: once more: {' '.join(names)}", flush=True)
    again = unittest.TextTestRunner().run(LOADER.loadTestsFromNames(names))
    failed = failed_in(again)
    for name in names:
        print(f"tools: {'failed twice' if name in failed else 'unsteady'}: {name}")
    return not again.wasSuccessful()


def main() -> int:
    result = unittest.TextTestRunner().run(LOADER.discover(str(TOP / "tests"), top_level_dir=str(TOP)))
    for reason, number in Counter(reason for _, reason in result.skipped).items():
        print(f"tools: {number} skipped: {reason}")
    if result.wasSuccessful():
        return 0
    return 1 if fail_again(failed_in(result)) else 0


if __name__ == "__main__":
    raise SystemExit(main())
