#!/usr/bin/env python3
"""Measures what a gate costs: each crate's processor seconds for its proof, its tests and its edits.

    measure/gate.py -- rt ci
    measure/gate.py -- rt must-fail nb_retry
    measure/gate.py --keep --into FILE -- rt ci

It runs the words after `--`, and beside what they took prints the figures of gate-figures.txt. --keep
writes those of this run there. The file of --into has the report so far, each minute. A toolchain whose
`rt ci` proves from nothing needs no further word; where it keeps proofs from one run to the next, `rt ci --anew`
proves from nothing, and a crate that took nothing isn't shown.

The budget, from nothing and for all crates: 250 minutes of one processor, at most a third of what is
spent for tests, and a third for edits. A crate's tests take at most half of what its proof does, or
two minutes; those of a crate of tests alone, whose name ends in _tests, ten. What is over that, or half as
dear again as before, has a line of its own.
"""

from __future__ import annotations

import argparse
import sys
from collections import Counter
from pathlib import Path
from typing import Mapping

from shares import EDITS, PARTS, PROOF, REST, TESTS, Share, seconds_of

FIGURES = Path(__file__).resolve().parent / "gate-figures.txt"
HEAD = "# Seconds of one processor, from nothing: crate, proof, tests, edits. A - isn't known.\n"
MOST_SECONDS = 250 * 60
MOST_TESTS = 120
# A crate of tests alone tests several crates, whose proofs aren't its own.
OF_TESTS = "_tests"
MOST_OF_TESTS = 600
# Less than this is no sign of anything: the machine is shared.
NOISE = 20

Figures = dict[str, dict[str, float]]


def read_figures(text: str) -> Figures:
    """The rows of the figures, by crate and by part; a part that isn't known is left out."""
    rows = [line.split() for line in text.splitlines() if line and not line.startswith("#")]
    return {
        row[0]: {part: float(cell) for part, cell in zip(PARTS, row[1:]) if cell != "-"}
        for row in rows
    }


def write_figures(figures: Figures) -> str:
    lines = (f"{crate} {' '.join(cells(figures[crate]))}\n" for crate in sorted(figures))
    return HEAD + "".join(lines)


def cells(figures: Mapping[str, float]) -> list[str]:
    return [f"{figures[part]:.0f}" if part in figures else "-" for part in PARTS]


def figures_of(shares: Counter[Share]) -> Figures:
    """The shares of a run by crate; what isn't a crate's is left out."""
    figures: Figures = {}
    for share, seconds in sorted(shares.items()):
        if share != REST:
            figures.setdefault(share.crate, {})[share.part] = seconds
    return figures


def joined(kept: Figures, now: Figures) -> Figures:
    """The kept figures, with those of this run in place of theirs."""
    return {crate: kept.get(crate, {}) | now.get(crate, {}) for crate in kept | now}


def sum_of(figures: Figures, part: str) -> float:
    return sum(row.get(part, 0) for row in figures.values())


def table(now: Figures, kept: Figures) -> list[str]:
    """A line for each crate: each part's seconds, and the kept ones after them."""
    lines = [f"{'seconds of a processor':24}" + "".join(f"{part:>8}{'kept':>8}" for part in PARTS)]
    total = {part: sum_of(now, part) for part in PARTS}
    known = {part: sum_of({it: kept.get(it, {}) for it in now}, part) for part in PARTS}
    rows = [(crate, now[crate], kept.get(crate, {})) for crate in sorted(now)]
    for crate, row, before in [*rows, ("all of these", total, known)]:
        pairs = zip(cells(row), cells(before))
        lines.append(f"{crate:24}" + "".join(f"{cell:>8}{old:>8}" for cell, old in pairs))
    return lines


def dear(crate: str, now: Mapping[str, float], kept: Mapping[str, float]) -> list[str]:
    """What is to be said of a crate that is over the budget, or dearer than it was."""
    said = []
    least = MOST_OF_TESTS if crate.endswith(OF_TESTS) else MOST_TESTS
    most = max(least, now.get(PROOF, 0) / 2)
    if PROOF in now and now.get(TESTS, 0) > most:
        said.append(f"{crate}: its tests take {now[TESTS]:.0f} s, over {most:.0f}")
    for part in (part for part in PARTS if part in now and part in kept):
        if now[part] > 1.5 * kept[part] and now[part] > kept[part] + NOISE:
            said.append(f"{crate}: its {part} took {kept[part]:.0f} s before, and {now[part]:.0f} now")
    return said


def over(now: Figures) -> list[str]:
    """What is to be said of all crates together."""
    total = sum(sum_of(now, part) for part in PARTS)
    said = [
        f"the {part} take {sum_of(now, part) / 60:.0f} minutes, over a third"
        for part in (TESTS, EDITS)
        if sum_of(now, part) > total / 3
    ]
    if total > MOST_SECONDS:
        said.append(f"all takes {total / 60:.0f} minutes, over {MOST_SECONDS / 60:.0f}")
    return said


def report(shares: Counter[Share], kept: Figures) -> str:
    now, total = figures_of(shares), sum(shares.values())
    lines = table(now, kept)
    lines.append(f"in all {total:.1f} s ({total / 60:.1f} minutes), {shares[REST]:.1f} of them no crate's")
    for crate in sorted(now):
        lines += dear(crate, now[crate], kept.get(crate, {}))
    return "".join(f"{line}\n" for line in lines + over(now))


def words_of(words: list[str]) -> argparse.Namespace:
    how = argparse.RawDescriptionHelpFormatter
    parser = argparse.ArgumentParser(description=__doc__, formatter_class=how)
    parser.add_argument("--keep", action="store_true", help="keep these figures")
    parser.add_argument("--into", type=Path, help="a file that has the report so far, each minute")
    parser.add_argument("command", nargs="+", help="what runs the gate, after --")
    return parser.parse_args(words)


def main(words: list[str]) -> int:
    asked = words_of(words)
    kept = read_figures(FIGURES.read_text()) if FIGURES.is_file() else {}

    def write(shares: Counter[Share]) -> None:
        if asked.into:
            asked.into.write_text(report(shares, kept))

    status, shares = seconds_of(asked.command, write)
    write(shares)
    print(report(shares, kept), end="", flush=True)
    if asked.keep:
        FIGURES.write_text(write_figures(joined(kept, figures_of(shares))))
    return status


if __name__ == "__main__":
    raise SystemExit(main(sys.argv[1:]))
