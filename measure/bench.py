"""Counts what calls of some crates cost, by a program that makes them as often as its word says.

A bench is the text of such a program and the crates that it calls. The program is laid out as a
repository with those crates and all below them, proved and built, and run under callgrind for a few
and for many calls: what comes on top is the calls' own.
"""

from __future__ import annotations

import re
import shutil
import subprocess
import sys
import tempfile
from pathlib import Path
from typing import NamedTuple

TOP = Path(__file__).resolve().parent.parent
sys.path.insert(0, str(TOP / "tools"))

from instructions import costs_of, count, missing  # noqa: E402
from shared.command_line import Refused  # noqa: E402

# a crate's text, and what `rt lib` proved of it, so that it isn't proved again
PARTS = ("src", "specs", "proofs", "out/rlib")
FEW, MANY = 1_000, 11_000
MOST_FUNCTIONS = 8


class Bench(NamedTuple):
    """The program's text, the crates that it calls, the highest first, and the units of a call."""

    text: Path
    used: tuple[str, ...]
    units: int = 1

    @property
    def name(self) -> str:
        """The name of the program's crate: its text is named `NAME.rt.txt`."""
        return self.text.name.partition(".")[0]


class Counts(NamedTuple):
    """The instructions for each unit, and those of the functions that cost most."""

    each: float
    costliest: list[tuple[str, float]]

    def report(self) -> None:
        """Prints the costliest functions, a line each."""
        for function, cost in self.costliest:
            print(f"  {cost:7.3f}  {function}")


def lines() -> dict[str, list[str]]:
    """The repository's crates, each with what it uses."""
    found = re.findall(r"^(\w+):(.*)$", (TOP / "crates.txt").read_text(), re.M)
    return {name: used.split() for name, used in found}


def below(names: tuple[str, ...], uses: dict[str, list[str]]) -> set[str]:
    """These crates of the repository and all those that they use."""
    found: set[str] = set()
    waiting = list(names)
    while waiting:
        name = waiting.pop()
        if name in uses and name not in found:
            found.add(name)
            waiting += uses[name]
    return found


def lay_out(bench: Bench, folder: Path) -> Path:
    """Makes a repository of the program and the crates below it; returns the program's folder."""
    uses = lines()
    named = sorted(below(bench.used, uses))
    rows = [f"{name}: {' '.join(uses[name])}" for name in named]
    rows.append(f"{bench.name}: {' '.join(bench.used)}")
    (folder / "crates.txt").write_text("\n".join(rows) + "\n")
    shutil.copy(TOP / "HANDLES", folder)
    for name in named:
        for part in PARTS:
            if (TOP / "crates" / name / part).is_dir():
                shutil.copytree(TOP / "crates" / name / part, folder / "crates" / name / part)
    crate = folder / "crates" / bench.name
    (crate / "src").mkdir(parents=True)
    shutil.copy(bench.text, crate / "src" / "main.rt")
    return crate


def build(bench: Bench, folder: Path) -> Path:
    """Proves and builds the program in a folder of its own; returns where it is."""
    crate = lay_out(bench, folder)
    done = subprocess.run(
        ["rt", "run", "--", "1"], cwd=crate, capture_output=True, text=True, check=False
    )
    if done.returncode != 0:
        raise Refused(f"rt can't build {bench.text.name}: {(done.stdout + done.stderr)[-2000:]}")
    return crate / "out" / bench.name


def is_built(bench: Bench) -> bool:
    """Whether `rt lib` built the highest crate, and it is newer than the text of each crate below."""
    stamp = TOP / "crates" / bench.used[0] / "out" / "rlib" / "stamp"
    if not stamp.exists():
        return False
    built = stamp.stat().st_mtime
    crates = [TOP / "crates" / name for name in below(bench.used, lines())]
    texts = [path for crate in crates for path in crate.glob("s*/**/*.*t*")]
    return all(path.stat().st_mtime <= built for path in texts)


def count_units(bench: Bench, program: Path, folder: Path) -> Counts:
    """Counts the instructions of many calls and of a few; the cost of starting is taken away."""
    profiles = {calls: folder / f"{calls}.profile" for calls in (FEW, MANY)}
    few, many = (count([str(program), str(n)], profile) for n, profile in profiles.items())
    units = (MANY - FEW) * bench.units
    costs = costs_of(profiles[MANY].read_text())
    costs.subtract(costs_of(profiles[FEW].read_text()))
    costliest = [(name, cost / units) for name, cost in costs.most_common(MOST_FUNCTIONS)]
    return Counts((many - few) / units, costliest)


def measure(bench: Bench, words: list[str], unit: str) -> None:
    """Builds the program and reports what a unit costs; the call takes no words."""
    if words:
        raise Refused("it takes no words")
    absent = missing() + ([] if shutil.which("rt") else ["rt"])
    if absent:
        print(f"instructions aren't counted, as these are missing: {', '.join(absent)}")
        return
    with tempfile.TemporaryDirectory() as name:
        folder = Path(name)
        counts = count_units(bench, build(bench, folder), folder)
    print(f"instructions for each {unit}: {counts.each:.3f}")
    counts.report()
