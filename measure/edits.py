#!/usr/bin/env python3
"""Tries must-fail edits that the gate leaves out for what they cost.

    measure/edits.py nb_graph nb_tcp
    measure/edits.py --list

A crate's edits of the gate stand in its must-fail/, at most three; its further ones in tests/edits/NAME/. For each
crate that is named, the further ones are put beside the others, `rt must-fail NAME` tries them all, and
they are taken away again. Try them where a crate's contracts or code have changed. The status is that of the tries: 0
where each edit was refused.
"""

from __future__ import annotations

import argparse
import shutil
import subprocess
import sys
from contextlib import contextmanager
from pathlib import Path
from typing import Iterator

TOP = Path(__file__).resolve().parent.parent
FURTHER = TOP / "tests" / "edits"
MOST = 3


def of_gate(crate: str) -> list[Path]:
    """The edits of a crate that the gate tries."""
    return sorted((TOP / "crates" / crate / "must-fail").glob("*.edit"))


def further(crate: str) -> list[Path]:
    """Those that it leaves out."""
    return sorted((FURTHER / crate).glob("*.edit"))


def crates_with_further() -> list[str]:
    return sorted(folder.name for folder in FURTHER.iterdir() if folder.is_dir())


@contextmanager
def beside(crate: str) -> Iterator[None]:
    """While it is entered, a crate's further edits stand beside the others."""
    folder = TOP / "crates" / crate / "must-fail"
    is_new = not folder.is_dir()
    folder.mkdir(exist_ok=True)
    put: list[Path] = []
    try:
        for edit in further(crate):
            to = folder / edit.name
            if to.exists():
                raise SystemExit(f"edits.py: {crate} has two edits of the name {edit.name}")
            put.append(to)
            shutil.copyfile(edit, to)
        yield
    finally:
        for path in put:
            path.unlink(missing_ok=True)
        if is_new:
            folder.rmdir()


def tried(crate: str) -> int:
    with beside(crate):
        return subprocess.run(["rt", "must-fail", crate], cwd=TOP, check=False).returncode


def words_of(words: list[str]) -> argparse.Namespace:
    how = argparse.RawDescriptionHelpFormatter
    parser = argparse.ArgumentParser(description=__doc__, formatter_class=how)
    parser.add_argument("--list", action="store_true", help="only list each crate's further edits")
    parser.add_argument("crates", nargs="*", metavar="NAME", help="crates whose edits are to be tried")
    return parser.parse_args(words)


def main(words: list[str]) -> int:
    asked = words_of(words)
    known = crates_with_further()
    for crate in asked.crates:
        if not (TOP / "crates" / crate).is_dir():
            print(f"edits.py: there is no crate {crate}", file=sys.stderr)
            return 2
    if asked.list:
        for crate in asked.crates or known:
            print(f"{crate}: {' '.join(edit.stem for edit in further(crate))}")
        return 0
    if not asked.crates:
        print("edits.py: name the crates whose edits are to be tried, or --list", file=sys.stderr)
        return 2
    return max(tried(crate) for crate in asked.crates)


if __name__ == "__main__":
    raise SystemExit(main(sys.argv[1:]))
