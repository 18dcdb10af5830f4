"""Runs of the program over many input recordings: the built one where it is newer than its sources.

Else `rt try` compiles it once for all of them.
"""

from __future__ import annotations

import functools
import re
import shutil
import subprocess
import tempfile
from dataclasses import dataclass
from pathlib import Path

from boot import BUILT, CRATE, is_built

LINE = re.compile(r"^case=(\S+) run=(\S+) status=(\d+) ", re.M)


def can_run() -> bool:
    return is_built() or shutil.which("rt") is not None


@dataclass(frozen=True)
class Ran:
    """How a run ended, its exit status, and what it said."""

    ending: str
    status: int
    said: str


@dataclass(frozen=True)
class Replayed:
    """How a run ended, its exit status, what it said, and the file that it wrote, if it wrote one."""

    ending: str
    status: int
    said: str
    output: bytes | None


def run_all(cases: dict[str, list[str]]) -> dict[str, Ran]:
    """Runs the program on each of these lists of words; files have absolute paths."""
    if is_built():
        return {name: _run_built(words) for name, words in cases.items()}
    with tempfile.TemporaryDirectory() as folder:
        for name, words in cases.items():
            (Path(folder) / name).write_bytes(b"")
            (Path(folder) / f"{name}.args").write_text("".join(f"{word}\n" for word in words))
        printed = subprocess.run(
            ["rt", "try", "--cases", folder],
            cwd=CRATE,
            stdout=subprocess.PIPE,
            stderr=subprocess.STDOUT,
            text=True,
            check=False,
        ).stdout
    said = dict(re.findall(r"^== (\S+)\n((?:(?!case=).*\n)*)", printed, re.M))
    return {
        name: Ran(ending, int(status), said.get(name, ""))
        for name, ending, status in LINE.findall(printed)
    }


def _run_built(words: list[str]) -> Ran:
    done = subprocess.run([BUILT, *words], capture_output=True, text=True, check=False)
    ending = "ended" if done.returncode >= 0 else "killed"
    return Ran(ending, done.returncode, done.stdout + done.stderr)


def replay_all(
    inputs: dict[str, bytes], words: dict[str, list[str]] | None = None
) -> dict[str, Replayed]:
    """Runs `netboot replay` over each of these recordings, and the program on each of these words."""
    with tempfile.TemporaryDirectory() as name:
        folder, cases = Path(name), dict(words or {})
        for case, recording in inputs.items():
            (folder / f"{case}.in").write_bytes(recording)
            cases[case] = ["replay", f"{folder / case}.in", f"{folder / case}.out"]
        return {
            case: Replayed(ran.ending, ran.status, ran.said, _read(folder / f"{case}.out"))
            for case, ran in run_all(cases).items()
        }


def _read(path: Path) -> bytes | None:
    return path.read_bytes() if path.exists() else None


@functools.cache
def replayed() -> dict[str, Replayed]:
    """The runs that the tests of whole outputs and of the program look at, for one compiling."""
    from tests.all_rows import all_inputs
    from tests.test_program import WORDS

    return replay_all(all_inputs(), WORDS)
