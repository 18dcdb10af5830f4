"""Measures a run's peak of memory and its processor time, by a small C program that starts it.

Linux reckons the peak of whoever starts a program to the program's own (ru_maxrss of getrusage(2)):
started from Python, each has at least Python's. Started by meter.c it has at least that program's,
about 1 MB.
"""

from __future__ import annotations

import subprocess
from pathlib import Path
from typing import NamedTuple

import compiler
from shared.command_line import Refused


class Measured(NamedTuple):
    """How a run ended, the peak of its memory in bytes, and its processor time in seconds.

    A run that a signal ended has the signal's number as its status, negative.
    """

    status: int
    peak: int
    seconds: float


def build_meter(folder: Path) -> Path:
    """Compiles meter.c into the folder, and returns where the program is."""
    return compiler.build(compiler.HERE / "meter.c", folder)


def measure(meter: Path, words: list[str]) -> Measured:
    """Runs these words, the first a program's path, and asks the system what that took."""
    done = subprocess.run([meter, *words], stdout=subprocess.PIPE, text=True, check=False)
    if done.returncode != 0:
        raise Refused(f"{words[0]} can't be started")
    status, kibibytes, user, system = map(int, done.stdout.split())
    return Measured(status, kibibytes * 1024, (user + system) / 1_000_000)
