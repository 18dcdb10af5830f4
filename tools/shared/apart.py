"""The files of a command are apart: no output is an input, and no two outputs are one file.

Files are compared by device and inode, and by the names that links lead to, so that files which
aren't there yet are compared too. A terminal, a socket and /dev/null may be named twice.
"""

from __future__ import annotations

import os
import stat
import sys
from dataclasses import dataclass
from pathlib import Path
from typing import Mapping, TextIO

from shared.command_line import STANDARD, Refused

Named = Mapping[str, "Path | None"]


@dataclass(frozen=True, slots=True)
class Place:
    """A file that a command was given: its option, its path, and what the path leads to."""

    option: str
    path: Path
    leads_to: str
    about: os.stat_result | None

    def may_be_shared(self) -> bool:
        mode = self.about.st_mode if self.about else 0
        return stat.S_ISCHR(mode) or stat.S_ISSOCK(mode)

    def is_same(self, other: Place) -> bool:
        """Whether both lead to one file, which a write to one would change for the other."""
        if self.may_be_shared() or other.may_be_shared():
            return False
        if self.about and other.about and os.path.samestat(self.about, other.about):
            return True
        return self.leads_to == other.leads_to


def check_apart(outputs: Named, inputs: Named) -> None:
    """Refuses an output that is an input or another output, under any name. To be called before
    anything is opened; both are given by their options, and one that wasn't given is None."""
    reads = [_place(option, path, sys.stdin) for option, path in inputs.items() if path]
    writes: list[Place] = []
    for option, path in outputs.items():
        if path is None:
            continue
        output = _place(option, path, sys.stdout)
        for given in reads:
            if output.is_same(given):
                _refuse_input(output, given)
        for other in writes:
            if output.is_same(other):
                raise Refused(f"{path}: {other.option} and {option} can't both be this file")
        writes.append(output)


def _place(option: str, path: Path, standard: TextIO | None) -> Place:
    if path == STANDARD:
        return Place(option, path, f"<{option}>", _about_stream(standard))
    try:
        about = os.stat(path)
    except FileNotFoundError:
        about = None
    return Place(option, path, os.path.realpath(path), about)


def _about_stream(stream: TextIO | None) -> os.stat_result | None:
    try:
        return os.fstat(stream.fileno()) if stream else None
    except (OSError, ValueError):
        return None


def _refuse_input(output: Place, given: Place) -> None:
    same = "" if output.path == given.path else f", the same file as {given.path}"
    raise Refused(f"{output.path}: an output must not be an input of the same command{same}")
