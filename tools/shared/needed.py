"""What a command needs of the machine that it runs on, and the Debian packages that bring it."""

from __future__ import annotations

import shutil
from dataclasses import dataclass
from pathlib import Path
from typing import Iterable

from shared.command_line import Refused


@dataclass(frozen=True, slots=True)
class Need:
    """A program, or a file by its whole path, and its package."""

    what: str
    package: str

    def is_there(self) -> bool:
        return Path(self.what).exists() if self.what.startswith("/") else shutil.which(self.what) is not None


def missing_packages(needs: Iterable[Need]) -> str | None:
    """What isn't there, in a line that says how it comes, if anything."""
    absent = [need for need in needs if not need.is_there()]
    if not absent:
        return None
    packages = sorted({need.package for need in absent})
    named = ", ".join(need.what for need in absent)
    return f"{named} {'is' if len(absent) == 1 else 'are'} missing: apt-get install {' '.join(packages)}"


def check_needs(needs: Iterable[Need]) -> None:
    why = missing_packages(needs)
    if why:
        raise Refused(why)
