"""Compiles C programs: those of this folder, which the measurements need."""

from __future__ import annotations

import shutil
import subprocess
from pathlib import Path

from shared.command_line import Refused

COMPILER = "cc"
HERE = Path(__file__).resolve().parent


def has_compiler() -> bool:
    return shutil.which(COMPILER) is not None


def build(text: Path, folder: Path, *options: str) -> Path:
    """Compiles a C text into a folder, and returns where the program is."""
    program = folder / text.stem
    words = [COMPILER, "-O2", *options, "-o", program, text]
    done = subprocess.run(words, capture_output=True, text=True, check=False)
    if done.returncode != 0:
        raise Refused(f"{COMPILER} can't compile {text.name}: {done.stderr}")
    return program
