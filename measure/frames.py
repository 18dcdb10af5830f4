#!/usr/bin/env python3
"""Counts the instructions that nb_stack takes to read a block's frame and to put an acknowledgement's."""

from __future__ import annotations

import sys
from pathlib import Path

from bench import Bench, measure
from shared.command_line import run

FRAMES = Bench(
    Path(__file__).resolve().parent / "frames.rt.txt",
    ("nb_stack", "nb_ipv4", "nb_wire"),
)


def measure_frames(words: list[str]) -> None:
    measure(FRAMES, words, "frame of a block, with its acknowledgement's")


if __name__ == "__main__":
    raise SystemExit(run(measure_frames, sys.argv))
