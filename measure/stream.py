#!/usr/bin/env python3
"""Counts the instructions that a connection of nb_tcp takes for each byte that comes in order."""

from __future__ import annotations

import sys
from pathlib import Path

from bench import Bench, measure
from shared.command_line import run

SIZE = 1460
STREAM = Bench(
    Path(__file__).resolve().parent / "stream.rt.txt",
    ("nb_tcp", "nb_tcpseg", "nb_terms", "nb_wire"),
    SIZE,
)


def measure_stream(words: list[str]) -> None:
    measure(STREAM, words, f"byte in order, in segments of {SIZE}")


if __name__ == "__main__":
    raise SystemExit(run(measure_stream, sys.argv))
