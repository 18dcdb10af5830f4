#!/usr/bin/env python3
"""Counts the instructions that a block of 512 bytes takes through a Tftp and a Fetch of nb_nodes."""

from __future__ import annotations

import sys
from pathlib import Path

from bench import Bench, measure
from shared.command_line import run

BLOCKS = Bench(
    Path(__file__).resolve().parent / "blocks.rt.txt",
    ("nb_nodes", "nb_graph", "nb_ledger", "nb_terms", "nb_wire"),
)


def measure_blocks(words: list[str]) -> None:
    measure(BLOCKS, words, "block of 512 bytes through a Tftp and a Fetch")


if __name__ == "__main__":
    raise SystemExit(run(measure_blocks, sys.argv))
