#!/usr/bin/env python3
"""Counts the instructions that a datagram takes through two objects of nb_graph."""

from __future__ import annotations

import sys
from pathlib import Path

from bench import Bench, measure
from shared.command_line import run

ENTRIES = Bench(Path(__file__).resolve().parent / "entries.rt.txt", ("nb_graph", "nb_ledger", "nb_terms"))


def measure_entries(words: list[str]) -> None:
    measure(ENTRIES, words, "datagram through two objects")


if __name__ == "__main__":
    raise SystemExit(run(measure_entries, sys.argv))
