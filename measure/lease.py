#!/usr/bin/env python3
"""Counts the instructions that nb_settings takes to fill a block from a DHCP acknowledgement."""

from __future__ import annotations

import sys
from pathlib import Path

from bench import Bench, measure
from shared.command_line import run

LEASE = Bench(Path(__file__).resolve().parent / "lease.rt.txt", ("nb_settings", "nb_dhcpmsg"))


def measure_lease(words: list[str]) -> None:
    measure(LEASE, words, "lease")


if __name__ == "__main__":
    raise SystemExit(run(measure_lease, sys.argv))
