#!/usr/bin/env python3
"""Counts the instructions that a drive of nb_disk takes for each byte of the blocks that it reads.

Each read is a task of its own: its request is put, and one Data-In answers it, which is cut from a stream. Tasks have eight
blocks, and all is counted: the drive, the stream and the bench. In a second run they have one block, and from its count that
of the same program is taken away whose calls of the drive are left out: what is left is the drive's own.
"""

from __future__ import annotations

import shutil
import sys
import tempfile
from pathlib import Path

from bench import Bench, build, count_units, measure
from instructions import missing
from shared.command_line import Refused, run

BLOCK, HEAD = 512, 48
# the blocks of a task: as many as an operating system reads at the least
BLOCKS = 8
DISK = Bench(
    Path(__file__).resolve().parent / "disk.rt.txt",
    ("nb_disk", "nb_login", "nb_iscsipdu", "nb_terms", "nb_wire"),
    BLOCK * BLOCKS,
)

# the calls of the drive in the loop, and what stands in their places where they are left out
CALLS = {
    "        disk.read(alloc, number, BLOCKS).ok()?;\n": "",
    "    disk.pdu(alloc, 2, &pdu, acts)?;\n": "    acts.give = Some((0, u32::from(DATA)));\n",
}


def numbers(blocks: int) -> dict[str, int]:
    """The program's numbers where its tasks have so many blocks."""
    data = BLOCK * blocks
    return {"BLOCKS: u16": blocks, "DATA: u16": data, "SIZE: usize": HEAD + data}


def of_one_block(folder: Path) -> Bench:
    """The same program, whose text is written there, with tasks of one block."""
    text = DISK.text.read_text()
    for (name, many), one in zip(numbers(BLOCKS).items(), numbers(1).values()):
        text = text.replace(f"const {name} = {many};", f"const {name} = {one};")
    return written(folder, text)


def without_drive(bench: Bench, folder: Path) -> Bench:
    """The same program, whose text is written there, without its calls of the drive."""
    text = bench.text.read_text()
    for call, instead in CALLS.items():
        if text.count(call) != 1:
            raise Refused(f"{bench.text.name} hasn't one line {call.strip()}")
        text = text.replace(call, instead)
    return written(folder, text)


def written(folder: Path, text: str) -> Bench:
    made = folder / DISK.text.name
    made.write_text(text)
    return Bench(made, DISK.used, BLOCK)


def of_the_drive(folder: Path) -> float:
    """The instructions of the drive alone for each byte, in tasks of one block."""
    places = [folder / name for name in ("text", "program", "text-without", "program-without")]
    for place in places:
        place.mkdir()
    whole = of_one_block(places[0])
    rest = without_drive(whole, places[2])
    each = [
        count_units(bench, build(bench, place), place).each
        for bench, place in ((whole, places[1]), (rest, places[3]))
    ]
    return each[0] - each[1]


def measure_disk(words: list[str]) -> None:
    measure(DISK, words, f"byte of a drive, in tasks of {BLOCKS} blocks")


def measure_drive(words: list[str]) -> None:
    """Reports what the drive alone costs, where it can be counted; the call takes no words."""
    if words:
        raise Refused("it takes no words")
    if missing() or not shutil.which("rt"):
        return
    with tempfile.TemporaryDirectory() as name:
        each = of_the_drive(Path(name))
    print(f"of the drive alone, in tasks of one block: {each:.3f}")


if __name__ == "__main__":
    raise SystemExit(run(measure_disk, sys.argv) or run(measure_drive, sys.argv))
