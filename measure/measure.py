#!/usr/bin/env python3
"""Measures the program on recorded boots by TFTP and HTTP: memory, time, and instructions for each byte."""

from __future__ import annotations

import argparse
import sys
import tempfile
from functools import partial
from itertools import pairwise
from pathlib import Path
from typing import Callable

TOP = Path(__file__).resolve().parent.parent
sys.path.insert(0, str(TOP / "tools"))

import compiler  # noqa: E402
from boots import (  # noqa: E402
    BLOCK,
    GRANTED,
    MEGABYTE,
    MOST_MEGABYTES,
    MOST_WEB_MEGABYTES,
    SERVER,
    image,
    replay,
    write_transfer,
    write_web_transfer,
)
from instructions import Counted, costs_of, count, missing  # noqa: E402
from meter import Measured, build_meter, measure  # noqa: E402
from shared.command_line import Refused, run  # noqa: E402

MOST_FUNCTIONS = 10

DESCRIPTION = """\
Measures the built program on recorded boots by TFTP in blocks of 512 bytes, or of 1,432 that the
server grants, or by HTTP: the peak of its memory, its processor time, and its instructions for each byte,
beside those of a C loop that only checks sums and copies, and the ten functions that cost most. Memory and time are measured where cc is
installed, instructions counted where valgrind is too. `rt run` in crates/netboot proves and builds
the program."""


def report(length: int, measured: Measured) -> str:
    return (
        f"image of {length} bytes: status {measured.status}, "
        f"peak {measured.peak} bytes, {measured.peak / length:.2f} times the image; "
        f"{measured.seconds:.2f} s, {measured.seconds / length * 1e9:.0f} ns a byte"
    )


def report_runs(program: Path, recordings: dict[int, Path], folder: Path) -> None:
    """Prints the memory and the time for each length."""
    if not compiler.has_compiler():
        print(f"memory and time aren't measured, as {compiler.COMPILER} is missing")
        return
    meter = build_meter(folder)
    for length, recording in recordings.items():
        measured = measure(meter, replay(program, recording, folder / "out"))
        print(report(length, measured), flush=True)


def build_loop(folder: Path) -> Path:
    """The C loop for the server's address."""
    return compiler.build(compiler.HERE / "baseline.c", folder, f"-DSERVER={int(SERVER.ip)}u")


def count_loop(loop: Path, recording: Path, length: int) -> int:
    """Counts the C loop's instructions; what it copied must be the image."""
    output = recording.with_suffix(".copied")
    words = [str(loop), str(recording), str(output)]
    counted = count(words, recording.with_suffix(".loop-profile"))
    if output.read_bytes() != image(length):
        raise Refused(f"what the C loop copied isn't the image of {length} bytes")
    return counted


def profile_of(recording: Path) -> Path:
    """Where the profile of the program's run is written."""
    return recording.with_suffix(".profile")


def count_program(program: Path, recording: Path) -> int:
    """Counts the program's instructions; status 0 says that it handed the image off."""
    words = replay(program, recording, recording.with_suffix(".out"))
    return count(words, profile_of(recording))


def report_instructions(program: Path, recordings: dict[int, Path], folder: Path) -> None:
    """Prints the instructions for each length, and for each byte from one length to the next."""
    if absent := missing():
        print(f"instructions aren't counted, as these are missing: {', '.join(absent)}")
        return
    loop = build_loop(folder)
    counted = []
    for length, recording in recordings.items():
        of_program, of_loop = count_program(program, recording), count_loop(loop, recording, length)
        given = recording.stat().st_size
        counted.append(Counted(length, given, of_program, of_loop))
        print(f"instructions (the C loop's), image of {length} bytes: {counted[-1].rates()}")
    for less, more in pairwise(counted):
        further = more.beyond(less).rates()
        print(f"instructions, from {less.image} to {more.image} bytes: {further}")
    if counted:
        report_functions(max(recordings), recordings[max(recordings)])


def report_functions(length: int, recording: Path) -> None:
    """Prints the functions that cost most for an image of this length."""
    costs = costs_of(profile_of(recording).read_text())
    total = costs.total()
    print(f"the {MOST_FUNCTIONS} functions that cost most, image of {length} bytes:")
    for name, cost in costs.most_common(MOST_FUNCTIONS):
        print(f"  {cost / total:6.1%}  {cost / length:6.2f} for each byte  {name}")


def parse(words: list[str]) -> argparse.Namespace:
    parser = argparse.ArgumentParser(description=DESCRIPTION)
    parser.add_argument(
        "--program", type=Path, default=TOP / "crates" / "netboot" / "out" / "netboot"
    )
    parser.add_argument(
        "megabytes", type=int, nargs="*", default=[3, 30],
        help=f"sizes of images, from 1 to {MOST_MEGABYTES}, by HTTP to {MOST_WEB_MEGABYTES}",
    )  # fmt: skip
    parser.add_argument("--keep", type=Path, metavar="DIR", help="only write the recordings here")
    parser.add_argument(
        "--granted", action="store_true", help="the server grants blocks of 1,432 bytes"
    )
    parser.add_argument("--http", action="store_true", help="by HTTP, in segments of 1,460 bytes")
    parser.add_argument(
        "--swapped", action="store_true", help="by HTTP, and every eighth segment comes after the next"
    )
    return parser.parse_args(words)


def write_transfers(sizes: list[int], folder: Path, write: Callable[[int, Path], None], most: int) -> dict[int, Path]:
    """Writes a recording for each size in megabytes; answers them by their images' lengths."""
    recordings = {}
    for megabytes in sorted(set(sizes)):
        if not 1 <= megabytes <= most:
            raise Refused(f"an image of {megabytes} megabytes can't be measured: 1 to {most} can")
        length = megabytes * MEGABYTE
        recording = recordings[length] = folder / f"{megabytes}.rec"
        write(length, recording)
    return recordings


def writer_of(arguments: argparse.Namespace) -> tuple[Callable[[int, Path], None], int]:
    """What writes a recording, and the most megabytes that it can have."""
    if arguments.http or arguments.swapped:
        return partial(write_web_transfer, is_swapped=arguments.swapped), MOST_WEB_MEGABYTES
    return partial(write_transfer, block=GRANTED if arguments.granted else BLOCK), MOST_MEGABYTES


def measure_all(words: list[str]) -> None:
    arguments = parse(words)
    write, most = writer_of(arguments)
    if arguments.keep:
        write_transfers(arguments.megabytes, arguments.keep, write, most)
        return
    with tempfile.TemporaryDirectory() as name:
        folder = Path(name)
        recordings = write_transfers(arguments.megabytes, folder, write, most)
        report_runs(arguments.program, recordings, folder)
        report_instructions(arguments.program, recordings, folder)


if __name__ == "__main__":
    raise SystemExit(run(measure_all, sys.argv))
