#!/usr/bin/env python3
"""Samples a run's memory while its input comes: how far the peak so far is over the part of the image that has come."""

from __future__ import annotations

import argparse
import fcntl
import os
import re
import struct
import subprocess
import sys
import tempfile
import termios
import time
from pathlib import Path
from typing import BinaryIO, Iterable, Iterator, NamedTuple

TOP = Path(__file__).resolve().parent.parent
sys.path.insert(0, str(TOP / "tools"))

from boots import MEGABYTE, MOST_WEB_MEGABYTES, replay, web_transfer  # noqa: E402
from shared.command_line import Refused, run  # noqa: E402
from shared.records import Received, Record, spell  # noqa: E402

DESCRIPTION = """\
Gives the built program a recorded boot by HTTP through a pipe, a megabyte at a time, and asks the system after
each one, once it is used, for the peak of the program's memory so far (VmHWM of proc(5)). It prints by how much
that was ever over the part of the image that had come: as it is the peak, nothing between two looks is missed.
The program's and the C library's code are part of that; what the program itself took then (RssAnon), without what
is mapped from files, is printed too, as it was at each look."""

PEAK = re.compile(r"^VmHWM:\s+(\d+) kB$", re.M)
OWN = re.compile(r"^RssAnon:\s+(\d+) kB$", re.M)
# A run of a pipe's reader that hangs is ended.
PATIENCE = 60.0
BETWEEN_LOOKS = 0.0005
# Ethernet, IPv4 and TCP without options
HEADS = 14 + 20 + 20


class Piece(NamedTuple):
    """Complete records, and how many bytes of the stream have come with them and those before."""

    text: bytes
    come: int


class Sample(NamedTuple):
    """How many bytes of the stream had come, the peak of the memory until then, and what of it the program itself had
    taken at that moment, which isn't mapped from files, in bytes."""

    come: int
    peak: int
    own: int


class Sampled(NamedTuple):
    """How a run ended, and its memory after each part of its input."""

    status: int
    samples: list[Sample]

    def most_over(self) -> int:
        """The most that the peak was ever over the bytes that had come until then."""
        return max(sample.peak - sample.come for sample in self.samples)

    def most_own_over(self) -> int:
        """The most that the program itself had taken over the bytes that had come until then."""
        return max(sample.own - sample.come for sample in self.samples)


def parts(records: Iterable[Record], length: int) -> Iterator[Piece]:
    """The records in pieces of at least this length."""
    gathered, come = bytearray(), 0
    for record in records:
        gathered += spell(record)
        if isinstance(record, Received):
            come += max(0, len(record.frame) - HEADS)
        if len(gathered) >= length:
            yield Piece(bytes(gathered), come)
            gathered.clear()
    if gathered:
        yield Piece(bytes(gathered), come)


def _unread(stream: BinaryIO) -> int:
    """How many bytes of a pipe weren't read yet."""
    return struct.unpack("i", fcntl.ioctl(stream, termios.FIONREAD, bytes(4)))[0]


def _sleeps(process: subprocess.Popen[bytes]) -> bool:
    return Path(f"/proc/{process.pid}/stat").read_text().rpartition(")")[2].split()[0] == "S"


def _wait_for_use(process: subprocess.Popen[bytes], stream: BinaryIO) -> bool:
    """Waits until all that was given is used: the program sleeps at an empty pipe. False where it has ended."""
    until = time.monotonic() + PATIENCE
    while time.monotonic() < until:
        if process.poll() is not None:
            return False
        if not _unread(stream) and _sleeps(process) and not _unread(stream):
            return True
        time.sleep(BETWEEN_LOOKS)
    process.kill()
    raise Refused("the program doesn't read on")


def _bytes(field: re.Pattern[str], status: str) -> int:
    found = field.search(status)
    if found is None:
        raise Refused("the system doesn't say what memory a process has")
    return int(found[1]) * 1024


def sample(program: Path, pieces: Iterable[Piece], folder: Path) -> Sampled:
    """Runs the program over these pieces, and looks at its memory after each but those with which it ends."""
    pipe = folder / "in.fifo"
    os.mkfifo(pipe)
    process = subprocess.Popen(replay(program, pipe, folder / "out.rec"))
    samples = []
    with pipe.open("wb", buffering=0) as stream:
        for piece in pieces:
            view = memoryview(piece.text)
            while view:
                view = view[stream.write(view) :]
            if not _wait_for_use(process, stream):
                break
            status = Path(f"/proc/{process.pid}/status").read_text()
            samples.append(Sample(piece.come, _bytes(PEAK, status), _bytes(OWN, status)))
    return Sampled(process.wait(), samples)


def parse(words: list[str]) -> argparse.Namespace:
    parser = argparse.ArgumentParser(description=DESCRIPTION)
    parser.add_argument("--program", type=Path, default=TOP / "crates" / "netboot" / "out" / "netboot")
    parser.add_argument(
        "megabytes", type=int, nargs="?", default=72, help=f"the image's size, at most {MOST_WEB_MEGABYTES}"
    )
    return parser.parse_args(words)


def measure_samples(words: list[str]) -> None:
    asked = parse(words)
    if not 1 <= asked.megabytes <= MOST_WEB_MEGABYTES:
        raise Refused(f"an image of {asked.megabytes} megabytes can't be measured: 1 to {MOST_WEB_MEGABYTES} can")
    with tempfile.TemporaryDirectory() as name:
        sampled = sample(asked.program, parts(web_transfer(asked.megabytes * MEGABYTE), MEGABYTE), Path(name))
    print(
        f"{len(sampled.samples)} looks, status {sampled.status}: the peak was at most "
        f"{sampled.most_over()} bytes over what had come of the stream, and what the program itself had taken "
        f"{sampled.most_own_over()}"
    )


if __name__ == "__main__":
    raise SystemExit(run(measure_samples, sys.argv))
