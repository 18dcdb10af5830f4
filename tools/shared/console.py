"""The console of a virtual machine: its lines as they come, each with the seconds since power-on."""

from __future__ import annotations

import os
import re
import select
import subprocess
import time
from contextlib import contextmanager
from typing import Iterator

from shared.processes import kill_group

PIECE = 1 << 16
SECONDS_BETWEEN_LOOKS = 0.2
# what steers a terminal, and any other byte that is no text
STEERS = re.compile(rb"\x1b[\[(][0-9;?]*[A-Za-z]?|[^\t -~]")


def unsteered(text: bytes) -> str:
    return STEERS.sub(b"", text).decode("ascii")


def text_of(line: bytes) -> str:
    """A line as a terminal shows it in the end: what was written over its beginning counts, and nothing steers it."""
    return unsteered(line.rstrip(b"\r").rpartition(b"\r")[2]).strip()


@contextmanager
def started(words: list[str]) -> Iterator[subprocess.Popen[bytes]]:
    """A program in a session of its own, which a terminal's Ctrl-C doesn't reach; it is ended at the end."""
    process = subprocess.Popen(
        words, stdin=subprocess.DEVNULL, stdout=subprocess.PIPE, stderr=subprocess.STDOUT, start_new_session=True
    )
    try:
        yield process
    finally:
        kill_group(process)
        if process.stdout:
            process.stdout.close()


def lines_of(
    process: subprocess.Popen[bytes], most_seconds: float, until: str | None = None
) -> Iterator[tuple[float, str]]:
    """Its lines that aren't empty, until it ends or so many seconds have passed. What is waited for may be a part of a
    screen, which has no lines, and is one then."""
    assert process.stdout
    begun, left = time.monotonic(), b""
    while (passed := time.monotonic() - begun) < most_seconds:
        if not select.select([process.stdout], [], [], SECONDS_BETWEEN_LOOKS)[0]:
            continue
        piece = os.read(process.stdout.fileno(), PIECE)
        *whole, left = (left + piece).split(b"\n")
        if not piece:
            whole = [left]
        for text in map(text_of, whole):
            if text:
                yield passed, text
        if until and until in unsteered(left):
            yield passed, until
            left = b""
        if not piece:
            return
