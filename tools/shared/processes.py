"""Processes that a tool starts: how they are ended, and which file one of them runs."""

from __future__ import annotations

import os
import signal
import subprocess
from contextlib import suppress
from pathlib import Path

MOST_SECONDS_TO_END = 3
PROCESSES = Path("/proc")


def end_group(process: subprocess.Popen) -> None:
    """Ends a program and all that it started: in kind first, so that it can clean up."""
    for number in (signal.SIGINT, signal.SIGKILL):
        try:
            os.killpg(process.pid, number)
            process.wait(timeout=MOST_SECONDS_TO_END)
        except ProcessLookupError:
            return
        except subprocess.TimeoutExpired:
            continue


def kill_group(process: subprocess.Popen) -> None:
    """Ends a program and all that it started at once, so that it says nothing any more."""
    with suppress(ProcessLookupError):
        os.killpg(process.pid, signal.SIGKILL)
    process.wait()


def file_run_with(words: tuple[str, ...]) -> Path | None:
    """The program's file that a process of this user runs with these last words; its loader may stand first."""
    wanted = [os.fsencode(word) for word in words]
    for process in PROCESSES.glob("[0-9]*"):
        # others end meanwhile
        with suppress(OSError):
            said = (process / "cmdline").read_bytes().split(b"\0")[:-1]
            own, last = said[: -len(wanted)], said[-len(wanted) :]
            if last == wanted and own and own[-1].startswith(b"/") and process.stat().st_uid == os.geteuid():
                return Path(os.fsdecode(own[-1]))
    return None
