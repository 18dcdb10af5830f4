"""The program that is run: the built one, or one that is compiled once, unproved, and kept in the user's cache.

A kept program's name has the checksum of the sources and its own. It is written beside its place and then renamed, and
its checksum is compared before each run, so that one that is half written or damaged is never run.
"""

from __future__ import annotations

import os
import shutil
import socket
import stat
import subprocess
import sys
import tempfile
import time
from contextlib import contextmanager, suppress
from dataclasses import dataclass
from hashlib import sha256
from pathlib import Path
from typing import BinaryIO, Callable, Iterator

from shared.command_line import Refused
from shared.output import writing
from shared.processes import end_group, file_run_with
from shared.waiting import Wait

TOP = Path(__file__).resolve().parent.parent.parent
CRATE = TOP / "crates" / "netboot"
BUILT = CRATE / "out" / "netboot"
# of the sources' checksum, in a kept program's name
SOURCE_DIGITS = 32
MOST_KEPT = 4
OTHERS_MAY_WRITE = 0o022
SECONDS_BETWEEN_LOOKS = 0.2


def sources() -> Iterator[Path]:
    return (TOP / "crates").glob("*/src/**/*.rt")


def is_built() -> bool:
    """Whether the built program is there, and newer than each source of code."""
    if not BUILT.is_file():
        return False
    built = BUILT.stat().st_mtime
    return all(path.stat().st_mtime <= built for path in sources())


def sum_of_sources() -> str:
    """What changes where a source of code does, in its name or its text."""
    summed = sha256()
    for path in sorted(sources()):
        name, text = os.fsencode(path.relative_to(TOP)), path.read_bytes()
        summed.update(b"%d %d " % (len(name), len(text)) + name + text)
    return summed.hexdigest()[:SOURCE_DIGITS]


def _is_ours(path: Path, is_kind: Callable[[int], bool]) -> bool:
    """Whether it is of that kind, and nobody but this user could have written it."""
    try:
        mode, owner = path.lstat().st_mode, path.lstat().st_uid
    except OSError:
        return False
    return is_kind(mode) and owner == os.geteuid() and not mode & OTHERS_MAY_WRITE


def _sum_of(path: Path) -> str:
    return sha256(path.read_bytes()).hexdigest()


@dataclass(frozen=True, slots=True)
class Cache:
    """The folder of kept programs."""

    folder: Path

    def open(self) -> None:
        """Makes the folder, where it isn't there; refuses one in which others can write."""
        try:
            self.folder.mkdir(mode=0o700, parents=True, exist_ok=True)
        except OSError as error:
            raise Refused(f"{self.folder}, where the compiled program is kept: {error.strerror}; "
                          "XDG_CACHE_HOME names another folder for it") from error
        if not _is_ours(self.folder, stat.S_ISDIR):
            raise Refused(f"{self.folder} isn't this user's alone, so no program is run from there")

    def program(self, of_sources: str) -> Path | None:
        """The program of these sources, where it is whole; one that is damaged is removed."""
        if not _is_ours(self.folder, stat.S_ISDIR):
            return None
        for path in sorted(self.folder.glob(f"{of_sources}-*")):
            if _is_ours(path, stat.S_ISREG) and path.name == f"{of_sources}-{_sum_of(path)}":
                return path
            with suppress(OSError):
                path.unlink()
        return None

    def keep(self, of_sources: str, file: Path) -> Path:
        """Keeps a copy of a file as the program of these sources, and the newest of the others."""
        content = file.read_bytes()
        place = self.folder / f"{of_sources}-{sha256(content).hexdigest()}"
        with writing(place) as kept:
            kept.write(content)
            kept.flush()
            os.fchmod(kept.fileno(), 0o700)
            os.fsync(kept.fileno())
        with suppress(OSError):
            others = sorted(self.folder.iterdir(), key=lambda path: path.stat().st_mtime)
            for path in others[:-MOST_KEPT]:
                path.unlink()
        return place


def cache() -> Cache:
    """The user's (XDG Base Directory Specification: a relative path is ignored)."""
    named = os.environ.get("XDG_CACHE_HOME", "")
    try:
        base = Path(named) if named.startswith("/") else Path.home() / ".cache"
    except RuntimeError as error:
        raise Refused("the compiled program is kept in XDG_CACHE_HOME or HOME, and neither is set") from error
    return Cache(base / "netboot")


def not_runnable() -> str | None:
    """Why the program can't be run here, if it can't."""
    if is_built() or shutil.which("rt") or cache().program(sum_of_sources()):
        return None
    return (
        "the program isn't built (crates/netboot/out/netboot), and the toolchain's `rt` isn't "
        "there to compile it"
    )


def program() -> Path:
    """The built program, or else the one that is kept, which is compiled before where there is none."""
    if is_built():
        return BUILT
    of_sources = sum_of_sources()
    kept = cache().program(of_sources)
    if kept:
        return kept
    refusal = not_runnable()
    if refusal:
        raise Refused(refusal)
    why = "its sources are newer than it" if BUILT.exists() else "it isn't built yet"
    return _compile(cache(), of_sources, why)


def _compile(into: Cache, of_sources: str, why: str) -> Path:
    into.open()
    wait = Wait(f"compiling the program once, as {why}; that takes a minute or two, and proves nothing")
    try:
        with _running(wait) as file:
            kept = into.keep(of_sources, file)
    finally:
        wait.end()
    wait.say(f"compiled in {wait.seconds():.0f} s, and kept in {into.folder}")
    return kept


@contextmanager
def _running(wait: Wait) -> Iterator[Path]:
    """Has the toolchain compile and run the program: the file that it runs, which waits for our first record.

    `rt try` keeps no file, so it is taken while it runs.
    """
    with socket.create_server(("127.0.0.1", 0)) as listener, tempfile.TemporaryFile() as said:
        words = ("live", f"127.0.0.1:{listener.getsockname()[1]}")
        process = subprocess.Popen(
            ["rt", "try", "--", *words],
            cwd=CRATE,
            stdin=subprocess.DEVNULL,
            stdout=said,
            stderr=subprocess.STDOUT,
            start_new_session=True,
        )
        try:
            with _first_client(listener, process, wait, said):
                file = file_run_with(words)
                if file is None:
                    raise Refused("the compiled program isn't found among this machine's processes")
                yield file
        finally:
            end_group(process)


def _first_client(
    listener: socket.socket, process: subprocess.Popen[bytes], wait: Wait, said: BinaryIO
) -> socket.socket:
    """The program, once it runs. Where it can't be compiled, why is shown."""
    listener.settimeout(SECONDS_BETWEEN_LOOKS)
    while True:
        try:
            return listener.accept()[0]
        except TimeoutError:
            wait.go_on()
        if process.poll() is not None:
            wait.end()
            said.seek(0)
            print(said.read().decode("utf-8", "backslashreplace"), end="", file=sys.stderr)
            raise Refused("the program can't be compiled")
