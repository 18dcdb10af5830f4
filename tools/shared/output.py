"""Files that a command writes. Nothing that is there is lost.

A regular file is written beside its place and takes its name once all of it is there; whatever
else has that name meanwhile stays. A link is followed. A pipe, a device and `-`, which is standard
output, are written as they are. `apart` refuses outputs that are inputs or each other.
"""

from __future__ import annotations

import os
import stat
import sys
import tempfile
from contextlib import contextmanager
from pathlib import Path
from typing import BinaryIO, Iterator

from shared.command_line import STANDARD, Refused

# Names of files that are open already.
OPEN_FILES = ("/dev/stdout", "/dev/stderr", "/dev/fd/", "/proc/")


@contextmanager
def writing(path: Path) -> Iterator[BinaryIO]:
    """Opens an output of a command."""
    about = _about(path)
    if path == STANDARD:
        with naming(path):
            yield sys.stdout.buffer
            sys.stdout.buffer.flush()
    elif about is None or (stat.S_ISREG(about.st_mode) and not _is_open_already(path)):
        with naming(path), _beside(Path(os.path.realpath(path)), about) as stream:
            yield stream
    else:
        with naming(path), path.open("wb") as stream:
            yield stream


def report(path: Path, line: str) -> None:
    """Says what was written: on standard output, unless that has what was written."""
    is_shared = path == STANDARD or str(path).startswith(OPEN_FILES)
    print(line, file=sys.stderr if is_shared else sys.stdout)


@contextmanager
def naming(path: Path) -> Iterator[None]:
    """An error of the system that names no file was this output's."""
    try:
        yield
    except BrokenPipeError:
        raise
    except OSError as error:
        if error.filename is None and error.strerror:
            raise Refused(f"{path}: {error.strerror}") from error
        raise


class NamedFile:
    """A new file that is written, whose errors name it."""

    def __init__(self, path: Path) -> None:
        self.path, self.stream = path, path.open("wb")

    def write(self, data: bytes) -> None:
        try:
            self.stream.write(data)
        except OSError as error:
            raise Refused(f"{self.path}: {error.strerror}") from error

    def flush(self) -> None:
        with naming(self.path):
            self.stream.flush()

    def truncate(self, size: int) -> None:
        with naming(self.path):
            self.stream.truncate(size)

    def seek(self, place: int) -> None:
        self.stream.seek(place)

    def close(self) -> None:
        with naming(self.path):
            self.stream.close()


def _about(path: Path) -> os.stat_result | None:
    """What the system knows of the file that a path leads to, or None where none is there."""
    try:
        return os.fstat(sys.stdout.fileno()) if path == STANDARD else os.stat(path)
    except (FileNotFoundError, ValueError):
        return None


def _is_open_already(path: Path) -> bool:
    return str(path).startswith(OPEN_FILES)


@contextmanager
def _beside(place: Path, about: os.stat_result | None) -> Iterator[BinaryIO]:
    """A new file in the folder of this place, which takes the place's name at the end."""
    number, name = _new_file(place)
    unfinished: str | None = name
    try:
        with open(number, "wb") as stream:
            os.fchmod(number, stat.S_IMODE(about.st_mode) if about else 0o666 & ~_umask())
            yield stream
        os.replace(name, place)
        unfinished = None
    finally:
        if unfinished:
            Path(unfinished).unlink(missing_ok=True)


def _new_file(place: Path) -> tuple[int, str]:
    try:
        return tempfile.mkstemp(prefix=".netboot-", suffix=".part", dir=place.parent)
    except OSError as error:
        raise Refused(f"{place}: no file can be made in its folder: {error.strerror}") from error


def _umask() -> int:
    current = os.umask(0o077)
    os.umask(current)
    return current
