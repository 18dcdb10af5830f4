"""What the commands share: messages on standard error, exit statuses, and files to be read."""

from __future__ import annotations

import codecs
import errno
import os
import signal
import sys
from contextlib import contextmanager
from pathlib import Path
from typing import BinaryIO, Callable, Iterator, TypeVar

from shared.fields import Damaged

Item = TypeVar("Item")
STANDARD = Path("-")
REFUSED = 1
# as a shell does: 128 and the signal's number
STOPPED = 128
# Each file that a command writes names itself; what is left is standard output.
NO_ROOM = (errno.ENOSPC, errno.EDQUOT, errno.EFBIG)


class Refused(Exception):
    """What a command cannot do, in words for the person who called it."""


@contextmanager
def opened(path: Path) -> Iterator[BinaryIO]:
    """A file that is read from its beginning, once; `-` is standard input."""
    if path != STANDARD:
        with path.open("rb") as stream:
            yield stream
    elif sys.stdin is None:
        raise Refused("standard input is closed")
    else:
        yield sys.stdin.buffer


def read_file(path: Path, read: Callable[[BinaryIO], Iterator[Item]]) -> Iterator[Item]:
    """What a reader finds in a file, piece by piece; damage is reported with the file's name."""
    with opened(path) as stream:
        yield from read_stream(path, stream, read)


def read_stream(
    path: Path, stream: BinaryIO, read: Callable[[BinaryIO], Iterator[Item]]
) -> Iterator[Item]:
    """As `read_file`, of a stream that is open already."""
    items = read(stream)
    while True:
        try:
            item = next(items)
        except StopIteration:
            return
        except Damaged as damage:
            raise Refused(f"{path}: {damage}") from damage
        except OSError as error:
            raise Refused(f"{path}: {error.strerror}") from error
        yield item


def run(command: Callable[[list[str]], int | None], words: list[str]) -> int:
    """Runs a command on its words, the program's name first, and returns its exit status."""
    name = Path(words[0]).name
    try:
        _prepare()
        status = command(words[1:])
        sys.stdout.flush()
        return status or 0
    except BrokenPipeError:
        # The reader of the output has gone: what remains has nobody to go to.
        give_up_output()
        return REFUSED
    except KeyboardInterrupt:
        return _refuse(name, "interrupted", STOPPED + signal.SIGINT)
    except MemoryError:
        return _refuse(name, "out of memory", REFUSED)
    except (Refused, OSError) as refusal:
        return _refuse(name, _text_of(refusal), REFUSED)


def _prepare() -> None:
    """Names of any bytes can be printed; SIGTERM and SIGHUP end a command as SIGINT does."""
    codecs.register_error("escaped", _escaped)
    if sys.stdout is None:
        raise Refused("standard output is closed")
    for stream in (sys.stdout, sys.stderr):
        if hasattr(stream, "reconfigure"):
            stream.reconfigure(errors="escaped")
    try:
        for number in (signal.SIGTERM, signal.SIGHUP):
            if signal.getsignal(number) is signal.SIG_DFL:
                signal.signal(number, _end)
    except ValueError:
        pass  # only a program's first thread may choose


def _escaped(error: UnicodeError) -> tuple[str, int]:
    """What can't be printed: a byte of a name as \\xNN, a character as Python writes it."""
    assert isinstance(error, UnicodeEncodeError)
    escapes = []
    for character in error.object[error.start : error.end]:
        is_byte = "\udc80" <= character <= "\udcff"
        byte = f"\\x{ord(character) - 0xDC00:02x}"
        escapes.append(byte if is_byte else character.encode("unicode_escape").decode())
    return "".join(escapes), error.end


def _end(number: int, _: object) -> None:
    raise SystemExit(STOPPED + number)


def _text_of(refusal: Exception) -> str:
    if isinstance(refusal, OSError) and refusal.strerror:
        where = f"{os.fsdecode(refusal.filename)}: " if refusal.filename else ""
        if not where and refusal.errno in NO_ROOM:
            where = "standard output: "
        return f"{where}{refusal.strerror}"
    return str(refusal)


def _refuse(name: str, why: str, status: int) -> int:
    """What was printed before stands before the message."""
    try:
        if sys.stdout is not None:
            sys.stdout.flush()
    except OSError:
        give_up_output()
    if sys.stderr is not None:
        try:
            print(f"{name}: {why}", file=sys.stderr, flush=True)
        except OSError:
            pass
    return status


def give_up_output() -> None:
    """What is still to be flushed goes nowhere, so that the end says nothing about it."""
    try:
        os.dup2(os.open(os.devnull, os.O_WRONLY), sys.stdout.fileno())
    except (OSError, ValueError):
        pass
