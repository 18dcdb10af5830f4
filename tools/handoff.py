#!/usr/bin/env python3
"""Takes the hand-off out of an output recording, and starts it in QEMU or by kexec."""

from __future__ import annotations

import argparse
import re
import shlex
import shutil
import subprocess
import sys
from dataclasses import dataclass
from pathlib import Path
from typing import BinaryIO, Iterable, Iterator

from shared.apart import check_apart
from shared.command_line import Refused, run
from shared.kinds import PartKind
from shared.output import naming
from shared.parts import write_parts
from shared.records import Part, Record
from shared.recordings import output_of
from shared.texts import word

NAMES = (PartKind.KERNEL_NAME, PartKind.INITRD_NAME)
# An archive of a Linux initrd begins at a multiple of 4 (linux/Documentation/driver-api/early-userspace).
ALIGNMENT = 4
LINUX_MAGIC = slice(0x202, 0x206)
MISSING_PROGRAM, NOTHING_STARTED = 127, 1

DESCRIPTION = """\
Takes kernel, initrds and command line out of an output recording that ends in a hand-off, writes
them into a folder, and prints the command that starts them; --run runs it. All initrds become one
file, in their order, as Linux takes them. Of a disk its first sector and the boot table are written,
as `sector` and `table`, and nothing starts these."""

EPILOG = """\
examples:
  tools/boot.py examples/tftp-boot.rec --output boot.out   makes boot.out
  tools/handoff.py boot.out --to hand-off
  tools/handoff.py boot.out --to started --run --append console=ttyS0
  tools/handoff.py boot.out --to started --by kexec --run      (this machine goes over to the kernel)"""


@dataclass(frozen=True, slots=True)
class HandOff:
    """The files of a hand-off, and its command line."""

    kernel: Path
    initrd: Path | None
    command_line: str


def parse(words: list[str]) -> argparse.Namespace:
    parser = argparse.ArgumentParser(
        description=DESCRIPTION,
        epilog=EPILOG,
        formatter_class=argparse.RawDescriptionHelpFormatter,
    )
    parser.add_argument("recording", type=Path, help="the output recording")
    parser.add_argument(
        "--to", type=Path, required=True, metavar="FOLDER", help="a new or empty folder for the files"
    )
    parser.add_argument("--by", choices=STARTERS, default="qemu", help="what starts the kernel")
    parser.add_argument("--run", action="store_true", help="run the command, not only print it")
    parser.add_argument("--append", default="", metavar="WORDS", help="more words for the kernel")
    parser.add_argument("--memory", default="1G", help="the memory of QEMU's machine (default 1G)")
    parser.add_argument(
        "--option", action="append", default=[], metavar="WORD", help="one more word for QEMU"
    )
    return parser.parse_args(words)


def check_name(name: bytes) -> None:
    """Refuses an image's name by which a file would be another folder's."""
    if b"/" in name or b"\0" in name or name in (b".", b".."):
        raise Refused(f"the name {word(name)} of an image would leave the folder")


def checked(records: Iterable[Record], names: dict[tuple[PartKind, int], bytes]) -> Iterator[Record]:
    """The records, with the images' names gathered; a name is checked before what it names begins."""
    for record in records:
        if isinstance(record, Part):
            key = (record.kind, record.index)
            if record.kind in NAMES:
                names[key] = names.get(key, b"") + record.piece
            else:
                for name in names.values():
                    check_name(name)
        yield record


def join_initrds(folder: Path) -> Path | None:
    """One file of all initrds, each begun at a multiple of 4."""

    def number(path: Path) -> int:
        return int(re.match(r"initrd-(\d+)-", path.name).group(1))  # type: ignore[union-attr]

    parts = sorted(folder.glob("initrd-*"), key=number)
    if not parts:
        return None
    joined = folder / "initrd"
    with naming(joined), joined.open("xb") as stream:
        for part in parts:
            stream.write(bytes(-stream.tell() % ALIGNMENT))
            with part.open("rb") as source:
                shutil.copyfileobj(source, stream)
    return joined


def command_line_of(folder: Path, more: str) -> str:
    path = folder / "command-line"
    given = path.read_bytes() if path.exists() else b""
    if b"\0" in given:
        raise Refused("the command line has a zero byte")
    return " ".join(part for part in (given.decode("utf-8", "surrogateescape"), more) if part)


def take(arguments: argparse.Namespace) -> HandOff | None:
    """Writes the files, and says what they are; None where they are a disk's."""
    folder: Path = arguments.to
    check_apart({"--to": folder}, {"the recording": arguments.recording})
    for line in write_parts(checked(output_of(arguments.recording), {}), folder):
        print(line)
    kernel = folder / "kernel"
    if not kernel.exists():
        return None
    return HandOff(kernel, join_initrds(folder), command_line_of(folder, arguments.append))


def by_qemu(hand_off: HandOff, arguments: argparse.Namespace) -> list[list[str]]:
    """QEMU's machine without a screen; its serial line is this terminal."""
    words = ["qemu-system-x86_64", "-m", arguments.memory, "-nographic", "-no-reboot"]
    words += ["-kernel", str(hand_off.kernel)]
    if hand_off.initrd:
        words += ["-initrd", str(hand_off.initrd)]
    if hand_off.command_line:
        words += ["-append", hand_off.command_line]
    return [words + arguments.option]


def by_kexec(hand_off: HandOff, arguments: argparse.Namespace) -> list[list[str]]:
    """This machine goes over to the kernel, without its firmware."""
    load = ["kexec", "--load", str(hand_off.kernel), f"--command-line={hand_off.command_line}"]
    if hand_off.initrd:
        load.append(f"--initrd={hand_off.initrd}")
    return [load, ["kexec", "--exec"]]


STARTERS = {"qemu": by_qemu, "kexec": by_kexec}


def is_linux(stream: BinaryIO) -> bool:
    """Whether a file is a Linux image by its setup header (the Linux/x86 boot protocol)."""
    return stream.read(LINUX_MAGIC.stop)[LINUX_MAGIC] == b"HdrS"


def start(commands: list[list[str]]) -> int:
    """Runs commands until one fails; the last one's status."""
    status = 0
    for words in commands:
        if shutil.which(words[0]) is None:
            print(f"handoff.py: {words[0]} is missing", file=sys.stderr)
            return MISSING_PROGRAM
        status = subprocess.run(words, check=False).returncode
        if status:
            break
    return status


def handoff(words: list[str]) -> int:
    arguments = parse(words)
    hand_off = take(arguments)
    if hand_off is None:
        print("handoff.py: a disk was handed off, and nothing here starts one by its first sector", file=sys.stderr)
        return NOTHING_STARTED if arguments.run else 0
    with hand_off.kernel.open("rb") as stream:
        if not is_linux(stream):
            print("handoff.py: the kernel is no Linux image, and may not start", file=sys.stderr)
    commands = STARTERS[arguments.by](hand_off, arguments)
    for command in commands:
        print(shlex.join(command))
    sys.stdout.flush()
    return start(commands) if arguments.run else 0


if __name__ == "__main__":
    raise SystemExit(run(handoff, sys.argv))
