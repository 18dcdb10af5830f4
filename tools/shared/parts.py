"""Writes the parts of a hand-off into a folder: kernel, initrds, command line, sector, table."""

from __future__ import annotations

import hashlib
from contextlib import suppress
from dataclasses import dataclass, field
from pathlib import Path
from typing import BinaryIO, Iterable

from shared.command_line import Refused
from shared.kinds import PartKind, Status
from shared.output import naming
from shared.records import Done, Part, Record
from shared.texts import word

# a URI's last segment or a --name has at most this many
MOST_NAME = 255
SAFE = frozenset(b"abcdefghijklmnopqrstuvwxyzABCDEFGHIJKLMNOPQRSTUVWXYZ0123456789._-")
FILE_NAMES = {
    PartKind.KERNEL: "kernel",
    PartKind.COMMAND_LINE: "command-line",
    PartKind.TABLE: "table",
    PartKind.SECTOR: "sector",
}
NAME_OF = {PartKind.KERNEL: PartKind.KERNEL_NAME, PartKind.INITRD: PartKind.INITRD_NAME}


def safe_name(name: bytes) -> str:
    """An image's name as a part of a file's name, cut after 200 characters: other bytes than
    letters, digits and ._- stand as %XX."""
    return "".join(chr(byte) if byte in SAFE else f"%{byte:02X}" for byte in name)[:200]


@dataclass
class Written:
    """A part as far as it was written."""

    path: Path
    stream: BinaryIO
    length: int = 0
    digest: "hashlib._Hash" = field(default_factory=hashlib.sha256)

    def put(self, piece: bytes) -> None:
        with naming(self.path):
            self.stream.write(piece)
        self.digest.update(piece)
        self.length += len(piece)


class PartsWriter:
    """Takes the PART records in order and writes a file for each part but the names."""

    def __init__(self, folder: Path) -> None:
        if folder.exists() and (not folder.is_dir() or any(folder.iterdir())):
            raise Refused(f"{folder} is there already and not an empty folder")
        self.folder = folder
        self.made: list[Path] = []
        self.names: dict[tuple[PartKind, int], bytes] = {}
        self.files: dict[tuple[PartKind, int], Written] = {}

    def put(self, part: Part) -> None:
        key = (part.kind, part.index)
        if part.kind in NAME_OF.values():
            self._put_name(key, part)
            return
        written = self.files.get(key) or self._begin(key)
        self._expect(part, written.length)
        written.put(part.piece)

    def _put_name(self, key: tuple[PartKind, int], part: Part) -> None:
        name = self.names.get(key, b"")
        self._expect(part, len(name))
        if len(name) + len(part.piece) > MOST_NAME:
            raise Refused(f"the name of an image has more than {MOST_NAME} bytes")
        self.names[key] = name + part.piece

    def _expect(self, part: Part, offset: int) -> None:
        if part.offset != offset:
            what = f"{part.kind.name} {part.index}"
            raise Refused(f"PART {what} goes on at {part.offset}, not at {offset}")

    def _begin(self, key: tuple[PartKind, int]) -> Written:
        self._make_folders()
        kind, index = key
        name = FILE_NAMES.get(kind) or f"initrd-{index}-{safe_name(self._name(key) or b'')}"
        path = self.folder / name
        written = Written(path, path.open("xb"))
        self.files[key] = written
        return written

    def _make_folders(self) -> None:
        for folder in (*reversed(self.folder.parents), self.folder):
            if not folder.is_dir():
                folder.mkdir()
                self.made.append(folder)

    def _name(self, key: tuple[PartKind, int]) -> bytes | None:
        kind, index = key
        name_kind = NAME_OF.get(kind)
        return self.names.get((name_kind, index)) if name_kind else None

    def close(self) -> None:
        for written in self.files.values():
            with naming(written.path):
                written.stream.close()

    def discard(self) -> None:
        """Takes away what was made for a hand-off that is not complete."""
        for written in self.files.values():
            with suppress(OSError):
                written.stream.close()
            with suppress(OSError):
                written.path.unlink()
        for folder in reversed(self.made):
            with suppress(OSError):
                folder.rmdir()

    def report(self) -> list[str]:
        """A line for each file: its name, length, SHA-256, and the image's name."""
        return [self._line(key, written) for key, written in self.files.items()]

    def _line(self, key: tuple[PartKind, int], written: Written) -> str:
        name = self._name(key)
        image = f", image {word(name)}" if name is not None else ""
        digest = written.digest.hexdigest()
        return f"{written.path}: {written.length} bytes, sha256 {digest}{image}"


def write_parts(records: Iterable[Record], folder: Path) -> list[str]:
    """Writes the parts of an output recording and answers the report. A recording that does not
    end in a hand-off is refused, and leaves no file."""
    writer = PartsWriter(folder)
    is_written = is_complete = False
    try:
        for record in records:
            if isinstance(record, Part):
                writer.put(record)
            is_complete = record == Done(Status.HANDED_OFF)
        if not is_complete:
            raise Refused("the recording does not end in a hand-off (DONE 0)")
        writer.close()
        is_written = True
        return writer.report()
    finally:
        if not is_written:
            writer.discard()
