"""Archives of files as Linux takes for its first file system (Documentation/driver-api/early-userspace/buffer-format).

The same files give the same bytes: they are sorted by name, are root's, and have no time.
"""

from __future__ import annotations

import stat
from dataclasses import dataclass, field
from typing import Mapping

MAGIC = b"070701"
LAST = "TRAILER!!!"
ALIGNMENT = 4
FOLDER = stat.S_IFDIR | 0o755


@dataclass(frozen=True, slots=True)
class Entry:
    """What has a name in an archive; a link's content is what it leads to."""

    mode: int
    content: bytes = b""


def file(content: bytes, is_program: bool = False) -> Entry:
    return Entry(stat.S_IFREG | (0o755 if is_program else 0o644), content)


def link(to: str) -> Entry:
    return Entry(stat.S_IFLNK | 0o777, to.encode())


@dataclass(slots=True)
class Tree:
    """Files by their names, without a first slash. The folders above each are made with it."""

    entries: dict[str, Entry] = field(default_factory=dict)

    def put(self, name: str, entry: Entry) -> None:
        parts = name.split("/")
        for depth in range(1, len(parts)):
            self.entries.setdefault("/".join(parts[:depth]), Entry(FOLDER))
        self.entries[name] = entry

    def put_folder(self, name: str) -> None:
        self.put(name, Entry(FOLDER))

    def archive(self) -> bytes:
        return archive(self.entries)


def _padded(data: bytes) -> bytes:
    return data + bytes(-len(data) % ALIGNMENT)


def _spelled(number: int, name: str, entry: Entry) -> bytes:
    """The header of 13 numbers in hexadecimal, the name with a zero byte, and the content."""
    written = name.encode() + b"\0"
    links, owner, time, device, summed = 2 if stat.S_ISDIR(entry.mode) else 1, (0, 0), 0, (0, 0), 0
    numbers = (
        number, entry.mode, *owner, links, time, len(entry.content), *device, *device, len(written), summed,
    )
    header = MAGIC + b"".join(b"%08X" % one for one in numbers)
    return _padded(header + written) + _padded(entry.content)


def archive(entries: Mapping[str, Entry]) -> bytes:
    """One archive, in the order of the names: a folder stands before what is in it."""
    spelled = [_spelled(number, name, entries[name]) for number, name in enumerate(sorted(entries), 1)]
    return b"".join([*spelled, _spelled(0, LAST, Entry(0))])
