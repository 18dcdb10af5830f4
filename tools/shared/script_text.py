"""A script's text as the program reads it: its lines, what stands on them, and a list's words."""

from __future__ import annotations

import re
from typing import Iterator, NamedTuple

BLANKS = b" \t"
JOINS = (b"&&", b"||", b";")
LABEL = re.compile(rb":([^ \t]+)")
# what an empty script stands for
BUILT_IN = b"""#!ipxe
dhcp || exit 1
isset ${filename} || goto san
chain ${filename} && exit 0 || goto san
:san
isset ${root-path} || exit 1
sanboot ${root-path}
"""


class Line(NamedTuple):
    """A line after joining, blanks at its ends included, with the first and last number it has."""

    first: int
    last: int
    text: bytes

    def content(self) -> bytes:
        """What stands on it, without the blanks at its ends."""
        return self.text.strip(BLANKS)

    def label(self) -> bytes | None:
        """The name, where the line is a label."""
        found = LABEL.fullmatch(self.content())
        return found[1] if found else None

    def is_list(self) -> bool:
        content = self.content()
        return bool(content) and not content.startswith(b"#") and self.label() is None

    def has(self) -> str:
        """The beginning of a sentence on what it has, by its number or those of the lines joined."""
        if self.first == self.last:
            return f"line {self.first} has"
        return f"lines {self.first} to {self.last}, joined, have"


def lines_of(text: bytes) -> Iterator[Line]:
    """The lines, joined where a backslash stands directly before a line feed."""
    *ended, rest = text.split(b"\n")
    front, first = b"", 0
    for number, piece in enumerate(ended, 1):
        piece, first = piece.removesuffix(b"\r"), first or number
        if piece.endswith(b"\\"):
            front += piece[:-1]
            continue
        yield Line(first, number, front + piece)
        front, first = b"", 0
    if rest or first:
        last = len(ended) + bool(rest)
        yield Line(first or last, last, front + rest)


def script_of(text: bytes) -> dict[int, Line]:
    """The lines of START's script, or of the built-in one, by their numbers."""
    return {line.first: line for line in lines_of(text or BUILT_IN)}


def command_of(text: bytes, place: int) -> tuple[bytes, ...]:
    """The words, as they are written, of the command at a place of a list."""
    commands: list[list[bytes]] = [[]]
    for found in words_of(text):
        if found in JOINS:
            commands.append([])
        else:
            commands[-1].append(found)
    return tuple(commands[place]) if place < len(commands) else ()


def words_of(text: bytes) -> list[bytes]:
    """A list's words, its joins among them; the comment at its end is dropped."""
    words = []
    for found in re.split(rb"[ \t]+", text.strip(BLANKS)):
        if found.startswith(b"#"):
            break
        if found:
            words.append(found)
    return words
