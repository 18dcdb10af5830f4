"""How bytes, words and addresses are printed: UTF-8 where it is, else byte by byte."""

from __future__ import annotations

import codecs

ESCAPES = {"\t": "\\t", "\n": "\\n", "\r": "\\r", '"': '\\"', "\\": "\\\\"}
PLAIN = frozenset(range(0x21, 0x7F)) - {0x22, 0x5C}
UNCHANGED = "\t\n"
# Python keeps a byte that is no UTF-8 as a character of its own.
KEPT = "surrogateescape"


def _visible(character: str) -> str:
    """A character that can be seen; controls, marks of direction and bytes of no UTF-8 as \\xNN."""
    if character.isprintable():
        return character
    return "".join(f"\\x{byte:02x}" for byte in character.encode("utf-8", KEPT))


def quoted(data: bytes) -> str:
    """The bytes between quotation marks; what can't be seen, or is no UTF-8, stands as \\xNN."""
    text = data.decode("utf-8", KEPT)
    return f'"{"".join(ESCAPES.get(c) or _visible(c) for c in text)}"'


class PrintedText:
    """What commands printed, piece by piece: lines and tabs as they are, the last line ended."""

    def __init__(self) -> None:
        self._decoder = codecs.getincrementaldecoder("utf-8")(KEPT)
        self._is_in_line = False

    def of(self, piece: bytes) -> str:
        return self._visible(self._decoder.decode(piece))

    def end(self) -> str:
        rest = self._visible(self._decoder.decode(b"", final=True))
        return rest + "\n" if self._is_in_line else rest

    def _visible(self, text: str) -> str:
        if text:
            self._is_in_line = not text.endswith("\n")
        if text.replace("\n", "").isprintable():
            return text
        return "".join(c if c in UNCHANGED else _visible(c) for c in text)


def word(data: bytes) -> str:
    """A word as it is where nothing in it needs quotation marks."""
    if data and all(byte in PLAIN for byte in data):
        return data.decode("ascii")
    return quoted(data)


def mac(data: bytes) -> str:
    return data.hex(":")


def count(number: int, noun: str) -> str:
    return f"{number} {noun}" if number == 1 else f"{number} {noun}s"
