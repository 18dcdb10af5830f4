"""Modules of a kernel for the tests: ELF files of 64 bits that say something and do nothing."""

from __future__ import annotations

from shared.kernel_modules import ELF_HEADER, SECTION_HEADER

NAMES = b"\0.modinfo\0.names\0"
SECTIONS = 3


def module(needs: str = "", *aliases: str) -> bytes:
    """A module with the two sections that say what it is, and after them a signature's place."""
    texts = [f"depends={needs}", *(f"alias={alias}" for alias in aliases), "license=GPL"]
    said = "".join(f"{text}\0" for text in texts).encode()
    first = ELF_HEADER.size + SECTIONS * SECTION_HEADER.size
    identity = b"\x7fELF\2\1\1" + bytes(9)
    header = ELF_HEADER.pack(
        identity, 1, 62, 1, 0, 0, ELF_HEADER.size, 0, ELF_HEADER.size, 0, 0, SECTION_HEADER.size, SECTIONS, 2
    )
    sections = [
        bytes(SECTION_HEADER.size),
        SECTION_HEADER.pack(1, 1, 2, 0, first, len(said), 0, 0, 1, 0),
        SECTION_HEADER.pack(10, 3, 0, 0, first + len(said), len(NAMES), 0, 0, 1, 0),
    ]
    return header + b"".join(sections) + said + NAMES + b"~Module signature appended~\n"
