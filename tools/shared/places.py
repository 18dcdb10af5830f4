"""Where commands stand in scripts, and their words, as they are printed."""

from __future__ import annotations

from shared.records import Command
from shared.texts import word


def joined(words: tuple[bytes, ...]) -> str:
    return " ".join(word(text) for text in words)


def words_in(command: Command) -> str:
    return joined(command.words)


def command_at(command: Command) -> str:
    return f"{place_of(command)}: {words_in(command)}"


def number_of(command: Command) -> str:
    """A command's line, and its place there where it isn't the first; skipped ones count too."""
    line = f"line {command.line}"
    return f"command {command.place + 1} of {line}" if command.place else line


def place_of(command: Command) -> str:
    """Where a command stands: its line, and what else is needed to find it."""
    depth = f" of the script that line runs, {command.depth - 1} deep" if command.depth > 1 else ""
    return f"{number_of(command)}{depth}"


def line_of(command: Command) -> str:
    """Where a command stands, as a sentence begins."""
    inner = " of an inner script" if command.depth > 1 else ""
    return f"{number_of(command)}{inner}"
