"""What records say of drives: the target and the unit of an open, and the words of commands."""

from __future__ import annotations

import re

from shared.records import Command, Open
from shared.texts import word

HOOK, BOOT, UNHOOK = b"sanhook", b"sanboot", b"sanunhook"
UNIT_LENGTH = 8
# the number of a drive where nothing else is said
USUAL_DRIVE = 128
# a URI of a disk (RFC 4173): its server, and after three more parts its target
URI = re.compile(rb"iscsi:([^:]*)", re.I)
NUMBER = re.compile(rb"0x[0-9A-Fa-f]+|0|[1-9][0-9]*")


def target_name(opened: Open) -> bytes:
    """The name of a drive's target; a zero byte and the unit follow it in the OPEN."""
    return opened.target[: -1 - UNIT_LENGTH] if is_whole(opened) else opened.target


def unit_of(opened: Open) -> str:
    """Its unit, as a URI names it: 16-bit words in hexadecimal, without those at the end that are 0."""
    unit = opened.target[-UNIT_LENGTH:]
    words = [f"{int.from_bytes(unit[at : at + 2], 'big'):x}" for at in range(0, UNIT_LENGTH, 2)]
    while len(words) > 1 and words[-1] == "0":
        words.pop()
    return "-".join(words)


def is_whole(opened: Open) -> bool:
    """Whether its target is spelled so: a name, a zero byte and eight bytes."""
    return len(opened.target) > UNIT_LENGTH + 1 and opened.target[-1 - UNIT_LENGTH] == 0


def drive_text(opened: Open) -> str:
    return f"unit {unit_of(opened)} of {word(target_name(opened))}"


def host_in(uri: bytes) -> bytes:
    """The server that a disk's URI names."""
    found = URI.match(uri)
    return found[1] if found else uri


def is_about_drives(command: Command) -> bool:
    return command.words[0] in (HOOK, BOOT, UNHOOK)


def names_drive(command: Command) -> bool:
    """Whether a command may set the setting that numbers drives."""
    return any(b"san-drive" in text or b"175.189" in text for text in command.words[1:2])


def drive_asked(command: Command) -> int | None:
    """The number of a drive that a command gives, if it does."""
    for option, value in zip(command.words, command.words[1:]):
        if option == b"--drive" and NUMBER.fullmatch(value):
            return int(value, 0)
    return None
