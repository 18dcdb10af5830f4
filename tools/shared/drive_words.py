"""The one sentence on a command on drives in which no target took part."""

from __future__ import annotations

from typing import NamedTuple

from shared.causes import Cause, Code
from shared.drives import drive_asked, host_in, is_about_drives
from shared.host_names import host_fault
from shared.records import Command
from shared.texts import word

BUILT_URI = "`iscsi:SERVER:::LUN:TARGET`"
# of Full for drives, and of TooLong for a URI
NO_PLACE, LONG_URI = 3, 7


class Lost(NamedTuple):
    """A drive whose session has ended by itself: its target, the step, and why."""

    target: bytes
    step: int
    why: str


def of_drive_words(cause: Cause, command: Command, lost: Lost | None) -> str:
    """On a command on drives that no target took part in; empty if it isn't about these."""
    if not is_about_drives(command):
        return ""
    uri = command.words[-1]
    match cause.code:
        case Code.BAD_URI:
            return f"{word(uri)} is no URI of a disk, as {BUILT_URI} is"
        case Code.NO_SCHEME:
            return f"{word(uri)} is no disk that can be hooked: only {BUILT_URI} is"
        case Code.BAD_NAME:
            host = host_in(uri)
            return f"{word(host)} is no name of a host: {host_fault(host) or 'with `domain` after it'}"
        case Code.TOO_LONG if cause.a == LONG_URI:
            return "the URI of the disk has more than 16384 bytes"
        case Code.FULL if cause.a == NO_PLACE:
            return "two other drives are hooked, the most"
        case Code.NO_DRIVE:
            return _no_drive(drive_asked(command), lost)
    return ""


def _no_drive(number: int | None, lost: Lost | None) -> str:
    which = f"no drive {number} is hooked" if number is not None else "no drive is hooked by the number 128, or by `san-drive`"
    return f"{which}; the session with {word(lost.target)} ended in step {lost.step}: {lost.why}" if lost else which
