"""The one sentence on a boot that succeeded: what was handed off, from where, and in what time."""

from __future__ import annotations

from shared.drives import USUAL_DRIVE, drive_asked, drive_text
from shared.kinds import PartKind
from shared.stories import Trace
from shared.texts import count, word

UNITS = ("bytes", "kB", "MB", "GB")
MOST_NAMED = 3
# a span below this many milliseconds is said in these
SHORT = 100


def size(number: int) -> str:
    """A number of bytes, as 8.1 MB."""
    value, unit = float(number), 0
    while value >= 999.95 and unit + 1 < len(UNITS):
        value, unit = value / 1000, unit + 1
    return f"{value:.1f} {UNITS[unit]}" if unit else count(number, "byte")


def of_success(trace: Trace, milliseconds: int | None) -> str:
    """The time is the run's own, where it is known."""
    sizes, when = trace.sizes, "" if milliseconds is None else f", in {_span(milliseconds)} of its time"
    table = ", with the boot table of its drives" if PartKind.TABLE in sizes else ""
    if PartKind.SECTOR in sizes:
        return f"The boot succeeded: the first sector of {_drive(trace)}{table}{when}"
    more = f" and {count(trace.initrds, 'more image')}" if trace.initrds else ""
    kernel = f"kernel {word(trace.kernel)} ({size(sizes.get(PartKind.KERNEL, 0))})"
    return f"The boot succeeded: {kernel}{more}{_from(trace.sources)}{table}{when}"


def _drive(trace: Trace) -> str:
    """The drive that was booted last, its unit, and its server; its number where that is known."""
    booted, command = trace.booted, trace.last
    number = drive_asked(command) if command else None
    if number is None and trace.is_usual_drive:
        number = USUAL_DRIVE
    which = f"drive {number}" if number is not None else "the drive"
    return f"{which}, {drive_text(booted)} at {booted.server}" if booted else which


def _span(milliseconds: int) -> str:
    return f"{milliseconds / 1000:.1f} s" if milliseconds >= SHORT else f"{milliseconds} ms"


def _from(servers: list[str]) -> str:
    if not servers:
        return ""
    named = servers[:MOST_NAMED]
    if len(servers) > MOST_NAMED:
        return f" from {', '.join(named)} and others"
    return f" from {' and '.join(named)}"
