"""Shows a live run while it goes: what commands print, and a line for each fetch, lease, look-up, ping and drive."""

from __future__ import annotations

import sys
import time
from dataclasses import dataclass, field
from typing import TextIO

from shared.causes import MEANING, OK, Cause, Code
from shared.describe import server_of
from shared.drives import HOOK, drive_text
from shared.kinds import OpenKind
from shared.open_sentences import meaning
from shared.records import Advance, Command, Ended, Open, Record, Result, Text
from shared.sentences import seconds_of_sleep
from shared.texts import PrintedText, count, word

# What an open that asks and is answered waits for.
ANSWERS = {OpenKind.DHCP: "a lease", OpenKind.DNS: "the address of {}", OpenKind.PING: "the echo reply of {}"}
# IPv4 without options, UDP, and what stands before a DATA's bytes (RFC 1350, section 5).
BEFORE_DATA = 20 + 8 + 4
SECONDS_BETWEEN = 0.25
SECONDS_BETWEEN_LINES = 5.0
# of commands and failures: a script that never waits has thousands
MOST_LINES_A_SECOND = 100


@dataclass(slots=True)
class Fetch:
    """A transfer that goes on, and how far it has come."""

    opened: Open
    begun: float
    place: int = 0
    bytes: int = 0

    def line(self, now: float) -> str:
        seconds = max(now - self.begun, 0.001)
        server = f"{self.opened.server}:{self.opened.port}"
        target = word(self.opened.target)
        if self.opened.kind is OpenKind.TFTP:
            place = f"{count(self.place, 'block')}, "
        else:
            place = ""
        rate = self.bytes / seconds / 1e6
        return f"{target} from {server}: {place}{count(self.bytes, 'byte')}, {rate:.2f} MB/s"


def answered(opened: Open, cause: Cause, span: float) -> str:
    """A line on an open that asked, and was answered or not after these seconds."""
    what = ANSWERS[opened.kind].format(word(opened.target) if opened.target else opened.server)
    if cause == OK:
        return f"{what} came after {span:.2f} s"
    return f"{what} didn't come: {meaning(opened, cause)}"


@dataclass
class Progress:
    """Prints to standard output what commands print, and to standard error how fetches go on."""

    printed: TextIO = field(default_factory=lambda: sys.stdout)
    said: TextIO = field(default_factory=lambda: sys.stderr)
    is_quiet: bool = False

    def __post_init__(self) -> None:
        self.text = PrintedText()
        self.fetches: dict[int, Fetch] = {}
        self.is_terminal = self.said.isatty()
        self.shown = 0.0
        self.is_line_open = False
        self.running: list[Command] = []
        self.last_end: tuple[Open, Cause] | None = None
        self.second, self.lines, self.left_out = 0, 0, 0

    def take(self, packet_length: int, record: Record) -> None:
        """A record of the output, in the step of a received packet of this length, or of none."""
        match record:
            case Advance():
                self._advance(record, packet_length)
            case Text():
                self._print(record.text)
            case Command():
                self._command(record)
            case Result():
                self._result(record.cause)
            case Open():
                self.fetches[record.number] = Fetch(record, time.monotonic())
            case Ended():
                self._ended(record)

    def _command(self, command: Command) -> None:
        self.running.append(command)
        if self._is_too_many():
            return
        words = b" ".join(command.words).decode("utf-8", "backslashreplace")
        time = seconds_of_sleep(command)
        if not command.expanded:
            words += ": its words can't be expanded"
        self._say(words if time is None else f"{words}: goes on after {time} s")

    def _result(self, cause: Cause) -> None:
        """A failure, as what the last open means by it, where it had that cause; or a drive that is hooked."""
        command = self.running.pop() if self.running else None
        if command and command.words[0] == HOOK and cause == OK and not self._is_too_many():
            self._say_hooked()
        if command is None or cause.code in (Code.OK, Code.FALSE) or self._is_too_many():
            return
        opened = self.last_end[0] if self.last_end and self.last_end[1] == cause else None
        why = meaning(opened, cause) if opened else MEANING[cause.code]
        name = word(command.words[0]) if command.words else "it"
        self._say(f"line {command.line}: {name} failed: {cause}: {why}")

    def _say_hooked(self) -> None:
        """The drive whose open began last, if it lives."""
        drives = [fetch.opened for fetch in self.fetches.values() if fetch.opened.kind is OpenKind.ISCSI]
        if drives:
            self._say(f"{drive_text(drives[-1])} at {server_of(drives[-1])} is hooked")

    def _is_too_many(self) -> bool:
        """Whether this second had its lines; how many were left out is said in the next."""
        second = int(time.monotonic())
        if second != self.second:
            self.second, self.lines = second, 0
            self._say_left_out()
        self.lines += 1
        self.left_out += self.lines > MOST_LINES_A_SECOND
        return self.lines > MOST_LINES_A_SECOND

    def _say_left_out(self) -> None:
        if self.left_out:
            self._say(f"and {count(self.left_out, 'line')} more, which are left out")
            self.left_out = 0

    def _print(self, text: bytes) -> None:
        self._close_line()
        self.printed.write(self.text.of(text))
        self.printed.flush()

    def _advance(self, advance: Advance, packet_length: int) -> None:
        fetch = self.fetches.get(advance.number)
        if fetch is None or fetch.opened.kind is OpenKind.ISCSI:
            return
        fetch.place = advance.place
        if fetch.opened.kind is OpenKind.TFTP:
            fetch.bytes += max(packet_length - BEFORE_DATA, 0)
        else:
            fetch.bytes = advance.place
        between = SECONDS_BETWEEN if self.is_terminal else SECONDS_BETWEEN_LINES
        now = time.monotonic()
        if now - max(self.shown, fetch.begun) >= between:
            self.shown = now
            self._say(fetch.line(now), stays=False)

    def _ended(self, ended: Ended) -> None:
        fetch = self.fetches.pop(ended.number, None)
        self.last_end = (fetch.opened, ended.cause) if fetch else None
        if fetch and fetch.opened.kind is OpenKind.ISCSI:
            self._say(f"the session with {drive_text(fetch.opened)} has ended: {meaning(fetch.opened, ended.cause)}")
        elif fetch and fetch.opened.kind in ANSWERS:
            self._say(answered(fetch.opened, ended.cause, time.monotonic() - fetch.begun))
        elif fetch:
            how = "" if ended.cause == OK else f": {meaning(fetch.opened, ended.cause)}"
            self._say(fetch.line(time.monotonic()) + how)

    def _say(self, line: str, stays: bool = True) -> None:
        if not self.is_quiet:
            self._write(line, stays)

    def _write(self, line: str, stays: bool) -> None:
        self.said.write(("\r\x1b[K" if self.is_line_open else "") + line)
        self.is_line_open = self.is_terminal and not stays
        self.said.write("" if self.is_line_open else "\n")
        self.said.flush()

    def note(self, line: str) -> None:
        """A line on the run itself, which is said in any case."""
        self._write(line, True)

    def _close_line(self) -> None:
        if self.is_line_open:
            self.said.write("\n")
            self.is_line_open = False

    def end(self) -> None:
        self._say_left_out()
        self._close_line()
        self.printed.write(self.text.end())
        self.printed.flush()
