"""A wait of which is shown that it goes on: a line that counts seconds on a terminal, and else a plain line."""

from __future__ import annotations

import sys
import time
from pathlib import Path


class Wait:
    """A wait from its making on, on standard error."""

    def __init__(self, line: str) -> None:
        self.name, self.line = Path(sys.argv[0]).name, line
        self.begun, self.shown = time.monotonic(), -1
        self.is_terminal = sys.stderr.isatty()
        if not self.is_terminal:
            self.say(line)
        self.go_on()

    def seconds(self) -> float:
        return time.monotonic() - self.begun

    def go_on(self) -> None:
        """To be called now and then."""
        now = int(self.seconds())
        if self.is_terminal and now > self.shown:
            self.shown = now
            print(f"\r{self.name}: {self.line}: {now} s", end="", file=sys.stderr, flush=True)

    def end(self) -> None:
        """The line is left as it is; nothing comes after it."""
        if self.is_terminal and self.shown >= 0:
            self.shown = sys.maxsize
            print(file=sys.stderr, flush=True)

    def say(self, line: str) -> None:
        print(f"{self.name}: {line}", file=sys.stderr, flush=True)
