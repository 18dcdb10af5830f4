"""What tests share that need a network of their own: a network namespace with two interfaces that are joined."""

from __future__ import annotations

import os
import subprocess
import sys
from contextlib import contextmanager
from typing import Iterator

from tests.case import Case


class Spaced(Case):
    """Each test has a network namespace of its own, with two joined interfaces, `near` and `far`."""

    def setUp(self) -> None:
        super().setUp()
        self.space = f"netboot-b-{os.getpid()}"
        self.ip(f"netns add {self.space}")
        self.addCleanup(subprocess.run, ["ip", "netns", "delete", self.space], check=False)
        self.ip("link set lo up", is_inside=True)
        self.ip("link add near type veth peer name far", is_inside=True)
        for name in ("near", "far"):
            self.ip(f"link set {name} up", is_inside=True)

    def ip(self, line: str, is_inside: bool = False) -> str:
        words = ["ip", *(["-n", self.space] if is_inside else []), *line.split()]
        return subprocess.run(words, capture_output=True, text=True, check=True).stdout

    @contextmanager
    def begun(self, line: str, output: int = subprocess.PIPE) -> Iterator[subprocess.Popen[str]]:
        """A tool, or a program with its absolute path, that runs in the namespace."""
        python = [] if line.startswith("/") else [sys.executable, "-B"]
        words = ["ip", "netns", "exec", self.space, *python, *line.split()]
        with subprocess.Popen(
            words, cwd=self.folder, stdout=output, stderr=subprocess.PIPE, text=True
        ) as process:
            try:
                yield process
            finally:
                process.kill()

    def line_with(self, process: subprocess.Popen[str], words: str, is_error: bool = True) -> str:
        """The first line that has these words, of standard error or output."""
        stream = process.stderr if is_error else process.stdout
        for line in stream or ():
            if words in line:
                return line
        self.fail(f"no line with {words}")
