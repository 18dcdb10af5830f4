"""What the tests of the tools share: a folder for each test, and calls of the tools in it."""

from __future__ import annotations

import io
import os
import subprocess
import sys
import tempfile
import unittest
from contextlib import redirect_stderr, redirect_stdout
from pathlib import Path
from typing import NamedTuple

from shared.command_line import run
from pcap import pcap
from record import record
from shared.records import Record
from show import show
from tests import made

TOP = Path(__file__).resolve().parent.parent
TOOLS = {"tools/record.py": record, "tools/show.py": show, "tools/pcap.py": pcap}


class Called(NamedTuple):
    """What came of a call: its exit status, standard output and standard error."""

    status: int
    printed: str
    said: str


class Case(unittest.TestCase):
    """A test in a folder of its own, in which the repository's folders are to be seen."""

    def setUp(self) -> None:
        folder = tempfile.TemporaryDirectory()
        self.addCleanup(folder.cleanup)
        self.folder = Path(folder.name)
        for name in ("tools", "examples"):
            (self.folder / name).symlink_to(TOP / name)

    def call(self, line: str) -> Called:
        """Calls a tool within this process, in the test's folder."""
        words = line.split()
        printed, said = io.StringIO(), io.StringIO()
        here = os.getcwd()
        os.chdir(self.folder)
        try:
            with redirect_stdout(printed), redirect_stderr(said):
                status = run(TOOLS[words[0]], words)
        except SystemExit as ended:
            status = int(ended.code or 0)
        finally:
            os.chdir(here)
        return Called(status, printed.getvalue(), said.getvalue())

    def start(self, line: str) -> subprocess.Popen[str]:
        """Starts a tool as a process of its own, in the test's folder."""
        return subprocess.Popen(
            [sys.executable, *line.split()],
            cwd=self.folder,
            env={**os.environ, "PYTHONDONTWRITEBYTECODE": "1"},
            stdout=subprocess.PIPE,
            stderr=subprocess.PIPE,
            text=True,
        )

    def works(self, line: str) -> str:
        done = self.call(line)
        self.assertEqual((done.status, done.said), (0, ""), line)
        return done.printed

    def fails(self, line: str, said: str, status: int = 1) -> str:
        """The call is refused in words; answers what it printed before."""
        done = self.call(line)
        self.assertEqual(done.status, status, done.said)
        self.assertIn(said, done.said)
        return done.printed

    def put(self, name: str, content: bytes | list[Record]) -> None:
        data = content if isinstance(content, bytes) else made.spelled(content)
        (self.folder / name).write_bytes(data)

    def get(self, name: str) -> bytes:
        return (self.folder / name).read_bytes()
