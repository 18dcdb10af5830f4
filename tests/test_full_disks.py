"""A disk that is full: each tool names the file that it couldn't write. A limit of a file's size stands for it."""

from __future__ import annotations

import subprocess
import sys
import unittest
from pathlib import Path

from shared.kinds import PartKind, Status
from shared.namespaces import missing
from shared.records import Done, Part, Step
from tests import made
from tests.case import Case
from tests.test_bridging import PROGRAM

# in blocks of 512 bytes
LIMIT = 2
TOO_LARGE = "File too large"
HANDED_OFF = [
    Step(1),
    Part(PartKind.KERNEL_NAME, 0, 0, b"k"),
    Part(PartKind.KERNEL, 0, 0, bytes(range(256)) * 16),
    Part(PartKind.COMMAND_LINE, 0, 0, b""),
    Done(Status.HANDED_OFF),
]


class FullDisks(Case):
    def said(self, line: str) -> str:
        """What a tool says under the limit, which it ends for."""
        words = ["sh", "-c", f'ulimit -f {LIMIT}; exec "$@"', "sh", sys.executable, "-B", *line.split()]
        done = subprocess.run(
            words, cwd=self.folder, stdout=subprocess.DEVNULL, stderr=subprocess.PIPE, text=True, check=False
        )
        self.assertEqual(done.returncode, 1, (line, done.stderr))
        return done.stderr

    def test_what_is_made_of_recordings(self) -> None:
        self.put("boot.out", HANDED_OFF)
        self.put("boot.rec", [*made.BOOT_INPUT, *[made.found()] * 40])
        for line, name in (
            ("record.py examples/hello.ipxe a.rec --until 600", "a.rec"),
            ("boot.py examples/hello.ipxe --until 600 --input a.rec", "a.rec"),
            ("pcap.py boot.rec --to a.pcap", "a.pcap"),
            ("show.py boot.out --parts parts", "parts/kernel"),
            ("handoff.py boot.out --to hand-off", "hand-off/kernel"),
        ):
            tool = line.split()[0]
            self.assertEqual(self.said(f"tools/{line}"), f"{tool}: {name}: {TOO_LARGE}\n")

    def test_standard_output(self) -> None:
        self.put("boot.out", HANDED_OFF)
        words = [sys.executable, "-B", "tools/show.py", "boot.out"]
        with Path("/dev/full").open("w") as full:
            done = subprocess.run(
                words, cwd=self.folder, stdout=full, stderr=subprocess.PIPE, text=True, check=False
            )
        self.assertEqual(done.stderr, "show.py: standard output: No space left on device\n")

    @unittest.skipIf(missing(), missing() or "")
    @unittest.skipIf(PROGRAM is None, "the program is neither built nor kept")
    def test_a_live_run(self) -> None:
        self.put("loop.ipxe", b"#!ipxe\n:again\necho on and on\ngoto again\n")
        words = "tools/bridge.py loop.ipxe --device lo --run --quiet --output a.out"
        line = f"unshare --net sh -c 'ip link set lo up; ulimit -f 16; exec {sys.executable} -B {words}'"
        done = subprocess.run(
            line, shell=True, cwd=self.folder, stdout=subprocess.DEVNULL, stderr=subprocess.PIPE, text=True, check=False
        )
        self.assertEqual(done.returncode, 1, done.stderr)
        self.assertRegex(done.stderr, rf"bridge\.py: \S+/output: {TOO_LARGE}\n$")


if __name__ == "__main__":
    unittest.main()
