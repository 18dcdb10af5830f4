"""Where nothing is built, the tools compile the program once, and keep it while the sources stay as they are.

Another `rt` stands in the toolchain's place: what it runs is a shell, on scripts that do what the program does.
"""

from __future__ import annotations

import os
import pty
import shutil
import signal
import subprocess
import sys
import time
import unittest
from pathlib import Path

from shared.namespaces import missing
from tests import TOP, made
from tests.case import Case

# `rt try -- live HOST:PORT`: a count of the calls, the seconds that compiling takes, and the program
TOOLCHAIN = """\
#!{bash}
echo call >>{folder}/calls
[ "$*" = "try -- live $4" ] || exit 9
[ -e {folder}/refused ] && {{ echo "refused: an error"; exit 1; }}
sleep $(cat {folder}/seconds)
exec {bash} live "$4"
"""
# `netboot live HOST:PORT`: it waits for its first record
LIVE = """\
echo $$ >>{folder}/lives
exec 3<>"/dev/tcp/${{1%:*}}/${{1##*:}}"
cat <&3 >/dev/null
"""
# `netboot replay IN OUT`
REPLAY = """\
cp {folder}/hello.out "$2"
exit 3
"""
HELLO = "-- text\nhello\n"
MOST_SECONDS = 60
BASH = shutil.which("bash")


@unittest.skipUnless(BASH, "bash is missing")
class Compiling(Case):
    def setUp(self) -> None:
        super().setUp()
        (self.folder / "tools").unlink()
        shutil.copytree(TOP / "tools", self.folder / "tools", ignore=shutil.ignore_patterns("__pycache__"))
        source = self.folder / "crates" / "netboot" / "src" / "main.rt"
        source.parent.mkdir(parents=True)
        source.write_text("fn main() {}\n")
        (self.folder / "bin").mkdir()
        self.put("hello.out", made.HELLO_OUTPUT)
        self.put("s.ipxe", b"#!ipxe\necho hello\nexit\n")
        self.put("seconds", b"0")
        self.script("bin/rt", TOOLCHAIN)
        self.script("crates/netboot/live", LIVE)
        self.script("crates/netboot/replay", REPLAY)
        self.source = source

    def script(self, name: str, text: str) -> None:
        (self.folder / name).write_text(text.format(folder=self.folder, bash=BASH))
        (self.folder / name).chmod(0o755)

    def environment(self) -> dict[str, str]:
        return {
            **os.environ,
            "PATH": f"{self.folder}/bin:{os.environ['PATH']}",
            "XDG_CACHE_HOME": str(self.folder / "cache"),
            "PYTHONDONTWRITEBYTECODE": "1",
        }

    def begin(self, line: str) -> subprocess.Popen[str]:
        return subprocess.Popen(
            [sys.executable, *line.split()],
            cwd=self.folder,
            env=self.environment(),
            stdout=subprocess.PIPE,
            stderr=subprocess.PIPE,
            text=True,
        )

    def ends(self, line: str = "tools/boot.py s.ipxe") -> tuple[str, str, int]:
        with self.begin(line) as process:
            printed, said = process.communicate(timeout=MOST_SECONDS)
            return printed, said, process.returncode

    def boots(self) -> str:
        """A boot that ends well; what it said."""
        printed, said, status = self.ends()
        self.assertEqual((printed[: len(HELLO)], status), (HELLO, 3), said)
        return said

    def calls(self) -> int:
        path = self.folder / "calls"
        return len(path.read_text().splitlines()) if path.exists() else 0

    def kept(self) -> list[Path]:
        return sorted((self.folder / "cache" / "netboot").iterdir())

    def test_once(self) -> None:
        said = self.boots()
        self.assertRegex(said, r"^boot\.py: compiling the program once, as it isn't built yet; .*proves nothing\n")
        self.assertRegex(said, rf"\nboot\.py: compiled in \d+ s, and kept in {self.folder}/cache/netboot\n$")
        self.assertEqual(self.boots(), "")
        self.assertEqual((self.calls(), len(self.kept())), (1, 1))
        self.assertEqual(self.kept()[0].read_bytes(), Path(str(BASH)).read_bytes())

    def test_again_where_a_source_is_another(self) -> None:
        self.boots()
        self.source.write_text("fn main() { }\n")
        self.assertIn("compiling", self.boots())
        self.source.write_text("fn main() {}\n")
        self.assertEqual(self.boots(), "")
        self.assertEqual(self.calls(), 2)

    def test_a_damaged_one_is_not_run(self) -> None:
        self.boots()
        path = self.kept()[0]
        for content in (path.read_bytes()[:5_000], b"#!/bin/sh\nexit 0\n", b""):
            path.write_bytes(content)
            path.chmod(0o755)
            self.assertIn("compiling", self.boots())
            self.assertEqual([one.name for one in self.kept()], [path.name])

    def test_what_others_can_write_is_not_run(self) -> None:
        self.boots()
        self.kept()[0].chmod(0o777)
        self.assertIn("compiling", self.boots())
        (self.folder / "cache" / "netboot").chmod(0o777)
        _, said, status = self.ends()
        self.assertEqual(status, 1)
        self.assertIn("isn't this user's alone, so no program is run from there", said)

    def test_two_at_once(self) -> None:
        self.put("seconds", b"1")
        for process in [self.begin("tools/boot.py s.ipxe") for _ in range(2)]:
            with process:
                printed, said = process.communicate(timeout=MOST_SECONDS)
                self.assertEqual((process.returncode, printed[: len(HELLO)]), (3, HELLO), said)
        self.assertEqual([len(self.kept()), self.boots()], [1, ""])

    def test_what_cannot_be_compiled(self) -> None:
        self.put("refused", b"")
        _, said, status = self.ends()
        self.assertEqual(status, 1)
        self.assertTrue(said.endswith("refused: an error\nboot.py: the program can't be compiled\n"), said)
        self.assertEqual(self.kept(), [])

    def test_no_folder_for_it(self) -> None:
        self.put("cache", b"")
        _, said, status = self.ends()
        self.assertEqual((status, self.calls()), (1, 0))
        self.assertIn(f"boot.py: {self.folder}/cache/netboot, where the compiled program is kept: ", said)

    def test_interrupted(self) -> None:
        self.put("seconds", b"30")
        with self.begin("tools/boot.py s.ipxe") as process:
            while self.calls() == 0:
                time.sleep(0.05)
            process.send_signal(signal.SIGINT)
            said = process.communicate(timeout=10)[1]
        self.assertEqual((process.returncode, self.kept()), (130, []), said)

    def test_a_terminal_sees_the_seconds(self) -> None:
        self.put("seconds", b"2.5")
        inner, outer = pty.openpty()
        with subprocess.Popen(
            [sys.executable, "tools/boot.py", "s.ipxe"],
            cwd=self.folder,
            env=self.environment(),
            stdout=subprocess.DEVNULL,
            stderr=outer,
        ) as process:
            os.close(outer)
            seen = b""
            try:
                while piece := os.read(inner, 4_096):
                    seen += piece
            except OSError:
                pass  # its other end was closed
        os.close(inner)
        self.assertEqual(process.returncode, 3, seen)
        for second in (0, 1, 2):
            self.assertIn(b"\rboot.py: compiling the program once", seen)
            self.assertIn(f"proves nothing: {second} s".encode(), seen)

    @unittest.skipIf(missing(), missing() or "")
    def test_the_bridge_runs_the_kept_one(self) -> None:
        self.boots()
        words = ["unshare", "--net", "sh", "-c", "ip link set lo up; exec \"$@\"", "sh", sys.executable]
        words += ["tools/bridge.py", "s.ipxe", "--device", "lo", "--run"]
        with subprocess.Popen(
            words, cwd=self.folder, env=self.environment(), stderr=subprocess.PIPE, text=True
        ) as bridge:
            assert bridge.stderr
            for line in bridge.stderr:
                if "a client runs" in line:
                    bridge.terminate()
            bridge.wait(MOST_SECONDS)
        self.assertEqual((bridge.returncode, self.calls()), (5, 1))


if __name__ == "__main__":
    unittest.main()
