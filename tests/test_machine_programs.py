"""The machine's other programs in C: the card's, and the one that goes over to a kernel; and the client's rights."""

from __future__ import annotations

import subprocess
import tempfile
import time
import unittest
from pathlib import Path

from shared.kinds import Status
from shared.machine_image import PROGRAMS, SOURCES
from shared.namespaces import missing
from tests.case import Case
from tests.spaces import Spaced

COMPILE = ("gcc", "-O1", "-Wall", "-Wextra", "-Wconversion", "-Werror")
USAGE, NO_LINK = 2, 3
SIOCETHTOOL, ETHTOOL_GGRO, ETHTOOL_SGRO = 0x8946, 0x2B, 0x2C
NOBODY = 65_534
# what kexec_file_load answers here to a file that is no kernel
REASONS = r"isn't a Linux kernel|has no kexec_file_load|doesn't allow it|no signature"
# `netboot live HOST:PORT` that says whose it is and what it may do, and ends its script
CLIENT = r"""#!/bin/bash
exec 3<>"/dev/tcp/${2/://}"
said="user $(id -u) groups $(id -G) $(grep -E 'CapPrm|CapBnd|NoNewPrivs' /proc/self/status | tr '\t\n' '  ')"
printf '\0\0\0\5\x81\0\0\0\1\0\0\0'"\\x$(printf %02x $((${#said} + 1)))"'\x83%s\0\0\0\2\x8d\3' "$said" >&3
cat <&3 >/dev/null
"""


def compiled(name: str, folder: str) -> Path:
    built = Path(folder) / name
    subprocess.run([*COMPILE, "-o", built, *(SOURCES / source for source in PROGRAMS[name])], check=True)
    return built


@unittest.skipIf(missing("gcc"), missing("gcc") or "")
class Kexec(Case):
    def test_why_a_kernel_cannot_be_started(self) -> None:
        program = compiled("kexec", str(self.folder))
        (self.folder / "parts").mkdir()
        files = {"kernel": b"no kernel" * 1_000, "command-line": b"quiet", "initrd": b"initrd"}
        for name, content, said in (
            ("kernel", None, "kexec: kernel: none was handed off, and a disk can't be started\n"),
            ("command-line", None, "kexec: command-line: No such file or directory\n"),
            ("command-line", b"a\0b", "kexec: command-line: it has a zero byte\n"),
            ("command-line", b"a" * 2_047, "kexec: command-line: it is too long\n"),
            ("command-line", b"a" * 2_049, "kexec: command-line: it is too long\n"),
            ("initrd", b"initrd", None),
            ("initrd", None, None),
        ):
            for file, usual in files.items():
                (self.folder / "parts" / file).write_bytes(usual)
            path = self.folder / "parts" / name
            path.unlink() if content is None else path.write_bytes(content)
            words = [program, "-n", "-a", "console=ttyS0", "parts"]
            done = subprocess.run(words, cwd=self.folder, capture_output=True, text=True, check=False)
            with self.subTest(name=name, content=content):
                self.assertEqual((done.returncode, done.stderr), (1, ""))
                if said:
                    self.assertEqual(done.stdout, said)
                else:
                    self.assertRegex(done.stdout, f"^kexec: kernel: .*({REASONS})")
        for words in ([], ["a", "b"], ["-x", "parts"]):
            done = subprocess.run([program, *words], capture_output=True, check=False)
            self.assertEqual(done.returncode, USAGE, words)


@unittest.skipIf(missing("gcc"), missing("gcc") or "")
class Card(Spaced):
    def setUp(self) -> None:
        super().setUp()
        self.program = compiled("card", str(self.folder))

    def ends(self, line: str) -> tuple[int, str]:
        with self.begun(f"{self.program} {line}") as process:
            printed, _ = process.communicate()
            return process.returncode, printed

    def joins(self, set_to: int | None = None) -> int:
        """Whether received packets are joined on the card, in its namespace (linux/ethtool.h)."""
        code = (
            "import array, fcntl, socket, struct\n"
            f"value = array.array('I', [{ETHTOOL_GGRO if set_to is None else ETHTOOL_SGRO}, {set_to or 0}])\n"
            "asked = struct.pack('16sP', b'near', value.buffer_info()[0])\n"
            f"fcntl.ioctl(socket.socket(socket.AF_INET, socket.SOCK_DGRAM), {SIOCETHTOOL}, asked)\n"
            "print(value[1])"
        )
        self.put("asks", code.encode())
        with self.begun("asks") as process:
            return int(process.communicate()[0])

    def test_up_and_down(self) -> None:
        self.joins(set_to=1)
        self.assertEqual(self.joins(), 1)
        self.ip("link set near down", is_inside=True)
        self.assertEqual(self.ends("up near"), (0, ""))
        self.assertIn("state UP", self.ip("link show near", is_inside=True))
        self.assertEqual(self.joins(), 0)
        self.assertEqual(self.ends("down near"), (0, ""))
        self.assertIn("state DOWN", self.ip("link show near", is_inside=True))

    def test_what_cannot_be(self) -> None:
        self.ip("link set far down", is_inside=True)
        # the other end's link is gone a moment later
        while "state UP" in self.ip("link show near", is_inside=True):
            time.sleep(0.02)
        self.assertEqual(self.ends("up near"), (NO_LINK, "near: no link; is its cable in?\n"))
        self.assertEqual(self.ends("up none"), (1, "card: none: No such device\n"))
        for line in ("up", "near", "up near far", "on near", "up 0123456789abcdef"):
            self.assertEqual(self.ends(line)[0], USAGE, line)


@unittest.skipIf(missing("gcc"), missing("gcc") or "")
class Rights(Spaced):
    def test_the_client_has_no_rights(self) -> None:
        with tempfile.TemporaryDirectory() as name:
            bridge = compiled("bridge", name)
            self.folder.chmod(0o755)
            self.put("s.ipxe", b"#!ipxe\n")
            self.put("client", CLIENT.encode())
            (self.folder / "client").chmod(0o755)
            with self.begun(f"{bridge} -i near -d parts -u {NOBODY} s.ipxe {self.folder}/client") as process:
                printed, _ = process.communicate()
        self.assertEqual(process.returncode, int(Status.ENDED), printed)
        self.assertIn(f"user {NOBODY} groups {NOBODY} CapPrm: {0:016x} ", printed)
        self.assertIn("NoNewPrivs: 1", printed)


if __name__ == "__main__":
    unittest.main()
