"""A Debian kernel with two initrds by a script that a lease names; it starts in QEMU, and shows what it was given."""

from __future__ import annotations

import gzip
import os
import subprocess
import sys
import unittest
from pathlib import Path

from shared.cpio import Tree, file, link
from shared.kernel_files import kernel_of, needs_of
from shared.machine_image import BUSYBOX
from shared.namespaces import missing
from shared.needed import Need, missing_packages
from shared.program import not_runnable
from shared.virtual_machine import QEMU
from tests.case import Case
from tests.test_machine_boot import NAMED, installed, kernel_words

MOST_SECONDS = 900
WORDS = "console=ttyS0 quiet panic=-1 no_timer_check said=here"
NOTE = "a file of the second initrd"
# shows what the kernel and the initrds were given, and has the machine started anew, at which QEMU ends
INIT = b"""\
#!/bin/busybox sh
/bin/busybox mount -t proc proc /proc
echo "init: command line $(/bin/busybox cat /proc/cmdline)"
echo "init: $(/bin/busybox cat /second/note)"
/bin/busybox reboot -f
"""
NEEDS = (Need(BUSYBOX, "busybox-static"), Need(QEMU, "qemu-system-x86"), Need("dnsmasq", "dnsmasq-base"))


def why_not() -> str | None:
    if not kernel_words():
        return "no Debian kernel is installed; NETBOOT_KERNEL can name a package, its file or a folder"
    return missing() or missing_packages((*NEEDS, *needs_of(NAMED or "/"))) or not_runnable()


def first_initrd() -> bytes:
    tree = Tree()
    tree.put("bin/busybox", file(Path(BUSYBOX).read_bytes(), is_program=True))
    tree.put("bin/sh", link("busybox"))
    tree.put("init", file(INIT, is_program=True))
    tree.put("dev/.keep", file(b""))
    tree.put_folder("proc")
    return gzip.compress(tree.archive(), mtime=0)


def second_initrd() -> bytes:
    tree = Tree()
    tree.put("second/note", file(NOTE.encode() + b"\n"))
    return tree.archive()


@unittest.skipIf(why_not(), f"starting a Debian kernel that was fetched: {why_not()}")
class LiveDebian(Case):
    def test_lease_script_kernel_and_initrds(self) -> None:
        """The lease names a script, which comes by TFTP; kernel and initrds come by HTTP; the run replays."""
        with kernel_of(NAMED or "/", None if NAMED else installed()) as kernel:
            self.put("vmlinuz", kernel.image.read_bytes())
        self.put("first.img", first_initrd())
        self.put("second.img", second_initrd())
        images = "--kernel vmlinuz --initrd first.img --initrd second.img"
        booted = self.called(f"tools/live_boot.py {images} --way lease --keep kept --words", WORDS)
        self.assertEqual(booted.returncode, 0, booted.stderr)
        for line in ("the recorded run replays to the same output, byte for byte", "booting by lease: passed"):
            self.assertIn(f"live_boot.py: {line}\n", booted.stderr)
        started = self.called("tools/handoff.py kept/lease/boot.out --to started --run --memory 512M")
        self.assertEqual(started.returncode, 0, started.stderr)
        printed = started.stdout.replace("\r", "")
        self.assertIn(f"init: command line {WORDS}\n", printed)
        self.assertIn(f"init: {NOTE}\n", printed)

    def called(self, line: str, *more: str) -> subprocess.CompletedProcess[str]:
        words = [sys.executable, "-B", *line.split(), *more]
        return subprocess.run(
            words, cwd=self.folder, capture_output=True, text=True, check=False, timeout=MOST_SECONDS,
            stdin=subprocess.DEVNULL, env={**os.environ, "TERM": "dumb"},
        )


if __name__ == "__main__":
    unittest.main()
