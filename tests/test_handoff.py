"""handoff.py: the files of a hand-off, the commands that start them, and a real kernel where QEMU is."""

from __future__ import annotations

import os
import select
import shutil
import subprocess
import sys
import time
from pathlib import Path

from handoff import handoff
from shared.kinds import PartKind, Status
from shared.records import Done, Part, Record, Step
from tests import TOP, drive_boot_rows
from tests.case import TOOLS, Case

TOOLS["tools/handoff.py"] = handoff
QEMU = "qemu-system-x86_64"
MOST_SECONDS = 90
PIECE = 65_536
# As the Linux/x86 boot protocol has it: `HdrS` at byte 0x202.
LINUX = bytes(0x202) + b"HdrS" + bytes(600)


def handed_off(
    kernel: bytes, name: bytes = b"k", words: bytes = b"", initrds: list[tuple[bytes, bytes]] = []
) -> list[Record]:
    """An output recording that hands these off."""
    records: list[Record] = [Step(1), Part(PartKind.KERNEL_NAME, 0, 0, name)]
    records += pieces(PartKind.KERNEL, 0, kernel)
    records.append(Part(PartKind.COMMAND_LINE, 0, 0, words))
    for index, (called, content) in enumerate(initrds):
        records.append(Part(PartKind.INITRD_NAME, index, 0, called))
        records += pieces(PartKind.INITRD, index, content)
    return [*records, Done(Status.HANDED_OFF)]


def pieces(kind: PartKind, index: int, content: bytes) -> list[Record]:
    return [
        Part(kind, index, at, content[at : at + PIECE]) for at in range(0, len(content), PIECE)
    ]


def debian_kernel() -> Path | None:
    """A kernel of this machine that can be read."""
    found = sorted(path for path in Path("/boot").glob("vmlinuz-*") if os.access(path, os.R_OK))
    return found[-1] if found else None


class HandOff(Case):
    def test_files_and_commands(self) -> None:
        initrds = [(b"first", b"12345"), (b"second one", b"678")]
        self.put("boot.out", handed_off(LINUX, words=b"quiet root=/dev/vda", initrds=initrds))
        printed = self.works("tools/handoff.py boot.out --to parts --append console=ttyS0")
        self.assertEqual(self.get("parts/kernel"), LINUX)
        self.assertEqual(self.get("parts/command-line"), b"quiet root=/dev/vda")
        self.assertEqual(self.get("parts/initrd-0-first"), b"12345")
        self.assertEqual(self.get("parts/initrd"), b"12345" + bytes(3) + b"678")
        self.assertEqual(
            printed.splitlines()[-1],
            f"{QEMU} -m 1G -nographic -no-reboot -kernel parts/kernel -initrd parts/initrd "
            "-append 'quiet root=/dev/vda console=ttyS0'",
        )
        printed = self.works("tools/handoff.py boot.out --to more --by kexec")
        self.assertEqual(
            printed.splitlines()[-2:],
            ["kexec --load more/kernel '--command-line=quiet root=/dev/vda' --initrd=more/initrd",
             "kexec --exec"],
        )

    def test_names_that_would_leave_the_folder(self) -> None:
        for name in (b"../kernel", b"/etc/passwd", b"..", b".", b"a/b", b"a\0b"):
            for records in (
                handed_off(LINUX, name=name),
                handed_off(LINUX, initrds=[(b"first", b"1"), (name, b"2")]),
            ):
                self.put("boot.out", records)
                with self.subTest(name):
                    self.fails("tools/handoff.py boot.out --to parts", "would leave the folder")
                    self.assertEqual(list(self.folder.glob("parts/*")), [])

    def test_what_is_no_hand_off(self) -> None:
        self.put("half.out", handed_off(LINUX)[:-1])
        self.fails("tools/handoff.py half.out --to parts", "does not end in a hand-off")
        self.put("boot.out", handed_off(LINUX))
        self.put("file", b"")
        self.fails("tools/handoff.py boot.out --to file", "not an empty folder")

    def test_a_disk(self) -> None:
        """Its first sector and the boot table become files, byte for byte, and nothing is started."""
        row = drive_boot_rows.ROWS["boot_plain"]
        self.put("boot.out", row.outputs)
        sector, table = (one.piece for one in row.outputs if isinstance(one, Part))
        for words, status in (("", 0), (" --run", 1)):
            folder = f"parts{status}"
            done = self.call(f"tools/handoff.py boot.out --to {folder}{words}")
            self.assertEqual(done.status, status)
            self.assertIn("a disk was handed off", done.said)
            self.assertIn(f"{folder}/sector: 512 bytes, sha256 ", done.printed)
            self.assertEqual((self.get(f"{folder}/sector"), self.get(f"{folder}/table")), (sector, table))
        self.put("alone.out", drive_boot_rows.ROWS["boot_not_described"].outputs)
        self.works("tools/show.py alone.out --parts alone")
        self.assertEqual([path.name for path in (self.folder / "alone").iterdir()], ["sector"])
        self.assertEqual(self.get("alone/sector"), sector)

    def test_a_kernel_that_is_none(self) -> None:
        self.put("boot.out", handed_off(b"\x7fELF and more"))
        done = self.call("tools/handoff.py boot.out --to parts")
        self.assertEqual(done.status, 0)
        self.assertIn("no Linux image", done.said)

    def test_debian_in_qemu(self) -> None:
        """A real kernel that is handed off comes to its first lines on the console."""
        kernel = debian_kernel()
        why = None if shutil.which(QEMU) else f"{QEMU} is missing"
        why = why or (None if kernel else "/boot has no vmlinuz-* that can be read")
        if why or kernel is None:
            self.skipTest(f"starting a kernel: {why}")
        words = b"console=ttyS0 earlyprintk=ttyS0 panic=-1"
        self.put("boot.out", handed_off(kernel.read_bytes(), words=words))
        called = [sys.executable, "-B", str(TOP / "tools" / "handoff.py"), "boot.out", "--to", "parts",
                  "--run", "--memory", "512M", "--option=-net", "--option=none"]
        self.assertIn(b"Linux version", self.seen(called, b"Command line: " + words))

    def seen(self, words: list[str], wanted: bytes) -> bytes:
        """What a command prints until these bytes are there; then its group is ended."""
        process = subprocess.Popen(
            words, cwd=self.folder, stdin=subprocess.DEVNULL, stdout=subprocess.PIPE,
            stderr=subprocess.STDOUT, start_new_session=True,
        )
        assert process.stdout is not None
        printed, until = b"", time.monotonic() + MOST_SECONDS
        try:
            while wanted not in printed and time.monotonic() < until:
                ready, _, _ = select.select([process.stdout], [], [], 1)
                piece = os.read(process.stdout.fileno(), 1 << 16) if ready else b""
                if ready and not piece:
                    break
                printed += piece
        finally:
            os.killpg(process.pid, 9)
            process.wait()
            process.stdout.close()
        self.assertIn(wanted, printed)
        return printed
