"""A machine without a disk, emulated from its power-on: it fetches a kernel and initrds, and goes over to them."""

from __future__ import annotations

import gzip
import hashlib
import os
import shutil
import subprocess
import sys
import time
import unittest
from pathlib import Path

from boot import CRATE
from shared.kernel_files import needs_of
from shared.kinds import Status
from shared.machine_image import NEEDS
from shared.machine_media import ISO_NEEDS, SECURE_NEEDS
from shared.namespaces import missing, network
from shared.needed import Need, missing_packages
from shared.program import not_runnable, program
from shared.servers import Leases, Tftp, dnsmasq
from shared.virtual_machine import MASK, SERVER
from shared.virtual_machine import NEEDS as QEMU_NEEDS
from shared.web_server import usual, web_server
from tests.case import Case
from tests.payload import HEAD, payload
from tests.test_machine import Built

# where the machine's own kernel comes from, as build's --kernel; else it is the installed one
NAMED = os.environ.get("NETBOOT_KERNEL")
MOST_SECONDS = 600
# as `try` has them, for a file that is built with its own
MEDIA_WORDS = "console=ttyS0 quiet panic=5 netboot_fail=off no_timer_check"
LEASES = Leases(SERVER + 99, SERVER + 149, MASK, "payload")
SCRIPT = """\
#!ipxe
dhcp
imgfetch {first}://${{next-server}}/none || echo ${{net0.dhcp/ip}} goes on
imgfetch {first}://${{next-server}}/first
imgfetch {second}://${{next-server}}/second
imgexec {second}://${{next-server}}/${{filename}}
"""
# what a server says of a file that isn't there
NOT_FOUND = {
    "tftp": " 1: 10.77.0.1 answered: file not found (none). To do: put the file there, or mend its name\n",
    "http": " 404: 10.77.0.1 answered: 404 Not Found (http://10.77.0.1/none). To do: see the server's log\n",
}
WEB_SCRIPT = b"#!ipxe\ndhcp\nimgexec http://${next-server}/${filename}\n"
WORDS = "console=ttyS0 said=here"
# EFI for QEMU, of Debian's package ovmf
FIRMWARE = Path("/usr/share/ovmf/OVMF.fd")
# the same with Secure Boot, and its variables with Microsoft's keys
SECURE, VARIABLES = Path("/usr/share/OVMF/OVMF_CODE_4M.secboot.fd"), Path("/usr/share/OVMF/OVMF_VARS_4M.ms.fd")
FIRST, SECOND = b"the first initrd", bytes(range(256)) * 9


def _run(*words: str) -> None:
    subprocess.run(words, capture_output=True, check=True)


def installed() -> str | None:
    """The release of a Debian kernel here, the last by its name, with the drivers of an emulated machine."""
    releases = sorted(path.name.removeprefix("vmlinuz-") for path in Path("/boot").glob("vmlinuz-*"))
    of_card = "kernel/drivers/net/virtio_net.ko"
    found = (one for one in reversed(releases) if Path("/lib/modules", one, of_card).exists())
    return next(found, None)


def kernel_words() -> list[str] | None:
    release = installed()
    return ["--kernel", NAMED] if NAMED else ["--kernel", "/", "--release", release] if release else None


def why_not() -> str | None:
    if not kernel_words():
        return "no Debian kernel is installed; NETBOOT_KERNEL can name a package, its file or a folder"
    needs = (*NEEDS, *QEMU_NEEDS, *needs_of(NAMED or "/"))
    return missing() or missing_packages(needs) or not_runnable()


def no_media() -> str | None:
    return missing_packages(ISO_NEEDS) or (None if FIRMWARE.exists() else f"{FIRMWARE} is missing: apt-get install ovmf")


def not_secure() -> str | None:
    firmware = (Need(str(SECURE), "ovmf"), Need(str(VARIABLES), "ovmf"))
    return missing_packages((*ISO_NEEDS, *SECURE_NEEDS, *firmware))


WHY_NOT_HERE = missing("dnsmasq") or missing_packages(NEEDS) or not_runnable()


@unittest.skipIf(WHY_NOT_HERE, f"running a machine's files: {WHY_NOT_HERE}")
class Running(Built):
    def test_by_tftp_without_a_machine(self) -> None:
        self.runs("boot.ipxe")

    def test_by_http_without_a_machine(self) -> None:
        self.runs("web.ipxe")

    def runs(self, script: str) -> None:
        """Its bridge and its client, in its file system and with no other file, over a wire to a real server."""
        self.assertEqual(self.called(f"tools/machine.py build --to out --kernel machine --program {program()}").status, 0)
        self.unpack(gzip.decompress(self.get("out/initramfs")))
        (self.folder / "served").mkdir()
        for folder in (self.folder, self.folder / "served"):
            folder.chmod(0o755)
        kernel = payload(self.folder)
        self.put("served/payload", kernel)
        self.put("in/etc/web.ipxe", WEB_SCRIPT)
        served = self.folder / "served"
        with network() as joined, dnsmasq(joined, Tftp(served), LEASES), web_server(joined, served, usual()):
            # as init sets the card up: each packet comes on its own, also where the other end joins them
            _run("ip", "-n", joined.server, "link", "set", "dev", joined.server_device, "gso_max_segs", "1")
            bridge = ["/bin/bridge", "-i", joined.client_device, "-d", "/run/parts", "-u", "65534", "-r", "/run/rec",
                      "-o", "/run/out", f"/etc/{script}", "/bin/netboot"]
            words = joined.in_client("chroot", str(self.folder / "in"), *bridge)
            done = subprocess.run(words, capture_output=True, text=True, check=False, timeout=MOST_SECONDS)
        self.assertEqual(done.returncode, 0, done.stdout + done.stderr)
        self.assertEqual(self.get("in/run/parts/kernel"), kernel)
        self.assertIn(f"{joined.client_device}: the address is 10.77.0.", done.stdout)


@unittest.skipIf(why_not(), f"booting an emulated machine: {why_not()}")
class Booting(Case):
    def test_by_tftp(self) -> None:
        self.boots_by("tftp")

    def test_by_http(self) -> None:
        self.boots_by("http")

    def boots_by(self, scheme: str) -> None:
        """The kernel that is started says its own sum, its initrd's and its command line; the run replays."""
        kernel = self.prepare("build --to machine", by=(scheme, scheme))
        begun = time.monotonic()
        printed = self.works_as_process(
            f"try machine --serve served --file payload --script s.ipxe --emulate --seconds {MOST_SECONDS} "
            "--input run.rec --output run.out --words netboot_device=eth7,eth0 --append", WORDS,
        )
        self.assertLess(time.monotonic() - begun, MOST_SECONDS)
        for line in (
            "init: cards: eth7 eth0",
            "card: eth7: No such device\n",
            "eth0: the address is 10.77.0.",
            NOT_FOUND[scheme],
            f"  {scheme}://10.77.0.1/payload... ok, {len(kernel)} bytes, ",
            " goes on\n",
            f"payload: command line {WORDS}\n",
        ):
            self.assertIn(line, printed)
        self.has_started(kernel, printed)

    @unittest.skipIf(no_media(), f"booting from an ISO and an EFI file: {no_media()}")
    def test_from_a_cd_and_by_efi(self) -> None:
        """The same from the ISO, by BIOS and by EFI, and from the EFI file, each with the script that it was built with:
        a file by TFTP, and the others by HTTP."""
        kernel = self.prepare("build --to machine --iso --efi --script s.ipxe --words", MEDIA_WORDS, by=("tftp", "http"))
        for start in ("iso", f"iso --firmware {FIRMWARE}", f"efi --firmware {FIRMWARE}"):
            with self.subTest(start):
                printed = self.works_as_process(
                    f"try machine --serve served --file payload --emulate --seconds {MOST_SECONDS} "
                    f"--input run.rec --output run.out --from {start}"
                )
                self.has_started(kernel, printed)

    @unittest.skipIf(not_secure(), f"booting by Secure Boot: {not_secure()}")
    def test_under_secure_boot(self) -> None:
        """By Debian's shim, GRUB and kernel; the kernel that is handed off has no signature, and isn't started."""
        self.prepare("build --to machine --secure --script s.ipxe --words", MEDIA_WORDS)
        done = self.called_as_process(
            f"try machine --serve served --file payload --emulate --seconds {MOST_SECONDS} --from iso "
            f"--firmware {SECURE} --variables {VARIABLES} --input run.rec --output run.out"
        )
        refused = "kexec: kernel: it has no signature that this machine trusts, and Secure Boot asks for one"
        self.assertEqual((done.returncode, done.stderr), (1, f"machine.py: {refused}\n"), done.stdout)
        self.is_replayed()

    @unittest.skipUnless(shutil.which("mcopy"), "mcopy is missing: apt-get install mtools")
    def test_a_later_run_is_recorded_on_a_stick(self) -> None:
        self.prepare("build --to machine")
        self.put("fails.ipxe", b"#!ipxe\ndhcp\nimgfetch tftp://${next-server}/none\n")
        made = ["mformat", "-i", "stick", "-C", "-f", "2880", "-v", "NETBOOT-REC", "::"]
        subprocess.run(made, cwd=self.folder, check=True)
        done = self.called_as_process(
            f"try machine --serve served --script fails.ipxe --emulate --seconds {MOST_SECONDS} --stick stick "
            "--words netboot_device=eth0,eth0"
        )
        self.assertEqual((done.returncode, done.stderr), (int(Status.SCRIPT_FAILED), ""), done.stdout)
        self.assertIn("init: recordings go to /dev/vda", done.stdout)
        self.assertEqual(done.stdout.splitlines()[-1],
                         "10.77.0.1 answered: file not found (none). To do: put the file there, or mend its name")
        for name, to in (("input1.rec", "run.rec"), ("output1.rec", "run.out")):
            subprocess.run(["mcopy", "-i", "stick", f"::{name}", to], cwd=self.folder, check=True)
        self.is_replayed(Status.SCRIPT_FAILED)

    def prepare(self, build: str, *more: str, by: tuple[str, str] = ("tftp", "tftp")) -> bytes:
        """What is served, the script by these schemes, and the machine; the kernel that is to be started."""
        kernel = payload(self.folder)
        self.serve(payload=kernel, first=FIRST, second=SECOND)
        self.put("s.ipxe", SCRIPT.format(first=by[0], second=by[1]).encode())
        self.works_as_process(build, *more, *(kernel_words() or ()))
        return kernel

    def has_started(self, kernel: bytes, printed: str) -> None:
        initrds = FIRST + bytes(-len(FIRST) % 4) + SECOND
        self.assertIn(f"payload: own sha256 {hashlib.sha256(kernel[HEAD:]).hexdigest()}\n", printed)
        self.assertIn(f"payload: initrd sha256 {hashlib.sha256(initrds).hexdigest()}\n", printed)
        self.is_replayed()

    def serve(self, **files: bytes) -> None:
        self.folder.chmod(0o755)
        (self.folder / "served").mkdir()
        for name, content in files.items():
            self.put(f"served/{name}", content)

    def called_as_process(self, line: str, *more: str) -> subprocess.CompletedProcess[str]:
        words = [sys.executable, "-B", "tools/machine.py", *line.split(), *more]
        return subprocess.run(
            words, cwd=self.folder, capture_output=True, text=True, check=False, timeout=MOST_SECONDS + 60
        )

    def works_as_process(self, line: str, *more: str) -> str:
        done = self.called_as_process(line, *more)
        self.assertEqual(done.returncode, 0, done.stdout + done.stderr)
        return done.stdout

    def is_replayed(self, status: Status = Status.HANDED_OFF) -> None:
        words = [program(), "replay", self.folder / "run.rec", self.folder / "again.out"]
        ran = subprocess.run(words, cwd=CRATE, capture_output=True, check=False)
        self.assertEqual(ran.returncode, int(status), ran.stderr)
        self.assertEqual(self.get("again.out"), self.get("run.out"))


if __name__ == "__main__":
    unittest.main()
