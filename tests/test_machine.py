"""machine.py build: the same bytes each time, nothing lost, what is missing, and what stands in the file system."""

from __future__ import annotations

import gzip
import lzma
import os
import shutil
import subprocess
import sys
import unittest

from shared.kernel_modules import alias_list, name_of, needs_list, read_module, with_needs
from shared.machine_image import NEEDS, with_script
from shared.machine_media import ISO_NEEDS, SECURE_NEEDS
from shared.needed import missing_packages
from tests import TOP
from tests.case import Called, Case
from tests.modules import module

RELEASE = "6.1.0-test"
CLIENT = "/bin/true"
WHY = missing_packages(NEEDS)
WHY_NO_MEDIA = WHY or missing_packages(ISO_NEEDS)
WHY_NOT_SECURE = WHY or missing_packages((*ISO_NEEDS, *SECURE_NEEDS))
CONTROL = b"""\
Package: linux-image-test
Version: 1
Architecture: amd64
Maintainer: nobody <nobody@localhost>
Description: a kernel for a test
"""
MODULES = {
    "drivers/virtio/virtio.ko": module(),
    "drivers/virtio/virtio_ring.ko": module(),
    "drivers/virtio/virtio_pci.ko": module("virtio_ring,virtio", "pci:v00001AF4d*"),
    "net/core/failover.ko": module(),
    "drivers/net/net_failover.ko": module("failover"),
    "drivers/net/virtio_net.ko": module("virtio_ring,net_failover,virtio", "virtio:d00000001v*"),
    "drivers/char/virtio_console.ko": module("virtio_ring,virtio"),
    "drivers/char/hw_random/virtio-rng.ko": module("virtio"),
    "drivers/net/other-card.ko": module("part_of_the_kernel"),
    "drivers/net/unwanted.ko": module(),
}


class Modules(unittest.TestCase):
    def test_what_a_module_says(self) -> None:
        for name, content in (("a/x-y.ko", module("b,c-d", "pci:1", "pci:2")), ("a/x-y.ko.xz", None)):
            plain = module("b,c-d", "pci:1", "pci:2")
            read = read_module(name, content or lzma.compress(plain))
            self.assertEqual((read.path, read.content), ("a/x-y.ko", plain))
            self.assertEqual((read.needs, read.aliases), (("b", "c_d"), ("pci:1", "pci:2")))
            self.assertEqual(name_of(read.path), "x_y")

    def test_what_is_needed_is_loaded_before(self) -> None:
        """Of a line of modules.dep the last is loaded first (modules.dep(5))."""
        paths = {name_of(path): path for path in MODULES}
        found = with_needs(("virtio_net", "other-card"), lambda name: (
            read_module(paths[name], MODULES[paths[name]]) if name in paths else None
        ))
        names = [name_of(one.path) for one in found]
        self.assertEqual(names, ["failover", "net_failover", "other_card", "virtio", "virtio_net", "virtio_ring"])
        lines = dict(line.split(":") for line in needs_list(found).splitlines())
        self.assertEqual(len(lines), 6)
        order = [name_of(path) for path in reversed(lines["drivers/net/virtio_net.ko"].split())]
        self.assertEqual(sorted(order), ["failover", "net_failover", "virtio", "virtio_ring"])
        self.assertLess(order.index("failover"), order.index("net_failover"))
        self.assertEqual(lines["drivers/net/other-card.ko"], "")
        self.assertEqual(alias_list(found), "alias virtio:d00000001v* virtio_net\n")


class Built(Case):
    """Each test has a folder with a kernel, and calls machine.py as a process of its own."""

    def setUp(self) -> None:
        super().setUp()
        self.add_kernel(RELEASE)

    def add_kernel(self, release: str) -> None:
        self.put_deep(f"machine/boot/vmlinuz-{release}", b"a kernel\n")
        for name, content in MODULES.items():
            self.put_deep(f"machine/lib/modules/{release}/kernel/{name}", content)

    def put_deep(self, name: str, content: bytes) -> None:
        (self.folder / name).parent.mkdir(parents=True, exist_ok=True)
        self.put(name, content)

    def called(self, line: str, path: str | None = None) -> Called:
        words = [sys.executable, "-B", *line.split()]
        environment = {**os.environ, **({"PATH": path} if path is not None else {})}
        done = subprocess.run(
            words, cwd=self.folder, env=environment, capture_output=True, text=True, check=False
        )
        return Called(done.returncode, done.stdout, done.stderr)

    def build(self, more: str = "", to: str = "out") -> Called:
        return self.called(f"tools/machine.py build --to {to} --kernel machine --program {CLIENT} {more}")

    def builds(self, more: str = "", to: str = "out") -> dict[str, bytes]:
        done = self.build(more, to)
        self.assertEqual((done.status, done.said), (0, ""))
        return {path.name: path.read_bytes() for path in (self.folder / to).iterdir()}

    def unpack(self, archive: bytes) -> None:
        """Into the folder `in`, by another program."""
        (self.folder / "in").mkdir(exist_ok=True)
        words = ["busybox", "cpio", "-idmu"]
        subprocess.run(words, cwd=self.folder / "in", input=archive, capture_output=True, check=True)

    def is_refused(self, done: Called, why: str) -> None:
        self.assertEqual(done.status, 1, done.said)
        self.assertIn(why, done.said)
        self.assertEqual(len(done.said.splitlines()), 1)


@unittest.skipIf(WHY, f"building a machine: {WHY}")
class Building(Built):
    @unittest.skipIf(WHY_NO_MEDIA, f"building an ISO: {WHY_NO_MEDIA}")
    def test_the_same_media(self) -> None:
        first, again = self.builds("--iso --efi"), self.builds("--iso --efi", "again")
        self.assertEqual(sorted(first), ["initramfs", "netboot.efi", "netboot.iso", "vmlinuz"])
        self.assertEqual(first, again)
        efi, iso = first["netboot.efi"], first["netboot.iso"]
        self.assertEqual((efi[:2], iso[0x8001:0x8006]), (b"MZ", b"CD001"))
        for part in (b"console=tty0 console=ttyS0 quiet\0", first["vmlinuz"], first["initramfs"]):
            self.assertIn(part, efi)
        for part in (b"linux /boot/vmlinuz console=tty0 console=ttyS0 quiet\n", first["initramfs"], efi):
            self.assertIn(part, iso)

    @unittest.skipIf(WHY_NO_MEDIA, f"building an ISO: {WHY_NO_MEDIA}")
    def test_words_that_grub_would_read_otherwise(self) -> None:
        for word in ("a;b", "a&&b", "$x", "a'b"):
            self.is_refused(self.build(f"--iso --words {word}"), "GRUB has a meaning of its own")
            self.assertFalse((self.folder / "out").exists())

    @unittest.skipIf(WHY_NOT_SECURE, f"building an ISO for Secure Boot: {WHY_NOT_SECURE}")
    def test_a_kernel_that_secure_boot_would_refuse(self) -> None:
        self.is_refused(self.build("--secure"), "the kernel has no signature, so nothing starts it under Secure Boot")
        self.assertFalse((self.folder / "out").exists())

    def test_nothing_is_overwritten(self) -> None:
        first = self.builds()
        self.put("other.ipxe", b"#!ipxe\nexit\n")
        self.is_refused(self.build("--script other.ipxe"), "out/vmlinuz is there already; --replace writes over it")
        self.assertEqual(self.get("out/initramfs"), first["initramfs"])
        replaced = self.builds("--script other.ipxe --replace")
        self.assertIn(b"#!ipxe\nexit\n", gzip.decompress(replaced["initramfs"]))
        self.put("vmlinuz", b"#!ipxe\n")
        self.is_refused(self.build("--script vmlinuz --replace", "."), "an output must not be an input")
        self.assertEqual(self.get("vmlinuz"), b"#!ipxe\n")

    def test_what_stands_in_it(self) -> None:
        """As another program unpacks it: what the machine starts, the script, and each module with what it needs."""
        first, again = self.builds("--module other-card"), self.builds("--module other_card", "again")
        self.assertEqual(sorted(first), ["initramfs", "vmlinuz"])
        self.assertEqual(first["vmlinuz"], b"a kernel\n")
        self.assertEqual(first, again)
        self.unpack(gzip.decompress(first["initramfs"]))
        for name in ("init", "bin/netboot", "bin/bridge", "bin/card", "bin/kexec", "bin/busybox"):
            self.assertEqual((self.folder / "in" / name).stat().st_mode & 0o777, 0o755, name)
        self.assertEqual(os.readlink(self.folder / "in/bin/sh"), "busybox")
        self.assertEqual(os.readlink(self.folder / "in/sbin/modprobe"), "/bin/busybox")
        self.assertEqual(self.get("in/init"), (TOP / "tools/machine/init").read_bytes())
        self.assertEqual(self.get("in/etc/boot.ipxe"), (TOP / "tools/machine/boot.ipxe").read_bytes())
        base = self.folder / "in/lib/modules" / RELEASE
        kept = {str(path.relative_to(base / "kernel")): path.read_bytes() for path in base.rglob("*.ko")}
        self.assertEqual(kept, {name: one for name, one in MODULES.items() if "unwanted" not in name})
        listed = [line.split(":")[0] for line in (base / "modules.dep").read_text().splitlines()]
        self.assertEqual(sorted(listed), sorted(f"kernel/{name}" for name in kept))
        if os.geteuid() == 0:
            # it has all its libraries
            subprocess.run(["chroot", self.folder / "in", "/bin/netboot"], check=True)
        self.has_another_script(first["initramfs"])

    def has_another_script(self, image: bytes) -> None:
        """A later archive's file takes the earlier one's place."""
        both = with_script(image, b"#!ipxe\nexit 7\n")
        self.assertTrue(both.startswith(image))
        self.unpack(both[len(image) :].lstrip(b"\0"))
        self.assertEqual(self.get("in/etc/boot.ipxe"), b"#!ipxe\nexit 7\n")


    @unittest.skipUnless(shutil.which("dpkg-deb"), "dpkg-deb is missing")
    def test_where_a_kernel_stands(self) -> None:
        """The same kernel in a folder as Debian has it, in a package, and beside its modules."""
        first = self.builds()
        self.put_deep("machine/DEBIAN/control", CONTROL)
        subprocess.run(
            ["dpkg-deb", "--build", "--root-owner-group", "machine", "k.deb"],
            cwd=self.folder, check=True, stdout=subprocess.DEVNULL,
        )
        self.assertEqual(self.builds("--kernel k.deb", "of-package"), first)
        (self.folder / "machine/boot").rename(self.folder / "boot")
        (self.folder / "boot" / f"vmlinuz-{RELEASE}").rename(self.folder / "machine/vmlinuz")
        self.assertEqual(self.builds(to="beside"), first)

    def test_what_is_refused(self) -> None:
        self.put("text", b"no program\n")
        for more, why in (
            ("--module none", f"the kernel {RELEASE} has no module none"),
            ("--release 7", "machine has no kernel boot/vmlinuz-7"),
            ("--kernel ./None", "./None is no folder, no file and no package's name"),
            ("--kernel text", "dpkg-deb --extract: "),
            ("--program text", "text: "),
        ):
            self.is_refused(self.build(more), why)
        self.add_kernel("7")
        self.is_refused(self.build(), f"machine has several kernels: --release {RELEASE}, --release 7")
        self.assertIn("Linux 7\n", self.build("--release 7").printed)
        shutil.rmtree(self.folder / "machine/lib")
        self.is_refused(self.build("--release 7", "again"), "machine has no modules lib/modules/7")
        self.assertFalse((self.folder / "again").exists())


class Missing(Built):
    def test_what_is_missing_is_listed(self) -> None:
        """By the packages that bring it, before anything is made."""
        (self.folder / "empty").mkdir()
        line = f"tools/machine.py build --to out --kernel machine --program {CLIENT} --iso"
        done = self.called(line, path=str(self.folder / "empty"))
        self.is_refused(done, "are missing: apt-get install ")
        for name in ("gcc", "strip", "objcopy", "grub-mkimage", "xorriso", "mformat"):
            self.assertRegex(done.said, rf"\b{name}\b")
        packages = done.said.split("apt-get install ")[1].split()
        for package in ("binutils", "gcc", "grub-common", "libc-bin", "mtools", "xorriso"):
            self.assertIn(package, packages)
        self.assertFalse((self.folder / "out").exists())


if __name__ == "__main__":
    unittest.main()
