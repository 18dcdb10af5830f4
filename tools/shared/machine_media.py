"""What a machine's firmware starts: one EFI file, and an ISO for BIOS and EFI.

The EFI file is systemd's stub with the kernel, its file system and its command line as sections. On the ISO GRUB starts
them for BIOS, and the EFI file is on a FAT volume. The same files give the same bytes: no time stands in them.
"""

from __future__ import annotations

import os
import re
import subprocess
import tempfile
from contextlib import contextmanager
from dataclasses import dataclass
from pathlib import Path
from typing import Iterator

from shared.command_line import Refused
from shared.needed import Need

STUB = "/usr/lib/systemd/boot/efi/linuxx64.efi.stub"
GRUB = "/usr/lib/grub/i386-pc"
EFI_NEEDS = (Need(STUB, "systemd-boot-efi"), Need("objcopy", "binutils"), Need("objdump", "binutils"))
# Debian's, which firmware with Microsoft's keys starts, and which start a kernel of Debian's
SHIM, SIGNED_GRUB = "/usr/lib/shim/shimx64.efi.signed", "/usr/lib/grub/x86_64-efi-signed/gcdx64.efi.signed"
SECURE_NEEDS = (Need(SHIM, "shim-signed"), Need(SIGNED_GRUB, "grub-efi-amd64-signed"))
# what firmware starts of a stick or a CD, and what shim starts
BY_FIRMWARE, BY_SHIM = "BOOTX64.EFI", "grubx64.efi"
ISO_NEEDS = (
    *EFI_NEEDS,
    Need("grub-mkimage", "grub-common"),
    Need(f"{GRUB}/boot_hybrid.img", "grub-pc-bin"),
    Need("xorriso", "xorriso"),
    Need("mformat", "mtools"),
)
# the time of all files, the earliest that FAT can say
EPOCH = 315_532_800
ALIGNMENT = 4096
PE_START, PE_TIME, PE_SUM, PE_SIGNATURE_SIZE = 0x3C, 8, 88, 172
# of a FAT volume, which has room for its folders and tables beside the file
HEADS, SECTORS, SECTOR = 64, 32, 512
TRACK = HEADS * SECTORS * SECTOR
MORE = 1 << 19
LABEL = "NETBOOT"
GRUB_MODULES = (
    "biosdisk", "part_gpt", "part_msdos", "iso9660", "search", "search_label", "linux", "normal", "configfile", "serial",
    "terminal",
)
NAME = b"NAME=netboot\nID=netboot\nPRETTY_NAME=netboot\n"
NOT_FOR_GRUB = re.compile(r"[\n;|&<>'\"\\${}#]")


@dataclass(frozen=True, slots=True)
class System:
    """A kernel, its file system and its command line."""

    kernel: bytes
    initramfs: bytes
    words: str


@contextmanager
def _folder() -> Iterator[Path]:
    with tempfile.TemporaryDirectory(prefix="netboot-media-") as name:
        yield Path(name)


def _run(words: list[str], folder: Path) -> str:
    environment = {**os.environ, "LC_ALL": "C", "TZ": "UTC", "SOURCE_DATE_EPOCH": str(EPOCH), "MTOOLSRC": os.devnull}
    done = subprocess.run(words, cwd=folder, capture_output=True, text=True, check=False, env=environment)
    if done.returncode:
        lines = done.stderr.strip().splitlines() or ["it failed"]
        raise Refused(f"{words[0]}: {lines[-1]}")
    return done.stdout


def _end_of_stub(folder: Path) -> int:
    """Where the stub's last section ends in memory."""
    ends = [0]
    for line in _run(["objdump", "--section-headers", STUB], folder).splitlines():
        fields = line.split()
        if len(fields) >= 7 and fields[0].isdigit():
            ends.append(int(fields[2], 16) + int(fields[3], 16))
    return max(ends)


def efi_file(system: System) -> bytes:
    words = system.words.encode() + b"\0"
    sections = {"osrel": NAME, "cmdline": words, "linux": system.kernel, "initrd": system.initramfs}
    with _folder() as folder:
        at, options = _end_of_stub(folder), []
        for section, content in sections.items():
            (folder / section).write_bytes(content)
            at = -(-at // ALIGNMENT) * ALIGNMENT
            options += ["--add-section", f".{section}={section}", "--change-section-vma", f".{section}={at:#x}"]
            at += len(content)
        _run(["objcopy", *options, STUB, "netboot.efi"], folder)
        return without_time((folder / "netboot.efi").read_bytes())


def without_time(program: bytes) -> bytes:
    """An EFI program without the time of its making, and without the sum that depends on it and that firmware ignores
    (Microsoft's PE format: the COFF header, and the optional header)."""
    start = int.from_bytes(program[PE_START : PE_START + 4], "little")
    made = bytearray(program)
    for place in (start + PE_TIME, start + PE_SUM):
        made[place : place + 4] = bytes(4)
    return bytes(made)


def signed_files(kernel: bytes) -> dict[str, bytes]:
    """Shim and GRUB, which start this kernel under Secure Boot where it is signed as Debian's are."""
    if not is_signed(kernel):
        raise Refused("the kernel has no signature, so nothing starts it under Secure Boot; Debian's own has one")
    return {BY_FIRMWARE: Path(SHIM).read_bytes(), BY_SHIM: Path(SIGNED_GRUB).read_bytes()}


def is_signed(program: bytes) -> bool:
    """Whether a program of EFI has a table of certificates (Microsoft's PE format, the optional header for 64 bits)."""
    start = int.from_bytes(program[PE_START : PE_START + 4], "little")
    size = program[start + PE_SIGNATURE_SIZE : start + PE_SIGNATURE_SIZE + 4]
    return program[start : start + 4] == b"PE\0\0" and any(size)


def iso_file(system: System, efi: dict[str, bytes]) -> bytes:
    """The ISO of a system, with these files of EFI."""
    if NOT_FOR_GRUB.search(system.words):
        raise Refused("GRUB has a meaning of its own for a character of --words; a script is given by --script")
    with _folder() as folder:
        grub = folder / "root" / "boot" / "grub"
        grub.mkdir(parents=True)
        (grub.parent / "vmlinuz").write_bytes(system.kernel)
        (grub.parent / "initramfs").write_bytes(system.initramfs)
        (grub / "grub.cfg").write_text(_grub_configuration(system.words))
        # by this file the signed GRUB finds the volume
        (folder / "root" / ".disk").mkdir()
        (folder / "root" / ".disk" / "info").write_text(f"{LABEL}\n")
        _make_bios_image(folder, grub)
        _make_fat(folder, efi)
        _make_iso(folder)
        return (folder / "netboot.iso").read_bytes()


def _grub_configuration(words: str) -> str:
    """Each console of GRUB, a serial one too, has what it says."""
    consoles = "serial --unit=0 --speed=115200\nterminal_input console serial\nterminal_output console serial\n"
    return f"{consoles}linux /boot/vmlinuz {words}\ninitrd /boot/initramfs\nboot\n"


def _make_bios_image(folder: Path, grub: Path) -> None:
    """GRUB, which looks for the volume by its name: on a CD and on a stick it is another device."""
    (folder / "early.cfg").write_text(f"search --set=root --label {LABEL}\nconfigfile /boot/grub/grub.cfg\n")
    words = ["grub-mkimage", "--format=i386-pc-eltorito", "--prefix=/boot/grub", "--config=early.cfg"]
    _run([*words, f"--output={grub / 'bios.img'}", *GRUB_MODULES], folder)


def _make_fat(folder: Path, efi: dict[str, bytes]) -> None:
    for name, content in efi.items():
        (folder / name).write_bytes(content)
        os.utime(folder / name, (EPOCH, EPOCH))
    tracks = -(-(sum(map(len, efi.values())) + MORE) // TRACK)
    shape = ["-h", str(HEADS), "-s", str(SECTORS), "-t", str(tracks)]
    _run(["mformat", "-i", "efi.img", "-C", "-N", "00000000", *shape], folder)
    _run(["mmd", "-i", "efi.img", "::/EFI", "::/EFI/BOOT"], folder)
    _run(["mcopy", "-m", "-i", "efi.img", *efi, "::/EFI/BOOT/"], folder)


def _make_iso(folder: Path) -> None:
    bios = ["-b", "boot/grub/bios.img", "-no-emul-boot", "-boot-load-size", "4", "-boot-info-table", "--grub2-boot-info"]
    stick = ["--grub2-mbr", f"{GRUB}/boot_hybrid.img", "-appended_part_as_gpt"]
    stick += ["-append_partition", "2", "0xef", "efi.img"]
    efi = ["-eltorito-alt-boot", "-e", "--interval:appended_partition_2:all::", "-no-emul-boot"]
    names = ["-V", LABEL, "-r", "--set_all_file_dates", "1980010100000000"]
    for path in folder.rglob("*"):
        os.utime(path, (EPOCH, EPOCH))
    _run(["xorriso", "-as", "mkisofs", *names, *bios, *stick, *efi, "-o", "netboot.iso", "root"], folder)
