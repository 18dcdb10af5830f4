"""A tiny kernel for a machine's test: what was compiled, after a header as a Linux kernel has it."""

from __future__ import annotations

import struct
import subprocess
from pathlib import Path

from tests import TOP

SOURCES = TOP / "tests" / "machine"
COMPILE = (
    "gcc", "-O2", "-Wall", "-Wextra", "-Werror", "-ffreestanding", "-fno-stack-protector", "-fpie", "-mgeneral-regs-only",
    "-mno-red-zone", "-fcf-protection=none", "-nostdlib", "-static", "-no-pie", "-Wl,--build-id=none", "-Wl,-e,enter",
)
SECTOR = 512
# the beginning before what is loaded: a boot sector and one sector of setup
HEAD = 2 * SECTOR
# what the file doesn't have and the kernel needs: its stack
MORE = 1 << 16


def header(loaded: int) -> bytes:
    """The setup header of version 2.12 (Documentation/x86/boot.rst), of a kernel that has only an entry for 64 bits."""
    head = bytearray(HEAD)
    for place, form, value in (
        (0x1F1, "B", 1),  # sectors of setup after the first
        (0x1F4, "I", -(-loaded // 16)),  # what is loaded, in 16 bytes
        (0x1FE, "H", 0xAA55),
        (0x200, "H", 0x66EB),  # a jump over the header, whose end it gives
        (0x202, "4s", b"HdrS"),
        (0x206, "H", 0x020C),
        (0x211, "B", 1),  # loaded above the first MiB
        (0x22C, "I", 0x7FFFFFFF),  # the initrd's highest address
        (0x230, "I", 0x200000),  # alignment
        (0x234, "B", 1),  # it may lie anywhere
        (0x236, "H", 0x0001 | 0x0002 | 0x0060),  # for 64 bits, also above 4 GiB, and by page tables of five levels
        (0x238, "I", 2047),  # the longest command line
        (0x258, "Q", 0x1000000),  # where it had best lie
        (0x260, "I", loaded + MORE),
    ):
        struct.pack_into(f"<{form}", head, place, value)
    return bytes(head)


def payload(folder: Path) -> bytes:
    """The kernel; what of it is loaded begins at HEAD."""
    linked, flat = folder / "payload.elf", folder / "payload.bin"
    script = f"-Wl,-T,{SOURCES / 'payload.ld'}"
    subprocess.run([*COMPILE, script, "-o", linked, SOURCES / "payload.c"], check=True)
    subprocess.run(["objcopy", "-O", "binary", linked, flat], check=True)
    # the file begins where the code does
    loaded = bytes(SECTOR) + flat.read_bytes()
    return header(len(loaded)) + loaded
