"""The file system of a machine without a disk: the client, its bridge, an init and drivers."""

from __future__ import annotations

import gzip
import re
import shutil
import subprocess
import tempfile
from dataclasses import dataclass
from pathlib import Path

from shared.command_line import Refused
from shared.cpio import Tree, file, link
from shared.kernel_files import Kernel
from shared.kernel_modules import Module, alias_list, needs_list, plain, with_needs
from shared.needed import Need
from shared.program import TOP

SOURCES = TOP / "tools" / "machine"
# each program's sources
PROGRAMS = {"bridge": ("bridge.c", "console.c", "drives.c", "sentences.c"), "card": ("card.c",), "kexec": ("kexec.c",)}
HEADERS = ("/usr/include", "/usr/include/x86_64-linux-gnu")
BUSYBOX = "/bin/busybox"
LOADER = b"/lib64/ld-linux"
NEEDS = (
    Need("gcc", "gcc"),
    Need("strip", "binutils"),
    Need("/usr/include/linux/if_packet.h", "libc6-dev"),
    Need("ldd", "libc-bin"),
    Need(BUSYBOX, "busybox-static"),
)
# the machine's buses and ports, what a stick with recordings and a keyboard need, and the cards of virtual and of usual
# machines
REQUIRED = ("virtio_pci", "virtio_net", "virtio_console")
STICK = (
    "xhci-pci", "ehci-pci", "ohci-pci", "uhci-hcd", "usb-storage", "uas", "sd_mod", "virtio_blk", "vfat", "nls_cp437",
    "nls_ascii", "nls_utf8",
)
KEYBOARD = ("usbhid", "hid-generic")
USUAL = (
    "virtio-rng", "vmxnet3", "hv_netvsc", "xen-netfront", "ena", "gve", "e1000", "e1000e", "igb", "igc",
    "ixgbe", "i40e", "r8169", "realtek", "tg3", "broadcom", "atlantic", "forcedeth", "sky2", "8139too",
    *STICK, *KEYBOARD,
)


@dataclass(frozen=True, slots=True)
class Contents:
    """What an image is made of; modules are by their names, those of `more` must be there."""

    client: Path
    kernel: Kernel
    script: bytes
    more: tuple[str, ...]


def modules_of(contents: Contents) -> list[Module]:
    for name in contents.more:
        if plain(name) not in contents.kernel.paths:
            raise Refused(f"the kernel {contents.kernel.release} has no module {name}")
    return with_needs((*REQUIRED, *USUAL, *contents.more), contents.kernel.module)


def initramfs(contents: Contents) -> bytes:
    """The file system as Linux takes it, compressed; the same contents give the same bytes."""
    tree = Tree()
    _put_modules(tree, contents)
    tree.put("init", file((SOURCES / "init").read_bytes(), is_program=True))
    tree.put("etc/boot.ipxe", file(contents.script))
    for folder in ("dev", "proc", "sys", "run", "tmp"):
        tree.put_folder(folder)
    _put_busybox(tree)
    with tempfile.TemporaryDirectory(prefix="netboot-machine-") as name:
        for program in PROGRAMS:
            tree.put(f"bin/{program}", file(_compiled(program, Path(name)), is_program=True))
        tree.put("bin/netboot", file(_stripped(contents.client, Path(name)), is_program=True))
    for library in libraries_of(contents.client):
        tree.put(str(library).lstrip("/"), file(library.read_bytes(), is_program=True))
    return gzip.compress(tree.archive(), compresslevel=9, mtime=0)


def with_script(image: bytes, script: bytes) -> bytes:
    """The same file system with another script: Linux takes one archive after another, and the later file counts."""
    tree = Tree()
    tree.put("etc/boot.ipxe", file(script))
    return image + bytes(-len(image) % 4) + tree.archive()


def _put_busybox(tree: Tree) -> None:
    content = Path(BUSYBOX).read_bytes()
    if LOADER in content:
        raise Refused(f"{BUSYBOX} needs libraries: apt-get install busybox-static")
    tree.put("bin/busybox", file(content, is_program=True))
    tree.put("bin/sh", link("busybox"))
    # the kernel itself asks for the drivers of a card's parts there
    tree.put("sbin/modprobe", link("/bin/busybox"))


def _put_modules(tree: Tree, contents: Contents) -> None:
    base, modules = f"lib/modules/{contents.kernel.release}", modules_of(contents)
    for module in modules:
        tree.put(f"{base}/{module.path}", file(module.content))
    tree.put(f"{base}/modules.dep", file(needs_list(modules).encode()))
    tree.put(f"{base}/modules.alias", file(alias_list(modules).encode()))


def compiler() -> list[str]:
    """musl's where it is there, since what it makes is a tenth as large."""
    if shutil.which("musl-gcc"):
        return ["musl-gcc", *(word for path in HEADERS for word in ("-idirafter", path))]
    return ["gcc"]


def _compiled(program: str, folder: Path) -> bytes:
    words = [*compiler(), "-O2", "-static", "-s", "-o", program, *(str(SOURCES / name) for name in PROGRAMS[program])]
    done = subprocess.run(words, cwd=folder, capture_output=True, text=True, check=False)
    if done.returncode:
        lines = done.stderr.strip().splitlines() or ["it failed"]
        raise Refused(f"{program}.c can't be compiled: {lines[-1]}")
    return (folder / program).read_bytes()


def _stripped(client: Path, folder: Path) -> bytes:
    """The program without what only a debugger reads."""
    to = folder / "netboot"
    done = subprocess.run(["strip", "-o", str(to), str(client)], capture_output=True, text=True, check=False)
    if done.returncode:
        raise Refused(f"{client}: {done.stderr.strip()}")
    return to.read_bytes()


def libraries_of(client: Path) -> list[Path]:
    """The libraries that a program is run with, its loader among them; none for one that is static."""
    done = subprocess.run(["ldd", str(client)], capture_output=True, text=True, check=False)
    if "not found" in done.stdout:
        raise Refused(f"{client}: a library of it isn't found")
    return [Path(path) for path in re.findall(r"(/\S+) \(0x", done.stdout)]
