"""A virtual machine without a disk, which QEMU starts, and what came of the run in it."""

from __future__ import annotations

import re
import shutil
from contextlib import contextmanager
from dataclasses import dataclass
from ipaddress import IPv4Address, IPv4Network
from pathlib import Path
from typing import Iterator

from shared.command_line import Refused
from shared.console import lines_of, started
from shared.kinds import Status
from shared.machine_image import with_script
from shared.namespaces import PREFIX, SERVER_ADDRESS, Network, tap_network
from shared.needed import Need
from shared.recordings import output_of
from shared.records import Done
from shared.seconds_table import OF_IPXE, Table
from shared.servers import Leases, Tftp, dnsmasq
from shared.web_server import usual, web_server

QEMU = "qemu-system-x86_64"
NEEDS = (Need(QEMU, "qemu-system-x86"), Need("dnsmasq", "dnsmasq-base"), Need("ip", "iproute2"))
# iPXE's ROM of QEMU's card; it drives the card as it is since version 1.0 of virtio
ROM = "/usr/lib/ipxe/qemu/pxe-virtio.rom"
IPXE_NEEDS = (Need(ROM, "ipxe-qemu"),)
KVM = Path("/dev/kvm")
CARD = "virtio-net-pci"
HARDWARE_ADDRESS = "52:54:00:12:34:56"
# The machine's, and one that ends QEMU where a kernel stops or a run fails. A kernel measures its timer by that of QEMU,
# which runs on while a busy host doesn't emulate the processor: so it isn't to.
WORDS = "console=ttyS0 quiet panic=5 netboot_fail=off no_timer_check"
PORTS = ("input", "output")
SERVER = IPv4Address(SERVER_ADDRESS)
MASK = IPv4Network(f"{SERVER}/{PREFIX}", strict=False).netmask
LOADED, CANNOT = "kexec: going over", "kexec: "
# the script for iPXE's ROM, beside the files that are served
BESIDE = "netboot-beside.ipxe"
FIRST_LINE = re.compile(rb"\A#!ipxe[^\n]*\n")


@dataclass(frozen=True, slots=True)
class Trial:
    """What is tried: the built files and what of them starts the machine, the network's, and the bounds."""

    machine: Path
    starts_from: str
    script: bytes | None
    served: Path
    filename: str
    append: str
    words: str
    firmware: Path | None
    variables: Path | None
    stick: Path | None
    memory: str
    is_emulated: bool
    until: str | None
    seconds: float


def accelerator(is_emulated: bool) -> list[str]:
    """The processor's own where QEMU can have it; else QEMU works each instruction out."""
    own = [] if is_emulated or not KVM.exists() else ["-accel", "kvm"]
    return [*own, "-accel", "tcg", "-cpu", "max"]


def kernel_words(trial: Trial) -> str:
    if '"' in trial.append:
        raise Refused('--append can\'t have a "')
    return f'{WORDS} {trial.words} netboot_append="{trial.append}"'


def start_words(trial: Trial, initramfs: Path) -> list[str]:
    """What QEMU starts the machine from."""
    if trial.starts_from == "iso":
        return ["-cdrom", str(trial.machine / "netboot.iso"), "-boot", "d"]
    if trial.starts_from == "efi":
        return ["-kernel", str(trial.machine / "netboot.efi"), "-append", kernel_words(trial)]
    files = ["-kernel", str(trial.machine / "vmlinuz"), "-initrd", str(initramfs)]
    return [*files, "-append", kernel_words(trial)]


def bare_words(trial: Trial, joined: Network, card: str) -> list[str]:
    """A machine with this card, a serial console, and nothing else."""
    words = [QEMU, *accelerator(trial.is_emulated), "-smp", "1", "-m", trial.memory, "-no-reboot", "-nodefaults"]
    words += ["-display", "none", "-serial", "stdio"]
    words += ["-netdev", f"tap,id=net,ifname={joined.client_device},script=no,downscript=no"]
    return [*words, "-device", f"{CARD},netdev=net,mac={HARDWARE_ADDRESS},{card}"]


def firmware_words(trial: Trial, folder: Path) -> list[str]:
    """Another firmware than QEMU's BIOS; one with variables, as Secure Boot has it, is a flash of two parts."""
    if not trial.firmware or not trial.variables:
        return ["-bios", str(trial.firmware)] if trial.firmware else []
    own = shutil.copyfile(trial.variables, folder / "variables")
    code = f"if=pflash,format=raw,unit=0,readonly=on,file={trial.firmware}"
    words = ["-machine", "q35,smm=on", "-global", "driver=cfi.pflash01,property=secure,value=on"]
    return [*words, "-drive", code, "-drive", f"if=pflash,format=raw,unit=1,file={own}"]


def qemu_words(trial: Trial, joined: Network, folder: Path) -> list[str]:
    words = [*bare_words(trial, joined, "romfile="), "-vga", "std", "-device", "virtio-serial-pci"]
    for name in PORTS:
        words += ["-chardev", f"file,id={name},path={folder / name}"]
        words += ["-device", f"virtserialport,chardev={name},name=netboot.{name}"]
    if trial.stick:
        words += ["-drive", f"if=none,id=stick,format=raw,file={trial.stick}", "-device", "virtio-blk-pci,drive=stick"]
    words += firmware_words(trial, folder)
    return joined.in_client(*words, *start_words(trial, folder / "initramfs"))


def ipxe_words(trial: Trial, joined: Network) -> list[str]:
    card = f"disable-legacy=on,romfile={ROM},bootindex=1"
    return joined.in_client(*bare_words(trial, joined, card), "-vga", "none", "-machine", "graphics=off")


@dataclass(slots=True)
class Ended:
    """How a trial ended: the run's status, where it has one, and what the console said."""

    table: Table
    status: Status | None = None
    why: str | None = None
    has_gone_over: bool = False
    is_found: bool = False


def watch(trial: Trial, words: list[str], table: Table | None = None) -> Ended:
    """Prints the console until the machine ends, what is waited for comes, or the time is over."""
    ended = Ended(table or Table())
    with started(words) as process:
        for seconds, line in lines_of(process, trial.seconds, trial.until):
            print(line, flush=True)
            ended.table.see(line, seconds)
            ended.has_gone_over |= line.startswith(LOADED)
            if line.startswith(CANNOT) and not ended.has_gone_over:
                ended.why = line
            if trial.until and trial.until in line:
                ended.is_found = True
                ended.table.end(f"`{trial.until}`", seconds)
                break
    return ended


def status_of(output: Path) -> Status | None:
    """The run's, by the last record of its output."""
    try:
        records = list(output_of(output))
    except (Refused, OSError):
        return None
    return records[-1].status if records and isinstance(records[-1], Done) else None


@contextmanager
def _served(folder: Path, filename: str) -> Iterator[Network]:
    """A network whose server has these files, and names one of them in its leases."""
    leases = Leases(SERVER + 99, SERVER + 149, MASK, filename)
    with tap_network() as joined, dnsmasq(joined, Tftp(folder), leases), web_server(joined, folder, usual()):
        yield joined


def tried_by_ipxe(trial: Trial, script: bytes, folder: Path) -> Table:
    """How long iPXE's ROM takes for the same script, of which it learns by its lease."""
    folder.mkdir()
    for path in trial.served.resolve().iterdir():
        (folder / path.name).symlink_to(path)
    begin = b"#!ipxe\nset filename %s\n" % trial.filename.encode()
    (folder / BESIDE).write_bytes(begin + FIRST_LINE.sub(b"", script))
    with _served(folder, BESIDE) as joined:
        return watch(trial, ipxe_words(trial, joined), Table("part by iPXE", OF_IPXE)).table


def tried(trial: Trial, folder: Path) -> Ended:
    """Tries a machine; the recordings of its run come into this folder."""
    if trial.starts_from == "kernel":
        image = (trial.machine / "initramfs").read_bytes()
        (folder / "initramfs").write_bytes(with_script(image, trial.script) if trial.script else image)
    with _served(trial.served.resolve(), trial.filename) as joined:
        ended = watch(trial, qemu_words(trial, joined, folder))
    ended.status = status_of(folder / "output")
    return ended
