#!/usr/bin/env python3
"""Builds what starts a machine without a disk, and tries it in QEMU."""

from __future__ import annotations

import argparse
import hashlib
import sys
import tempfile
from pathlib import Path

from shared.apart import check_apart
from shared.command_line import Refused, run
from shared.kernel_files import Kernel, kernel_of, needs_of
from shared.kinds import Status
from shared.machine_image import NEEDS, SOURCES, Contents, initramfs
from shared.machine_media import BY_FIRMWARE, EFI_NEEDS, ISO_NEEDS, SECURE_NEEDS, System, efi_file, iso_file
from shared.machine_media import signed_files
from shared.namespaces import missing
from shared.needed import check_needs
from shared.output import report, writing
from shared.program import program
from shared.virtual_machine import IPXE_NEEDS, Ended, Trial, tried, tried_by_ipxe
from shared.virtual_machine import NEEDS as QEMU_NEEDS
from shared.why import reasons

KERNEL = "linux-image-cloud-amd64"
SCRIPT = SOURCES / "boot.ipxe"
WORDS = "console=tty0 console=ttyS0 quiet"
APPEND = "console=ttyS0"
SECONDS = 600.0
STARTS = {"kernel": ("vmlinuz", "initramfs"), "efi": ("netboot.efi",), "iso": ("netboot.iso",)}

DESCRIPTION = """\
build makes a folder with vmlinuz and initramfs, from which a machine without a disk starts: the
client, which runs there as a user without rights, the bridge that leads it to the card, an init,
and drivers. try starts them in QEMU, without a disk, in a small network inside this machine."""

BUILD = """\
Makes FOLDER/vmlinuz and FOLDER/initramfs; --efi also FOLDER/netboot.efi, which EFI firmware
starts, and --iso FOLDER/netboot.iso, for a CD or a stick, by BIOS or EFI. The kernel is Debian's:
a package that is downloaded, a package's file, or a folder in which boot/vmlinuz-RELEASE and
lib/modules/RELEASE stand, or vmlinuz and the modules of one release. The same client, kernel and
tools give the same bytes. What is missing here is said by its packages' names."""

TRY = """\
Starts the files of FOLDER in QEMU, in a network namespace with a server of leases and of files by
TFTP and HTTP, prints the console and then the seconds that each part took, and ends with the run's
status; with 1 where no run came to its end, where its kernel couldn't be started, or where --until
didn't come. --ipxe shows the same script's seconds by the ROM of QEMU's card beside it. Nothing stays,
also at Ctrl-C. It needs root."""

EPILOG = """\
examples:
  tools/machine.py build --to machine
  tools/machine.py build --to machine --script boot.ipxe --iso --replace
  tools/machine.py build --to machine --kernel / --module r8169      (this Debian machine's kernel)
  tools/machine.py try machine --serve files --file vmlinuz --append console=ttyS0"""


def build_options(made: argparse.ArgumentParser) -> None:
    made.add_argument("--to", type=Path, required=True, metavar="FOLDER", help="where the files are written")
    made.add_argument("--kernel", default=KERNEL, metavar="WHERE",
                      help=f"a folder, a package's file, or a package's name (default {KERNEL})")
    made.add_argument("--release", help="the kernel's, where a folder has several")
    made.add_argument("--module", action="append", default=[], metavar="NAME", help="one more module")
    made.add_argument("--script", type=Path, default=SCRIPT, help="the script, in place of one that boots a lease's file")
    made.add_argument("--program", type=Path, help="the client, in place of the built one")
    made.add_argument("--words", default=WORDS, help=f"the kernel's command line on --efi and --iso (default {WORDS})")
    made.add_argument("--efi", action="store_true", help="make netboot.efi too")
    made.add_argument("--iso", action="store_true", help="make netboot.iso too")
    made.add_argument("--secure", action="store_true",
                      help="make netboot.iso for Secure Boot, which starts it by Debian's shim and GRUB")
    made.add_argument("--replace", action="store_true", help="write over an earlier result")


def try_options(made: argparse.ArgumentParser) -> None:
    made.add_argument("machine", type=Path, metavar="FOLDER", help="what build made")
    made.add_argument("--serve", type=Path, required=True, metavar="FOLDER", help="the files of the server")
    made.add_argument("--file", default="kernel", metavar="NAME", help="the file that the lease names (default kernel)")
    made.add_argument("--script", type=Path, help="the script, in place of the built one")
    made.add_argument("--append", metavar="WORDS", help="words for the kernel that is handed off (default console=ttyS0)")
    made.add_argument("--words", help="more words for the machine's own kernel")
    made.add_argument("--from", dest="starts_from", choices=tuple(STARTS), default="kernel",
                      help="which of the files starts it")
    made.add_argument("--firmware", type=Path, metavar="FILE", help="in place of QEMU's BIOS, as ovmf's OVMF.fd for EFI")
    made.add_argument("--variables", type=Path, metavar="FILE",
                      help="the firmware's, as OVMF_VARS_4M.ms.fd for Secure Boot; a copy is used")
    made.add_argument("--stick", type=Path, metavar="FILE",
                      help="a FAT volume labelled NETBOOT-REC, for later runs' recordings")
    made.add_argument("--ipxe", action="store_true", help="then try the same with iPXE's ROM, for its seconds")
    made.add_argument("--memory", default="1G", help="the machine's (default 1G)")
    made.add_argument("--emulate", action="store_true", help="emulate the processor, also where /dev/kvm is there")
    made.add_argument("--until", metavar="TEXT", help="end when a line of the console has this")
    made.add_argument("--seconds", type=float, default=SECONDS, help=f"end then in any case (default {SECONDS})")
    made.add_argument("--input", type=Path, metavar="FILE", help="keep the run's input recording")
    made.add_argument("--output", type=Path, metavar="FILE", help="keep the run's output recording")


def parse(words: list[str]) -> argparse.Namespace:
    form = argparse.RawDescriptionHelpFormatter
    parser = argparse.ArgumentParser(description=DESCRIPTION, epilog=EPILOG, formatter_class=form)
    commands = parser.add_subparsers(dest="command", required=True, metavar="build|try")
    build_options(commands.add_parser("build", help="make the files", description=BUILD, formatter_class=form))
    try_options(commands.add_parser("try", help="start them in QEMU", description=TRY, formatter_class=form))
    return parser.parse_args(words)


def has_iso(arguments: argparse.Namespace) -> bool:
    return bool(arguments.iso or arguments.secure)


def results_of(arguments: argparse.Namespace) -> list[Path]:
    names = ["vmlinuz", "initramfs", *["netboot.efi"] * arguments.efi, *["netboot.iso"] * has_iso(arguments)]
    return [arguments.to / name for name in names]


def check_place(arguments: argparse.Namespace) -> None:
    """Refuses, before anything is made, what would write over an earlier result or an input."""
    inputs = {"--script": arguments.script, "--program": arguments.program}
    if Path(arguments.kernel).is_file():
        inputs["--kernel"] = Path(arguments.kernel)
    check_apart({path.name: path for path in results_of(arguments)}, inputs)
    there = [path for path in results_of(arguments) if path.exists()]
    if there and not arguments.replace:
        raise Refused(f"{there[0]} is there already; --replace writes over it")


def keep(path: Path, content: bytes) -> None:
    with writing(path) as stream:
        stream.write(content)
    report(path, f"{path}: {len(content):,} bytes, sha256 {hashlib.sha256(content).hexdigest()}")


def files_of(arguments: argparse.Namespace, kernel: Kernel) -> dict[str, bytes]:
    """What is built, by the files' names."""
    script, client = arguments.script.read_bytes(), arguments.program or program()
    image = initramfs(Contents(client, kernel, script, tuple(arguments.module)))
    system = System(kernel.image.read_bytes(), image, arguments.words)
    made = {"vmlinuz": system.kernel, "initramfs": system.initramfs}
    if arguments.efi or arguments.iso:
        made["netboot.efi"] = efi_file(system)
    if arguments.secure:
        made["netboot.iso"] = iso_file(system, signed_files(system.kernel))
    elif arguments.iso:
        made["netboot.iso"] = iso_file(system, {BY_FIRMWARE: made["netboot.efi"]})
    return made


def build(arguments: argparse.Namespace) -> int:
    check_place(arguments)
    media = ISO_NEEDS if has_iso(arguments) else EFI_NEEDS if arguments.efi else ()
    secure = SECURE_NEEDS if arguments.secure else ()
    check_needs((*NEEDS, *needs_of(arguments.kernel), *media, *secure))
    with kernel_of(arguments.kernel, arguments.release) as kernel:
        made = files_of(arguments, kernel)
    arguments.to.mkdir(parents=True, exist_ok=True)
    print(f"Linux {kernel.release}")
    for path in results_of(arguments):
        keep(path, made[path.name])
    return 0


def trial_of(arguments: argparse.Namespace) -> Trial:
    """What is to be tried; a file of media has what it was built with."""
    built_in = {"efi": ("script",), "iso": ("script", "words", "append")}
    for name in built_in.get(arguments.starts_from, ()):
        if getattr(arguments, name) is not None:
            raise Refused(f"--{name}: the {arguments.starts_from} file has what it was built with")
    return Trial(
        machine=arguments.machine,
        starts_from=arguments.starts_from,
        script=arguments.script.read_bytes() if arguments.script else None,
        served=arguments.serve,
        filename=arguments.file,
        append=APPEND if arguments.append is None else arguments.append,
        words=arguments.words or "",
        firmware=arguments.firmware,
        variables=arguments.variables,
        stick=arguments.stick,
        memory=arguments.memory,
        is_emulated=arguments.emulate,
        until=arguments.until,
        seconds=arguments.seconds,
    )


def check_try(arguments: argparse.Namespace) -> None:
    check_apart({"--input": arguments.input, "--output": arguments.output}, {"--script": arguments.script})
    check_needs((*QEMU_NEEDS, *(IPXE_NEEDS if arguments.ipxe else ())))
    why = missing()
    if why:
        raise Refused(why)
    for name in STARTS[arguments.starts_from]:
        if not (arguments.machine / name).is_file():
            raise Refused(f"{arguments.machine / name} isn't there: build makes it")


def status_after(ended: Ended, until: str | None) -> int:
    """The run's status, and why where it isn't enough."""
    if ended.status is None:
        raise Refused("no run came to its end")
    if ended.status == Status.HANDED_OFF and not ended.has_gone_over:
        raise Refused(ended.why or "the machine didn't go over to its kernel")
    if until and not ended.is_found:
        raise Refused(f"`{until}` didn't come")
    return int(ended.status)


def say_why(ended: Ended, folder: Path) -> None:
    """Of a run that handed nothing off, the sentence of show.py --why."""
    if ended.status in (None, Status.HANDED_OFF):
        return
    with (folder / "output").open("rb") as stream:
        print(f"\n{next(reasons(folder / 'output', stream, folder / 'input'))}")


def try_it(arguments: argparse.Namespace) -> int:
    check_try(arguments)
    trial = trial_of(arguments)
    with tempfile.TemporaryDirectory(prefix="netboot-try-") as name:
        ended = tried(trial, Path(name))
        for kind, path in (("input", arguments.input), ("output", arguments.output)):
            if path:
                keep(path, (Path(name) / kind).read_bytes())
        print(f"\n{ended.table}")
        say_why(ended, Path(name))
        if arguments.ipxe:
            print(f"\n{tried_by_ipxe(trial, (arguments.script or SCRIPT).read_bytes(), Path(name) / 'served')}")
    return status_after(ended, trial.until)


COMMANDS = {"build": build, "try": try_it}


def machine(words: list[str]) -> int:
    arguments = parse(words)
    return COMMANDS[arguments.command](arguments)


if __name__ == "__main__":
    raise SystemExit(run(machine, sys.argv))
