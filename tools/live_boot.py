#!/usr/bin/env python3
"""Boots for real in a small network inside this machine, and compares what came with what was served."""

from __future__ import annotations

import argparse
import hashlib
import signal
import subprocess
import sys
import tempfile
from contextlib import contextmanager, nullcontext
from dataclasses import dataclass
from ipaddress import IPv4Address, IPv4Network
from pathlib import Path
from random import Random
from typing import Iterator

import boot
from shared.apart import check_apart
from shared.command_line import Refused, run
from shared.kinds import Status
from shared.namespaces import CLIENT_ADDRESS, PREFIX, SERVER_ADDRESS, Network, missing, network
from shared.output import naming
from shared.parts import write_parts
from shared.program import not_runnable, program
from shared.recordings import output_of
from shared.servers import Leases, Names, Service, Tftp, dnsmasq
from shared.web_server import usual, web_server

SKIPPED = 77
MOST_SECONDS = 600
KERNEL_BYTES = 300_001
FILE, SCRIPT = "kernel", "boot.ipxe"
MADE_INITRDS = (bytes(range(256)) * 9, b"the second initrd")
WORDS = "console=ttyS0"
ELF = b"\x7fELF"
NUMBERS = ("key", "w", "uuid")
BRIDGE = Path(__file__).with_name("bridge.py")

DESCRIPTION = """\
Makes two network namespaces with a wire between them, starts dnsmasq as a server in one, and boots
over the wire from the other, in several ways: from an address that is given; by a lease, which says
what to boot from where; from a server whose name is looked up; and by a script that is fetched and boots
a kernel with two initrds and a command line, all by TFTP, all by HTTP (from nginx, where it is there,
or from Python's server), and by a script that the lease names, which comes by TFTP, and the rest by
HTTP. bridge.py leads the built program there, which runs a script for each. What it hands off is
compared with what was served, and the run that was recorded is replayed and compared byte for byte.
Then all of it is taken away.

It needs root, iproute2, dnsmasq, and the built program or the toolchain's `rt`. Where one isn't
there it says so and ends with 77. It ends with 0 where all that passed, with 1 where something
didn't, and with 5 where Ctrl-C or SIGTERM switched a client's power off."""

EPILOG = """\
examples:
  tools/live_boot.py
  tools/live_boot.py --kernel /bin/true --keep kept       (an ELF file, or a Linux kernel)
  tools/live_boot.py --kernel vmlinuz --initrd a.img --initrd b.img --words "console=ttyS0 quiet" --keep kept"""


def parse(words: list[str]) -> argparse.Namespace:
    parser = argparse.ArgumentParser(
        description=DESCRIPTION,
        epilog=EPILOG,
        formatter_class=argparse.RawDescriptionHelpFormatter,
    )
    parser.add_argument("--kernel", type=Path, help="the file to serve, in place of a made one")
    parser.add_argument("--initrd", type=Path, action="append", metavar="FILE",
                        help="an initrd beside it where a script is fetched, in place of the made ones")
    parser.add_argument("--words", default=WORDS, help=f"the kernel's command line there (default {WORDS})")
    parser.add_argument("--way", action="append", choices=WAYS, metavar="WAY",
                        help=f"boot so, in place of in all ways: {', '.join(WAYS)}")
    parser.add_argument("--keep", type=Path, metavar="FOLDER", help="keep recordings and wire here")
    again = parser.add_argument_group("numbers of a run, given to bridge.py; it draws them else")
    for name in NUMBERS:
        again.add_argument(f"--{name}")
    return parser.parse_args(words)


def say(line: str) -> None:
    print(f"live_boot.py: {line}", file=sys.stderr, flush=True)


def made_kernel() -> bytes:
    """A file that begins as an ELF file does, whose last block isn't full, the same each time."""
    return ELF + Random(0).randbytes(KERNEL_BYTES - len(ELF))


@dataclass(frozen=True, slots=True)
class Images:
    """What is served: a kernel, and for the scripts that are fetched initrds and a command line."""

    kernel: bytes
    initrds: tuple[bytes, ...] = MADE_INITRDS
    words: str = WORDS

    def files(self) -> dict[str, bytes]:
        return {FILE: self.kernel, **{initrd_name(number): one for number, one in enumerate(self.initrds)}}

    def script(self, base: str) -> bytes:
        """A script that boots them from there."""
        lines = [f"kernel {base}{FILE} {self.words}", *(f"initrd {base}{initrd_name(k)}" for k in range(len(self.initrds)))]
        return "\n".join(("#!ipxe", *lines, "boot", "")).encode()


def initrd_name(number: int) -> str:
    return f"initrd{number}.img"


class SwitchedOff(Exception):
    """A signal switched the client's power off."""


@contextmanager
def passing_on(bridge: subprocess.Popen[bytes]) -> Iterator[None]:
    """A signal to end goes to the bridge, which switches the client's power off."""
    numbers = (signal.SIGINT, signal.SIGTERM, signal.SIGHUP)
    before = {
        number: signal.signal(number, lambda *_: bridge.send_signal(signal.SIGTERM)) for number in numbers
    }
    try:
        yield
    finally:
        for number, handler in before.items():
            signal.signal(number, handler)


class Boot:
    """One boot over the wire, and the files of it."""

    def __init__(self, joined: Network, folder: Path, numbers: list[str]) -> None:
        self.network, self.folder, self.numbers = joined, folder, numbers
        self.input, self.output = folder / "boot.rec", folder / "boot.out"
        self.pcap = folder / "boot.pcap"

    def run(self, script: str, ip: str | None) -> int:
        """Runs a script through the bridge, with this address by START or none; the run's status."""
        path = self.folder / "boot.ipxe"
        with naming(path):
            path.write_text(script)
        words = [
            sys.executable, str(BRIDGE), str(path), "--run", *self.numbers,
            "--device", self.network.client_device, *(("--ip", ip) if ip else ()),
            "--record", str(self.input), "--output", str(self.output), "--pcap", str(self.pcap),
        ]
        # in a session of its own, so that a terminal's Ctrl-C comes once
        with subprocess.Popen(self.network.in_client(*words), start_new_session=True) as bridge:
            try:
                with passing_on(bridge):
                    return bridge.wait(timeout=MOST_SECONDS)
            except BaseException:
                bridge.kill()
                raise

    def replayed(self) -> bytes:
        """What the program writes over the input that was recorded."""
        again = self.folder / "again.out"
        words = [program(), "replay", self.input.resolve(), again.resolve()]
        subprocess.run(words, cwd=boot.CRATE, capture_output=True, check=False)
        return again.read_bytes()


def compare_parts(booted: Boot, images: Images, is_chained: bool) -> None:
    parts, served = booted.folder / "parts", images.kernel
    write_parts(output_of(booted.output), parts)
    if (parts / "kernel").read_bytes() != served:
        raise Refused("the kernel that was handed off isn't the one that was served")
    say(f"the kernel is the one that was served: {len(served)} bytes, "
        f"sha256 {hashlib.sha256(served).hexdigest()}")
    initrds = [path.read_bytes() for path in sorted(parts.glob("initrd*"))]
    if initrds != (list(images.initrds) if is_chained else []):
        raise Refused("what was handed off beside the kernel isn't what was served")
    if is_chained and (parts / "command-line").read_text() != images.words:
        raise Refused("another command line was handed off than the script gives")


def compare_replay(booted: Boot) -> None:
    if booted.replayed() != booted.output.read_bytes():
        raise Refused("the run that was recorded doesn't replay to the same output")
    say("the recorded run replays to the same output, byte for byte")


@dataclass(frozen=True, slots=True)
class Way:
    """A way to boot: the script's commands, the client's address by START, the services beside TFTP, from where the
    script that is fetched has its files, and whether a web server serves them too."""

    commands: tuple[str, ...]
    ip: str | None = None
    services: tuple[Service, ...] = ()
    base: str | None = None
    is_web: bool = False


NET = IPv4Network(f"{SERVER_ADDRESS}/{PREFIX}", strict=False)
SERVER = IPv4Address(SERVER_ADDRESS)
LEASES = Leases(SERVER + 99, SERVER + 149, NET.netmask, FILE)
SCRIPT_LEASES = Leases(SERVER + 99, SERVER + 149, NET.netmask, SCRIPT)
NAMES = Names("boot.test", SERVER)

# What is booted over.
WAYS = {
    "TFTP": Way((f"imgexec tftp://{SERVER_ADDRESS}/{FILE}",), f"{CLIENT_ADDRESS}/{PREFIX}"),
    "DHCP": Way(("dhcp", "imgexec tftp://${next-server}/${filename}"), None, (LEASES,)),
    "DNS": Way(
        (
            "dhcp",
            f"nslookup server {NAMES.name}",
            "ping ${server}",
            f"ping {NAMES.name}",
            f"imgexec tftp://{NAMES.name}/${{filename}}",
        ),
        None,
        (LEASES, NAMES),
    ),
    "script": Way((f"chain tftp://{SERVER_ADDRESS}/{SCRIPT}",), f"{CLIENT_ADDRESS}/{PREFIX}", base=""),
    "HTTP": Way((f"chain http://{SERVER_ADDRESS}/{SCRIPT}",), f"{CLIENT_ADDRESS}/{PREFIX}", base="", is_web=True),
    "lease": Way(
        ("dhcp", "chain tftp://${next-server}/${filename}"), None, (SCRIPT_LEASES,), "http://${next-server}/", True
    ),
}


def boot_by(name: str, joined: Network, folder: Path, images: Images, numbers: list[str]) -> None:
    """Boots in one of the ways, and compares what came of it."""
    way, root = WAYS[name], folder / "tftp"
    root.mkdir()
    root.chmod(0o755)
    served = {FILE: images.kernel} if way.base is None else {**images.files(), SCRIPT: images.script(way.base)}
    for file, content in served.items():
        with naming(root / file):
            (root / file).write_bytes(content)
    booted = Boot(joined, folder, numbers)
    web = web_server(joined, root, usual()) if way.is_web else nullcontext()
    with dnsmasq(joined, Tftp(root), *way.services), web:
        status = booted.run("\n".join(("#!ipxe", *way.commands, "")), way.ip)
    if status == Status.UNFINISHED:
        raise SwitchedOff
    if status != 0:
        raise Refused(f"the boot by {name} ended with status {status}: {boot.STATUSES.get(status)}")
    compare_parts(booted, images, way.base is not None)
    compare_replay(booted)


def boot_all(arguments: argparse.Namespace, images: Images) -> int:
    given = ((name, getattr(arguments, name)) for name in NUMBERS)
    numbers = [f"--{name}={value}" for name, value in given if value is not None]
    with tempfile.TemporaryDirectory(prefix="netboot-") as name, network() as joined:
        for way in arguments.way or WAYS:
            folder = (arguments.keep or Path(name)).resolve() / way.lower()
            folder.mkdir(parents=True)
            try:
                boot_by(way, joined, folder, images, numbers)
            except SwitchedOff:
                say(f"booting by {way}: switched off")
                return int(Status.UNFINISHED)
            say(f"booting by {way}: passed")
    return 0


def live_boot(words: list[str]) -> int:
    arguments = parse(words)
    initrds = arguments.initrd or []
    check_apart({"--keep": arguments.keep}, {"--kernel": arguments.kernel, **{f"--initrd {path}": path for path in initrds}})
    why = missing("dnsmasq") or not_runnable()
    if why:
        say(f"skipped: {why}")
        return SKIPPED
    kernel = arguments.kernel.read_bytes() if arguments.kernel else made_kernel()
    images = Images(kernel, tuple(path.read_bytes() for path in initrds) or MADE_INITRDS, arguments.words)
    # compiled before there is a network, where it isn't built
    program()
    return boot_all(arguments, images)


if __name__ == "__main__":
    raise SystemExit(run(live_boot, sys.argv))
