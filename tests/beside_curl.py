#!/usr/bin/env python3
"""Measures a fetch by HTTP over one wire, in this machine: by the client over the bridge in C, and by curl."""

from __future__ import annotations

import argparse
import os
import subprocess
import sys
import tempfile
import time
from contextlib import contextmanager
from dataclasses import dataclass, field
from functools import partial
from ipaddress import IPv4Network
from pathlib import Path
from random import Random
from typing import Callable, Iterator

sys.path[:0] = [str(Path(__file__).resolve().parent.parent / name) for name in ("", "tools")]

from shared.command_line import Refused, run  # noqa: E402
from shared.kinds import Status  # noqa: E402
from shared.machine_image import NEEDS, PROGRAMS, SOURCES, compiler  # noqa: E402
from shared.namespaces import CLIENT_ADDRESS, PREFIX, SERVER_ADDRESS, Network, missing, network  # noqa: E402
from shared.needed import Need, missing_packages  # noqa: E402
from shared.program import not_runnable, program  # noqa: E402
from shared.web_server import usual, web_server  # noqa: E402

SKIPPED = 77
PRIORITY = 10
MEGABYTE = 1_000_000
MEMORY = Path("/dev/shm")
WEB_NEEDS = (*NEEDS, Need("curl", "curl"), Need("ip", "iproute2"))
ELF = b"\x7fELF"
# the file, and one of which the time is what a fetch takes in any case
IMAGE, SMALL, SMALL_BYTES = "image", "small", 1_000
ADDRESS = f"ifopen\nset net0/ip {CLIENT_ADDRESS}\nset net0/netmask 255.255.255.0\n"
FETCHES, BOOTS = ("imgfetch", Status.ENDED), ("imgexec", Status.HANDED_OFF)
# Linux's usual one, whatever this machine's is
CONGESTION = "cubic"
AVAILABLE = Path("/proc/sys/net/ipv4/tcp_available_congestion_control")

DESCRIPTION = """\
Measures how long a file takes by HTTP between two network namespaces, from nginx where it is there: by the
client over the bridge in C, as in a machine without a disk, and by curl. Each packet is one of the wire's, of
1,500 bytes at most, as the client takes them, and the server's congestion control is Linux's usual one. The
seconds are those from a process's start to its end, the best of several, in turn; a small file's are those
that a fetch takes in any case. The client fetches only, as curl does, or also hands off what it fetched, which
the bridge keeps, or fetches the small file first, as a boot does whose script the server sends: then the file's
seconds are those that it adds. It needs root, iproute2, curl, gcc and the built program."""


@dataclass(slots=True)
class Runner:
    """Who fetches: how, and the best seconds so far, with the processor's seconds of that run."""

    name: str
    runs: Callable[[], None]
    best: float = float("inf")
    processor: float = 0.0

    def measure(self) -> None:
        used, begun = _children(), time.monotonic()
        self.runs()
        seconds = time.monotonic() - begun
        if seconds < self.best:
            self.best, self.processor = seconds, _children() - used


@dataclass(slots=True)
class Wire:
    """The network, and the files of what is measured."""

    network: Network
    folder: Path
    image: bytes
    client: Path
    bridge: Path = field(init=False)

    def __post_init__(self) -> None:
        self.bridge, card = (_compiled(name, self.folder) for name in ("bridge", "card"))
        _check(self.network.in_client(str(card), "up", self.network.client_device))

    def by_client(self, way: tuple[str, Status], *names: str) -> None:
        """By a script that fetches these one after another, the last one in this way."""
        command, status = way
        parts, script = self.folder / "parts", self.folder / "boot.ipxe"
        before = "".join(f"imgfetch {_uri(name)}\n" for name in names[:-1])
        script.write_text(f"#!ipxe\n{ADDRESS}{before}{command} {_uri(names[-1])}\n")
        words = [str(self.bridge), "-i", self.network.client_device, "-d", str(parts), str(script)]
        _check(self.network.in_client(*words, str(self.client)), status)
        kernel = parts / "kernel"
        if kernel.exists() and kernel.read_bytes() != self.image:
            raise Refused("what was handed off isn't what was served")
        for path in parts.iterdir():
            path.unlink()

    def by_curl(self, name: str) -> None:
        to = str(self.folder / "fetched")
        _check(self.network.in_client("curl", "--silent", "--fail", "--output", to, _uri(name)))

    @contextmanager
    def with_address(self) -> Iterator[None]:
        """While curl runs the system has the address that the client has else."""
        own = [f"{CLIENT_ADDRESS}/{PREFIX}", "dev", self.network.client_device]
        _check(["ip", "-n", self.network.client, "address", "add", *own])
        try:
            yield
        finally:
            _check(["ip", "-n", self.network.client, "address", "del", *own])


def _uri(name: str) -> str:
    return f"http://{SERVER_ADDRESS}/{name}"


def _children() -> float:
    used = os.times()
    return used.children_user + used.children_system


def _check(words: list[str], status: int = 0) -> None:
    done = subprocess.run(words, capture_output=True, text=True, check=False)
    if done.returncode != status:
        raise Refused(f"{words[0]} ended with {done.returncode}: {(done.stdout + done.stderr).strip()[-1_000:]}")


def _compiled(name: str, folder: Path) -> Path:
    """A program of the machine, as its build compiles it."""
    sources = [str(SOURCES / source) for source in PROGRAMS[name]]
    _check([*compiler(), "-O2", "-static", "-s", "-o", str(folder / name), *sources])
    return folder / name


def parse(words: list[str]) -> argparse.Namespace:
    parser = argparse.ArgumentParser(description=DESCRIPTION, formatter_class=argparse.RawDescriptionHelpFormatter)
    parser.add_argument("--megabytes", type=int, default=60, metavar="N", help="the file's length (default 60)")
    parser.add_argument("--times", type=int, default=7, metavar="N", help="runs of each (default 7)")
    parser.add_argument("--mbits", type=int, metavar="N", help="the wire's rate, in Mbit/s, in place of what comes")
    parser.add_argument("--client", type=Path, help="the client, in place of the built one")
    return parser.parse_args(words)


def go_first() -> None:
    """All that is measured goes before other work on the machine (sched(7)), as where there is none."""
    os.sched_setscheduler(0, os.SCHED_FIFO, os.sched_param(PRIORITY))


def make_wire(joined: Network, mbits: int | None) -> None:
    """No packet is longer than a wire's; and a rate, where one is wanted."""
    device = ["dev", joined.server_device]
    _check(["ip", "-n", joined.server, "link", "set", *device, "gso_max_segs", "1"])
    if CONGESTION in AVAILABLE.read_text().split():
        route = [str(IPv4Network(f"{SERVER_ADDRESS}/{PREFIX}", strict=False)), *device, "proto", "kernel", "scope", "link"]
        _check(["ip", "-n", joined.server, "route", "change", *route, "src", SERVER_ADDRESS, "congctl", CONGESTION])
    if mbits:
        shaped = ["tbf", "rate", f"{mbits}mbit", "burst", "32kb", "latency", "100ms"]
        _check(["tc", "-n", joined.server, "qdisc", "add", *device, "root", *shaped])


def measure(wire: Wire, times: int) -> list[Runner]:
    """Each in turn, so that what else the machine does comes to all of them; curl's first."""
    curl = [Runner(f"curl, {name}", partial(wire.by_curl, name)) for name in (SMALL, IMAGE)]
    ours = [Runner(f"the client, {name}", partial(wire.by_client, FETCHES, name)) for name in (SMALL, IMAGE)]
    ours.append(Runner(f"the client, {IMAGE}, handed off", partial(wire.by_client, BOOTS, IMAGE)))
    ours.append(Runner(f"the client, {SMALL}, then {IMAGE}", partial(wire.by_client, FETCHES, SMALL, IMAGE)))
    for _ in range(times):
        with wire.with_address():
            for one in curl:
                one.measure()
        for one in ours:
            one.measure()
    return [*curl, *ours]


def report(runners: list[Runner], size: int) -> None:
    small, image, our_small, ours, handed_off, second = runners
    for one in runners:
        print(f"{one.name:30} {one.best:7.3f} s, processor {one.processor:6.3f} s")
    for one, before, beside in ((image, small, image), (ours, our_small, image), (handed_off, our_small, image)):
        more = one.best - before.best
        print(f"{one.name:30} {one.best / beside.best:6.2f} times curl's, {size / one.best / MEGABYTE:7.1f} MB/s; "
              f"over the small file {more / (image.best - small.best):6.2f} times, {size / more / MEGABYTE:7.1f} MB/s")
    after = second.best - our_small.best
    print(f"{IMAGE} by the client, after {SMALL} from the same server: {after:.3f} s, {after / image.best:.2f} times curl's")


def beside_curl(words: list[str]) -> int:
    arguments = parse(words)
    why = missing("tc") or missing_packages(WEB_NEEDS) or (None if arguments.client else not_runnable())
    if why:
        print(f"beside_curl.py: skipped: {why}", file=sys.stderr)
        return SKIPPED
    client = (arguments.client or program()).resolve()
    image = ELF + Random(0).randbytes(arguments.megabytes * MEGABYTE - len(ELF))
    go_first()
    base = MEMORY if MEMORY.is_dir() else None
    with tempfile.TemporaryDirectory(prefix="netboot-", dir=base) as name, network() as joined:
        folder = Path(name)
        (folder / "served").mkdir()
        (folder / "served" / IMAGE).write_bytes(image)
        (folder / "served" / SMALL).write_bytes(image[:SMALL_BYTES])
        make_wire(joined, arguments.mbits)
        wire = Wire(joined, folder, image, client)
        with web_server(joined, folder / "served", usual()):
            report(measure(wire, arguments.times), len(image))
    return 0


if __name__ == "__main__":
    raise SystemExit(run(beside_curl, sys.argv))
