#!/usr/bin/env python3
"""Measures a fetch by TFTP over a real wire: the program beside a client that only acknowledges."""

from __future__ import annotations

import argparse
import os
import subprocess
import sys
import tempfile
import time
from dataclasses import dataclass
from pathlib import Path
from random import Random

TOP = Path(__file__).resolve().parent.parent
sys.path.insert(0, str(TOP / "tools"))

import boot  # noqa: E402
from compiler import build, has_compiler  # noqa: E402
from shared.command_line import Refused, run  # noqa: E402
from shared.namespaces import (  # noqa: E402
    CLIENT_ADDRESS,
    PREFIX,
    SERVER_ADDRESS,
    Network,
    missing,
    network,
)
from shared.servers import Tftp, dnsmasq  # noqa: E402

ELF = b"\x7fELF"
MEBIBYTE = 1 << 20
# both clients ask for blocks of this size, and dnsmasq grants it (RFC 2348)
BLOCK = 1432
MOST_MEBIBYTES = 31
PEER_HOST, PEER_PORT = "127.0.0.1", 7000
HERE = Path(__file__).resolve().parent
BRIDGE = TOP / "tools" / "bridge.py"
SKIPPED = 77
PRIORITY = -20

DESCRIPTION = """\
Measures how long a fetch by TFTP takes through bridge.py between two network namespaces, with
dnsmasq as the server: by the built program, and by a client in C that only acknowledges. The times
run from the client's start to its end. It needs root, iproute2, dnsmasq, cc and the built program."""


@dataclass(frozen=True, slots=True)
class Fetched:
    """A fetch: its seconds, and the processor's seconds of the client and of the bridge."""

    seconds: float
    client: float
    bridge: float


def parse(words: list[str]) -> argparse.Namespace:
    parser = argparse.ArgumentParser(
        description=DESCRIPTION, formatter_class=argparse.RawDescriptionHelpFormatter
    )
    parser.add_argument("--mebibytes", type=int, default=30, choices=range(1, MOST_MEBIBYTES + 1),
                        metavar="N", help="the file's length (default 30)")
    parser.add_argument("--times", type=int, default=3, help="fetches by each (default 3)")
    return parser.parse_args(words)


def _waited(process: subprocess.Popen[str]) -> float:
    """The processor's seconds of a child that is waited for."""
    _, status, used = os.wait4(process.pid, 0)
    process.returncode = os.waitstatus_to_exitcode(status)
    return used.ru_utime + used.ru_stime


def fetch(joined: Network, script: Path, client: list[str], number: int) -> Fetched:
    """One fetch by a client through a bridge of its own, from a port of its own."""
    place = f"{PEER_HOST}:{PEER_PORT}"
    words = [sys.executable, str(BRIDGE), str(script), "--quiet", "--listen", place,
             "--device", joined.client_device, "--ip", f"{CLIENT_ADDRESS}/{PREFIX}",
             "--w", str(number)]
    bridge = subprocess.Popen(joined.in_client(*words), stderr=subprocess.PIPE, text=True)
    assert bridge.stderr is not None
    try:
        for line in bridge.stderr:
            if "waiting for" in line:
                break
        begun = time.monotonic()
        running = subprocess.Popen(joined.in_client(*client), text=True)
        used = _waited(running)
        seconds = time.monotonic() - begun
        said = bridge.stderr.read()
        used_by_bridge = _waited(bridge)
    finally:
        if bridge.returncode is None:
            bridge.kill()
    if running.returncode != 0:
        raise Refused(f"{client[0]} ended with {running.returncode}: {said.strip()}")
    return Fetched(seconds, used, used_by_bridge)


def report(name: str, length: int, best: Fetched) -> None:
    blocks = length // BLOCK + 1
    print(f"{name}: {best.seconds:.2f} s, {length / best.seconds / 1e6:.2f} MB/s, "
          f"{best.seconds / blocks * 1e6:.0f} us a block; processor: client {best.client:.2f} s, "
          f"bridge {best.bridge:.2f} s")


def measure(folder: Path, joined: Network, arguments: argparse.Namespace) -> None:
    length = arguments.mebibytes * MEBIBYTE
    root = folder / "tftp"
    root.mkdir()
    (root / "kernel").write_bytes(ELF + Random(0).randbytes(length - len(ELF)))
    script = folder / "boot.ipxe"
    script.write_text(f"#!ipxe\nimgexec tftp://{SERVER_ADDRESS}/kernel\n")
    minimal = str(build(HERE / "acknowledge.c", folder))
    clients = {
        "netboot": [str(boot.BUILT), "live", f"{PEER_HOST}:{PEER_PORT}"],
        "a client that only acknowledges": [minimal, PEER_HOST, str(PEER_PORT), SERVER_ADDRESS, "kernel"],
    }
    best: dict[str, Fetched] = {}
    with dnsmasq(joined, Tftp(root)):
        for number in range(arguments.times):
            for name, words in clients.items():
                fetched = fetch(joined, script, words, number)
                best[name] = min(best.get(name, fetched), fetched, key=lambda f: f.seconds)
    for name, fetched in best.items():
        report(name, length, fetched)
    ours, theirs = (fetched.seconds for fetched in best.values())
    print(f"netboot takes {ours / theirs:.2f} times as long; the best of {arguments.times} each")


def live(words: list[str]) -> int:
    arguments = parse(words)
    why = missing("dnsmasq") or (None if has_compiler() else "cc is missing")
    why = why or (None if boot.is_built() else "the program isn't built")
    if why:
        print(f"live.py: skipped: {why}", file=sys.stderr)
        return SKIPPED
    # All that is measured goes before other work on the machine.
    os.setpriority(os.PRIO_PROCESS, 0, PRIORITY)
    with tempfile.TemporaryDirectory(prefix="netboot-") as name, network() as joined:
        measure(Path(name), joined, arguments)
    return 0


if __name__ == "__main__":
    raise SystemExit(run(live, sys.argv))
