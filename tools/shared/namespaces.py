"""A small network inside this machine: two network namespaces, joined by a pair of interfaces.

The server's end has an address. The client's has none: it is the bridge's, and the host leaves it
alone. Making one needs root and iproute2's `ip`; nothing of it outlives the command.
"""

from __future__ import annotations

import os
import shutil
import subprocess
from contextlib import contextmanager
from dataclasses import dataclass
from typing import Iterator

from shared.command_line import Refused

SERVER_ADDRESS, CLIENT_ADDRESS, PREFIX = "10.77.0.1", "10.77.0.2", 24


@dataclass(frozen=True, slots=True)
class Network:
    """The two namespaces, and the interface of each."""

    server: str
    client: str
    server_device: str
    client_device: str

    def in_server(self, *words: str) -> list[str]:
        return ["ip", "netns", "exec", self.server, *words]

    def in_client(self, *words: str) -> list[str]:
        return ["ip", "netns", "exec", self.client, *words]


def missing(*programs: str) -> str | None:
    """What isn't there for a network and these programs in it, in words, if anything."""
    if os.geteuid() != 0:
        return "making network namespaces needs root"
    absent = [name for name in ("ip", *programs) if shutil.which(name) is None]
    if absent:
        return f"{' and '.join(absent)} {'is' if len(absent) == 1 else 'are'} missing"
    tried = subprocess.run(
        ["unshare", "--net", "true"], capture_output=True, text=True, check=False
    )
    if tried.returncode:
        return f"this system makes no network namespaces: {tried.stderr.strip()}"
    return None


def _ip(line: str) -> None:
    done = subprocess.run(["ip", *line.split()], capture_output=True, text=True, check=False)
    if done.returncode:
        raise Refused(f"ip {line}: {done.stderr.strip()}")


@contextmanager
def network() -> Iterator[Network]:
    """Makes the network, and takes it away afterwards whatever happened."""
    mark = os.getpid()
    made = Network(f"netboot-s-{mark}", f"netboot-c-{mark}", f"nbs{mark}", f"nbc{mark}")
    try:
        _ip(f"netns add {made.server}")
        _ip(f"netns add {made.client}")
        _ip(f"link add {made.server_device} netns {made.server} type veth "
            f"peer name {made.client_device} netns {made.client}")
        _ip(f"-n {made.server} address add {SERVER_ADDRESS}/{PREFIX} dev {made.server_device}")
        for space, device in ((made.server, made.server_device), (made.client, made.client_device)):
            _ip(f"-n {space} link set lo up")
            _ip(f"-n {space} link set {device} up")
        yield made
    finally:
        for space in (made.client, made.server):
            _delete(space)


def _delete(space: str) -> None:
    subprocess.run(["ip", "netns", "delete", space], capture_output=True, check=False)


@contextmanager
def tap_network() -> Iterator[Network]:
    """One namespace for both ends, where a virtual machine has the other end of a tap; it goes as `network` does."""
    space, tap = f"netboot-t-{os.getpid()}", "tap0"
    try:
        _ip(f"netns add {space}")
        _ip(f"-n {space} link set lo up")
        _ip(f"-n {space} tuntap add {tap} mode tap")
        _ip(f"-n {space} address add {SERVER_ADDRESS}/{PREFIX} dev {tap}")
        _ip(f"-n {space} link set {tap} up")
        yield Network(space, space, tap, tap)
    finally:
        _delete(space)
