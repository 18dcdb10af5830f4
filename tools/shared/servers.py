"""Servers for a small network: dnsmasq for TFTP, for leases by DHCP, and for names by DNS.

A service is a few options of dnsmasq, so that further ones join by their own; a server that is a
program of its own joins by a context manager beside `dnsmasq`.
"""

from __future__ import annotations

import subprocess
import time
from contextlib import contextmanager
from dataclasses import dataclass
from ipaddress import IPv4Address
from pathlib import Path
from typing import Iterator, Protocol

from shared.command_line import Refused
from shared.namespaces import SERVER_ADDRESS, Network

MOST_SECONDS_TO_START = 30.0
TFTP_PORT, DHCP_PORT, DNS_PORT = 69, 67, 53
MINUTES = 60
# one process in the foreground, for this interface alone, with no file of the machine's own
BASE = ("--keep-in-foreground", "--conf-file=/dev/null", "--user=root", "--bind-interfaces")
UDP_SOCKETS = Path("/proc/net/udp")


class Service(Protocol):
    """What dnsmasq is to do."""

    def options(self) -> tuple[str, ...]: ...

    def port(self) -> int:
        """The UDP port at which it answers."""


@dataclass(frozen=True, slots=True)
class Tftp:
    """Serves the files of a folder by TFTP."""

    folder: Path

    def options(self) -> tuple[str, ...]:
        return ("--enable-tftp", f"--tftp-root={self.folder}")

    def port(self) -> int:
        return TFTP_PORT


@dataclass(frozen=True, slots=True)
class Leases:
    """Leases addresses by DHCP, and names a file at the server; nothing of a lease is kept on disk."""

    first: IPv4Address
    last: IPv4Address
    mask: IPv4Address
    filename: str

    def options(self) -> tuple[str, ...]:
        return (
            f"--dhcp-range={self.first},{self.last},{self.mask},{MINUTES}m",
            f"--dhcp-boot={self.filename},,{SERVER_ADDRESS}",
            "--dhcp-authoritative",
            "--leasefile-ro",
            # an address that is to be offered isn't pinged before, which takes seconds
            "--no-ping",
        )

    def port(self) -> int:
        return DHCP_PORT


@dataclass(frozen=True, slots=True)
class Names:
    """Answers by DNS on one name, and knows no other."""

    name: str
    address: IPv4Address

    def options(self) -> tuple[str, ...]:
        own = ("--no-resolv", "--no-hosts")
        return (f"--port={DNS_PORT}", *own, f"--host-record={self.name},{self.address}")

    def port(self) -> int:
        return DNS_PORT


def _is_listening(network: Network, port: int) -> bool:
    seen = subprocess.run(
        network.in_server("cat", str(UDP_SOCKETS)), capture_output=True, text=True, check=False
    )
    return f":{port:04X} " in seen.stdout


@contextmanager
def dnsmasq(network: Network, *services: Service) -> Iterator[None]:
    """Runs dnsmasq for these services at the server's address; names only where one of them says so."""
    options = [option for service in services for option in service.options()]
    if not any(option.startswith("--port=") for option in options):
        options.append("--port=0")
    words = ["dnsmasq", *BASE, f"--listen-address={SERVER_ADDRESS}", *options]
    server = subprocess.Popen(
        network.in_server(*words), stdout=subprocess.PIPE, stderr=subprocess.STDOUT, text=True
    )
    try:
        _wait_for(network, server, services)
        yield
    finally:
        server.terminate()
        server.communicate()


def _wait_for(
    network: Network, server: subprocess.Popen[str], services: tuple[Service, ...]
) -> None:
    until = time.monotonic() + MOST_SECONDS_TO_START
    while not all(_is_listening(network, service.port()) for service in services):
        if server.poll() is not None:
            said = server.stdout.read().strip() if server.stdout else ""
            raise Refused(f"dnsmasq ended: {said}")
        if time.monotonic() > until:
            raise Refused("dnsmasq doesn't listen")
        time.sleep(0.05)
