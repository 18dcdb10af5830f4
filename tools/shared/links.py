"""The client's way to other hosts, as far as commands changed it, and why there is none, in words."""

from __future__ import annotations

from dataclasses import dataclass, replace
from ipaddress import IPv4Address

from shared.leases import UNSET, Lease
from shared.records import Command, Start
from shared.texts import word

SETTERS = (b"set", b"clear", b"inc", b"nslookup")
# a mask that isn't set stands for this one
USUAL_MASK = IPv4Address("255.255.255.0")


@dataclass(frozen=True, slots=True)
class Link:
    """What commands did to the client's link since START: other ones than these three change the device's settings.

    `lease` is the step in which the lease was given that the client holds.
    """

    lease: int | None = None
    is_down: bool = False
    is_changed: bool = False

    def up(self) -> Link:
        """A lease is asked for: the device is set up first, whatever comes of it."""
        return replace(self, is_down=False)

    def leased(self, step: int) -> Link:
        return replace(self, lease=step)

    def after(self, command: Command) -> Link:
        """The link after another command that went well."""
        name, *words = command.words
        if name in (b"ifopen", b"ifclose"):
            return replace(self, is_down=name == b"ifclose")
        is_change = name in SETTERS and bool(words) and words[0].startswith(b"net0")
        return replace(self, is_changed=True) if is_change else self


def no_route(host: str, start: Start | None, link: Link, lease: Lease | None) -> str:
    """Why there is no way to a host; the lease is that of the link, where it is known."""
    if link.is_down:
        return f"there was no route to {host}: the device was down, by `ifclose`"
    if start is None:
        return f"there is no route to {host}"
    if link.lease is None and not link.is_changed:
        return _no_route_by_start(host, start)
    if lease and lease.gateway is None and start.ip == UNSET and not link.is_changed:
        return _no_route_by_lease(host, lease)
    return f"there was no route to {host} then: net0's settings lead there by none"


def _no_route_by_start(host: str, start: Start) -> str:
    if start.ip == UNSET:
        return f"the client has no address, so it can't reach {host}: give one by --ip, or take a lease by `dhcp`"
    return f"{host} is outside the client's net {net_of(start.ip, start.mask)}, and no gateway is set"


def _no_route_by_lease(host: str, lease: Lease) -> str:
    if lease.address is None:
        return f"the client has no address, so it can't reach {host}: the lease from {lease.server} gives none"
    net = net_of(lease.address, lease.mask or UNSET)
    return f"{host} is outside the client's net {net}, and the lease from {lease.server} gives no gateway"


def no_name_server(host: bytes, lease: Lease | None) -> str:
    """Why nobody can be asked for a host's address; the lease is that which the client holds."""
    sentence = f"{word(host)} is a name, and no name server is set that can be asked for its address"
    if lease and lease.name_server is None:
        return f"{sentence}: the lease from {lease.server} gives none"
    return f"{sentence}: `dns` comes by `dhcp`, by `set dns ADDRESS` or by --dns"


def net_of(ip: IPv4Address, mask: IPv4Address) -> str:
    """The net of an address, by the length of its prefix, or by a mask whose ones don't stand first."""
    mask = USUAL_MASK if mask == UNSET else mask
    ones = f"{int(mask):032b}".rstrip("0")
    return f"{IPv4Address(int(ip) & int(mask))}/{mask if '0' in ones else len(ones)}"
