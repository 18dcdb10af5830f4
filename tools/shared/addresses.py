"""Hardware and IPv4 addresses as words of a command, and which of them a client can have."""

from __future__ import annotations

import argparse
import re
from dataclasses import dataclass
from ipaddress import IPv4Address, IPv4Network

UNSET = IPv4Address(0)
GROUP_BIT = 1
WIDTH = 32
# with a longer prefix a net has no addresses of its own for itself and for all
LONGEST_WITH_OWN = 30


def mac(text: str) -> bytes:
    if not re.fullmatch("[0-9a-fA-F]{2}(:[0-9a-fA-F]{2}){5}", text):
        raise argparse.ArgumentTypeError(f"{text} is no hardware address, as 52:54:00:00:00:01 is")
    address = bytes.fromhex(text.replace(":", ""))
    if address[0] & GROUP_BIT or address == bytes(6):
        raise argparse.ArgumentTypeError(f"{text} is no address of one device")
    return address


def host(text: str) -> IPv4Address:
    """An address that one host can have, or 0.0.0.0, which means none."""
    try:
        address = IPv4Address(text)
    except ValueError:
        raise argparse.ArgumentTypeError(f"{text} is no IPv4 address") from None
    is_host = not (address.is_multicast or address.is_loopback or address.packed[0] in (0, 255))
    if address != UNSET and not is_host:
        raise argparse.ArgumentTypeError(f"{text} is no address of one host")
    return address


def mask(text: str) -> IPv4Address:
    """A mask: ones, and then zeros."""
    try:
        address = IPv4Address(text)
    except ValueError:
        raise argparse.ArgumentTypeError(f"{text} is no mask, as 255.255.255.0 is") from None
    holes = int(address) | (int(address) - 1 if int(address) else 0)
    if address != UNSET and holes != 2**WIDTH - 1:
        raise argparse.ArgumentTypeError(f"{text} is no mask: its ones must stand first")
    return address


@dataclass(frozen=True, slots=True)
class HostInNet:
    """A host's address, and the mask where it was given with it, as 10.0.0.2/24."""

    ip: IPv4Address
    mask: IPv4Address | None


def host_in_net(text: str) -> HostInNet:
    address, slash, length = text.partition("/")
    if not slash:
        return HostInNet(host(address), None)
    if not re.fullmatch("[1-9]|[12][0-9]|3[0-2]", length):
        raise argparse.ArgumentTypeError(f"/{length} is no length of a prefix, 1 to {WIDTH}")
    return HostInNet(host(address), IPv4Network(f"0.0.0.0/{length}").netmask)


def fault(ip: IPv4Address, mask_: IPv4Address, gateway: IPv4Address) -> str | None:
    """Why a client can't have these addresses together, if it can't."""
    if ip == UNSET or mask_ == UNSET:
        return None
    net = IPv4Network(f"{ip}/{mask_}", strict=False)
    if net.prefixlen <= LONGEST_WITH_OWN:
        if ip == net.network_address:
            return f"{ip} is the address of the net {net} itself"
        if ip == net.broadcast_address:
            return f"{ip} is the broadcast address of the net {net}"
    if gateway != UNSET and gateway not in net:
        return f"the gateway {gateway} is not in the client's net {net}"
    return None
