"""The wire of a live run: a network interface of this machine (packet(7)), or a tap that is there or is made.

Both give frames as they are on the wire, without their check sequence. Opening one needs root, or
the capabilities CAP_NET_RAW and CAP_NET_ADMIN; a tap that is there and up needs its owner alone.
"""

from __future__ import annotations

import errno
import fcntl
import os
import socket
import struct
from dataclasses import dataclass
from ipaddress import IPv4Address
from pathlib import Path
from typing import Protocol

from shared import checksums
from shared.command_line import Refused

ALL_PROTOCOLS = 3
# an IPv4 packet with its Ethernet header: frames that were joined may have so many
MOST_BYTES = 14 + 65_535
NAME_BYTES = 15
# linux/if_packet.h
OUTGOING = 4
SOL_PACKET = 263
ADD_MEMBERSHIP = 1
AUXDATA = 8
PROMISCUOUS = 1
AUXDATA_LAYOUT = struct.Struct("=IIIHHHH")
CHECKSUM_NOT_READY = 1 << 3
VLAN_WAS_THERE = 1 << 4
# linux/sockios.h and linux/if.h
GET_FLAGS, SET_FLAGS = 0x8913, 0x8914
GET_ADDRESS, GET_MASK, GET_HARDWARE = 0x8915, 0x891B, 0x8927
IS_UP, HAS_LINK = 1, 0x40
# linux/if_tun.h
SET_TUN = 0x400454CA
TAP_WITHOUT_HEAD = 0x0002 | 0x1000
TUN_FILE = Path("/dev/net/tun")
MIN_ON_WIRE = 60


class Device(Protocol):
    """Where frames come from and go to."""

    name: str
    mac: bytes | None

    def fileno(self) -> int: ...

    def receive(self) -> bytes | None:
        """The next frame, or None where it isn't for anybody here. `BlockingIOError`: none waits."""

    def send(self, frame: bytes) -> None: ...

    def close(self) -> None: ...


@dataclass(frozen=True, slots=True)
class HostAddress:
    """An address that this machine has on an interface."""

    ip: IPv4Address
    mask: IPv4Address


def _request(name: str, number: int, rest: bytes = b"") -> bytes | None:
    """What the system answers of an interface, without its name; None where it has no such thing."""
    with socket.socket(socket.AF_INET, socket.SOCK_DGRAM) as asking:
        packed = name.encode().ljust(16, b"\0") + rest.ljust(24, b"\0")
        try:
            return fcntl.ioctl(asking, number, packed)[16:]
        except OSError:
            return None


def host_address(name: str) -> HostAddress | None:
    """The IPv4 address that this machine itself has on an interface."""
    address, mask = _request(name, GET_ADDRESS), _request(name, GET_MASK)
    if address is None or mask is None:
        return None
    return HostAddress(IPv4Address(address[4:8]), IPv4Address(mask[4:8]))


def silence(name: str, seconds: int) -> str:
    """That no frame came in these seconds, and what of the device may be why."""
    line = f"{name}: no frame for the client or for all came for {seconds} s"
    flags = _request(name, GET_FLAGS)
    if flags is None:
        return line
    if not _number(flags) & IS_UP:
        return f"{line}, as it is down; `ip link set {name} up` brings it up"
    if not _number(flags) & HAS_LINK:
        return f"{line}, as it has no link: nobody is at its other end"
    return f"{line}; is it the network that was meant?"


def _check_name(name: str) -> None:
    if not 0 < len(name.encode()) <= NAME_BYTES or "/" in name:
        raise Refused(f"{name} is no name of an interface")


def _raise(name: str) -> None:
    """Brings an interface up."""
    flags = _request(name, GET_FLAGS)
    if flags is None or _request(name, SET_FLAGS, struct.pack("=H", _number(flags) | IS_UP)) is None:
        raise Refused(f"{name} can't be brought up")


def _number(data: bytes) -> int:
    return struct.unpack("=H", data[:2])[0]


def _is_plain_udp(frame: bytes) -> bool:
    """Whether it is a datagram in an IPv4 packet without options that isn't a fragment."""
    is_one = frame[12:15] == b"\x08\x00\x45" and frame[23:24] == b"\x11"
    return is_one and frame[20] & 0x3F == 0 and frame[21] == 0


def completed(frame: bytes) -> bytes:
    """The frame with the checksum that its sender left to a card; quick for plain datagrams."""
    if not _is_plain_udp(frame):
        return checksums.filled(frame)
    end = 14 + int.from_bytes(frame[16:18], "big")
    rest = frame[42:end]
    pseudo = frame[26:34] + b"\0\x11" + frame[38:40]
    summed = pseudo + frame[34:40] + rest + bytes(len(rest) & 1)
    # A sum of 16-bit words is the whole number's remainder (RFC 1071, section 2).
    total = 0xFFFF - int.from_bytes(summed, "big") % 0xFFFF
    return frame[:40] + total.to_bytes(2, "big") + frame[42:]


class Interface:
    """An interface of this machine. It takes every frame that comes, and none that the host sends."""

    def __init__(self, name: str) -> None:
        _check_name(name)
        self.name = name
        try:
            self.socket = socket.socket(
                socket.AF_PACKET, socket.SOCK_RAW, socket.htons(ALL_PROTOCOLS)
            )
        except PermissionError:
            raise Refused("opening an interface needs root (or CAP_NET_RAW)") from None
        try:
            self.socket.bind((name, ALL_PROTOCOLS))
            self._prepare()
        except OSError as error:
            self.socket.close()
            raise Refused(f"{name}: {error.strerror}") from error

    def _prepare(self) -> None:
        hardware = _request(self.name, GET_HARDWARE)
        self.mac: bytes | None = hardware[2:8] if hardware else None
        flags = _request(self.name, GET_FLAGS)
        if flags is not None and not _number(flags) & IS_UP:
            raise Refused(f"{self.name} is down; `ip link set {self.name} up` brings it up")
        every = struct.pack("=iHH8s", socket.if_nametoindex(self.name), PROMISCUOUS, 0, bytes(8))
        self.socket.setsockopt(SOL_PACKET, ADD_MEMBERSHIP, every)
        self.socket.setsockopt(SOL_PACKET, AUXDATA, 1)
        self.socket.setsockopt(socket.SOL_SOCKET, socket.SO_RCVBUF, 4 << 20)
        self.socket.setblocking(False)

    def fileno(self) -> int:
        return self.socket.fileno()

    def receive(self) -> bytes | None:
        frame, notes, _, address = self.socket.recvmsg(MOST_BYTES, 64)
        if address[2] == OUTGOING:
            return None
        status = AUXDATA_LAYOUT.unpack_from(notes[0][2])[0] if notes else 0
        if status & VLAN_WAS_THERE:
            return None
        # A sender on this machine leaves its checksums to a card that isn't there.
        return completed(frame) if status & CHECKSUM_NOT_READY else frame

    def send(self, frame: bytes) -> None:
        self.socket.send(frame.ljust(MIN_ON_WIRE, b"\0"))

    def close(self) -> None:
        self.socket.close()


class Tap:
    """A tap, whose other end is this program. One that is there already is taken, and stays afterwards."""

    def __init__(self, name: str) -> None:
        _check_name(name)
        self.name, self.mac = name, None
        flags = _request(name, GET_FLAGS)
        self.is_taken = flags is not None
        try:
            self.file = os.open(TUN_FILE, os.O_RDWR | os.O_NONBLOCK)
        except OSError as error:
            raise Refused(f"{name}: a tap can't be opened: {TUN_FILE}: {error.strerror}") from error
        try:
            how = struct.pack("=16sH22x", name.encode(), TAP_WITHOUT_HEAD)
            fcntl.ioctl(self.file, SET_TUN, how)
            if flags is None or not _number(flags) & IS_UP:
                _raise(name)
        except (OSError, Refused) as error:
            os.close(self.file)
            raise Refused(self._refusal(error)) from error

    def _refusal(self, error: OSError | Refused) -> str:
        number = getattr(error, "errno", None)
        if self.is_taken and number == errno.EINVAL:
            return f"{self.name} is there and is no tap; --device takes it"
        if self.is_taken and number == errno.EBUSY:
            return f"{self.name} is a tap that another program has open"
        if number == errno.EPERM:
            what = "a tap of another user" if self.is_taken else "a new tap"
            return f"{self.name}: {what} needs root (or CAP_NET_ADMIN)"
        why = error.strerror if isinstance(error, OSError) else str(error)
        return f"the tap {self.name} can't be opened: {why}"

    def fileno(self) -> int:
        return self.file

    def receive(self) -> bytes | None:
        return os.read(self.file, MOST_BYTES)

    def send(self, frame: bytes) -> None:
        os.write(self.file, frame.ljust(MIN_ON_WIRE, b"\0"))

    def close(self) -> None:
        os.close(self.file)
