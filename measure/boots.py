"""Boots by TFTP from a server that grants options or none, and by HTTP, as input recordings of any length."""

from __future__ import annotations

from ipaddress import IPv4Address
from pathlib import Path
from typing import Iterator
from uuid import UUID

from shared.random_words import words_of
from shared.records import Received, Record, Start, Tick, spell
from shared.wire import PROTOCOL_TCP, Station, arp_reply, packet_frame, segment, tftp_data, tftp_oack, udp_frame, web_request

CLIENT = Station(bytes.fromhex("525400000001"), IPv4Address("10.0.0.2"))
SERVER = Station(bytes.fromhex("525400000002"), IPv4Address("10.0.0.1"))
MASK = IPv4Address("255.255.255.0")
NONE = IPv4Address(0)
OWN_PORT = 49_152
SERVER_PORT = 40_000
BLOCK = 512
# the size that the client asks for (RFC 2348)
GRANTED = 1_432
MEGABYTE = 1_048_576
# blocks have numbers from 1 to 65,535 (RFC 1350)
MOST_MEGABYTES = 31
SCRIPT = b"#!ipxe\nimgexec tftp://10.0.0.1/k\n"
# a body by HTTP has at most so many
MOST_WEB_MEGABYTES = 256
WEB_SCRIPT = b"#!ipxe\nimgexec http://10.0.0.1/k\n"
WEB_PORT, PIECE, SWAPPED = 80, 1_460, 8
THEIRS, WINDOW = 5_000, 65_535
SYN, PSH, ACK = 2, 8, 16
# maximum segment size 1,460 (RFC 9293, section 3.7.1)
SIZE = bytes.fromhex("020405b4")


def image(length: int) -> bytes:
    """A file of this length that begins as an ELF file does."""
    return (b"\x7fELF" + bytes(range(256)) * (length // 256 + 1))[:length]


def start(script: bytes = SCRIPT) -> Start:
    no_id, no_key = UUID(int=0), bytes(32)
    return Start(1, CLIENT.mac, no_id, no_key, 0, 0, CLIENT.ip, MASK, NONE, NONE, script)


def from_server(body: bytes) -> Record:
    """A datagram of the transfer."""
    return Received(udp_frame(SERVER, CLIENT, (SERVER_PORT, OWN_PORT), body))


def transfer(length: int, block: int = BLOCK) -> Iterator[Record]:
    """A boot whose kernel has this many bytes, in blocks of this size."""
    content = image(length)
    yield start()
    yield Received(arp_reply(SERVER, CLIENT))
    yield Tick(250)
    if block != BLOCK:
        yield from_server(tftp_oack(blksize=block, tsize=length))
    for number in range(length // block + 1):
        yield from_server(tftp_data(number + 1, content[number * block : (number + 1) * block]))


def from_web_server(number: int, acknowledged: int, flags: int, body: bytes = b"", options: bytes = b"") -> Record:
    """A segment of the connection: so much after the servers' SYN, and after the client's."""
    numbers = (THEIRS + number, words_of(bytes(32), 0)[0] + acknowledged)
    text = segment(SERVER.ip, CLIENT.ip, (WEB_PORT, OWN_PORT), numbers, flags, WINDOW, body, options)
    return Received(packet_frame(SERVER, CLIENT, PROTOCOL_TCP, text))


def web_transfer(length: int, is_swapped: bool = False) -> Iterator[Record]:
    """A boot by HTTP whose kernel has this many bytes; every eighth segment may come after the next one."""
    stream = b"HTTP/1.1 200 OK\r\nContent-Length: %d\r\n\r\n" % length + image(length)
    places = list(range(0, len(stream), PIECE))
    for at in range(SWAPPED - 1, len(places) - 1, SWAPPED) if is_swapped else ():
        places[at], places[at + 1] = places[at + 1], places[at]
    yield start(WEB_SCRIPT)
    yield Received(arp_reply(SERVER, CLIENT))
    yield Tick(250)
    yield from_web_server(0, 1, SYN | ACK, options=SIZE)
    asked = 1 + len(web_request(b"/k", b"10.0.0.1"))
    for place in places:
        yield from_web_server(1 + place, asked, PSH | ACK, stream[place : place + PIECE])


def write_web_transfer(length: int, path: Path, is_swapped: bool = False) -> None:
    with path.open("wb") as stream:
        for record in web_transfer(length, is_swapped):
            stream.write(spell(record))


def write_transfer(length: int, path: Path, block: int = BLOCK) -> None:
    with path.open("wb") as stream:
        for record in transfer(length, block):
            stream.write(spell(record))


def replay(program: Path, recording: Path, output: Path) -> list[str]:
    """The words that replay a recording."""
    return [str(program), "replay", str(recording), str(output)]
