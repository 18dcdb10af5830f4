"""The machines of the made recordings, and the client's first record.

The client is 10.0.0.2 by START, or has no address there and takes a lease, of 10.0.0.50.
"""

from __future__ import annotations

import sys
from ipaddress import IPv4Address
from pathlib import Path
from typing import Callable, Iterable
from uuid import UUID

HERE = Path(__file__).resolve().parent
sys.path.insert(0, str(HERE.parent / "tools"))

from shared.records import Received, Record, Start, spell  # noqa: E402
from shared.wire import Station, padded, udp_frame  # noqa: E402

CLIENT = Station(bytes.fromhex("525400000001"), IPv4Address("10.0.0.2"))
LEASED = Station(CLIENT.mac, IPv4Address("10.0.0.50"))
SERVER = Station(bytes.fromhex("525400000002"), IPv4Address("10.0.0.1"))
# a host with a name, which has the files
FILES = Station(bytes.fromhex("525400000009"), IPv4Address("10.0.0.9"))

UNSET = IPv4Address(0)
FIRST_OWN_PORT = 49_152
SERVER_PORT = 40_000


def answer(
    number: int, body: bytes, server: Station = SERVER, client: Station = CLIENT
) -> Received:
    """The server's answer by TFTP to the open of this number, by a port of its own."""
    ports = (SERVER_PORT + number, FIRST_OWN_PORT + number)
    return Received(padded(udp_frame(server, client, ports, body, number)))


def start(
    script: bytes, ip: IPv4Address = CLIENT.ip, dns: IPv4Address = UNSET
) -> Start:
    return Start(
        version=1,
        mac=CLIENT.mac,
        uuid=UUID(int=0),
        key=bytes(32),
        arch=0,
        w=0,
        ip=ip,
        mask=UNSET if ip == UNSET else IPv4Address("255.255.255.0"),
        gateway=UNSET,
        dns=dns,
        script=script,
    )


def write(name: str, records: Callable[[bytes], Iterable[Record]], script: str | None = None) -> None:
    """Writes a recording beside this file, of the script of this name or of its own."""
    text = (HERE / f"{script or name}.ipxe").read_bytes()
    (HERE / f"{name}.rec").write_bytes(b"".join(spell(record) for record in records(text)))
    print(f"wrote {name}.rec")
