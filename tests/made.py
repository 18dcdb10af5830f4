"""Recordings built for the tests, from the format's description."""

from __future__ import annotations

import io
from ipaddress import IPv4Address
from typing import Iterable
from uuid import UUID

from shared.causes import OK, Cause, Code
from shared.kinds import OpenKind, PartKind, ScriptMove, Status
from shared.records import (
    Advance,
    Command,
    Done,
    Open,
    Part,
    Received,
    Record,
    Result,
    Script,
    Sent,
    Start,
    Step,
    Tick,
    Try,
    spell,
)
from shared.wire import Station, arp_reply, arp_request, tftp_ack, tftp_data, tftp_request
from shared.wire import udp_frame
from tests import graph_records

CLIENT = Station(bytes.fromhex("525400000001"), IPv4Address("10.0.0.2"))
SERVER = Station(bytes.fromhex("525400000002"), IPv4Address("10.0.0.1"))
OWN_PORT = 49_152
SERVER_PORT = 40_000

HELLO_INPUT = (
    bytes.fromhex("00000063 01 01 525400000001") + bytes(68) + b"#!ipxe\necho hello\nexit\n"
)
HELLO_OUTPUT = bytes.fromhex(
    "00000005 81 00000001"
    "0000000c 86 00 01 00 00000000 00000000"
    "00000016 84 01 00000002 00 01 02 0004 6563686f 0005 68656c6c6f"
    "00000007 83 68656c6c6f0a"
    "0000000a 85 00 00000000 00000000"
    "0000000f 84 01 00000003 00 01 01 0004 65786974"
    "0000000a 85 00 00000000 00000000"
    "0000000c 86 01 01 00 00000000 00000000"
    "00000002 8d 03"
)


def spelled(records: Iterable[Record]) -> bytes:
    return b"".join(spell(record) for record in records)


def stream(records: Iterable[Record]) -> io.BytesIO:
    return io.BytesIO(spelled(records))


def start(script: bytes) -> Start:
    zero = IPv4Address(0)
    mask = IPv4Address("255.255.255.0")
    return Start(
        1, CLIENT.mac, UUID(int=0), bytes(32), 0, 0, CLIENT.ip, mask, zero, zero, script
    )


def from_server(body: bytes) -> Received:
    return Received(udp_frame(SERVER, CLIENT, (SERVER_PORT, OWN_PORT), body))


def to_server(body: bytes, port: int = SERVER_PORT) -> Sent:
    return Sent(udp_frame(CLIENT, SERVER, (OWN_PORT, port), body))


def asked() -> Sent:
    return Sent(arp_request(CLIENT, SERVER.ip))


def found() -> Received:
    return Received(arp_reply(SERVER, CLIENT))


def tftp_open(path: bytes) -> Open:
    return Open(0, OpenKind.TFTP, SERVER.ip, 69, OWN_PORT, path)


def enter(depth: int = 1) -> Script:
    return Script(ScriptMove.ENTER, depth)


def leave(cause: Cause, depth: int = 1) -> Script:
    return Script(ScriptMove.LEAVE, depth, cause)


def command(words: bytes, line: int = 2, depth: int = 1) -> Command:
    return Command(depth, line, 0, True, tuple(words.split(b" ")))


def fetch_begins(words: bytes, path: bytes) -> list[Record]:
    """The first step of a script whose first command fetches by TFTP."""
    begins = graph_records.asked(tftp_open(path), Try(0, 1), asked())
    return [Step(1), enter(), command(words), *begins]


def fails(cause: Cause) -> list[Record]:
    """A command fails, and with it the script and the run."""
    return [Result(cause), leave(cause), Done(Status.SCRIPT_FAILED)]


KERNEL = b"\x7fELF" + bytes(range(256)) * 2
BOOT_INPUT: list[Record] = [
    start(b"#!ipxe\nimgexec tftp://10.0.0.1/k\n"),
    found(),
    Tick(250),
    from_server(tftp_data(1, KERNEL[:512])),
    Tick(3),
    from_server(tftp_data(2, KERNEL[512:])),
]
BOOT_OUTPUT: list[Record] = [
    *fetch_begins(b"imgexec tftp://10.0.0.1/k", b"k"),
    Step(2),
    Step(3),
    *graph_records.passed(0, Try(0, 2), to_server(tftp_request(b"k"), 69)),
    Step(4),
    *graph_records.came(0, Advance(0, 1), Try(0, 1), to_server(tftp_ack(1)), gives=True),
    Step(5),
    *graph_records.passed(0),
    Step(6),
    *graph_records.came(0, Advance(0, 2), to_server(tftp_ack(2)), gives=True, over=OK),
    Result(OK),
    Part(PartKind.KERNEL_NAME, 0, 0, b"k"),
    Part(PartKind.KERNEL, 0, 0, KERNEL),
    Part(PartKind.COMMAND_LINE, 0, 0, b""),
    Done(Status.HANDED_OFF),
]


def silent_run() -> tuple[list[Record], list[Record]]:
    """A fetch that nobody answers, with 63 TICKs of 250 ms: six tries and their times."""
    tries = {1: 1, 2: 2, 4: 3, 8: 4, 16: 5, 32: 6}
    timed_out = Cause(Code.TIMED_OUT, 6)
    inputs = [start(b"#!ipxe\nimgfetch tftp://10.0.0.1/f\n"), *[Tick(250)] * 63]
    outputs = fetch_begins(b"imgfetch tftp://10.0.0.1/f", b"f")
    for step in range(2, 64):
        put = [Try(0, tries[step]), asked()] if step in tries else []
        outputs += [Step(step), *graph_records.passed(0, *put)]
    outputs += [Step(64), *graph_records.passed(0, over=timed_out)]
    return inputs, outputs + fails(timed_out)
