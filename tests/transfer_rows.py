"""Transfers by TFTP: inputs, and the whole output of each, written from docs/RECORDS.md, RFC 1350, and 2347 to 2349."""

from __future__ import annotations

from dataclasses import dataclass, replace
from ipaddress import IPv4Address

from shared.causes import OK, Cause, Code
from shared.kinds import OpenKind, PartKind, Status
from shared.records import Advance, Done, Open, Part, Received, Record, Result, Step, Tick, Try
from shared.wire import Station
from shared.wire import ethernet, ipv4, tftp_ack, tftp_data
from shared.wire import tftp_error, tftp_oack, tftp_request, udp, udp_frame
from tests import made
from tests.graph_records import asked, came, passed, turned_back

FETCH = b"imgfetch tftp://10.0.0.1/f"
EXEC = b"imgexec tftp://10.0.0.1/k"
# where OPEN stands in the output: after STEP, SCRIPT, COMMAND and the five GRAPH records that make its objects
OPEN_PLACE = 8
FOREIGN_PORT = made.SERVER_PORT + 1
NEIGHBOUR = Station(bytes.fromhex("525400000003"), IPv4Address("10.0.0.3"))
FULL = bytes(range(256)) * 2
FIN, SYN, RST, ACK = 1, 2, 4, 16
UNKNOWN_TRANSFER = tftp_error(5, b"")
OPTIONS_REFUSED = tftp_error(8, b"")
ENDED_WELL = [made.leave(OK), Done(Status.ENDED)]


@dataclass(frozen=True)
class Row:
    """An input recording, and the output recording that answers it."""

    inputs: list[Record]
    outputs: list[Record]


def start(*lines: bytes) -> Record:
    return made.start(b"#!ipxe\n" + b"".join(line + b"\n" for line in lines))


def datagram(body: bytes, port: int = made.SERVER_PORT, own: int = made.OWN_PORT) -> Record:
    return Received(udp_frame(made.SERVER, made.CLIENT, (port, own), body))


def data(block: int, content: bytes, port: int = made.SERVER_PORT) -> Record:
    return datagram(tftp_data(block, content), port)


def took(block: int) -> list[Record]:
    """A block is taken that isn't the last."""
    return came(0, Advance(0, block), Try(0, 1), made.to_server(tftp_ack(block)), gives=True)


def took_last(block: int, gives: bool = True) -> list[Record]:
    """The last block is taken: its acknowledgement waits for nothing. Its bytes go up, if it has some."""
    return came(0, Advance(0, block), made.to_server(tftp_ack(block)), gives=gives, over=OK)


def oack(port: int = made.SERVER_PORT, **options: int | str) -> Record:
    """The server grants these options."""
    return datagram(tftp_oack(**options), port)


def agreed() -> list[Record]:
    """The first OACK is acknowledged as block 0, under a timer."""
    return came(0, Try(0, 1), made.to_server(tftp_ack(0)))


def foreign() -> list[Record]:
    """A datagram came from another port of the server, which is said to it."""
    return came(0, made.to_server(UNKNOWN_TRANSFER, FOREIGN_PORT))


def fetches(received: list[Record], *steps: list[Record], line: bytes = FETCH) -> Row:
    """A fetch whose request is out in step 3, and then these records with what each brings."""
    path = line[-1:]
    request = made.to_server(tftp_request(path), 69)
    outputs = [*made.fetch_begins(line, path), Step(2), Step(3), *passed(0, Try(0, 2), request)]
    for number, step in enumerate(steps, 4):
        outputs += [Step(number), *step]
    return Row([start(line), made.found(), Tick(250), *received], outputs)


def ends(row: Row, *closing: Record) -> Row:
    return Row(row.inputs, [*row.outputs, *closing])


def ends_well(row: Row) -> Row:
    return ends(row, Result(OK), *ENDED_WELL)


def refused(command: bytes, cause: Cause) -> Row:
    """A command that fails before anything is sent."""
    outputs = [Step(1), made.enter(), made.command(command), Result(cause), made.leave(cause)]
    return Row([start(command)], [*outputs, Done(Status.SCRIPT_FAILED)])


def unreached(address: str) -> Row:
    """A server to which there is no way."""
    server = IPv4Address(address)
    cause = Cause(Code.NO_ROUTE, int(server))
    command = b"imgfetch tftp://%s/f" % address.encode()
    opened = Open(0, OpenKind.TFTP, server, 69, made.OWN_PORT, b"f")
    begins = [Step(1), made.enter(), made.command(command)]
    return Row([start(command)], [*begins, *turned_back(opened, cause), *made.fails(cause)])


def without_address(row: Row) -> Row:
    return Row([replace(row.inputs[0], ip=IPv4Address(0))], row.outputs)


def flipped(frame: bytes, place: int) -> Record:
    """A frame with a bit turned over."""
    return Received(frame[:place] + bytes([frame[place] ^ 1]) + frame[place + 1 :])


def without_sum(block: int, content: bytes) -> Record:
    """A datagram whose checksum is 0: it has none."""
    server, client = made.SERVER, made.CLIENT
    ports = (made.SERVER_PORT, made.OWN_PORT)
    packet = udp(server.ip, client.ip, ports, tftp_data(block, content))
    packet = packet[:6] + b"\0\0" + packet[8:]
    body = ipv4(server.ip, client.ip, 17, packet)
    return Received(ethernet(client.mac, server.mac, 0x0800, body))


def blocks() -> dict[str, Row]:
    kernel = FULL + FULL + bytes(176)
    return {
        "an_empty_last_block": ends_well(
            fetches(
                [data(1, FULL), data(2, FULL), data(3, b"")], took(1), took(2), took_last(3, gives=False)
            )
        ),
        "a_block_too_long": ends(
            fetches([data(1, bytes(1432))], came(0, over=Cause(Code.BROKEN, 4))),
            *made.fails(Cause(Code.BROKEN, 4)),
        ),
        "twice_and_late": ends_well(
            fetches(
                [
                    data(1, kernel[:512]),
                    data(2, kernel[512:1024]),
                    data(2, kernel[512:1024]),
                    data(1, kernel[:512]),
                    data(3, kernel[1024:]),
                ],
                took(1),
                took(2),
                came(0, made.to_server(tftp_ack(2))),
                came(0),
                took_last(3),
            )
        ),
        "block_2_first": ends_well(
            fetches([data(2, FULL), data(1, b"a")], came(0), took_last(1))
        ),
        "a_foreign_port": ends_well(
            fetches(
                [data(1, FULL), data(2, b"no", FOREIGN_PORT), data(2, b"yes")],
                took(1),
                foreign(),
                took_last(2),
            )
        ),
    }


def grants() -> dict[str, Row]:
    """Servers that know the options; that one may ignore them the other rows show."""
    kernel = (b"\x7fELF" + FULL * 3)[:1432]
    full, again = oack(blksize=1432, tsize=1432), made.to_server(tftp_ack(0))
    too_long = Cause(Code.BROKEN, 5)
    handed_off = [
        Result(OK),
        Part(PartKind.KERNEL_NAME, 0, 0, b"k"),
        Part(PartKind.KERNEL, 0, 0, kernel),
        Part(PartKind.COMMAND_LINE, 0, 0, b""),
        Done(Status.HANDED_OFF),
    ]
    return {
        "a_file_of_1432_bytes": ends(
            fetches(
                [full, data(1, kernel), data(2, b"")],
                agreed(),
                took(1),
                took_last(2, gives=False),
                line=EXEC,
            ),
            *handed_off,
        ),
        "blocks_of_8": ends_well(
            fetches([oack(blksize=8), data(1, bytes(8)), data(2, bytes(7))], agreed(), took(1), took_last(2))
        ),
        "no_size_granted": ends_well(
            fetches([oack(tsize=512), data(1, FULL), data(2, b"")], agreed(), took(1), took_last(2, gives=False))
        ),
        "no_option_granted": ends_well(
            fetches([oack(), data(1, FULL), data(2, b"a")], agreed(), took(1), took_last(2))
        ),
        "an_oack_again": ends_well(
            fetches(
                [full, full, oack(blksize=8), data(1, kernel), full, data(2, b"a")],
                agreed(),
                came(0, again),
                came(0, again),
                took(1),
                came(0),
                took_last(2),
            )
        ),
        "an_oack_tried_again": ends_well(
            fetches(
                [full, Tick(250), Tick(250), full, Tick(250), data(1, b"a")],
                agreed(),
                passed(0, Try(0, 2), again),
                passed(0),
                came(0, again),
                passed(0, Try(0, 3), again),
                took_last(1),
            )
        ),
        "a_foreign_oack": ends_well(
            fetches([full, oack(FOREIGN_PORT, blksize=8), data(1, b"a")], agreed(), foreign(), took_last(1))
        ),
        "an_oack_after_block_1": ends_well(
            fetches([data(1, FULL), full, data(2, b"a")], took(1), came(0), took_last(2))
        ),
        "an_oack_of_no_number": ends_well(
            fetches([oack(blksize="abc"), data(1, b"a")], came(0), took_last(1))
        ),
        "longer_than_granted": ends(
            fetches([oack(blksize=1024), data(1, bytes(1025))], agreed(), came(0, over=too_long)),
            *made.fails(too_long),
        ),
        **{f"granted_{size}": unfit(size) for size in (0, 7, 1433, 2000, 65_535)},
    }


def unfit(size: int) -> Row:
    """A size that wasn't asked for, or is below the least of RFC 2348."""
    cause = Cause(Code.BROKEN, 4)
    refused = came(0, made.to_server(OPTIONS_REFUSED), over=cause)
    return ends(fetches([oack(blksize=size)], refused), *made.fails(cause))


def errors() -> dict[str, Row]:
    at_once, later = Cause(Code.REFUSED, 4, 1), Cause(Code.REFUSED, 5, 3)
    full = datagram(tftp_error(3, b"Disk full"))
    return {
        "refused_at_once": ends(
            fetches([datagram(tftp_error(1, b"File not found"))], came(0, over=at_once)),
            *made.fails(at_once),
        ),
        **{
            f"refused_{name}": ends(fetches([datagram(body)], came(0, over=at_once)), *made.fails(at_once))
            for name, body in (
                ("without_a_zero", tftp_error(1, b"gone")[:-1]),
                ("without_a_text", tftp_error(1, b"")[:-1]),
                ("with_padding", tftp_error(1, b"gone\0\0x")),
            )
        },
        "refused_later": ends(
            fetches([data(1, FULL), full], took(1), came(0, over=later)), *made.fails(later)
        ),
        "a_foreign_error": ends_well(
            fetches(
                [data(1, FULL), datagram(tftp_error(1, b"no"), FOREIGN_PORT), data(2, b"a")],
                took(1),
                foreign(),
                took_last(2),
            )
        ),
        "not_bootable": ends(
            fetches([data(1, b"hello")], took_last(1), line=EXEC),
            *made.fails(Cause(Code.NOT_BOOTABLE)),
        ),
        "no_route": unreached("10.0.1.1"),
        "no_address": without_address(unreached("10.0.0.1")),
        "bad_uri": refused(b"imgfetch f", Cause(Code.BAD_URI)),
        "path_too_long": refused(
            b"imgfetch tftp://10.0.0.1/" + b"a/" * 512 + b"f", Cause(Code.TOO_LONG, 7)
        ),
        "name_too_long": refused(
            b"imgfetch tftp://10.0.0.1/" + b"a" * 256, Cause(Code.TOO_LONG, 7)
        ),
        "no_uri": refused(b"imgfetch", Cause(Code.USAGE)),
    }
