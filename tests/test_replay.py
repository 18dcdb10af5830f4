"""Boots by TFTP over good and hostile recordings: the program's whole output, record by record.

What is expected is written from docs/RECORDS.md, RFC 1350, 2347 to 2349, 826, 792 and 9293. The rows of transfers stand
in transfer_rows.py. The built program is run, or, where it isn't fresh, what the toolchain's `rt try` compiles once for
all recordings.
"""

from __future__ import annotations

import io
import unittest
from dataclasses import replace
from ipaddress import IPv4Address

from shared.causes import OK
from shared.kinds import OpenKind, PartKind, Status
from shared.recordings import read_input, read_output
from shared.records import Advance, Done, Off, Open, Part, Received, Record, Result, Sent, Step, Tick, Try
from shared.wire import BROADCAST, PROTOCOL_ICMP, PROTOCOL_TCP, Station, arp_reply, arp_request
from shared.wire import echo, packet_frame, segment, tftp_ack, tftp_data
from shared.wire import tftp_request, udp_frame
from tests import made
from tests.case import TOP
from tests.graph_records import asked, came, passed, shut
from tests.replays import Replayed, can_run, replayed
from tests.transfer_rows import (
    ACK, EXEC, FETCH, FIN, NEIGHBOUR, OPEN_PLACE, RST, Row, SYN, blocks, data, datagram, ends, ends_well, errors,
    fetches, flipped, grants, start, took_last, unreached, without_address, without_sum,
)


def frames() -> dict[str, Row]:
    good = data(1, b"a").frame
    other_mac = NEIGHBOUR.mac + good[6:]
    ports = (made.SERVER_PORT, made.OWN_PORT)
    other_server = udp_frame(NEIGHBOUR, made.CLIENT, ports, tftp_data(1, b"a"))
    other_client = udp_frame(made.SERVER, NEIGHBOUR, ports, tftp_data(1, b"a"))
    # these reach no transfer
    ignored = [
        Received(other_mac),
        flipped(good, 24),  # the IPv4 header's checksum
        flipped(good, 40),  # the datagram's checksum
        flipped(good, 46),  # the block's byte
        Received(good[:-1]),  # shorter than its header says
        Received(good[:34]),  # a header alone
        Received(other_server),
        Received(made.CLIENT.mac + other_client[6:]),
        datagram(tftp_data(1, b"a"), own=made.OWN_PORT + 1),
    ]
    # these do, and say nothing to it
    empty = [datagram(b""), datagram(b"\0\3\0"), datagram(b"\0\x09\0\1")]
    wanted = Received(arp_request(made.SERVER, made.CLIENT.ip))
    replied = Sent(arp_reply(made.CLIENT, made.SERVER))
    begun = [start(FETCH), wanted, Tick(250), data(1, b"a")]
    return {
        "frames_that_bring_nothing": ends_well(
            fetches(
                [*ignored, *empty, data(1, b"a")],
                *[[]] * len(ignored),
                *[came(0)] * len(empty),
                took_last(1),
            )
        ),
        "no_checksum": ends_well(fetches([without_sum(1, b"a")], took_last(1))),
        "a_request_is_answered": ends_well(
            Row(
                begun,
                [
                    *made.fetch_begins(FETCH, b"f"),
                    Step(2),
                    replied,
                    Step(3),
                    *passed(0, Try(0, 2), made.to_server(tftp_request(b"f"), 69)),
                    Step(4),
                    *took_last(1),
                ],
            )
        ),
        "a_request_for_another": ends_well(
            fetches(
                [Received(arp_request(made.SERVER, NEIGHBOUR.ip)), data(1, b"a")],
                [],
                took_last(1),
            )
        ),
    }


def ping(to: Station = made.CLIENT, code: int = 0, kind: int = 8) -> bytes:
    message = echo(kind, 0x1234, 7, b"hello", code)
    return packet_frame(made.SERVER, to, PROTOCOL_ICMP, message)


def stranger(numbers: tuple[int, int], flags: int, body: bytes = b"") -> Record:
    """A segment to a port that isn't bound."""
    server, client = made.SERVER, made.CLIENT
    text = segment(server.ip, client.ip, (1024, 80), numbers, flags, 512, body)
    return Received(packet_frame(server, client, PROTOCOL_TCP, text))


def reset(numbers: tuple[int, int], flags: int) -> list[Record]:
    server, client = made.SERVER, made.CLIENT
    text = segment(client.ip, server.ip, (80, 1024), numbers, flags)
    return [Sent(packet_frame(client, server, PROTOCOL_TCP, text))]


def answers() -> dict[str, Row]:
    pong = packet_frame(made.CLIENT, made.SERVER, PROTOCOL_ICMP, echo(0, 0x1234, 7, b"hello"))
    everyone = Station(BROADCAST, IPv4Address("255.255.255.255"))
    other = Station(made.CLIENT.mac, NEIGHBOUR.ip)
    silent = [
        Received(ping(other)),
        Received(ping(everyone)),
        Received(ping(code=1)),
        Received(ping(kind=0)),
        flipped(ping(), 46),
        stranger((7, 9), RST),
        stranger((7, 9), RST + ACK),
    ]
    reset_so = [
        (stranger((7, 0), SYN), reset((0, 8), RST + ACK)),
        (stranger((2**32 - 1, 0), SYN + FIN), reset((0, 1), RST + ACK)),
        (stranger((7, 0), 0, b"hello"), reset((0, 12), RST + ACK)),
        (stranger((7, 9), ACK, b"hello"), reset((9, 0), RST)),
        (stranger((7, 9), SYN + ACK), reset((9, 0), RST)),
    ]
    inputs, outputs = zip(*reset_so, strict=True)
    unset = without_address(unreached("10.0.0.1"))
    return {
        "a_ping_is_answered": ends_well(
            fetches([Received(ping()), data(1, b"a")], [Sent(pong)], took_last(1))
        ),
        "not_answered": ends_well(
            fetches([*silent, data(1, b"a")], *[[]] * len(silent), took_last(1))
        ),
        "segments_are_reset": ends_well(
            fetches([*inputs, data(1, b"a")], *outputs, took_last(1))
        ),
        "no_address_no_answer": Row(
            [*unset.inputs, Received(ping()), stranger((7, 0), SYN)], unset.outputs
        ),
    }


def two_files() -> Row:
    """An initrd, and a kernel that is booted, from own ports 65535 and 49152."""
    kernel = b"\x7fELF"
    first, second = 65_535, made.OWN_PORT
    began = replace(start(FETCH, EXEC), w=16_383)
    ack = udp_frame(made.CLIENT, made.SERVER, (first, made.SERVER_PORT), tftp_ack(1))
    request = udp_frame(made.CLIENT, made.SERVER, (first, 69), tftp_request(b"f"))
    inputs = [
        began,
        made.found(),
        Tick(250),
        datagram(tftp_data(1, b"initrd"), own=first),
        datagram(tftp_data(1, b"late"), own=first),
        datagram(tftp_data(1, kernel), own=second),
    ]
    opened = Open(1, OpenKind.TFTP, made.SERVER.ip, 69, second, b"k")
    outputs = [
        *made.fetch_begins(FETCH, b"f"),
        Step(2),
        Step(3),
        *passed(0, Try(0, 2), Sent(request)),
        Step(4),
        *came(0, Advance(0, 1), Sent(ack), gives=True, over=OK),
        Result(OK),
        made.command(EXEC, 3),
        *asked(opened, Try(1, 1), made.to_server(tftp_request(b"k"), 69)),
        Step(5),
        Step(6),
        *came(1, Advance(1, 1), made.to_server(tftp_ack(1)), gives=True, over=OK),
        Result(OK),
        Part(PartKind.KERNEL_NAME, 0, 0, b"k"),
        Part(PartKind.KERNEL, 0, 0, kernel),
        Part(PartKind.COMMAND_LINE, 0, 0, b""),
        Part(PartKind.INITRD_NAME, 0, 0, b"f"),
        Part(PartKind.INITRD, 0, 0, b"initrd"),
        Done(Status.HANDED_OFF),
    ]
    outputs[OPEN_PLACE] = replace(outputs[OPEN_PLACE], own=first)
    return Row(inputs, outputs)


def runs() -> dict[str, Row]:
    again = fetches([start(FETCH)])
    begins = Row([start(FETCH)], made.fetch_begins(FETCH, b"f"))
    return {
        "a_boot": Row(made.BOOT_INPUT, made.BOOT_OUTPUT),
        "silence": Row(*made.silent_run()),
        "two_files": two_files(),
        "power_off": ends(fetches([Off()], shut(0)), Done(Status.UNFINISHED)),
        "input_ends": ends(fetches([]), *shut(0), Done(Status.UNFINISHED)),
        "a_second_start": ends(again, *shut(0), Done(Status.BAD_RECORD)),
        "power_off_at_once": Row(
            [*begins.inputs, Off()], [*begins.outputs, Step(2), *shut(0), Done(Status.UNFINISHED)]
        ),
        "input_ends_at_once": ends(begins, *shut(0), Done(Status.UNFINISHED)),
        "after_the_end": ends_well(
            fetches([data(1, b"a"), start(FETCH), Off()], took_last(1))
        ),
        "no_start": Row([Tick(1)], [Done(Status.BAD_RECORD)]),
    }


ROWS = {**blocks(), **grants(), **errors(), **frames(), **answers(), **runs()}

# A boot of a kernel of four bytes, cut at each of its bytes.
SHORT = made.spelled([start(EXEC), made.found(), Tick(250), data(1, b"\x7fELF")])
EXAMPLE = (TOP / "examples" / "tftp-boot.rec").read_bytes()


def all_inputs() -> dict[str, bytes]:
    inputs = {name: made.spelled(row.inputs) for name, row in ROWS.items()}
    inputs |= {f"cut_{length}": SHORT[:length] for length in range(len(SHORT) + 1)}
    return {**inputs, "example": EXAMPLE}


def read_all(output: bytes) -> list[Record]:
    return list(read_output(io.BytesIO(output)))


def without_closing(records: list[Record]) -> list[Record]:
    """A run's records but for those that end it from outside."""
    closing = [*shut(0), records[-1]]
    return records[: -len(closing)] if records[-len(closing) :] == closing else records[:-1]


@unittest.skipUnless(can_run(), "the program isn't built, and the toolchain's rt is missing")
class Replays(unittest.TestCase):
    maxDiff = None
    replayed: dict[str, Replayed]

    @classmethod
    def setUpClass(cls) -> None:
        cls.replayed = {name: replayed()[name] for name in all_inputs()}

    def test_each_run_ends(self) -> None:
        for name, run in self.replayed.items():
            with self.subTest(name):
                self.assertEqual(run.ending, "ended")
                self.assertEqual(run.output[-6:], made.spelled([Done(Status(run.status))]))

    def test_rows(self) -> None:
        for name, row in ROWS.items():
            with self.subTest(name):
                self.assertEqual(read_all(self.replayed[name].output), row.outputs)

    def test_cut_at_each_byte(self) -> None:
        whole = read_all(self.replayed[f"cut_{len(SHORT)}"].output)
        self.assertEqual(whole[-1], Done(Status.HANDED_OFF))
        lengths = [len(made.spelled([timed.record])) for timed in read_input(io.BytesIO(SHORT))]
        ends_of_records = {sum(lengths[:count]) for count in range(1, len(lengths))}
        for length in range(len(SHORT)):
            with self.subTest(length):
                run = self.replayed[f"cut_{length}"]
                is_whole = length in ends_of_records
                wanted = Status.UNFINISHED if is_whole else Status.BAD_RECORD
                self.assertEqual(run.status, wanted)
                before = without_closing(read_all(run.output))
                self.assertEqual(before, whole[: len(before)])
                steps = [record.number for record in before if isinstance(record, Step)]
                self.assertEqual(len(steps), sum(sum(lengths[: n + 1]) <= length for n in range(4)))

    def test_the_example_boots(self) -> None:
        records = read_all(self.replayed["example"].output)
        inputs = [timed.record for timed in read_input(io.BytesIO(EXAMPLE))]
        received = [record.frame for record in inputs if isinstance(record, Received)]
        kernel = {frame[45]: frame[46:558] for frame in received[1:]}
        content = b"".join(kernel[block] for block in range(1, 6))[: 4 * 512 + 200]
        self.assertEqual(
            records[-4:],
            [
                Part(PartKind.KERNEL_NAME, 0, 0, b"k"),
                Part(PartKind.KERNEL, 0, 0, content),
                Part(PartKind.COMMAND_LINE, 0, 0, b""),
                Done(Status.HANDED_OFF),
            ],
        )
        places = [record.place for record in records if isinstance(record, Advance)]
        self.assertEqual(places, [1, 2, 3, 4, 5])


if __name__ == "__main__":
    unittest.main()
