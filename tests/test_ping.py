"""Pings of hosts by `ping`: the program's whole output, record by record.

What is expected is written by hand from docs/RECORDS.md, docs/SCRIPTS.md and RFC 792.
"""

from __future__ import annotations

import unittest
from dataclasses import replace
from ipaddress import IPv4Address

from shared.causes import OK, Cause, Code
from shared.kinds import Status
from shared.records import Done, Off, Received, Record, Result, Sent, Step, Tick
from shared.wire import BROADCAST, PROTOCOL_ICMP, Station, arp_reply, echo, packet_frame
from tests import made
from tests.asking_records import ECHO_REPLY, ECHO_REQUEST, Ping
from tests.replays import can_run
from tests.script_rows import FIRST, UNFINISHED, Row, RowCase, left, ran, row, steps

PING = Ping()
TIMED_OUT = Cause(Code.TIMED_OUT, 6)
BAD_NAME, USAGE = Cause(Code.BAD_NAME), Cause(Code.USAGE)
GATEWAY = Station(bytes.fromhex("5254000000fe"), IPv4Address("10.0.0.254"))
FAR = IPv4Address("10.0.1.1")
OTHER = Station(bytes.fromhex("525400000003"), IPv4Address("10.0.0.3"))
EVERYONE = IPv4Address("255.255.255.255")
WORDS = b"ping 10.0.0.1"
TIMED = PING.passed()
ANSWERED = [*PING.came(over=OK), Result(OK)]
QUARTER = Tick(250)
# what Linux sends back where the request's identifier, number and data are 0: the checksum is 0 too
ZEROS = Received(packet_frame(made.SERVER, made.CLIENT, PROTOCOL_ICMP, bytes(8)))
# the tries of 63 TICKs of 250 ms, by their steps
TRIES = {2: 2, 4: 3, 8: 4, 16: 5, 32: 6}


def pings(received: list[Record], *each: list[Record], end: list[Record] | None = None) -> Row:
    """A ping of 10.0.0.1 whose hardware address isn't known, and what these records bring."""
    begins = [Step(1), made.enter(), made.command(WORDS), *PING.begins(*PING.asks_for())]
    outputs = [*begins, *steps(2, *each), *(left() if end is None else end)]
    return Row([made.start(FIRST + WORDS), *received], outputs)


def asked(received: list[Record], *each: list[Record], end: list[Record] | None = None) -> Row:
    """The same after its hardware address is known, and the echo request sent in step 3."""
    sent = PING.passed(*PING.pings(2))
    return pings([made.found(), QUARTER, *received], [], sent, *each, end=end)


def conversations() -> dict[str, Row]:
    return {
        "answered": asked([PING.reply()], ANSWERED),
        "answered_late": asked(
            [QUARTER, QUARTER, PING.reply()], TIMED, PING.passed(*PING.pings(3)), ANSWERED
        ),
        "answered_without_a_request": pings([PING.reply()], ANSWERED),
        "a_reply_of_zeros": asked([ZEROS], ANSWERED),
        "a_reply_with_a_body": asked([PING.reply(number=7, body=b"hello")], ANSWERED),
        "a_reply_to_all_interfaces": asked([Received(BROADCAST + frame_of(PING.reply())[6:])], ANSWERED),
        "after_the_end": asked([PING.reply(), PING.reply(), Off()], ANSWERED),
        "power_off": asked([Off()], PING.shut(), end=[UNFINISHED]),
        "power_off_at_once": pings([Off()], PING.shut(), end=[UNFINISHED]),
        "input_ends": asked([], end=[*PING.shut(), UNFINISHED]),
        "a_second_start": asked([made.start(b"")], end=[*PING.shut(), Done(Status.BAD_RECORD)]),
    }


def frame_of(record: Record) -> bytes:
    assert isinstance(record, Received)
    return record.frame


def strangers() -> dict[str, Row]:
    """What is no reply to this ping doesn't reach its object."""
    reply = frame_of(PING.reply())
    elsewhere = Station(made.CLIENT.mac, OTHER.ip)
    everyone = Station(BROADCAST, EVERYONE)
    message = echo(ECHO_REPLY, 0, 0, b"")
    silent = [
        PING.reply(identifier=1),
        PING.reply(OTHER),
        PING.reply(Station(made.SERVER.mac, OTHER.ip)),
        Received(OTHER.mac + reply[6:]),
        Received(packet_frame(made.SERVER, elsewhere, PROTOCOL_ICMP, message)),
        Received(packet_frame(made.SERVER, everyone, PROTOCOL_ICMP, message)),
        Received(packet_frame(made.SERVER, made.CLIENT, PROTOCOL_ICMP, echo(ECHO_REPLY, 0, 0, b"", 1))),
        Received(packet_frame(made.SERVER, made.CLIENT, PROTOCOL_ICMP, echo(3, 0, 0, b"", 1))),
        Received(packet_frame(made.SERVER, made.CLIENT, PROTOCOL_ICMP, message[:7])),
        Received(packet_frame(made.SERVER, made.CLIENT, PROTOCOL_ICMP, bytes(7))),
        Received(packet_frame(made.SERVER, made.CLIENT, PROTOCOL_ICMP, bytes(8) + b"\1")),
        Received(reply[:24] + bytes([reply[24] ^ 1]) + reply[25:]),  # the IPv4 header's checksum
        Received(reply[:36] + bytes([reply[36] ^ 1]) + reply[37:]),  # the message's checksum
        made.from_server(b""),
    ]
    request = packet_frame(made.SERVER, made.CLIENT, PROTOCOL_ICMP, echo(ECHO_REQUEST, 0, 0, b"a"))
    answer = packet_frame(made.CLIENT, made.SERVER, PROTOCOL_ICMP, echo(ECHO_REPLY, 0, 0, b"a"))
    return {
        "no_replies": asked([*silent, PING.reply()], *[[]] * len(silent), ANSWERED),
        "pinged_meanwhile": asked([Received(request), PING.reply()], [Sent(answer)], ANSWERED),
    }


def silences() -> dict[str, Row]:
    failed = [*PING.passed(over=TIMED_OUT), Result(TIMED_OUT)]
    unfound = [PING.passed(*(PING.asks_for(TRIES[step]) if step in TRIES else [])) for step in range(2, 64)]
    # the address is found in record 2, so all stands a record later
    unanswered = [
        PING.passed(*(PING.pings(TRIES[step - 1]) if step - 1 in TRIES else [])) for step in range(4, 65)
    ]
    return {
        "nobody_there": pings([QUARTER] * 63, *unfound, failed, end=left(TIMED_OUT)),
        "no_answer": asked([QUARTER] * 62, *unanswered, failed, end=left(TIMED_OUT)),
        "in_long_times": pings(
            [Tick(60_000)] * 6, *[PING.passed(*PING.asks_for(attempt)) for attempt in range(2, 7)], failed,
            end=left(TIMED_OUT),
        ),
    }  # fmt: skip


def unreached(ping: Ping, line: int = 2) -> list[Record]:
    """There is no way to the host."""
    cause = no_route(ping.host)
    words = b"ping %s" % str(ping.host).encode()
    return [made.command(words, line), *ping.turned_back(cause), Result(cause)]


def no_route(host: IPv4Address) -> Cause:
    return Cause(Code.NO_ROUTE, int(host))


def ways() -> dict[str, Row]:
    far = Ping(host=FAR)
    words = b"ping %s" % str(FAR).encode()
    lines = (b"set net0/gateway 10.0.0.254", words)
    begins = [made.command(words, 3), *far.begins(*far.asks_for(hop=GATEWAY.ip))]
    hop = Received(arp_reply(GATEWAY, made.CLIENT))
    reply = far.reply(Station(GATEWAY.mac, FAR))
    outputs = [Step(1), made.enter(), *ran(lines[0]), *begins]
    outputs += steps(2, [], far.passed(*far.pings(2, GATEWAY)), [*far.came(over=OK), Result(OK)])
    without = replace(made.start(FIRST + WORDS), ip=IPv4Address(0), mask=IPv4Address(0))
    fails = row(WORDS, unreached(PING), cause=no_route(PING.host))
    return {
        "no_gateway": row(words, unreached(far), cause=no_route(FAR)),
        "a_gateway": Row([made.start(FIRST + b"\n".join(lines)), hop, QUARTER, reply], [*outputs, *left()]),
        "no_address": Row([without], fails.outputs),
        "a_closed_device": row(b"ifclose\n" + WORDS, ran(b"ifclose"), unreached(PING, 3), cause=no_route(PING.host)),
        "a_device_that_is_opened_again": opened_again(),
    }  # fmt: skip


def opened_again() -> Row:
    """The second ping is open 1, and its object the second too."""
    lines = (b"ifclose", WORDS + b" ||", b"ifopen", WORDS)
    again = Ping(1, 2)
    outputs = [Step(1), made.enter(), *ran(b"ifclose"), *unreached(PING, 3), *ran(b"ifopen", line=4)]
    outputs += [made.command(WORDS, 5), *again.begins(*again.asks_for())]
    outputs += steps(2, [], again.passed(*again.pings(2)), [*again.came(over=OK), Result(OK)])
    inputs = [made.start(FIRST + b"\n".join(lines)), made.found(), QUARTER, again.reply()]
    return Row(inputs, [*outputs, *left()])


def two_pings() -> Row:
    """The second begins where its host is known, with a request of its own number."""
    again = Ping(1, 2)
    second = [made.command(WORDS, 3), *again.begins(*again.pings())]
    outputs = [Step(1), made.enter(), made.command(WORDS), *PING.begins(*PING.asks_for())]
    outputs += steps(2, [], PING.passed(*PING.pings(2)), [*ANSWERED, *second], [], [*again.came(over=OK), Result(OK)])
    inputs = [made.start(FIRST + WORDS + b"\n" + WORDS), made.found(), QUARTER, PING.reply(), PING.reply()]
    return Row([*inputs, again.reply()], [*outputs, *left()])


def refusals() -> dict[str, Row]:
    return {
        "words": row(
            b"ping ; ping 10.0.0.1 10.0.0.1 ; ping --x 10.0.0.1 ; ping --x\n",
            ran(b"ping", USAGE), ran(b"ping 10.0.0.1 10.0.0.1", USAGE, place=1),
            ran(b"ping --x 10.0.0.1", USAGE, place=2), ran(b"ping --x", USAGE, place=3), cause=USAGE,
        ),
        "a_list_goes_on": asked_in_a_list(),
    }  # fmt: skip


def asked_in_a_list() -> Row:
    """What comes of a ping decides which command of its list is next."""
    script = WORDS + b" && echo there || echo gone"
    row_ = asked([PING.reply()], [*ANSWERED, *ran(b"echo there", place=1)])
    return Row([made.start(FIRST + script), *row_.inputs[1:]], row_.outputs)


ROWS = {
    **conversations(), **strangers(), **silences(), **ways(), **refusals(), "two_pings": two_pings()
}  # fmt: skip


def all_inputs() -> dict[str, bytes]:
    return {f"ping_{name}": made.spelled(row.inputs) for name, row in ROWS.items()}


@unittest.skipUnless(can_run(), "the program isn't built, and the toolchain's rt is missing")
class Pings(RowCase):
    def test_rows(self) -> None:
        for name, row in ROWS.items():
            with self.subTest(name):
                self.same(f"ping_{name}", row)


if __name__ == "__main__":
    unittest.main()
