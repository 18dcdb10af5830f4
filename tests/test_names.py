"""Servers by name, of files and pings: the program's whole output, record by record.

What is expected is written by hand from docs/RECORDS.md, docs/SCRIPTS.md, RFC 1035, RFC 1350 and RFC 792.
"""

from __future__ import annotations

import unittest
from dataclasses import replace
from ipaddress import IPv4Address

from shared.causes import OK, Cause, Code
from shared.kinds import ObjectKind, OpenKind, PartKind, Status
from shared.records import Advance, Done, Off, Open, Part, Received, Record, Result, Sent, Start, Step, Tick, Try
from shared.wire import Station, arp_reply, arp_request, tftp_ack, tftp_data, tftp_request, udp_frame
from tests import graph_records, made
from tests.asking_records import FOUND, LEASED_CLIENT, Lease, LookUp, Ping
from tests.graph_records import Pair, Waiter, came, passed
from tests.replays import can_run
from tests.script_rows import FIRST, UNFINISHED, Row, RowCase, example, left, ran, row, steps

BAD_NAME, NO_SERVER = Cause(Code.BAD_NAME), Cause(Code.NO_SERVER)
TIMED_OUT = Cause(Code.TIMED_OUT, 6)
REFUSED, NO_ADDRESS = Cause(Code.REFUSED, 4, 3), Cause(Code.REFUSED, 4)
SERVER, NOWHERE = made.SERVER.ip, IPv4Address("11.0.0.1")
# the host that the name server finds
HOST = Station(bytes.fromhex("525400000009"), FOUND)
QUARTER = Tick(250)
KERNEL = b"\x7fELF a kernel"
LOOK_UP = LookUp(0, 2)
FETCH, PING = Waiter(1, ObjectKind.FETCH), Waiter(1, ObjectKind.PING)
# the tries of 63 TICKs of 250 ms, by their steps
TRIES = {2: 2, 4: 3, 8: 4, 16: 5, 32: 6}


def start(script: bytes, dns: IPv4Address = SERVER) -> Start:
    return replace(made.start(FIRST + script), dns=dns)


def waits(waiter: Waiter, look_up: LookUp = LOOK_UP) -> list[Record]:
    """After its COMMAND: its object is made, and a resolver, which asks for the address of its server."""
    return [*graph_records.one_made(*waiter), *look_up.begins(*look_up.asks_for())]


def fails(waiter: Waiter, cause: Cause, look_up: LookUp = LOOK_UP) -> list[Record]:
    """The look-up fails: what has waited is let go after its ENDED."""
    return [*look_up.came(over=cause), *graph_records.one_freed(waiter.object), Result(cause)]


class Fetch:
    """The open of a file of the server that was found; its fetch has waited for that."""

    def __init__(
        self, number: int = 1, fetch: int = 1, path: bytes = b"f", server: Station = HOST, port: int = 69
    ) -> None:
        self.pair = Pair(number, fetch, fetch + 2)
        self.own, self.server = made.OWN_PORT + number, server
        self.opened = Open(number, OpenKind.TFTP, server.ip, port, self.own, path)

    def begins(self) -> list[Record]:
        """After the end of the look-up: its request waits for the server's hardware address."""
        put = [Try(self.opened.number, 1), Sent(arp_request(made.CLIENT, self.server.ip))]
        return graph_records.asked_next(self.opened, *put, cast=self.pair)

    def requests(self) -> list[Record]:
        request = udp_frame(made.CLIENT, self.server, (self.own, self.opened.port), tftp_request(self.opened.target))
        return graph_records.passed(self.pair, Try(self.opened.number, 2), Sent(request))

    def brings(self) -> list[Record]:
        """The one block of the file."""
        ack = udp_frame(made.CLIENT, self.server, (self.own, made.SERVER_PORT), tftp_ack(1))
        put = [Advance(self.opened.number, 1), Sent(ack)]
        return [*graph_records.came(self.pair, *put, gives=True, over=OK), Result(OK)]

    def block(self) -> Record:
        return Received(udp_frame(self.server, made.CLIENT, (made.SERVER_PORT, self.own), tftp_data(1, KERNEL)))

    def found(self) -> Record:
        """The server's hardware address."""
        return Received(arp_reply(self.server, made.CLIENT))

    def turned_back(self, cause: Cause) -> list[Record]:
        """There is no way to the server that was found."""
        opens = graph_records.asked_next(self.opened, cast=self.pair)
        return [*opens, *graph_records.no_way(self.pair, cause), Result(cause)]


def looks_up(
    command: bytes,
    received: list[Record],
    *each: list[Record],
    waiter: Waiter = FETCH,
    look_up: LookUp = LOOK_UP,
    sets: tuple[bytes, ...] = (),
    rest: bytes = b"",
    more: tuple[bytes, ...] = (),
    end: list[Record] | None = None,
) -> Row:
    """After these commands one looks its server up, tried again in step 3; and what these records bring. Its line goes on so."""
    before = [record for line, words in enumerate(sets, 2) for record in ran(words, line=line)]
    begins = [*before, made.command(command, len(sets) + 2), *waits(waiter, look_up)]
    sent = look_up.passed(*look_up.queries(2))
    outputs = [Step(1), made.enter(), *begins, *steps(2, [], sent, *each), *(left() if end is None else end)]
    return Row([start(b"\n".join((*sets, command + rest, *more))), made.found(), QUARTER, *received], outputs)


def fetches(
    uri: bytes, fetch: Fetch | None = None, name: bytes = b"f", look_up: LookUp = LOOK_UP, sets: tuple[bytes, ...] = ()
) -> Row:
    """The server is found, and its file fetched and handed off as an image of this name."""
    fetch = fetch or Fetch()
    parts = [
        Part(PartKind.KERNEL_NAME, 0, 0, name),
        Part(PartKind.KERNEL, 0, 0, KERNEL),
        Part(PartKind.COMMAND_LINE, 0, 0, b""),
    ]
    return looks_up(
        b"imgexec " + uri,
        [look_up.found(), fetch.found(), QUARTER, fetch.block()],
        [*look_up.came(over=OK), *fetch.begins()], [], fetch.requests(), [*fetch.brings(), *parts],
        look_up=look_up, sets=sets, end=[Done(Status.HANDED_OFF)],
    )  # fmt: skip


def files() -> dict[str, Row]:
    """Files of servers that are looked up."""
    other = LookUp(0, 2, name=b"a.c")
    fetch = Fetch()
    return {
        "a_file": looks_up(
            b"imgfetch tftp://a.b/f", [LOOK_UP.found(), fetch.found(), QUARTER, fetch.block()],
            [*LOOK_UP.came(over=OK), *fetch.begins()], [], fetch.requests(), fetch.brings(),
        ),
        "a_boot": fetches(b"tftp://a.b/f"),
        "a_port": fetches(b"tftp://a.b:6969/f", Fetch(port=6_969)),
        "a_path": fetches(b"tftp://a.b/x/k%2Fl", Fetch(path=b"x/k/l"), b"k/l"),
        "no_path": fetches(b"tftp://a.b/", Fetch(path=b""), b"a.b"),
        "a_domain": fetches(b"tftp://a/f", look_up=LOOK_UP, sets=(b"set domain b",)),
        "a_domain_and_no_path": fetches(b"tftp://a", Fetch(path=b""), b"a", sets=(b"set domain b",)),
        "a_dot_within": fetches(b"tftp://a.c/f", look_up=other, sets=(b"set domain b",)),
        "no_four_decimals": fetches(b"tftp://a.b.c/f", look_up=LookUp(0, 2, name=b"a.b.c")),
        "joined_to_next_server": fetches(b"//a.b/f", sets=(b"set next-server 10.0.0.3",)),
    }  # fmt: skip


def failed_files() -> dict[str, Row]:
    words, fetch = b"imgfetch tftp://a.b/f", Fetch()
    far = LookUp(0, 2, host=NOWHERE)
    unreached, lost = Cause(Code.NO_ROUTE, 0x0B000001), Cause(Code.NO_ROUTE, 0x0B000009)
    turned = [made.command(words), *graph_records.one_made(*FETCH), *far.turned_back(unreached)]
    no_way = row(words, [*turned, *graph_records.one_freed(1), Result(unreached)], cause=unreached)
    away = Fetch(server=Station(HOST.mac, IPv4Address("11.0.0.9")))
    return {
        "no_such_name": looks_up(words, [LOOK_UP.answer(rcode=3)], fails(FETCH, REFUSED), end=left(REFUSED)),
        "no_address": looks_up(words, [LOOK_UP.answer()], fails(FETCH, NO_ADDRESS), end=left(NO_ADDRESS)),
        "the_list_goes_on": looks_up(
            words, [LOOK_UP.answer(rcode=3)], [*fails(FETCH, REFUSED), *ran(b"echo none", place=1)],
            rest=b" || echo none",
        ),
        "no_name_server": row(words, ran(words, NO_SERVER), cause=NO_SERVER),
        "no_way_to_the_name_server": Row([start(words, NOWHERE)], no_way.outputs),
        "no_way_to_the_server": looks_up(
            words, [LOOK_UP.found(away.server.ip)], [*LOOK_UP.came(over=OK), *away.turned_back(lost)],
            end=left(lost),
        ),
        "power_off_in_the_look_up": Row(
            [start(words), Off()],
            [Step(1), made.enter(), made.command(words), *waits(FETCH),
             *steps(2, graph_records.shut_both(FETCH, LOOK_UP.cast)), UNFINISHED],
        ),
        "input_ends_in_the_look_up": looks_up(
            words, [], end=[*graph_records.shut_both(FETCH, LOOK_UP.cast), UNFINISHED]
        ),
        "power_off_in_the_transfer": looks_up(
            words, [LOOK_UP.found(), Off()], [*LOOK_UP.came(over=OK), *fetch.begins()],
            graph_records.shut(fetch.pair), end=[UNFINISHED],
        ),
        "input_ends_in_the_transfer": looks_up(
            words, [LOOK_UP.found()], [*LOOK_UP.came(over=OK), *fetch.begins()],
            end=[*graph_records.shut(fetch.pair), UNFINISHED],
        ),
        "nobody_there": silent(words, FETCH),
        "no_reply_of_the_server": unanswered(words),
    }  # fmt: skip


def silent(words: bytes, waiter: Waiter) -> Row:
    """The name server's hardware address is never found."""
    begins = [Step(1), made.enter(), made.command(words), *waits(waiter)]
    each = [LOOK_UP.passed(*(LOOK_UP.asks_for(TRIES[step]) if step in TRIES else [])) for step in range(2, 64)]
    over = LOOK_UP.passed(over=TIMED_OUT)
    failed = [*over, *graph_records.one_freed(waiter.object), Result(TIMED_OUT)]
    return Row([start(words), *[QUARTER] * 63], [*begins, *steps(2, *each, failed), *left(TIMED_OUT)])


def unanswered(words: bytes) -> Row:
    """The server was found in record 4, and its hardware address never."""
    fetch = Fetch()
    tries = {step + 3: count for step, count in TRIES.items()}
    again = [Sent(arp_request(made.CLIENT, FOUND))]
    each = [
        graph_records.passed(fetch.pair, *([Try(1, tries[step]), *again] if step in tries else []))
        for step in range(5, 67)
    ]
    over = [*graph_records.passed(fetch.pair, over=TIMED_OUT), Result(TIMED_OUT)]
    found = [*LOOK_UP.came(over=OK), *fetch.begins()]
    return looks_up(words, [LOOK_UP.found(), *[QUARTER] * 63], found, *each, over, end=left(TIMED_OUT))


def pings() -> dict[str, Row]:
    words, ping = b"ping a.b", Ping(1, 1, host=FOUND)
    begins = graph_records.asked_next(ping.opened, *ping.asks_for(), cast=ping.cast)
    found = [*LOOK_UP.came(over=OK), *begins]
    lost = Cause(Code.NO_ROUTE, 0x0B000009)
    away = Ping(1, 1, host=IPv4Address("11.0.0.9"))
    opens = graph_records.asked_next(away.opened, cast=away.cast)
    turned = [*opens, *graph_records.no_way(away.cast, lost), Result(lost)]
    known = Received(arp_reply(HOST, made.CLIENT))

    def replies(command: bytes, look_up: LookUp = LOOK_UP, *sets: bytes) -> Row:
        """The host is found, asked for an echo, and replies."""
        return looks_up(
            command, [look_up.found(), known, QUARTER, ping.reply(HOST)],
            [*look_up.came(over=OK), *begins], [], ping.passed(*ping.pings(2, HOST)), [*ping.came(over=OK), Result(OK)],
            waiter=PING, look_up=look_up, sets=sets,
        )  # fmt: skip

    return {
        "a_ping": replies(words),
        "a_ping_by_a_domain": replies(b"ping a", LOOK_UP, b"set domain b"),
        "a_ping_of_no_four_decimals": replies(b"ping 10.0.0.256", LookUp(0, 2, name=b"10.0.0.256")),
        "a_ping_of_a_number_with_a_zero": replies(b"ping 10.0.0.01", LookUp(0, 2, name=b"10.0.0.01")),
        "a_ping_of_no_such_name": looks_up(
            words, [LOOK_UP.answer(rcode=3)], fails(PING, REFUSED), waiter=PING, end=left(REFUSED)
        ),
        "a_ping_without_a_name_server": row(words, ran(words, NO_SERVER), cause=NO_SERVER),
        "a_ping_that_finds_no_way": looks_up(
            words, [LOOK_UP.found(away.host)], [*LOOK_UP.came(over=OK), *turned], waiter=PING, end=left(lost)
        ),
        "a_ping_and_power_off": looks_up(
            words, [LOOK_UP.found(), Off()], found, ping.shut(), waiter=PING, end=[UNFINISHED]
        ),
        "a_ping_s_look_up_and_power_off": looks_up(
            words, [Off()], graph_records.shut_both(PING, LOOK_UP.cast), waiter=PING, end=[UNFINISHED]
        ),
        "a_reply_of_another_identifier": looks_up(
            words, [LOOK_UP.found(), known, QUARTER, ping.reply(HOST, 0), ping.reply(HOST)],
            found, [], ping.passed(*ping.pings(2, HOST)), [], [*ping.came(over=OK), Result(OK)], waiter=PING,
        ),
        "nobody_there_for_a_ping": silent(words, PING),
    }  # fmt: skip


def two_commands() -> Row:
    """Each has its own look-up and open: opens 0 to 3, objects 1 to 6; the server's hardware address is known then."""
    first, again = Fetch(), Ping(3, 4, host=FOUND)
    look_up, waiter = LookUp(2, 5), Waiter(4, ObjectKind.PING)
    second = [made.command(b"ping a.b", 3), *graph_records.one_made(*waiter), *look_up.begins(*look_up.queries())]
    pinged = graph_records.asked_next(again.opened, *again.pings(1, HOST), cast=again.cast)
    return looks_up(
        b"imgfetch tftp://a.b/f",
        [LOOK_UP.found(), first.found(), QUARTER, first.block(), look_up.found(), again.reply(HOST)],
        [*LOOK_UP.came(over=OK), *first.begins()], [], first.requests(), [*first.brings(), *second],
        [*look_up.came(over=OK), *pinged], [*again.came(over=OK), Result(OK)], more=(b"ping a.b",),
    )  # fmt: skip


def the_last_open() -> Row:
    """16,383 opens have no route, and the look-up is the last one that may be made: its command is Full."""
    last, in_a_step, fetch = 16_383, 1_024, b"imgfetch tftp://11.0.0.1/f"
    lost, full = Cause(Code.NO_ROUTE, 0x0B000001), Cause(Code.FULL, 2)
    outputs: list[Record] = [Step(1), made.enter()]
    for number in range(last):
        if number and number % in_a_step == 0:
            outputs.append(Step(number // in_a_step + 1))
        opened = Open(number, OpenKind.TFTP, NOWHERE, 69, made.OWN_PORT + number, b"f")
        is_last = number == last - 1
        outputs += [made.command(fetch, 3), *graph_records.turned_back(opened, lost), Result(lost)]
        outputs += ran(b"inc n", line=3, place=1)
        outputs += ran(b"iseq %d %d" % (number + 1, last), OK if is_last else Cause(Code.FALSE), line=4)
        outputs += [] if is_last else ran(b"goto a", line=4, place=1)
    waiter, look_up = Waiter(2 * last + 1, ObjectKind.PING), LookUp(last, 2 * last + 2)
    outputs += [made.command(b"ping a.b", 5), *waits(waiter, look_up)]
    over = [*look_up.came(over=OK), *graph_records.one_freed(waiter.object), Result(full)]
    ticks = [Tick(1)] * (last // in_a_step)
    later = steps(len(ticks) + 2, [], look_up.passed(*look_up.queries(2)), over)
    script = b":a\n" + fetch + b" || inc n\niseq ${n} %d || goto a\nping a.b\n" % last
    return Row([start(script), *ticks, made.found(), QUARTER, look_up.found()], [*outputs, *later, *left(full)])


# Words that name no host: a label that is empty or has 64 bytes.
WRONG = (b"a..b", b".a", b"a..", b"a" * 64)


def refusals() -> dict[str, Row]:
    commands = [command for name in WRONG for command in (b"ping " + name, b"imgfetch tftp://" + name + b"/f")]
    script = b"\n".join(command + b" ||" for command in commands)
    refused = row(script, *[ran(command, BAD_NAME, line) for line, command in enumerate(commands, 2)])
    words = b"set domain .b ; ping a\n"
    domain = row(words, ran(b"set domain .b"), ran(b"ping a", BAD_NAME, place=1), cause=BAD_NAME)
    return {
        "hosts_that_are_none": Row([start(script)], refused.outputs),
        "hosts_that_are_none_without_a_name_server": refused,
        "a_domain_that_makes_it_none": Row([start(words)], domain.outputs),
    }  # fmt: skip


LEASE, NAMED = Lease(), LookUp(1, 3, client=LEASED_CLIENT, name=b"boot.lan")


def until_asked() -> list[Record]:
    """The first eight steps of examples/name-boot.ipxe: a lease, and the query for the server's address."""
    begins = [Step(1), made.enter(), made.command(b"dhcp", 4), *LEASE.begins(*LEASE.discovers())]
    boots = [
        *LEASE.came(over=OK), Result(OK), *ran(b"echo 10.0.0.50 asks 10.0.0.1 for boot.lan", line=5),
        made.command(b"imgexec tftp://boot/vmlinuz", 6), *waits(Waiter(2, ObjectKind.FETCH), NAMED),
    ]  # fmt: skip
    queries = NAMED.passed(*NAMED.queries(2))
    timed = LEASE.passed()
    return [*begins, *steps(2, timed, LEASE.came(*LEASE.requests()), timed, boots, [], queries, NAMED.passed())]


def the_example() -> Row:
    """examples/name-boot.rec: the file has two blocks, which come after the server has granted their size."""
    inputs, pair, own = example("name-boot"), Pair(2, 2, 4), made.OWN_PORT + 2
    port = made.SERVER_PORT + 2
    kernel = inputs[-2].frame[46:1_478] + inputs[-1].frame[46:614]
    opened = Open(2, OpenKind.TFTP, FOUND, 69, own, b"vmlinuz")
    asks_where = Sent(arp_request(LEASED_CLIENT, FOUND))
    request = Sent(udp_frame(LEASED_CLIENT, HOST, (own, 69), tftp_request(b"vmlinuz")))
    acks = [Sent(udp_frame(LEASED_CLIENT, HOST, (own, port), tftp_ack(block))) for block in range(3)]
    found = [*NAMED.came(over=OK), *graph_records.asked_next(opened, Try(2, 1), asks_where, cast=pair)]
    handed_off = [
        Result(OK), Part(PartKind.KERNEL_NAME, 0, 0, b"vmlinuz"), Part(PartKind.KERNEL, 0, 0, kernel),
        Part(PartKind.COMMAND_LINE, 0, 0, b""), Done(Status.HANDED_OFF),
    ]  # fmt: skip
    later = steps(
        9, found, [], passed(pair, Try(2, 2), request), came(pair, Try(2, 1), acks[0]),
        came(pair, Advance(2, 1), Try(2, 1), acks[1], gives=True),
        [*came(pair, Advance(2, 2), acks[2], gives=True, over=OK), *handed_off],
    )  # fmt: skip
    return Row(inputs, [*until_asked(), *later])


def the_example_that_fails() -> Row:
    """examples/name-unknown.rec: the name server knows no such name."""
    cause = Cause(Code.REFUSED, 9, 3)
    later = steps(9, fails(Waiter(2, ObjectKind.FETCH), cause, NAMED))
    return Row(example("name-unknown"), [*until_asked(), *later, *left(cause)])


ROWS = {
    **files(), **failed_files(), **pings(), **refusals(),
    "the_example": the_example(), "the_example_that_fails": the_example_that_fails(),
    "two_commands": two_commands(), "the_last_open": the_last_open(),
}  # fmt: skip


def all_inputs() -> dict[str, bytes]:
    return {f"names_{name}": made.spelled(row.inputs) for name, row in ROWS.items()}


@unittest.skipUnless(can_run(), "the program isn't built, and the toolchain's rt is missing")
class Names(RowCase):
    def test_rows(self) -> None:
        for name, row in ROWS.items():
            with self.subTest(name):
                self.same(f"names_{name}", row)


if __name__ == "__main__":
    unittest.main()
