"""Look-ups of names by `nslookup`: the program's whole output, record by record.

What is expected is written by hand from docs/RECORDS.md, docs/SCRIPTS.md and RFC 1035.
"""

from __future__ import annotations

import unittest
from dataclasses import replace
from ipaddress import IPv4Address

from shared import wire_dns
from shared.causes import OK, Cause, Code
from shared.kinds import OpenKind, PartKind, Status
from shared.records import Advance, Done, Off, Open, Part, Received, Record, Result, Sent, Start
from shared.records import Step, Tick, Try
from shared.wire import Station, arp_request, tftp_ack, tftp_request, udp_frame
from shared.wire_dns import ASKED, address, alias, pointer, record, written
from tests import made
from tests.asking_records import FOUND, LookUp, Ping
from tests.graph_records import Pair, asked, came, passed
from tests.replays import can_run
from tests.script_rows import FIRST, UNFINISHED, Row, RowCase, example, left, printed, ran, row, steps

LOOK_UP = LookUp()
TIMED_OUT, FULL_BLOCK = Cause(Code.TIMED_OUT, 6), Cause(Code.TOO_MANY, 5)
BAD_NAME, USAGE, NO_SERVER = Cause(Code.BAD_NAME), Cause(Code.USAGE), Cause(Code.NO_SERVER)
OTHER = Station(bytes.fromhex("525400000003"), IPv4Address("10.0.0.3"))
SERVER, GATEWAY = made.SERVER.ip, IPv4Address("10.0.0.254")
WORDS = b"nslookup x a.b"
TIMED = LOOK_UP.passed()
IGNORED = LOOK_UP.came()
ANSWERED = [*LOOK_UP.came(over=OK), Result(OK)]
QUARTER = Tick(250)
# the tries of 63 TICKs of 250 ms, by their steps
TRIES = {2: 2, 4: 3, 8: 4, 16: 5, 32: 6}
# a name in an answer that is the one that was asked for
SAME = pointer(ASKED)
# where the first record's data stand after a question for a.b: its owner is a pointer, and ten bytes follow
FIRST_DATA = 12 + 5 + 4 + 2 + 10


def start(script: bytes, dns: IPv4Address = SERVER) -> Start:
    return replace(made.start(FIRST + script), dns=dns)


def looks_up(
    received: list[Record],
    *each: list[Record],
    script: bytes = WORDS + b"\necho ${x}",
    line: int = 2,
    before: list[Record] | None = None,
    look_up: LookUp = LOOK_UP,
    words: bytes = WORDS,
    end: list[Record] | None = None,
) -> Row:
    """A look-up, tried again in step 3, when the server's hardware address is known; and what these records bring."""
    begins = [*(before or []), made.command(words, line), *look_up.begins(*look_up.asks_for())]
    sent = look_up.passed(*look_up.queries(2))
    outputs = [Step(1), made.enter(), *begins, *steps(2, [], sent, *each), *(left() if end is None else end)]
    return Row([start(script), made.found(), QUARTER, *received], outputs)


def finds(*received: Record, before: list[list[Record]] | None = None, ip: IPv4Address = FOUND) -> Row:
    """The last of these records brings the address, which is printed."""
    echo = ran(b"echo " + str(ip).encode(), line=3)
    return looks_up([*received], *(before or []), [*ANSWERED, *echo])


def fails(cause: Cause, *received: Record) -> Row:
    """The first of these records ends the look-up with a failure."""
    return looks_up([*received], [*LOOK_UP.came(over=cause), Result(cause)], end=left(cause))


def refused(rcode: int) -> Cause:
    return Cause(Code.REFUSED, 4, rcode)


def conversations() -> dict[str, Row]:
    chain = [alias(SAME, written(b"c.b")), address(written(b"c.b"), FOUND)]
    by_pointer = [alias(SAME, b"\1c" + pointer(ASKED + 2)), address(pointer(FIRST_DATA), FOUND)]
    return {
        "an_alias_and_an_address": finds(LOOK_UP.answer(*chain)),
        "names_by_pointers": finds(LOOK_UP.answer(*by_pointer)),
        "an_address": finds(LOOK_UP.found()),
        "the_first_of_two_addresses": finds(
            LOOK_UP.answer(address(SAME, FOUND), address(SAME, OTHER.ip))
        ),
        "records_in_another_order": finds(LOOK_UP.answer(*reversed(chain))),
        "an_alias_goes_before_an_address": finds(
            LOOK_UP.answer(address(SAME, OTHER.ip), *chain)
        ),
        "letters_of_any_case": finds(
            LOOK_UP.received(wire_dns.answer(LOOK_UP.query_number, b"A.B", address(written(b"a.B"), FOUND)))
        ),
        "other_records_beside_it": finds(
            LOOK_UP.answer(
                record(SAME, 16, b"\4text"), record(SAME, wire_dns.A, OTHER.ip.packed, 3),
                record(SAME, wire_dns.A, b"\x0a\0\0"), address(written(b"z.b"), OTHER.ip), address(SAME, FOUND),
            )
        ),
        "eight_aliases": finds(LOOK_UP.answer(*aliases(8))),
        "bytes_after_the_last_record": finds(LOOK_UP.received(frame_body(LOOK_UP.found()) + b"more")),
        "answered_late": looks_up(
            [QUARTER, QUARTER, LOOK_UP.found()], TIMED, LOOK_UP.passed(*LOOK_UP.queries(3)),
            [*ANSWERED, *ran(b"echo 10.0.0.9", line=3)],
        ),
        "power_off": looks_up([Off()], LOOK_UP.shut(), end=[UNFINISHED]),
        "input_ends": looks_up([], end=[*LOOK_UP.shut(), UNFINISHED]),
        "a_second_start": looks_up([start(WORDS)], end=[*LOOK_UP.shut(), Done(Status.BAD_RECORD)]),
    }  # fmt: skip


def frame_body(received: Record) -> bytes:
    """The datagram of a frame that was built here."""
    assert isinstance(received, Received)
    return received.frame[42:]


def aliases(count: int) -> list[bytes]:
    """a.b is 1.b, which is 2.b, and so on; the last has an address."""
    names = [SAME, *[written(b"%d.b" % number) for number in range(1, count + 1)]]
    chain = [alias(owner, name) for owner, name in zip(names, names[1:])]
    return [*chain, address(names[-1], FOUND)]


def answers_without_an_address() -> dict[str, Row]:
    return {
        **{f"rcode_{rcode}": fails(refused(rcode), LOOK_UP.answer(rcode=rcode)) for rcode in (1, 2, 3, 4, 5, 9, 15)},
        "no_records": fails(refused(0), LOOK_UP.answer()),
        "an_alias_alone": fails(refused(0), LOOK_UP.answer(alias(SAME, written(b"c.b")))),
        "an_alias_of_another_name": fails(
            refused(0), LOOK_UP.answer(alias(written(b"z.b"), written(b"c.b")), address(written(b"c.b"), FOUND))
        ),
        "nine_aliases": fails(refused(0), LOOK_UP.answer(*aliases(9))),
        "aliases_in_a_ring": fails(
            refused(0), LOOK_UP.answer(alias(SAME, written(b"c.b")), alias(written(b"c.b"), SAME))
        ),
        "a_refusal_with_an_address": fails(refused(3), LOOK_UP.answer(address(SAME, FOUND), rcode=3)),
        "a_list_goes_on": looks_up(
            [LOOK_UP.answer(rcode=3)],
            [*LOOK_UP.came(over=refused(3)), Result(refused(3)), *ran(b"echo <>", place=1)],
            script=WORDS + b" || echo <${x}>",
        ),
    }  # fmt: skip


def strangers() -> dict[str, Row]:
    """What is no answer to the query reaches the client's object and changes nothing, or doesn't reach it."""
    good = frame_body(LOOK_UP.found())
    own = LOOK_UP.opened.own
    frame = LOOK_UP.received(good).frame
    unread = [
        LOOK_UP.received(good, port=54),
        LOOK_UP.received(good, OTHER),
        Received(udp_frame(made.SERVER, made.CLIENT, (53, own + 1), good)),
        Received(udp_frame(made.SERVER, Station(made.CLIENT.mac, OTHER.ip), (53, own), good)),
        Received(OTHER.mac + frame[6:]),
        Received(frame[:40] + bytes([frame[40] ^ 1]) + frame[41:]),
    ]
    query = wire_dns.query(LOOK_UP.query_number, b"a.b")
    ignored = [
        LOOK_UP.received(b"\x12\x34" + good[2:]),
        LOOK_UP.received(query),
        LOOK_UP.received(wire_dns.answer(LOOK_UP.query_number, b"a.c", address(SAME, FOUND))),
        LOOK_UP.received(good[:4] + b"\0\2" + good[6:]),  # two questions
        LOOK_UP.received(good[:-1]),
        LOOK_UP.received(b""),
        LOOK_UP.answer(address(pointer(21), FOUND)),  # a name that is a pointer to itself
        LOOK_UP.answer(address(pointer(40), FOUND)),  # a pointer forward
        LOOK_UP.answer(address(SAME, FOUND), alias(SAME, pointer(37 + 12))),  # one in an alias, to itself
        LOOK_UP.answer(address(b"\x40" + b"a" * 64 + b"\0", FOUND)),  # a label of 64 bytes
        LOOK_UP.answer(address((b"\x3f" + b"a" * 63) * 4 + b"\0", FOUND)),  # a name of 257 bytes
        LOOK_UP.answer(address(b"\x80\0", FOUND)),
    ]
    return {
        "no_answers": finds(
            *unread, *ignored, LOOK_UP.found(), before=[*[[]] * len(unread), *[IGNORED] * len(ignored)]
        ),
        "for_all_hosts": finds(
            Received(udp_frame(made.SERVER, Station(made.CLIENT.mac, IPv4Address("255.255.255.255")), (53, own), good))
        ),
    }  # fmt: skip


def silences() -> dict[str, Row]:
    failed = [*LOOK_UP.passed(over=TIMED_OUT), Result(TIMED_OUT)]
    begins = [Step(1), made.enter(), made.command(WORDS), *LOOK_UP.begins(*LOOK_UP.asks_for())]
    unfound = [LOOK_UP.passed(*(LOOK_UP.asks_for(TRIES[step]) if step in TRIES else [])) for step in range(2, 64)]
    # the address is found in record 2, so all stands a record later
    unanswered = [
        LOOK_UP.passed(*(LOOK_UP.queries(TRIES[step - 1]) if step - 1 in TRIES else [])) for step in range(4, 65)
    ]
    return {
        "nobody_there": Row(
            [start(WORDS), *[QUARTER] * 63], [*begins, *steps(2, *unfound, failed), *left(TIMED_OUT)]
        ),
        "no_answer": looks_up([QUARTER] * 62, *unanswered, failed, script=WORDS, end=left(TIMED_OUT)),
    }  # fmt: skip


def named(name: bytes, written_as: bytes, *sets: bytes) -> Row:
    """After these commands a name is asked for as another."""
    words = b"nslookup x " + written_as
    before = [entry for line, command in enumerate(sets, 2) for entry in ran(command, line=line)]
    look_up = LookUp(name=name)
    return looks_up(
        [look_up.found()], [*look_up.came(over=OK), Result(OK)], script=b"\n".join((*sets, words)), line=len(sets) + 2,
        before=before, look_up=look_up, words=words,
    )  # fmt: skip


def names() -> dict[str, Row]:
    """Which name is asked for, and which setting gets its address."""
    longest = b".".join([b"a" * 63] * 3 + [b"a" * 61])
    assert len(longest) == 253
    return {
        "a_domain": named(b"a.b", b"a", b"set domain b"),
        "a_domain_of_the_device": named(b"a.b.c", b"a", b"set net0/domain b.c"),
        "a_dot_at_the_end": named(b"a.", b"a.", b"set domain b"),
        "a_dot_within": named(b"a.c", b"a.c", b"set domain b"),
        "no_domain": named(b"a", b"a"),
        "an_empty_domain": named(b"a", b"a", b"set domain b", b"set domain"),
        "no_four_decimals": named(b"10.0.0.256", b"10.0.0.256"),
        "a_number_with_a_zero": named(b"10.0.0.01", b"10.0.0.01"),
        "the_longest_name": named(longest, longest),
        "the_longest_name_and_a_dot": named(longest + b".", longest + b"."),
        "bytes_of_a_name": named(b"A_-\xff.b", b"A_-\xff.b"),
        "a_setting_of_another_kind": shown(b"x:string", b"show x", b"x = 10.0.0.9\n"),
        "a_setting_that_was_set": shown(b"net0/dns", b"show dns", b"dns = 10.0.0.9\n"),
        "a_tag": shown(b"67", b"show filename", b"filename = 10.0.0.9\n"),
        "four_decimals": row(
            b"nslookup x 10.0.0.7 ; show x ; nslookup net0/y:string 255.255.255.255 ; show net0/y:hex ; "
            b"nslookup mac 0.0.0.0 ; show mac\n",
            ran(b"nslookup x 10.0.0.7"), printed(b"show x", b"x = 10.0.0.7\n", place=1),
            ran(b"nslookup net0/y:string 255.255.255.255", place=2),
            printed(b"show net0/y:hex", b"net0/y:hex = ff:ff:ff:ff\n", place=3),
            ran(b"nslookup mac 0.0.0.0", place=4), printed(b"show mac", b"mac = 0.0.0.0\n", place=5),
        ),
    }  # fmt: skip


def shown(setting: bytes, show: bytes, text: bytes) -> Row:
    """The address is put into this setting as an address, whatever kind is given with it or was there."""
    words = b"nslookup " + setting + b" a.b"
    return looks_up(
        [LOOK_UP.found()], [*ANSWERED, *printed(show, text, 3)], script=words + b"\n" + show, words=words
    )


def servers() -> dict[str, Row]:
    """Which name server is asked, or none."""
    far = LookUp(host=IPv4Address("10.0.1.1"))
    cause = Cause(Code.NO_ROUTE, 0x0A000101)
    unreached = row(WORDS, [made.command(WORDS), *far.turned_back(cause), Result(cause)], cause=cause)
    none = row(WORDS, ran(WORDS, NO_SERVER), cause=NO_SERVER)
    other = LookUp(host=OTHER.ip)
    return {
        "no_name_server": none,
        "a_name_server_of_0": row(
            b"set dns 0.0.0.0 ; " + WORDS, ran(b"set dns 0.0.0.0"), ran(WORDS, NO_SERVER, place=1), cause=NO_SERVER
        ),
        "a_name_server_of_three_bytes": row(
            b"set dns:hex 0a:00:00 ; " + WORDS, ran(b"set dns:hex 0a:00:00"), ran(WORDS, NO_SERVER, place=1),
            cause=NO_SERVER,
        ),
        "the_root_s_goes_first": asks_server(b"set dns 10.0.0.3", other),
        "the_first_of_two": asks_server(b"set dns:hex 0a:00:00:03:0a:00:00:01", other),
        "no_way_to_it": Row([start(WORDS, far.host)], unreached.outputs),
        "a_gateway_to_it": asks_server(b"set net0/gateway 10.0.0.254 ; set dns 10.0.1.1", far, GATEWAY),
        "a_closed_device": closed_device(),
    }  # fmt: skip


def asks_server(sets: bytes, look_up: LookUp, hop: IPv4Address | None = None) -> Row:
    """After these commands the look-up goes to another server, or by a gateway; then all is off."""
    before = [entry for place, words in enumerate(sets.split(b" ; ")) for entry in ran(words, place=place)]
    begins = [made.command(WORDS, 3), *look_up.begins(*look_up.asks_for(hop=hop))]
    outputs = [Step(1), made.enter(), *before, *begins, *steps(2, look_up.shut()), UNFINISHED]
    return Row([start(sets + b"\n" + WORDS), Off()], outputs)


def closed_device() -> Row:
    cause = Cause(Code.NO_ROUTE, int(SERVER))
    fails_ = [made.command(WORDS, 3), *LOOK_UP.turned_back(cause), Result(cause)]
    made_row = row(b"ifclose\n" + WORDS, ran(b"ifclose"), fails_, cause=cause)
    return Row([start(b"ifclose\n" + WORDS)], made_row.outputs)


# Words that name no host: a label that is empty or has 64 bytes, a name of 254.
WRONG_HOSTS = (b"a..b", b".a", b".", b"a..", b"a" * 64, b"b." + b"a" * 64, b".".join([b"a" * 63] * 3 + [b"a" * 62]))


def refusals() -> dict[str, Row]:
    wrong = [b"nslookup x " + host for host in WRONG_HOSTS]
    full = b"\n".join(b"set s%d a" % number for number in range(128))
    filled = [entry for number in range(128) for entry in ran(b"set s%d a" % number, line=number + 2)]
    return {
        "words": row(
            b"nslookup ; nslookup x ; nslookup x a.b c ; nslookup --x x a.b ; nslookup --x a.b\n",
            ran(b"nslookup", USAGE), ran(b"nslookup x", USAGE, place=1), ran(b"nslookup x a.b c", USAGE, place=2),
            ran(b"nslookup --x x a.b", USAGE, place=3), ran(b"nslookup --x a.b", USAGE, place=4), cause=USAGE,
        ),
        "settings_that_are_none": with_server(row(
            b"nslookup net9/x a.b ; nslookup x+ a.b ; nslookup x:int64 a.b ; nslookup net9/x 10.0.0.9 ; "
            b"nslookup net0.dhcp/x a.b ; nslookup ${none} a.b\n",
            ran(b"nslookup net9/x a.b", BAD_NAME), ran(b"nslookup x+ a.b", BAD_NAME, place=1),
            ran(b"nslookup x:int64 a.b", BAD_NAME, place=2), ran(b"nslookup net9/x 10.0.0.9", BAD_NAME, place=3),
            ran(b"nslookup net0.dhcp/x a.b", BAD_NAME, place=4), ran(b"nslookup  a.b", BAD_NAME, place=5),
            cause=BAD_NAME,
        )),
        "hosts_that_are_none": with_server(row(
            b"\n".join(words + b" ||" for words in wrong),
            *[ran(words, BAD_NAME, line) for line, words in enumerate(wrong, 2)],
        )),
        "a_domain_that_makes_it_none": with_server(row(
            b"set domain .b ; nslookup x a\n", ran(b"set domain .b"), ran(b"nslookup x a", BAD_NAME, place=1),
            cause=BAD_NAME,
        )),
        "a_bad_host_before_no_server": row(b"nslookup x a..b\n", ran(b"nslookup x a..b", BAD_NAME), cause=BAD_NAME),
        "a_full_block": with_server(row(
            full + b"\nnslookup x a.b ||\nnslookup x 10.0.0.9 ||\nnslookup s0 10.0.0.9 && show s0\n", filled,
            ran(b"nslookup x a.b", FULL_BLOCK, 130), ran(b"nslookup x 10.0.0.9", FULL_BLOCK, 131),
            ran(b"nslookup s0 10.0.0.9", line=132), printed(b"show s0", b"s0 = 10.0.0.9\n", 132, 1),
        )),
    }  # fmt: skip


def with_server(made_row: Row) -> Row:
    """The same where START gives a name server: nothing is asked of it."""
    first = made_row.inputs[0]
    assert isinstance(first, Start)
    return Row([replace(first, dns=SERVER)], made_row.outputs)


def two_look_ups() -> Row:
    """The second is open 1, asks from a port of its own and by a number of its own; the first answer isn't its."""
    again = LookUp(1, 2)
    second = [made.command(WORDS, 3), *again.begins(*again.queries())]
    late = Received(udp_frame(made.SERVER, made.CLIENT, (53, again.opened.own), frame_body(LOOK_UP.found())))
    return looks_up(
        [LOOK_UP.found(), LOOK_UP.found(), late, again.found()],
        [*ANSWERED, *second], [], again.came(), [*again.came(over=OK), Result(OK)], script=WORDS + b"\n" + WORDS,
    )


def the_example() -> Row:
    """examples/lookup.rec: a ping, a look-up of a name without a dot, and a boot from the address found."""
    inputs, files = example("lookup"), Station(bytes.fromhex("525400000009"), FOUND)
    kernel = inputs[-1].frame[46:85]
    ping, look_up, pair = Ping(), LookUp(1, 2, name=b"boot.lan"), Pair(2, 3)
    own, port = made.OWN_PORT + 2, made.SERVER_PORT + 2
    opened = Open(2, OpenKind.TFTP, FOUND, 69, own, b"k")
    asks = Sent(udp_frame(made.CLIENT, files, (own, 69), tftp_request(b"k")))
    acknowledged = Sent(udp_frame(made.CLIENT, files, (own, port), tftp_ack(1)))
    begins = [*ran(b"set domain lan", line=4), made.command(b"ping 10.0.0.1", 5), *ping.begins(*ping.asks_for())]
    named = [made.command(b"nslookup server boot", 6), *look_up.begins(*look_up.queries())]
    fetch = [
        *ran(b"echo boot.lan is 10.0.0.9", line=7), made.command(b"imgexec tftp://10.0.0.9/k", 8),
        *asked(opened, Try(2, 1), Sent(arp_request(made.CLIENT, FOUND)), cast=pair),
    ]  # fmt: skip
    handed_off = [
        Result(OK), Part(PartKind.KERNEL_NAME, 0, 0, b"k"), Part(PartKind.KERNEL, 0, 0, kernel),
        Part(PartKind.COMMAND_LINE, 0, 0, b""), Done(Status.HANDED_OFF),
    ]  # fmt: skip
    later = steps(
        2, [], ping.passed(*ping.pings(2)), ping.passed(), [*ping.came(over=OK), Result(OK), *named],
        look_up.passed(), [*look_up.came(over=OK), Result(OK), *fetch], [], passed(pair, Try(2, 2), asks),
        [*came(pair, Advance(2, 1), acknowledged, gives=True, over=OK), *handed_off],
    )  # fmt: skip
    return Row(inputs, [Step(1), made.enter(), *begins, *later])


ROWS = {
    **conversations(), **answers_without_an_address(), **strangers(), **silences(), **names(), **servers(),
    **refusals(), "two_look_ups": two_look_ups(), "the_example": the_example(),
}  # fmt: skip


def all_inputs() -> dict[str, bytes]:
    return {f"lookup_{name}": made.spelled(row.inputs) for name, row in ROWS.items()}


@unittest.skipUnless(can_run(), "the program isn't built, and the toolchain's rt is missing")
class LookUps(RowCase):
    def test_rows(self) -> None:
        for name, row in ROWS.items():
            with self.subTest(name):
                self.same(f"lookup_{name}", row)


if __name__ == "__main__":
    unittest.main()
