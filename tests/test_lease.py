"""Leases by `dhcp`, and boots by what they give: the program's whole output, record by record.

What is expected is written by hand from docs/RECORDS.md, docs/SCRIPTS.md, RFC 2131, 2132 and 3396.
"""

from __future__ import annotations

import unittest
from dataclasses import replace
from ipaddress import IPv4Address
from uuid import UUID

from shared import wire_dhcp
from shared.causes import OK, Cause, Code
from shared.kinds import OpenKind, PartKind, Status
from shared.records import Advance, Command, Done, Off, Open, Part, Received, Record, Result
from shared.records import Sent, Start, Step, Tick, Try
from shared.wire import Station, arp_reply, arp_request, tftp_ack, tftp_data, tftp_request
from shared.wire import udp_frame
from shared.wire_dhcp import END, Kind, Operation, Option, Tag, options_text
from tests import made
from tests.asking_records import LEASED, LEASED_CLIENT, NETMASK, Lease
from tests.graph_records import Pair, asked, came, passed, shut, turned_back
from tests.replays import can_run
from tests.script_rows import FIRST, UNFINISHED, Row, RowCase, example, left, printed, ran, row, steps, text

LEASE = Lease()
UNSET = IPv4Address(0)
TIMED_OUT, SETTINGS = Cause(Code.TIMED_OUT, 4), Cause(Code.TOO_MANY, 5)
BAD_NAME, USAGE, FALSE = Cause(Code.BAD_NAME), Cause(Code.USAGE), Cause(Code.FALSE)
NAK = 6
GATEWAY = Station(bytes.fromhex("5254000000fe"), IPv4Address("10.0.0.254"))
OTHER = Station(bytes.fromhex("525400000003"), IPv4Address("10.0.0.3"))
OFFERED = LEASE.came(*LEASE.requests())
TAKEN = [*LEASE.came(over=OK), Result(OK)]
IGNORED, TIMED = LEASE.came(), LEASE.passed()
WAITS = Tick(1_000)


def start(*lines: bytes, ip: IPv4Address = UNSET) -> Start:
    """A client that has no address by START, or this one."""
    started = made.start(FIRST + b"".join(line + b"\n" for line in lines))
    return replace(started, ip=ip, mask=UNSET if ip == UNSET else started.mask)


def asks(received: list[Record], *each: list[Record], lines: tuple[bytes, ...] = (b"dhcp",),
         ip: IPv4Address = UNSET, end: list[Record] | None = None, lease: Lease = LEASE) -> Row:
    """A script whose first line asks for a lease, these records, what each brings, and how it ends."""
    words = lines[0].partition(b" ||")[0]
    begins = [Step(1), made.enter(), made.command(words), *lease.begins(*lease.discovers())]
    outputs = [*begins, *steps(2, *each), *(left() if end is None else end)]
    return Row([start(*lines, ip=ip), *received], outputs)


def ack(*options: Option, given: IPv4Address = LEASED, **fields: bytes | IPv4Address) -> Record:
    return LEASE.answer(Kind.ACK, *options, given=given, **fields)


def leased(acked: Record, *later: list[Record], lines: tuple[bytes, ...] = (), received: tuple[Record, ...] = (),
           ip: IPv4Address = UNSET, end: list[Record] | None = None) -> Row:
    """A lease, and what these lines make of it: the first of `later` in its step, the others by later records."""
    first, *others = later or ([],)
    return asks([LEASE.offer(), acked, *received], OFFERED, [*TAKEN, *first], *others, lines=(b"dhcp", *lines), ip=ip,
                end=end)


def shows(acked: Record, *words: tuple[bytes, bytes], ip: IPv4Address = UNSET) -> Row:
    """What the settings of a lease print: each as it is written, and as expanded."""
    lines = tuple(b"echo " + written for written, _ in words)
    echoes = [ran(b"echo " + shown, line=line) for line, (_, shown) in enumerate(words, 3)]
    return leased(acked, [record for echo in echoes for record in echo], lines=lines, ip=ip)


def refused(cause: Cause) -> list[Record]:
    """The records that end it with this cause, in its last step."""
    return [*LEASE.came(over=cause), Result(cause)]


def conversations() -> dict[str, Row]:
    inner = options_text([(190, b"u"), (191, b"p")])
    overloaded = ack((Tag.OVERLOAD, b"\3"), (Tag.IPXE, inner), file=options_text([(67, b"boot.ipxe")]) + END)
    at_6 = Cause(Code.REFUSED, 6, NAK)
    nak = [LEASE.offer(), Tick(250), LEASE.nak()]
    return {
        "a_lease": shows(overloaded, (b"${filename} ${username} ${175.191}", b"boot.ipxe u p")),
        "refused": asks([Tick(250), Tick(250), *nak], TIMED, TIMED, OFFERED, TIMED, refused(at_6), end=left(at_6)),
        "net0_is_the_device": asks([LEASE.offer(), ack()], OFFERED, TAKEN, lines=(b"dhcp net0",)),
        "at_the_offer_the_tries_begin_anew": asks(
            [Tick(900), LEASE.offer(), Tick(900), Tick(100), ack()],
            TIMED, OFFERED, TIMED, LEASE.passed(*LEASE.requests(2)), TAKEN,
        ),
        "a_late_offer": asks(
            [WAITS, WAITS, WAITS, LEASE.offer(), ack()],
            LEASE.passed(*LEASE.discovers(2)), TIMED, LEASE.passed(*LEASE.discovers(3)), OFFERED, TAKEN,
        ),
        "power_off": asks([Off()], LEASE.shut(), end=[UNFINISHED]),
        "power_off_after_the_offer": asks([LEASE.offer(), Off()], OFFERED, LEASE.shut(), end=[UNFINISHED]),
        "input_ends": asks([], end=[*LEASE.shut(), UNFINISHED]),
        "a_second_start": asks([start(b"dhcp")], end=[*LEASE.shut(), Done(Status.BAD_RECORD)]),
        "a_machine_of_its_own": own_machine(),
    }  # fmt: skip


def own_machine() -> Row:
    """The request names the machine: its hardware address, UUID and architecture, and a number by its key."""
    key, uuid = bytes(range(32)), UUID("01234567-89ab-cdef-0123-456789abcdef")
    station = Station(bytes.fromhex("525400abcdef"), UNSET)
    lease = Lease(client=station, key=key, uuid=uuid, arch=7)
    made_row = asks([lease.offer(), Off()], lease.came(*lease.requests()), lease.shut(), end=[UNFINISHED], lease=lease)
    started = replace(made_row.inputs[0], mac=station.mac, uuid=uuid, key=key, arch=7, w=16_383)
    return Row([started, *made_row.inputs[1:]], made_row.outputs)


def silences() -> dict[str, Row]:
    def silent(tick: Tick, at: dict[int, int], number: int, before: list[Record], asking: str) -> Row:
        """Tries come in these steps, and in step `number` the last of them has had no answer."""
        outputs: list[list[Record]] = [OFFERED] * len(before)
        tries = {"discovers": LEASE.discovers, "requests": LEASE.requests}[asking]
        for step in range(2 + len(before), number):
            outputs.append(LEASE.passed(*(tries(at[step]) if step in at else [])))
        outputs.append([*LEASE.passed(over=TIMED_OUT), Result(TIMED_OUT)])
        return asks([*before, *[tick] * (number - 1 - len(before))], *outputs, end=left(TIMED_OUT))

    again = Lease(1, 2)
    return {
        "nobody_offers": silent(WAITS, {2: 2, 4: 3, 8: 4}, 16, [], "discovers"),
        "nobody_offers_in_long_times": silent(Tick(60_000), {2: 2, 3: 3, 4: 4}, 5, [], "discovers"),
        "nobody_acknowledges": silent(WAITS, {3: 2, 5: 3, 9: 4}, 17, [LEASE.offer()], "requests"),
        "asked_for_again": asks(
            [Tick(60_000)] * 4 + [again.offer(), again.answer(Kind.ACK)],
            *[LEASE.passed(*LEASE.discovers(attempt)) for attempt in (2, 3, 4)],
            [*LEASE.passed(over=TIMED_OUT), Result(TIMED_OUT), Command(1, 2, 1, True, (b"dhcp",)),
             *again.begins(*again.discovers())],
            again.came(*again.requests()), [*again.came(over=OK), Result(OK)],
            lines=(b"dhcp || dhcp",),
        ),
    }  # fmt: skip


def flipped(record: Record, place: int) -> Record:
    """A frame with a bit turned over."""
    assert isinstance(record, Received)
    return Received(record.frame[:place] + bytes([record.frame[place] ^ 1]) + record.frame[place + 1 :])


def offer_text(operation: Operation = Operation.SERVER, kind: bytes = b"\2", server: bytes = made.SERVER.ip.packed,
               given: IPv4Address = LEASED, lease: Lease = LEASE, rest: bytes = END) -> bytes:
    """An offer of which a part may be another."""
    options = [*([(Tag.KIND, kind)] if kind else []), *([(Tag.SERVER, server)] if server else [])]
    return wire_dhcp.message(operation, lease.asker, options_text(options) + rest, given)


def strangers() -> dict[str, Row]:
    """What is no offer and no verdict: it reaches the client's object and changes nothing, or doesn't reach it."""
    offer = LEASE.offer()
    stranger = Lease(client=Station(OTHER.mac, UNSET))
    unread = [
        LEASE.received(offer_text(), port=66),
        Received(udp_frame(made.SERVER, wire_dhcp.EVERYONE, (67, 69), offer_text())),
        LEASE.received(offer_text(), to=Station(OTHER.mac, LEASED)),
        flipped(offer, 24),  # the IPv4 header's checksum
        flipped(offer, 40),  # the datagram's checksum
        Received(offer.frame[:-1]),  # shorter than its header says
        Received(arp_request(made.SERVER, LEASED)),
    ]
    ignored = [
        Lease(1).offer(),  # another transaction
        LEASE.received(offer_text(given=UNSET)),
        LEASE.received(wire_dhcp.answer(replace(LEASE.asker, mac=OTHER.mac), Kind.OFFER, made.SERVER.ip, given=LEASED)),
        LEASE.received(offer_text(Operation.CLIENT)),
        LEASE.received(offer_text(kind=b"")),
        LEASE.received(offer_text(kind=b"\2\2")),
        LEASE.received(offer_text(server=b"")),
        LEASE.received(offer_text(rest=b"\x43\x05boot")),  # an option past the end
        LEASE.received(offer_text()[:239]),
        LEASE.received(offer_text().replace(wire_dhcp.COOKIE, b"\x63\x82\x53\x64")),
        LEASE.received(b""),
        LEASE.answer(Kind.ACK),
        LEASE.nak(),
        LEASE.received(wire_dhcp.discover(LEASE.asker)),
    ]
    # after the first offer
    others = [
        offer,
        LEASE.offer(OTHER),
        LEASE.answer(Kind.ACK, server=OTHER),
        LEASE.nak(OTHER),
        Lease(1).answer(Kind.ACK),
        LEASE.received(wire_dhcp.answer(stranger.asker, Kind.NAK, made.SERVER.ip)),
    ]
    relayed = wire_dhcp.answer(LEASE.asker, Kind.ACK, made.SERVER.ip, given=LEASED)
    unicast = LEASE.received(offer_text(), to=LEASED_CLIENT)
    return {
        "no_offers": asks(
            [*unread, *ignored, offer, ack()], *[[]] * len(unread), *[IGNORED] * len(ignored), OFFERED, TAKEN
        ),
        "no_verdicts": asks([offer, *others, ack()], OFFERED, *[IGNORED] * len(others), TAKEN),
        "an_offer_to_the_address_that_it_gives": asks([unicast, ack()], OFFERED, TAKEN),
        "an_answer_from_another_address": asks([offer, LEASE.received(relayed, OTHER)], OFFERED, TAKEN),
        "an_acknowledgement_of_another_address": shows(
            ack(given=IPv4Address("10.0.0.51")), (b"${ip}", b"10.0.0.51"),
        ),
    }  # fmt: skip


def settings() -> dict[str, Row]:
    """What is in `net0.dhcp` after a lease."""
    long = (43, b"\x0a" * 1_025)
    return {
        "options_by_their_kinds": shows(
            ack(NETMASK, (Tag.GATEWAY, GATEWAY.ip.packed), (Tag.DNS, bytes((10, 0, 0, 1, 10, 0, 0, 9))), (12, b"h\0\0"),
                (Tag.DOMAIN, b"b.c"), (43, b"\1\2"), (66, b"ab"), (Tag.IPXE, b"\1\1\5\xbd\1\x80"),
                next_server=made.SERVER.ip),
            (b"${ip} ${netmask} ${gateway} ${dns}", b"10.0.0.50 255.255.255.0 10.0.0.254 10.0.0.1"),
            (b"${dhcp-server} ${next-server}", b"10.0.0.1 10.0.0.1"),
            (b"${hostname} ${hostname:hex} ${domain}", b"h 68 b.c"),
            (b"${43} ${66} ${66:string}", b"01:02 61:62 ab"),
            (b"${priority} ${san-drive} ${175.189:int8}", b"5 0x80 -128"),
            (b"${dns:hex}", b"0a:00:00:01:0a:00:00:09"),
            (b"${net0.dhcp/ip} ${net0/ip} ${net0.dhcp/mac}", b"10.0.0.50 10.0.0.50 "),
            (b"<${52}${53}${175}${filename}>", b"<>"),
        ),
        "a_file_in_the_header": shows(
            ack((Tag.FILENAME, b"option"), file=b"header\0rest"), (b"${filename} ${67}", b"header header")
        ),
        "a_file_that_ends_in_zeros": shows(ack((Tag.FILENAME, b"boot.ipxe\0\0")), (b"${filename:hex}",
                                           b"boot.ipxe".hex(":").encode())),
        "texts_of_unlisted_options_that_end_in_zeros": shows(
            ack((66, b"10.0.0.1\0"), (209, b"a.cfg\0\0"), (210, b"/tftp/\0"), (43, b"\0"), (Tag.IPXE, b"\x63\2v\0")),
            (b"${66:string} ${209:string}<${43:string}>", b"10.0.0.1 a.cfg<>"),
            (b"${210:uristring} ${175.99:string}", b"%2Ftftp%2F v"),
            (b"${209} ${43} ${175.99:hexraw}", b"61:2e:63:66:67:00:00 00 7600"),
        ),
        "no_next_server": shows(ack(), (b"<${next-server}>", b"<>")),
        "a_value_in_two_options": shows(
            LEASE.received(wire_dhcp.message(
                Operation.SERVER, LEASE.asker,
                options_text([(Tag.KIND, b"\5"), (Tag.SERVER, made.SERVER.ip.packed), (67, b"/diskle")])
                + options_text([(67, b"ss/foo")]), LEASED,
            )),
            (b"${filename}", b"/diskless/foo"),
        ),
        "values_over_three_fields": shows(
            ack((Tag.OVERLOAD, b"\3"), (67, b"a"), file=options_text([(67, b"b")]) + END,
                sname=options_text([(67, b"c"), (17, b"r")]) + END),
            (b"${filename} ${root-path}", b"abc r"),
        ),
        "options_within_175": shows(
            ack((Tag.IPXE, b"\0\xbe\1u\xff\xbf\1p")), (b"${username}<${password}>", b"u<>")
        ),
        "an_option_past_the_end_of_175": shows(
            ack((Tag.IPXE, b"\xbe\1u\xbf\5p")), (b"${username}<${password}>", b"u<>")
        ),
        "values_of_1024_bytes": shows(
            ack((43, b"\x0a" * 1_024)), (b"${43:hexraw}", b"0a" * 1_024), (b"<${filename}>", b"<>")
        ),
        "a_longer_value_is_left_out": shows(ack(long, (67, b"f")), (b"<${43}>${filename}", b"<>f")),
        "the_root_and_net0_go_first": shows(
            ack((Tag.FILENAME, b"f")), (b"${ip} ${net0/ip} ${net0.dhcp/ip}", b"10.0.0.2 10.0.0.2 10.0.0.50"),
            ip=made.CLIENT.ip,
        ),
        "a_priority": shows(
            ack((Tag.IPXE, b"\1\1\1")), (b"${ip} ${net0/ip} ${net0.dhcp/ip}", b"10.0.0.50 10.0.0.2 10.0.0.50"),
            ip=made.CLIENT.ip,
        ),
        "a_priority_below_0": shows(
            ack((Tag.IPXE, b"\1\1\xff")), (b"${ip} ${priority}", b"10.0.0.2 -1"), ip=made.CLIENT.ip
        ),
        "a_lease_can_be_changed": leased(
            ack((Tag.FILENAME, b"f")),
            [*ran(b"set net0.dhcp/filename g", line=3), *printed(b"show filename", b"filename = g\n", 4)],
            lines=(b"set net0.dhcp/filename g", b"show filename"),
        ),
        "no_lease_and_no_block": row(
            b"set net0.dhcp/x y || echo <${net0.dhcp/ip}>\n",
            ran(b"set net0.dhcp/x y", BAD_NAME), ran(b"echo <>", place=1),
        ),
        **limits(),
    }  # fmt: skip


def limits() -> dict[str, Row]:
    """A block has at most 128 settings, and a lease that needs more leaves none."""
    tags = [tag for tag in range(100, 255) if tag != Tag.IPXE]
    most, more = ([(tag, b"a") for tag in tags[:count]] for count in (126, 127))
    full = [*LEASE.came(over=OK), Result(SETTINGS)]
    again = Lease(1, 2)
    second = [made.command(b"dhcp", 3), *again.begins(*again.discovers())]
    return {
        "128_settings": shows(ack(*most), (b"${net0.dhcp/ip} ${225:string}", b"10.0.0.50 a")),
        "129_settings": asks(
            [LEASE.offer(), ack(*more)], OFFERED,
            [*full, *ran(b"echo <>", place=1), *ran(b"set net0.dhcp/x y", BAD_NAME, 3)],
            lines=(b"dhcp || echo <${net0.dhcp/ip}>", b"set net0.dhcp/x y"), end=left(BAD_NAME),
        ),
        "a_second_lease_with_129": leased(
            ack((Tag.FILENAME, b"f")), second, again.came(*again.requests()),
            [*again.came(over=OK), Result(SETTINGS), *ran(b"echo f 10.0.0.50", line=3, place=1)],
            lines=(b"dhcp || echo ${filename} ${net0/ip}",),
            received=(again.offer(), again.answer(Kind.ACK, *more, given=IPv4Address("10.0.0.51"))),
        ),
        "a_second_lease": leased(
            ack((Tag.FILENAME, b"f")), second, again.came(*again.requests(address=IPv4Address("10.0.0.51"))),
            [*again.came(over=OK), Result(OK), *ran(b"echo 10.0.0.51<>", line=4)],
            lines=(b"dhcp", b"echo ${net0/ip}<${filename}>"),
            received=(again.answer(Kind.OFFER, given=IPv4Address("10.0.0.51")),
                      again.answer(Kind.ACK, given=IPv4Address("10.0.0.51"))),
        ),
    }  # fmt: skip


def arp(address: IPv4Address) -> Received:
    """A request for an address, which only says where its sender is."""
    return Received(arp_request(OTHER, address))


def replies(client: Station) -> list[Record]:
    return [Sent(arp_reply(client, OTHER))]


def addresses() -> dict[str, Row]:
    """Whose address the client has, before and after a lease."""
    here = made.CLIENT.ip
    slept = [Result(OK)]
    sleeps = [made.command(b"sleep 1", 3)]
    return {
        "the_leased_address_is_the_client_s": asks(
            [arp(LEASED), LEASE.offer(), arp(LEASED), ack(), arp(LEASED), arp(here), WAITS],
            [], OFFERED, [], [*TAKEN, *sleeps], replies(LEASED_CLIENT), [], slept, lines=(b"dhcp", b"sleep 1"),
        ),
        "start_s_address_goes_before_a_lease_s": asks(
            [arp(here), LEASE.offer(), ack(), arp(LEASED), arp(here), WAITS],
            replies(made.CLIENT), OFFERED, [*TAKEN, *sleeps], [], replies(made.CLIENT), slept,
            lines=(b"dhcp", b"sleep 1"), ip=here,
        ),
        "a_lease_of_no_address": leased(
            ack(given=UNSET), [*sleeps], [], [Result(OK), *ran(b"echo 0.0.0.0", line=4)],
            lines=(b"sleep 1", b"echo ${ip}"), received=(arp(UNSET), WAITS),
        ),
        "too_large_a_lease_gives_no_address": asks(
            [LEASE.offer(), ack(*[(tag, b"") for tag in range(100, 230) if tag != Tag.IPXE]), arp(LEASED), WAITS],
            OFFERED, [*LEASE.came(over=OK), Result(SETTINGS), *sleeps], [], slept, lines=(b"dhcp ||", b"sleep 1"),
        ),
        "a_closed_device_is_opened": opened_device(ack(), TAKEN),
        "a_refused_lease_leaves_it_open": opened_device(LEASE.nak(), refused(Cause(Code.REFUSED, 3, NAK))),
        "another_device": row(
            b"ifclose ; dhcp eth1 ; dhcp NET0 ; dhcp ${none} ; dhcp a b ; dhcp --x ; dhcp --net0 ; dhcp net0 net0\n",
            ran(b"ifclose"), ran(b"dhcp eth1", BAD_NAME, place=1), ran(b"dhcp NET0", BAD_NAME, place=2),
            ran(b"dhcp ", BAD_NAME, place=3), ran(b"dhcp a b", USAGE, place=4), ran(b"dhcp --x", USAGE, place=5),
            ran(b"dhcp --net0", USAGE, place=6), ran(b"dhcp net0 net0", USAGE, place=7), cause=USAGE,
        ),
        "another_device_opens_none": still_closed(),
    }  # fmt: skip


def still_closed() -> Row:
    """`dhcp` of a device that isn't there leaves net0 as it was."""
    lines = (b"ifclose", b"dhcp eth1 ||", b"sleep 1")
    outputs = [Step(1), made.enter(), *ran(b"ifclose"), *ran(b"dhcp eth1", BAD_NAME, 3), made.command(b"sleep 1", 4)]
    outputs += [*steps(2, [], [Result(OK)]), *left()]
    return Row([start(*lines, ip=made.CLIENT.ip), arp(made.CLIENT.ip), WAITS], outputs)


def opened_device(verdict: Record, ended: list[Record]) -> Row:
    """`dhcp` sets the device up that was closed before, whatever comes of it."""
    lines = (b"ifclose", b"dhcp ||", b"sleep 1")
    begins = [*ran(b"ifclose"), made.command(b"dhcp", 3), *LEASE.begins(*LEASE.discovers())]
    sleeps = [*ended, made.command(b"sleep 1", 4)]
    later = steps(2, OFFERED, sleeps, replies(made.CLIENT), [Result(OK)])
    inputs = [start(*lines, ip=made.CLIENT.ip), LEASE.offer(), verdict, arp(made.CLIENT.ip), WAITS]
    return Row(inputs, [Step(1), made.enter(), *begins, *later, *left()])


FETCH = b"imgexec tftp://${next-server}/${filename}"
KERNEL = b"\x7fELF a kernel"
# the objects of open 1, after a lease's one
PAIR = Pair(1, 2)
OWN = made.OWN_PORT + 1
FILE_OPEN = Open(1, OpenKind.TFTP, made.SERVER.ip, 69, OWN, b"k")
# what the client sends from its leased address: an ARP request, the read request and an acknowledgement
ASKS_WHERE = Sent(arp_request(LEASED_CLIENT, made.SERVER.ip))
ASKS_FOR_FILE = Sent(udp_frame(LEASED_CLIENT, made.SERVER, (OWN, 69), tftp_request(b"k")))


def transfer(server: str = "10.0.0.1", line: int = 3) -> list[Record]:
    """The command that fetches the file that a lease names."""
    return [made.command(b"imgexec tftp://%s/k" % server.encode(), line)]


def handed_off(kernel: bytes, port: int) -> list[Record]:
    """The one block of a kernel comes, from this port of the server, and is handed off."""
    acknowledged = Sent(udp_frame(LEASED_CLIENT, made.SERVER, (OWN, port), tftp_ack(1)))
    return [
        *came(PAIR, Advance(1, 1), acknowledged, gives=True, over=OK),
        Result(OK),
        Part(PartKind.KERNEL_NAME, 0, 0, b"k"),
        Part(PartKind.KERNEL, 0, 0, kernel),
        Part(PartKind.COMMAND_LINE, 0, 0, b""),
        Done(Status.HANDED_OFF),
    ]


def boots() -> dict[str, Row]:
    named = ack(NETMASK, (Tag.FILENAME, b"k"), next_server=made.SERVER.ip)
    block = Received(udp_frame(made.SERVER, LEASED_CLIENT, (made.SERVER_PORT, OWN), tftp_data(1, KERNEL)))
    begins = [*transfer(), *asked(FILE_OPEN, Try(1, 1), ASKS_WHERE, cast=PAIR)]
    found = Received(arp_reply(made.SERVER, LEASED_CLIENT))
    far = replace(FILE_OPEN, server=IPv4Address("10.0.1.1"))
    return {
        "a_boot": leased(
            named, begins, [], passed(PAIR, Try(1, 2), ASKS_FOR_FILE), handed_off(KERNEL, made.SERVER_PORT),
            lines=(FETCH,), received=(found, Tick(250), block), end=[],
        ),
        "the_example": the_example(),
        "power_off_in_the_transfer": leased(
            named, begins, [], shut(PAIR), lines=(FETCH,), received=(found, Off()), end=[UNFINISHED]
        ),
        "a_gateway_that_is_leased": leased(
            ack(NETMASK, (Tag.GATEWAY, GATEWAY.ip.packed), (Tag.FILENAME, b"k"), next_server=IPv4Address("10.0.1.1")),
            [*transfer("10.0.1.1"), *asked(far, Try(1, 1), Sent(arp_request(LEASED_CLIENT, GATEWAY.ip)), cast=PAIR)],
            lines=(FETCH,), end=[*shut(PAIR), UNFINISHED],
        ),
        "no_gateway_is_leased": unreached("10.0.1.1", ack(next_server=IPv4Address("10.0.1.1"), file=b"k")),
        "a_mask_that_is_leased": unreached(
            "10.0.0.1", ack((Tag.NETMASK, bytes((255, 255, 255, 248))), next_server=made.SERVER.ip, file=b"k")
        ),
        "no_address_is_leased": unreached("10.0.0.1", ack(given=UNSET, next_server=made.SERVER.ip, file=b"k")),
    }  # fmt: skip


def the_example() -> Row:
    """The first DISCOVER of examples/dhcp.rec is lost; its kernel has 34 bytes."""
    inputs = example("dhcp")
    kernel = inputs[-1].frame[46:80]
    begins = [Step(1), made.enter(), made.command(b"dhcp", 4), *LEASE.begins(*LEASE.discovers())]
    echoed = ran(b"echo 10.0.0.50 of 10.0.0.1: k from 10.0.0.1", line=5)
    fetch = [*transfer(line=6), *asked(FILE_OPEN, Try(1, 1), ASKS_WHERE, cast=PAIR)]
    later = steps(
        2, TIMED, LEASE.passed(*LEASE.discovers(2)), TIMED, OFFERED, TIMED, [*TAKEN, *echoed, *fetch], [],
        passed(PAIR, Try(1, 2), ASKS_FOR_FILE), handed_off(kernel, made.SERVER_PORT + 1),
    )  # fmt: skip
    return Row(inputs, [*begins, *later])


def unreached(server: str, acked: Record) -> Row:
    """The lease leaves no way to the server that it names."""
    cause = Cause(Code.NO_ROUTE, int(IPv4Address(server)))
    opened = replace(FILE_OPEN, server=IPv4Address(server))
    fails = [*transfer(server), *turned_back(opened, cause, PAIR), Result(cause)]
    return leased(acked, fails, lines=(FETCH,), end=left(cause))


def built_in() -> dict[str, Row]:
    """An empty script asks for a lease; without a file and a disk in it there is nothing to boot."""
    exits = Cause(Code.EXIT, 1)
    begins = [Step(1), made.enter(), made.command(b"dhcp"), *LEASE.begins(*LEASE.discovers())]
    searched = [
        *ran(b"isset ", FALSE, 3), *ran(b"goto san", line=3, place=1), *ran(b"isset ", FALSE, 6),
        *ran(b"exit 1", exits, 6, 1),
    ]  # fmt: skip
    fails = [*refused(Cause(Code.REFUSED, 3, NAK)), *ran(b"exit 1", exits, 2, 1)]
    started = replace(text(b"").inputs[0], ip=UNSET, mask=UNSET)
    return {
        "the_built_in_script": Row(
            [started, LEASE.offer(), ack()], [*begins, *steps(2, OFFERED, [*TAKEN, *searched]), *left(exits)]
        ),
        "the_built_in_script_without_a_lease": Row(
            [started, LEASE.offer(), LEASE.nak()], [*begins, *steps(2, OFFERED, fails), *left(exits)]
        ),
    }


ROWS = {
    **conversations(), **silences(), **strangers(), **settings(), **addresses(), **boots(), **built_in()
}  # fmt: skip


def all_inputs() -> dict[str, bytes]:
    return {f"lease_{name}": made.spelled(row.inputs) for name, row in ROWS.items()}


@unittest.skipUnless(can_run(), "the program isn't built, and the toolchain's rt is missing")
class Leases(RowCase):
    def test_rows(self) -> None:
        for name, row in ROWS.items():
            with self.subTest(name):
                self.same(f"lease_{name}", row)


if __name__ == "__main__":
    unittest.main()
