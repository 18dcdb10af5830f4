"""`show.py` where a command's server is a name, and where a lease leads to it, on runs built by hand."""

from __future__ import annotations

import unittest
from dataclasses import replace
from ipaddress import IPv4Address

from shared.causes import OK, Cause, Code
from shared.kinds import OpenKind
from shared.records import Advance, Open, Received, Record, Result, Sent, Start, Step, Tick, Try
from shared.wire import tftp_ack, tftp_data, tftp_error, tftp_oack, tftp_request, udp_frame
from shared.wire_dhcp import Kind, Option, Tag
from tests import graph_records, made, test_names
from tests.asking_records import LEASED_CLIENT, NETMASK, Lease, LookUp
from tests.case import Case
from tests.graph_records import Pair, cast_for, turned_back
from tests.graph_run import fault_of
from tests.script_rows import FIRST, UNFINISHED, Row, left, ran, steps
from tests.test_names import FETCH, HOST, LOOK_UP, PING, QUARTER, Fetch, fails, looks_up, waits
from tests.test_why import sentence, why

FILE = Fetch()
WORDS = b"imgfetch tftp://a.b/f"
NO_SERVER, TIMED_OUT = Cause(Code.NO_SERVER), Cause(Code.TIMED_OUT, 6)
LEASE, NAMED = Lease(), LookUp(1, 3, client=LEASED_CLIENT, name=b"boot.lan")
UNSET = IPv4Address(0)
LONG = Tick(60_000)
FOUND = [*LOOK_UP.came(over=OK), *FILE.begins()]
IS_FOUND = "FRAME 10.0.0.1:53 > 10.0.0.2:49152 DNS answer 0x003e a.b: 10.0.0.9; 79 bytes"


def line_of(row: Row) -> str:
    assert fault_of(row.outputs) is None
    return sentence(row.outputs, row.inputs)


def fetched(received: list[Record], *each: list[Record], end: list[Record]) -> Row:
    """The server is found and asked for the file in steps 4 to 6; and what these records bring from step 7 on."""
    before = [LOOK_UP.found(), FILE.found(), QUARTER]
    return looks_up(WORDS, [*before, *received], FOUND, [], FILE.requests(), *each, end=end)


def sent(body: bytes) -> Received:
    """The server sends this to the transfer."""
    return Received(udp_frame(HOST, made.CLIENT, (made.SERVER_PORT, FILE.own), body))


def acknowledges(block: int, attempt: int = 1) -> list[Record]:
    ack = udp_frame(made.CLIENT, HOST, (FILE.own, made.SERVER_PORT), tftp_ack(block))
    return [Try(1, attempt), Sent(ack)]


class Sentences(unittest.TestCase):
    def test_which_open_failed(self) -> None:
        """The look-up, or the command's own."""
        unset = "no name server is set that can be asked for its address: `dns` comes by `dhcp`, by `set dns ADDRESS`"
        outside = "is outside the client's net 10.0.0.0/24, and no gateway is set"
        silent = "never answered: its hardware address was asked for six times in 15.75 s"
        unknown = "the name server 10.0.0.1 answered, when asked for a.b: there is no such name (NXDOMAIN)"
        for name, said in (
            ("no_such_name", unknown),
            ("a_ping_of_no_such_name", unknown),
            ("the_example_that_fails", unknown.replace("a.b", "boot.lan")),
            ("no_address", "a.b has no IPv4 address, as the name server 10.0.0.1 answered"),
            ("no_name_server", f"line 2: a.b is a name, and {unset} or by --dns"),
            ("no_way_to_the_name_server", f"line 2: the name server 11.0.0.1 {outside}"),
            ("no_way_to_the_server", f"line 2: a.b (11.0.0.9) {outside}"),
            ("a_ping_that_finds_no_way", f"line 2: a.b (11.0.0.9) {outside}"),
            ("nobody_there", f"the name server 10.0.0.1 {silent}"),
            ("no_reply_of_the_server", f"a.b (10.0.0.9) {silent}"),
        ):
            row = test_names.ROWS[name]
            with self.subTest(name):
                self.assertEqual(why(row.outputs, row.inputs)[0], said)

    def test_what_was_asked_and_answered(self) -> None:
        row = test_names.ROWS["no_way_to_the_server"]
        lines = why(row.outputs, row.inputs)
        self.assertEqual(
            lines[1:-1],
            [
                "line 2 failed in step 4 at 250 ms: NoRoute(11.0.0.9)",
                "  meaning: the client has no address, or no route to that address",
                "  step 1 at 0 ms: line 2 begins: imgfetch tftp://a.b/f",
                '  script line 2: "imgfetch tftp://a.b/f"',
                "  step 1 at 0 ms: a.b is asked for: DNS with 10.0.0.1 port 53, from our port 49152",
                "  step 4 at 250 ms: that ends: Ok, as resolver 2 slot 0 was closed first; it went well",
                "  record 4 at 250 ms: " + IS_FOUND.replace("10.0.0.9", "11.0.0.9"),
                "  step 4 at 250 ms: f is asked for: TFTP with 11.0.0.9 port 69, from our port 49153",
                "  step 4 at 250 ms: that ends: NoRoute(11.0.0.9), as fetch 1 slot 0 was closed first",
            ],
        )
        self.assertTrue(lines[-1].startswith("  record 1: START version 1"), lines)
        self.assertEqual([line for line in why(row.outputs) if "record" in line], [])

    def test_tries_are_those_of_the_open_that_failed(self) -> None:
        row = test_names.ROWS["no_reply_of_the_server"]
        tries = [line for line in why(row.outputs, row.inputs) if ": try " in line]
        self.assertEqual(len(tries), 6)
        self.assertEqual(tries[0], "  step 4 at 250 ms: try 1: ARP who has 10.0.0.9, asks 10.0.0.2 at "
                         "52:54:00:00:00:01; 42 bytes")

    def test_a_server_that_answers_otherwise(self) -> None:
        refused, broken = Cause(Code.REFUSED, 7, 1), Cause(Code.BROKEN, 7)
        for body, cause, said in (
            (tftp_error(1, b"File not found"), refused, "a.b (10.0.0.9) answered: file not found (f)"),
            (tftp_error(0, b"no"), Cause(Code.REFUSED, 7), "a.b (10.0.0.9) answered: no, when asked for f"),
            (tftp_data(1, bytes(600)), broken, "a.b (10.0.0.9) sent what isn't allowed in its place: FRAME "
             "10.0.0.9:40000 > 10.0.0.2:49153 TFTP DATA 1 of 600 bytes; 646 bytes"),
        ):  # fmt: skip
            ends = [*graph_records.came(FILE.pair, over=cause), Result(cause)]
            with self.subTest(said):
                self.assertEqual(line_of(fetched([sent(body)], ends, end=left(cause))), said)

    def test_a_server_that_stops_answering(self) -> None:
        ends = [*graph_records.passed(FILE.pair, over=TIMED_OUT), Result(TIMED_OUT)]
        row = fetched([LONG], ends, end=left(TIMED_OUT))
        self.assertEqual(line_of(row), "a.b (10.0.0.9) never answered: f was asked for once in 60 s")
        for body, number, put, said in (
            (tftp_oack(blksize=1432), 0, [], "its OACK for f"),
            (tftp_data(1, bytes(512)), 1, [Advance(1, 1)], "block 1 of f"),
        ):
            took = graph_records.came(FILE.pair, *put, *acknowledges(number), gives=bool(put))
            row = fetched([sent(body), LONG], took, ends, end=left(TIMED_OUT))
            stopped = f"a.b (10.0.0.9) stopped answering after {said}, which was acknowledged once in 60 s"
            self.assertEqual(line_of(row), stopped)

    def test_what_is_waited_for(self) -> None:
        end = [*graph_records.shut(FILE.pair), UNFINISHED]
        took = graph_records.came(FILE.pair, Advance(1, 1), *acknowledges(1), gives=True)
        shut_both = [*graph_records.shut_both(FETCH, LOOK_UP.cast), UNFINISHED]
        answer = "the answer of the name server 10.0.0.1 on a.b"
        asks = looks_up(WORDS, [LOOK_UP.found(), FILE.found()], FOUND, [], end=end)
        for row, said in (
            (looks_up(WORDS, [], end=shut_both), answer),
            (test_names.ROWS["input_ends_in_the_transfer"], "the hardware address of a.b (10.0.0.9)"),
            (asks, "the next try, as a.b (10.0.0.9) had only said its hardware address: f is asked for then"),
            (fetched([], end=end), "the first answer of a.b (10.0.0.9) to the request for f"),
            (fetched([sent(tftp_data(1, bytes(512)))], took, end=end), "block 2 of f from a.b (10.0.0.9)"),
        ):
            with self.subTest(said):
                self.assertTrue(line_of(row).endswith(f" s, while line 2 waited for {said}"), line_of(row))
        row = test_names.ROWS["power_off_in_the_look_up"]
        off = "the power was switched off after 0 s, while line 2 waited for the hardware address of the name server"
        self.assertEqual(line_of(row), f"{off} 10.0.0.1")

    def test_what_a_wait_shows(self) -> None:
        """The look-up that went before it too, with its answer."""
        row = test_names.ROWS["input_ends_in_the_transfer"]
        self.assertEqual(
            why(row.outputs, row.inputs)[1:6],
            [
                '  script line 2: "imgfetch tftp://a.b/f"',
                "  step 1 at 0 ms: a.b is asked for: DNS with 10.0.0.1 port 53, from our port 49152",
                "  step 4 at 250 ms: that ends: Ok, as resolver 2 slot 0 was closed first; it went well",
                f"  record 4 at 250 ms: {IS_FOUND}",
                "  step 4 at 250 ms: f is asked for: TFTP with 10.0.0.9 port 69, from our port 49153",
            ],
        )

    def test_a_ping_that_is_waited_for(self) -> None:
        row = test_names.ROWS["a_ping_and_power_off"]
        said = "the power was switched off after 0.25 s, while line 2 waited for the hardware address of a.b (10.0.0.9)"
        self.assertEqual(line_of(row), said)

    def test_no_more_opens(self) -> None:
        cause = Cause(Code.FULL, 2)
        outputs = [Step(1), made.enter(), *ran(WORDS, cause), *left(cause)]
        said = "line 2: 16384 opens were made, the most of a run, and imgfetch needs another"
        self.assertEqual(sentence(outputs), said)
        ends = [*LOOK_UP.came(over=OK), *graph_records.one_freed(1), Result(cause)]
        said = "line 2: the look-up of a.b was the last of 16384 opens, the most of a run, and imgfetch needs another"
        self.assertEqual(line_of(looks_up(WORDS, [LOOK_UP.found()], ends, end=left(cause))), said)

    def test_a_script_that_leaves_after_it(self) -> None:
        """What its command failed by is said too, whether somebody was asked or not."""
        exits = Cause(Code.EXIT, 1)
        unset = "no name server is set that can be asked for its address: `dns` comes by `dhcp`, by `set dns ADDRESS`"
        for words, cause, said in (
            (WORDS, NO_SERVER, f"a.b is a name, and {unset} or by --dns"),
            (b"ping a..b", Cause(Code.BAD_NAME), "a..b is no name of a host: a part between its dots is empty"),
        ):
            outputs = [Step(1), made.enter(), *ran(words, cause), *ran(b"exit 1", exits, place=1), *left(exits)]
            lines = why(outputs, [made.start(FIRST + words + b" || exit 1")])
            ends = "command 2 of line 2: the script itself ended in failure, by `exit 1`"
            self.assertEqual(lines[0], f"line 2: {said}; the script went on, and failed: {ends}")
        failed = [*ran(b"isset", Cause(Code.FALSE)), *ran(b"exit 1", exits, place=1)]
        said = "command 2 of line 2: the script itself ended in failure, by `exit 1`"
        self.assertEqual(sentence([Step(1), made.enter(), *failed, *left(exits)]), said)


def leased(*options: Option, rest: list[Record], end: list[Record], given: IPv4Address = LEASED_CLIENT.ip) -> Row:
    """The first command takes a lease, in the step of whose acknowledgement these records follow."""
    begins = [Step(1), made.enter(), made.command(b"dhcp"), *LEASE.begins(*LEASE.discovers())]
    took = [*LEASE.came(over=OK), Result(OK), *rest]
    inputs = [unaddressed(), LEASE.offer(), LEASE.answer(Kind.ACK, *options, given=given)]
    return Row(inputs, [*begins, *steps(2, LEASE.came(*LEASE.requests()), took), *end])


def unaddressed(script: bytes = b"dhcp\n") -> Start:
    return replace(made.start(FIRST + script), ip=UNSET, mask=UNSET)


def option(tag: Tag, address: str) -> Option:
    return tag, IPv4Address(address).packed


def no_way(server: str, line: int = 3, number: int = 1, first: int = 2) -> tuple[list[Record], list[Record]]:
    """A command to whose server there is no way, and the end of its script."""
    cause = Cause(Code.NO_ROUTE, int(IPv4Address(server)))
    opened = Open(number, OpenKind.TFTP, IPv4Address(server), 69, made.OWN_PORT + number, b"k")
    command = made.command(b"imgexec tftp://" + server.encode() + b"/k", line)
    return [command, *turned_back(opened, cause, cast_for(opened, first)), Result(cause)], left(cause)


class Ways(unittest.TestCase):
    """What a lease leaves out, and what commands do to the link, in the sentence on a command that fails by that."""

    def test_a_lease_without_a_name_server(self) -> None:
        fails_so = ran(b"imgexec tftp://boot/k", NO_SERVER, line=3)
        row = leased(NETMASK, (Tag.DOMAIN, b"lan"), rest=fails_so, end=left(NO_SERVER))
        lines = why(row.outputs, row.inputs)
        said = "line 3: boot is a name, and no name server is set that can be asked for its address: the lease from"
        self.assertEqual(lines[0], f"{said} 10.0.0.1 gives none")
        ack = "DHCP ACK, xid 0x2fef003e, gives 10.0.0.50, netmask 255.255.255.0, domain lan; 303 bytes"
        self.assertEqual(lines[-1], f"  record 3 at 0 ms: FRAME 10.0.0.1:67 > 255.255.255.255:68 {ack}")
        named = leased(NETMASK, option(Tag.DNS, "10.0.0.3"), rest=fails_so, end=left(NO_SERVER))
        self.assertTrue(line_of(named).endswith(": `dns` comes by `dhcp`, by `set dns ADDRESS` or by --dns"))

    def test_a_lease_without_a_gateway(self) -> None:
        rest, end = no_way("10.1.0.9")
        for options, net in (
            ([NETMASK], "10.0.0.0/24"),
            ([], "10.0.0.0/24"),
            ([option(Tag.NETMASK, "255.255.255.192")], "10.0.0.0/26"),
            ([option(Tag.NETMASK, "255.0.255.0"), option(Tag.GATEWAY, "0.0.0.0")], "10.0.0.0/255.0.255.0"),
        ):
            row = leased(*options, rest=rest, end=end)
            said = f"line 3: 10.1.0.9 is outside the client's net {net}, and the lease from 10.0.0.1 gives no gateway"
            self.assertEqual(line_of(row), said)
        self.assertEqual(sentence(row.outputs), "line 3: there is no route to 10.1.0.9")
        self.assertIn("record 3 at 0 ms: FRAME 10.0.0.1:67", why(row.outputs, row.inputs)[-1])

    def test_a_lease_that_leads_nowhere_by_name(self) -> None:
        """To the name server, and to the server that this one knows."""
        cause = Cause(Code.NO_ROUTE, 0x0A010009)
        far = replace(NAMED, host=IPv4Address("10.1.0.9"))
        command = made.command(b"imgexec tftp://boot/k", 3)
        waits_in_vain = [*graph_records.one_made(2, FETCH.kind), *far.turned_back(cause), *graph_records.one_freed(2)]
        row = leased(NETMASK, rest=[command, *waits_in_vain, Result(cause)], end=left(cause))
        said = "is outside the client's net 10.0.0.0/24, and the lease from 10.0.0.1 gives no gateway"
        self.assertEqual(line_of(row), f"line 3: the name server 10.1.0.9 {said}")
        fetch = Pair(2, 2, 4)
        opened = Open(2, OpenKind.TFTP, far.host, 69, made.OWN_PORT + 2, b"k")
        asks = [command, *waits(FETCH._replace(object=2), NAMED)]
        turned = [*graph_records.asked_next(opened, cast=fetch), *graph_records.no_way(fetch, cause), Result(cause)]
        row = leased(NETMASK, rest=[*asks, Step(4), *NAMED.came(over=OK), *turned], end=left(cause))
        inputs = [*row.inputs, NAMED.found(far.host)]
        self.assertEqual(line_of(Row(inputs, row.outputs)), f"line 3: boot.lan (10.1.0.9) {said}")

    def test_a_lease_without_an_address(self) -> None:
        rest, end = no_way("10.0.0.1")
        said = "line 3: the client has no address, so it can't reach 10.0.0.1: the lease from 10.0.0.1 gives none"
        self.assertEqual(line_of(leased(NETMASK, rest=rest, end=end, given=UNSET)), said)

    def test_a_lease_beside_other_settings(self) -> None:
        """No more is said than that there was no route: what the lease leaves out isn't all that counts."""
        rest, end = no_way("10.1.0.9")
        said = "line 3: there was no route to 10.1.0.9 then: net0's settings lead there by none"
        row = leased(NETMASK, rest=rest, end=end)
        self.assertEqual(line_of(Row([made.start(FIRST), *row.inputs[1:]], row.outputs)), said)
        self.assertEqual(line_of(leased(option(Tag.GATEWAY, "10.0.0.254"), rest=rest, end=end)), said)
        self.assertEqual(line_of(leased((Tag.OVERLOAD, b"\1"), rest=rest, end=end)), said)
        rest, end = no_way("10.1.0.9", 4)
        for words in (
            b"set net0/netmask 255.0.0.0", b"clear net0.dhcp/gateway", b"inc net0/1", b"nslookup net0/3 10.0.0.1"
        ):  # fmt: skip
            row = leased(NETMASK, rest=[*ran(words, line=3), *rest], end=end)
            self.assertEqual(line_of(row), said.replace("line 3", "line 4"))

    def test_a_device_that_is_down(self) -> None:
        """Until it is set up again, also by a lease that isn't given."""
        down = [Step(1), made.enter(), *ran(b"ifclose")]
        rest, end = no_way("10.0.1.9", 3, 0, 1)
        said = "line 3: there was no route to 10.0.1.9: the device was down, by `ifclose`"
        self.assertEqual(sentence([*down, *rest, *end], [made.start(FIRST)]), said)
        self.assertEqual(sentence([*down, *rest, *end]), said)
        rest, end = no_way("10.0.1.9", 4, 0, 1)
        outside = "line 4: 10.0.1.9 is outside the client's net 10.0.0.0/24, and no gateway is set"
        self.assertEqual(sentence([*down, *ran(b"ifopen", line=3), *rest, *end], [made.start(FIRST)]), outside)
        rest, end = no_way("10.0.1.9", 4)
        refused = Cause(Code.REFUSED, 3, 6)
        asks = [*down, made.command(b"dhcp", 3), *LEASE.begins(*LEASE.discovers())]
        nak = steps(2, LEASE.came(*LEASE.requests()), [*LEASE.came(over=refused), Result(refused), *rest])
        inputs = [made.start(FIRST), LEASE.offer(), LEASE.nak()]
        self.assertTrue(sentence([*asks, *nak, *end], inputs).endswith(f"(NAK); the script went on, and failed: {outside}"))
        none = "line 4: the client has no address, so it can't reach 10.0.1.9: give one by --ip, or take a lease by "
        self.assertTrue(sentence([*asks, *nak, *end], [unaddressed(), *inputs[1:]]).endswith(f"{none}`dhcp`"))

    def test_a_mask_whose_ones_do_not_stand_first(self) -> None:
        rest, end = no_way("11.0.0.1", 2, 0, 1)
        outputs = [Step(1), made.enter(), *rest, *end]
        for mask, net in (("255.0.255.0", "10.0.0.0/255.0.255.0"), ("0.0.0.255", "0.0.0.2/0.0.0.255"),
                          ("255.255.0.0", "10.0.0.0/16"), ("0.0.0.0", "10.0.0.0/24")):
            started = replace(made.start(FIRST), mask=IPv4Address(mask))
            said = f"line 2: 11.0.0.1 is outside the client's net {net}, and no gateway is set"
            self.assertEqual(sentence(outputs, [started]), said)


# the pictures of the look-up and of the transfer of examples/name-boot.rec
LOOKED_UP = [
    "open 1: DNS with 10.0.0.1 port 53, target boot.lan",
    "           |0   closed first, in step 9: Ok",
    "  resolver 3    made in step 5, freed in step 9; entered once from above, once from below, twice by time",
    "           |1   closed second, in step 9: Ok",
    "  ended in step 9: Ok, as resolver 3 slot 0 was closed first; it went well",
    "  beside it fetch 2 waited for the address, made in step 5; then it went on in open 2",
]
BOOTED = [
    "open 2: TFTP with 10.0.0.9 port 69, target vmlinuz",
    "        |0   closed third, in step 14: Ok",
    "  fetch 2    made in step 5, freed in step 14; entered once from above, twice from below, once by a close",
    "        |1   closed second, in step 14: Ok",
    "        |    plugged in step 9, unplugged in step 14",
    "        |0   closed first, in step 14: Ok",
    "   tftp 4    made in step 9, freed in step 14; entered once from above, three times from below, once by time",
    "        |1   closed fourth, in step 14: Ok",
    "  ended in step 14: Ok, as tftp 4 slot 0 was closed first; it went well",
]


class Pictures(Case):
    """`--graph`, and `--open` of the trace."""

    def drawn(self, outputs: list[Record], words: str = "--graph") -> list[str]:
        self.put("run.out", outputs)
        return self.works(f"tools/show.py run.out {words}").splitlines()

    def events(self, outputs: list[Record], number: int) -> list[str]:
        """The GRAPH records that are shown of an open."""
        return [line.split("GRAPH ")[1] for line in self.drawn(outputs, f"--open {number} --type GRAPH")]

    def test_a_fetch_that_waits_for_its_server(self) -> None:
        """It is drawn with the TFTP that it got after the look-up."""
        self.assertEqual(self.drawn(test_names.ROWS["the_example"].outputs)[6:], [*LOOKED_UP, "", *BOOTED])

    def test_a_ping_that_waits_for_its_host(self) -> None:
        lines = self.drawn(test_names.ROWS["a_ping"].outputs)
        self.assertIn("  beside it ping 1 waited for the address, made in step 1; then it went on in open 1", lines)
        self.assertIn("  ping 1    made in step 1, freed in step 7; entered once from above, once from below, once by "
                      "time", lines)

    def test_a_look_up_that_fails(self) -> None:
        self.assertEqual(
            self.drawn(test_names.ROWS["no_such_name"].outputs),
            [
                "open 0: DNS with 10.0.0.1 port 53, target a.b",
                "           |0   closed first, in step 4: Refused(record 4, code 3)",
                "  resolver 2    made in step 1, freed in step 4; entered once from above, once from below, once by "
                "time",
                "           |1   closed second, in step 4: Refused(record 4, code 3)",
                "  ended in step 4: Refused(record 4, code 3), as resolver 2 slot 0 was closed first; there is no such "
                "name (NXDOMAIN)",
                "  beside it fetch 1 waited for the address, made in step 1 and freed in step 4",
            ],
        )
        lines = self.drawn(test_names.ROWS["no_address"].outputs)
        self.assertTrue(lines[-2].endswith("; the name has no IPv4 address"), lines)

    def test_a_run_that_ends_in_the_look_up(self) -> None:
        lines = self.drawn(test_names.ROWS["power_off_in_the_look_up"].outputs)
        self.assertEqual(sum(line.startswith(("open", "objects")) for line in lines), 1)
        self.assertEqual(lines[-1], "  beside it fetch 1 waited for the address, made in step 1 and freed in step 2")

    def test_an_open_after_a_look_up_that_failed(self) -> None:
        """What waited for that has no part in it."""
        first = test_names.ROWS["no_such_name"].outputs[:-2]
        fetch = Open(1, OpenKind.TFTP, made.SERVER.ip, 69, made.OWN_PORT + 1, b"g")
        again = [made.command(b"imgfetch tftp://10.0.0.1/g", 3), *graph_records.asked(fetch, cast=Pair(1, 3))]
        outputs = [*first, *again, *graph_records.shut(Pair(1, 3)), UNFINISHED]
        self.assertIsNone(fault_of(outputs))
        lines = self.drawn(outputs, "--graph --open 1")
        things = [line.split("  made")[0].strip() for line in lines if "made in" in line]
        self.assertEqual(things, ["fetch 3", "tftp 4"])
        self.assertEqual(self.events(outputs, 1)[:2], ["made fetch 3", "held fetch 3"])
        said = self.events(outputs, 0)
        self.assertEqual(said[:2], ["made fetch 1", "held fetch 1"])
        self.assertEqual(said[-2:], ["let go of fetch 1", "freed fetch 1"])

    def test_each_event_of_an_open(self) -> None:
        """The fetch that waits is shown with the look-up until the next OPEN, but for what it is plugged to."""
        outputs = test_names.ROWS["a_file"].outputs
        said = self.events(outputs, 0)
        self.assertEqual(said[:2], ["made fetch 1", "held fetch 1"])
        self.assertEqual({"resolver 2" in line for line in said[2:]}, {True}, said)
        said = self.events(outputs, 1)
        self.assertEqual(said[:3], ["made tftp 3", "held tftp 3", "plugged fetch 1 slot 1 to tftp 3 slot 0"])
        self.assertEqual(said[-4:], ["let go of fetch 1", "freed fetch 1", "let go of tftp 3", "freed tftp 3"])

    def test_a_recording_that_stops(self) -> None:
        outputs = test_names.ROWS["a_file"].outputs
        [opened, _] = [at for at, record in enumerate(outputs) if isinstance(record, Open)]
        lines = self.drawn(outputs[: opened + 1])
        self.assertEqual(lines[0], "open 0: DNS with 10.0.0.1 port 53, target a.b")
        self.assertEqual(lines[-2:], ["  it didn't end in this recording",
                                      "  beside it fetch 1 waits for the address, made in step 1"])
        [ended] = [at for at, record in enumerate(outputs) if record == LOOK_UP.came(over=OK)[-1]]
        self.put("run.out", made.spelled(outputs[: ended + 2])[:-1])
        printed = self.fails("tools/show.py run.out --graph", "run.out: at byte")
        self.assertEqual(len(printed.splitlines()), 6, printed)

    def test_what_waits_is_drawn_beside_one_look_up(self) -> None:
        """No run has two at once, and a recording may say anything."""
        opens = [LookUp(number).opened for number in range(3)]
        lines = self.drawn([Step(1), *graph_records.one_made(*FETCH), *opens])
        self.assertEqual(sum("beside it" in line for line in lines), 1)

    def test_many_look_ups_that_fail(self) -> None:
        """More than there can be objects of no open: what waited beside each is forgotten."""
        cause, outputs = Cause(Code.REFUSED, 2, 3), [Step(1), made.enter()]
        for number in range(1_100):
            look_up, waiter = LookUp(number, 2 * number + 2), PING._replace(object=2 * number + 1)
            outputs += [made.command(b"ping a.b"), *waits(waiter, look_up), *fails(waiter, cause, look_up)]
        outputs += left(cause)
        self.assertEqual(sum(line.startswith("open ") for line in self.drawn(outputs)), 1_100)
        said = "the name server 10.0.0.1 answered, when asked for a.b: there is no such name (NXDOMAIN)"
        self.assertEqual(sentence(outputs), f"line 2: {said}; the script went on, and failed so again")


if __name__ == "__main__":
    unittest.main()
