"""`show.py --why`: how a run ended that took a lease, looked a name up or pinged a host, on runs built by hand."""

from __future__ import annotations

import unittest
from dataclasses import replace
from ipaddress import IPv4Address

from shared import wire_dhcp, wire_dns
from shared.causes import OK, Cause, Code
from shared.kinds import Status
from shared.records import Command, Done, Off, Received, Record, Result, Start, Step, Tick
from shared.wire import PROTOCOL_ICMP, Station, arp_reply, echo, packet_frame, udp_frame
from shared.wire_dhcp import Kind, Operation, Tag, options_text
from shared.wire_dns import ASKED, address, alias, pointer, written
from tests import made
from tests.asking_records import ECHO_REQUEST, LEASED, LEASED_CLIENT, Asking, Lease, LookUp, Ping, Routed
from tests.case import Case
from tests.graph_run import fault_of
from tests.script_rows import FIRST, left, ran, steps
from tests.test_why import sentence, why

LEASE, LOOK_UP, PING = Lease(), LookUp(), Ping()
WORDS: dict[Asking, bytes] = {LEASE: b"dhcp", LOOK_UP: b"nslookup x a.b", PING: b"ping 10.0.0.1"}
OTHER = Station(bytes.fromhex("525400000003"), IPv4Address("10.0.0.3"))
GATEWAY = IPv4Address("10.0.0.254")
UNFINISHED = Done(Status.UNFINISHED)
LONG = Tick(60_000)


def start(words: bytes) -> Start:
    return made.start(FIRST + words + b"\n")


def begins(asking: Asking, *put: Record) -> list[Record]:
    """The first step: a command asks."""
    words = WORDS.get(asking, b"nslookup x a.b" if isinstance(asking, LookUp) else b"ping 10.0.1.1")
    return [Step(1), made.enter(), made.command(words), *asking.begins(*put)]


def fails(asking: Asking, first: list[Record], received: list[Record], *each: list[Record], cause: Cause) -> list[str]:
    """Why it failed: what it sent first, what came, what that brought, and the cause with which the last ended it."""
    outputs = [*begins(asking, *first), *steps(2, *each), Result(cause), *left(cause)]
    assert fault_of(outputs) is None
    return why(outputs, [start(WORDS.get(asking, b"nslookup x a.b")), *received])


class Leases(unittest.TestCase):
    def timed_out(self, before: list[Record], *tries: list[Record], first: list[list[Record]]) -> list[str]:
        """Four tries, each a minute after the one before."""
        cause = Cause(Code.TIMED_OUT, 4)
        each = [*first, *[LEASE.passed(*put) for put in tries], LEASE.passed(over=cause)]
        received = [*before, *[LONG] * (len(tries) + 1)]
        return fails(LEASE, LEASE.discovers(), received, *each, cause=cause)

    def test_nobody_offers_one(self) -> None:
        lines = self.timed_out([], *[LEASE.discovers(attempt) for attempt in (2, 3, 4)], first=[])
        self.assertEqual(lines[0], "no DHCP server offered a lease: one was asked for four times in 240 s")
        self.assertEqual(lines[1], "line 2 failed in step 5 at 240000 ms: TimedOut(tries 4)")
        self.assertIn("  step 1 at 0 ms: DHCP with 255.255.255.255 port 67, from our port 68", lines)
        tries = [line for line in lines if ": try " in line]
        said = "0.0.0.0:68 > 255.255.255.255:67 DHCP DISCOVER, xid 0x2fef003e; 379 bytes"
        self.assertEqual(tries[1], f"  step 2 at 60000 ms: try 2: {said}")
        self.assertEqual(len(tries), 4)
        self.assertIn("that ends: TimedOut(tries 4), as dhcp 1 slot 0 was closed first", lines[-2])
        self.assertEqual(lines[-1], "nothing came meanwhile")

    def test_nobody_acknowledges_it(self) -> None:
        requests = [LEASE.requests(attempt) for attempt in (2, 3, 4)]
        lines = self.timed_out([LEASE.offer()], *requests, first=[LEASE.came(*LEASE.requests())])
        said = "the DHCP server 10.0.0.1 offered 10.0.0.50, and never answered the request for it, which was sent four"
        self.assertEqual(lines[0], f"{said} times in 240 s")
        self.assertEqual(sum("DHCP REQUEST" in line for line in lines), 4)

    def test_a_nak(self) -> None:
        cause = Cause(Code.REFUSED, 3, 6)
        said = "the DHCP server 10.0.0.1 offered 10.0.0.50, and then refused to lease it (NAK)"
        reason = LEASE.answer(Kind.NAK, (Tag.MESSAGE, b"address in use"), given=IPv4Address(0))
        for nak, more in ((LEASE.nak(), ""), (reason, ': "address in use"')):
            each = (LEASE.came(*LEASE.requests()), LEASE.came(over=cause))
            lines = fails(LEASE, LEASE.discovers(), [LEASE.offer(), nak], *each, cause=cause)
            self.assertEqual(lines[0], said + more)
            self.assertIn("  record 3 at 0 ms: FRAME 10.0.0.1:67 > 255.255.255.255:68 DHCP NAK", lines[-1])
        outputs = [*begins(LEASE, *LEASE.discovers()), *steps(2, *each), Result(cause), *left(cause)]
        self.assertEqual(sentence(outputs), said)

    def test_more_settings_than_a_block_has(self) -> None:
        cause = Cause(Code.TOO_MANY, 5)
        each = [LEASE.came(*LEASE.requests()), LEASE.came(over=OK)]
        ack = LEASE.answer(Kind.ACK, *[(tag, b"a") for tag in range(100, 230)])
        lines = fails(LEASE, LEASE.discovers(), [LEASE.offer(), ack], *each, cause=cause)
        said = "line 2: the lease has more than 128 settings, the most of a block, and none of it is kept"
        self.assertEqual(lines[0], said)
        self.assertIn("that ends: Ok, as dhcp 1 slot 0 was closed first; it went well", lines[-1])

    def test_a_lease_by_the_built_in_script(self) -> None:
        cause, exits = Cause(Code.TIMED_OUT, 4), Cause(Code.EXIT, 1)
        ends = [*LEASE.passed(over=cause), Result(cause), *ran(b"exit 1", exits, place=1)]
        outputs = [*begins(LEASE, *LEASE.discovers()), *steps(2, ends), *left(exits)]
        lines = why(outputs, [made.start(b""), LONG])
        first = "line 2: no DHCP server offered a lease: one was asked for once in 60 s; the script went on, and failed: "
        self.assertEqual(lines[0], f"{first}command 2 of line 2: the built-in script ended in failure, by `exit 1`")
        self.assertIn("line 2 failed in step 2 at 60000 ms: TimedOut(tries 4)", lines)

    def test_what_is_waited_for(self) -> None:
        offered = LEASE.came(*LEASE.requests())
        for received, each, said in (
            ([], [], "the offer of a DHCP server"),
            ([LEASE.offer()], [offered], "the answer of the DHCP server 10.0.0.1 to the request for 10.0.0.50"),
        ):
            outputs = [*begins(LEASE, *LEASE.discovers()), *steps(2, *each), *LEASE.shut(), UNFINISHED]
            lines = why(outputs, [start(b"dhcp"), *received])
            self.assertEqual(lines[0], f"the recording ends after 0 s, while line 2 waited for {said}")
            self.assertIn("  a silent server is given up after some 15 s: record.py --until 16", lines)

    def test_the_tries_begin_anew_at_the_offer(self) -> None:
        """And so does the time after which a silent server is given up."""
        each = [LEASE.passed(), LEASE.came(*LEASE.requests())]
        outputs = [*begins(LEASE, *LEASE.discovers()), *steps(2, *each), *LEASE.shut(), UNFINISHED]
        lines = why(outputs, [start(b"dhcp"), Tick(2_500), LEASE.offer()])
        self.assertIn("  a silent server is given up after some 15 s: record.py --until 18", lines)

    def offer(self, operation: Operation = Operation.SERVER, server: bytes = made.SERVER.ip.packed,
              given: IPv4Address = LEASED) -> bytes:
        options = [(Tag.KIND, b"\2"), *([(Tag.SERVER, server)] if server else [])]
        return wire_dhcp.message(operation, LEASE.asker, options_text(options) + b"\xff", given)

    def test_why_no_offer_counted(self) -> None:
        ignored = LEASE.came()
        for record, said, *taken in (
            (LEASE.received(self.offer(), port=66), "from port 66, and a DHCP server answers from port 67"),
            (made.from_server(b""), "to port 49152, and the lease's port is 68"),
            (LEASE.received(b""), "no well-formed DHCP message", *ignored),
            (LEASE.received(self.offer()[:-1] + b"\x43\5a"), "no well-formed DHCP message", *ignored),
            (Lease(1).offer(), "a DHCP OFFER for another transaction, 0x0dfaaed2, and the client's is 0x2fef003e",
             *ignored),
            (LEASE.received(wire_dhcp.answer(replace(LEASE.asker, mac=OTHER.mac), Kind.OFFER, made.SERVER.ip)),
             "a DHCP OFFER for another client, 52:54:00:00:00:03", *ignored),
            (LEASE.received(self.offer(Operation.CLIENT)), "a DHCP OFFER of a client", *ignored),
            (LEASE.received(self.offer(server=b"")), "a DHCP OFFER that doesn't say its server (option 54)", *ignored),
            (LEASE.received(self.offer(given=IPv4Address(0))), "a DHCP OFFER that gives no address", *ignored),
            (LEASE.nak(), "a DHCP NAK, and an OFFER was waited for", *ignored),
        ):  # fmt: skip
            with self.subTest(said):
                meanwhile(self, LEASE, LEASE.discovers(), [record], [[*taken]], said)

    def test_why_no_verdict_counted(self) -> None:
        offered = LEASE.came(*LEASE.requests())
        for record, said in (
            (LEASE.offer(OTHER), "a DHCP OFFER, and the offer of 10.0.0.1 was taken already"),
            (LEASE.nak(OTHER), "a DHCP NAK of 10.0.0.3, and the offer of 10.0.0.1 was taken"),
        ):
            meanwhile(self, LEASE, LEASE.discovers(), [LEASE.offer(), record], [offered, LEASE.came()], said)


def meanwhile(case: unittest.TestCase, asking: Asking, put: list[Record], received: list[Record],
              each: list[list[Record]], said: str) -> None:
    """The last record came in vain, and this is said of it."""
    outputs = [*begins(asking, *put), *steps(2, *each), *asking.shut(), UNFINISHED]
    case.assertIsNone(fault_of(outputs))
    lines = why(outputs, [start(WORDS[asking]), *received])
    case.assertEqual(lines[-2], "what came meanwhile, and why it didn't count:")
    case.assertEqual(lines[-1], f"  1 frame: {said}")


def timed_out(asking: Routed, *puts: list[Record]) -> str:
    """The sentence on one to which nothing came; its tries, each after a minute."""
    cause, (first, *later) = Cause(Code.TIMED_OUT, 6), puts
    each = [*[asking.passed(*put) for put in later], asking.passed(over=cause)]
    return fails(asking, first, [LONG] * len(each), *each, cause=cause)[0]


class LookUps(unittest.TestCase):
    def refused(self, rcode: int, *records: bytes) -> list[str]:
        cause = Cause(Code.REFUSED, 2, rcode)
        answer = LOOK_UP.answer(*records, rcode=rcode)
        return fails(LOOK_UP, LOOK_UP.queries(), [answer], LOOK_UP.came(over=cause), cause=cause)

    def test_response_codes(self) -> None:
        for rcode, said in (
            (1, "the query is malformed (FORMERR)"),
            (2, "it failed to look the name up (SERVFAIL)"),
            (3, "there is no such name (NXDOMAIN)"),
            (4, "it doesn't serve such queries (NOTIMP)"),
            (5, "it refuses to answer (REFUSED)"),
            (9, "response code 9"),
        ):
            lines = self.refused(rcode)
            self.assertEqual(lines[0], f"the name server 10.0.0.1 answered, when asked for a.b: {said}")
            name = f" {said[said.index('('):]}" if "(" in said else ""
            self.assertIn(f"DNS answer 0x003e a.b: rcode {rcode}{name}; ", lines[-1])

    def test_an_answer_without_an_address(self) -> None:
        said = "a.b has no IPv4 address, as the name server 10.0.0.1 answered"
        self.assertEqual(self.refused(0)[0], said)
        lines = self.refused(0, alias(pointer(ASKED), written(b"c.b")))
        self.assertEqual(lines[0], said)
        self.assertIn("DNS answer 0x003e a.b: is c.b", lines[-1])
        lines = self.refused(0, wire_dns.record(pointer(ASKED), 28, bytes(16)), wire_dns.record(pointer(ASKED), 9, b""))
        self.assertEqual(lines[0], said)
        self.assertIn("DNS answer 0x003e a.b: AAAA record, kind 9 record", lines[-1])

    def test_what_may_be_meant_by_a_name(self) -> None:
        """Where a domain is set, it stands in the name that is asked for."""
        cause = Cause(Code.REFUSED, 2, 3)
        for name, hint in (
            (b"boot", "boot has no dot, and no `domain` was set to stand after it"),
            (b"10.0.0.256", "10.0.0.256 isn't four decimals from 0 to 255, and so no address, and was looked up"),
            (b"[::1]", "[::1] is an address of IPv6, which isn't built, and so was looked up"),
        ):
            look_up = LookUp(name=name)
            lines = fails(look_up, look_up.queries(), [look_up.answer(rcode=3)], look_up.came(over=cause), cause=cause)
            said = f"the name server 10.0.0.1 answered, when asked for {name.decode()}: there is no such name"
            self.assertEqual(lines[0], f"{said} (NXDOMAIN); {hint}")

    def test_no_answer(self) -> None:
        said = "the name server 10.0.0.1 never answered: it was asked for a.b twice in 120 s"
        self.assertEqual(timed_out(LOOK_UP, LOOK_UP.asks_for(), LOOK_UP.queries(2), LOOK_UP.queries(3)), said)
        said = "the name server 10.0.0.1 never answered: its hardware address was asked for twice in 120 s"
        self.assertEqual(timed_out(LOOK_UP, LOOK_UP.asks_for(), LOOK_UP.asks_for(2)), said)
        far = LookUp(host=IPv4Address("10.0.1.1"))
        said = "the gateway 10.0.0.254 never answered: its hardware address was asked for once in 60 s"
        self.assertEqual(timed_out(far, far.asks_for(hop=GATEWAY)), said)

    def test_no_way_to_the_name_server(self) -> None:
        cause, far = Cause(Code.NO_ROUTE, 0x0A000101), LookUp(host=IPv4Address("10.0.1.1"))
        outputs = [Step(1), made.enter(), made.command(b"nslookup x a.b"), *far.turned_back(cause)]
        outputs += [Result(cause), *left(cause)]
        said = "line 2: the name server 10.0.1.1 is outside the client's net 10.0.0.0/24, and no gateway is set"
        lines = why(outputs, [start(b"nslookup x a.b")])
        self.assertEqual(lines[0], said)
        self.assertIn("that ends: NoRoute(10.0.1.1), as resolver 1 slot 0 was closed first", lines[-2])
        self.assertEqual(sentence(outputs), "line 2: there is no route to the name server 10.0.1.1")

    def test_what_is_waited_for(self) -> None:
        found = made.found()
        for put, received, said in (
            (LOOK_UP.asks_for(), [], "the hardware address of the name server 10.0.0.1"),
            (LOOK_UP.asks_for(), [found], "the next try, as the name server 10.0.0.1 had only said its hardware "
             "address: a.b is asked for then"),
            (LOOK_UP.queries(), [], "the answer of the name server 10.0.0.1 on a.b"),
        ):  # fmt: skip
            outputs = [*begins(LOOK_UP, *put), *steps(2, *[[]] * len(received)), *LOOK_UP.shut(), UNFINISHED]
            lines = why(outputs, [start(b"nslookup x a.b"), *received])
            self.assertEqual(lines[0], f"the recording ends after 0 s, while line 2 waited for {said}")
            self.assertIn("  a silent server is given up after some 16 s: record.py --until 17", lines)

    def test_why_no_answer_counted(self) -> None:
        good = wire_dns.answer(0x3E, b"a.b", address(pointer(ASKED), LEASED))
        own, ignored = LOOK_UP.opened.own, LOOK_UP.came()
        for record, said, *taken in (
            (LOOK_UP.received(good, port=54), "from port 54, and a name server answers from port 53"),
            (LOOK_UP.received(good, OTHER), "from 10.0.0.3, and the name was asked of 10.0.0.1"),
            (Received(udp_frame(made.SERVER, made.CLIENT, (53, own + 1), good)),
             "to port 49153, and the look-up's port is 49152"),
            (LOOK_UP.received(b"\0\1" + good[2:]), "a DNS answer to query 0x0001, and the client's is 0x003e",
             *ignored),
            (LOOK_UP.received(wire_dns.query(0x3E, b"a.b")), "a DNS query, and an answer was waited for", *ignored),
            (LOOK_UP.received(wire_dns.answer(0x3E, b"a.c")), "a DNS answer on a.c, and a.b was asked for", *ignored),
            (LOOK_UP.received(b"a"), "no well-formed DNS message with one question", *ignored),
            (Received(packet_frame(made.SERVER, made.CLIENT, PROTOCOL_ICMP, echo(3, 0, 0, b"", 3))),
             "ICMP from 10.0.0.1, port unreachable, which is no answer"),
            (Received(packet_frame(made.SERVER, made.CLIENT, PROTOCOL_ICMP, b"\3")),
             "IPv4 protocol 1, which isn't UDP"),
            (LOOK_UP.answer(address(pointer(21), LEASED)),
             "a DNS answer that isn't well-formed: its records, or a name in them", *ignored),
        ):  # fmt: skip
            with self.subTest(said):
                meanwhile(self, LOOK_UP, LOOK_UP.queries(), [record], [[*taken]], said)

    def test_a_client_with_a_leased_address(self) -> None:
        """What came is judged by the address from which the query was sent."""
        look_up = LookUp(client=LEASED_CLIENT)
        answer = look_up.received(wire_dns.answer(0x3E, b"a.c"))
        outputs = [*begins(look_up, *look_up.queries()), *steps(2, look_up.came()), *look_up.shut(), UNFINISHED]
        lines = why(outputs, [replace(start(b"nslookup x a.b"), ip=IPv4Address(0)), answer])
        self.assertEqual(lines[-1], "  1 frame: a DNS answer on a.c, and a.b was asked for")


class Pings(unittest.TestCase):
    def test_no_answer(self) -> None:
        said = "10.0.0.1 never answered: it was pinged once in 60 s"
        self.assertEqual(timed_out(PING, PING.asks_for(), PING.pings(2)), said)
        said = "10.0.0.1 never answered: its hardware address was asked for once in 60 s"
        self.assertEqual(timed_out(PING, PING.asks_for()), said)

    def test_no_way_to_the_host(self) -> None:
        cause, far = Cause(Code.NO_ROUTE, 0x0A000101), Ping(host=IPv4Address("10.0.1.1"))
        outputs = [Step(1), made.enter(), made.command(b"ping 10.0.1.1"), *far.turned_back(cause), Result(cause)]
        outputs += left(cause)
        lines = why(outputs, [start(b"ping 10.0.1.1")])
        said = "line 2: 10.0.1.1 is outside the client's net 10.0.0.0/24, and no gateway is set"
        self.assertEqual(lines[0], said)
        self.assertIn("  step 1 at 0 ms: PING with 10.0.1.1, with our identifier 0", lines)
        lines = why(outputs, [replace(start(b"ping 10.0.1.1"), ip=IPv4Address(0))])
        said = "the client has no address, so it can't reach 10.0.1.1: give one by --ip, or take a lease by `dhcp`"
        self.assertEqual(lines[0], f"line 2: {said}")

    def test_what_is_waited_for(self) -> None:
        far = Ping(host=IPv4Address("10.0.1.1"))
        hop = Received(arp_reply(Station(OTHER.mac, GATEWAY), made.CLIENT))
        for ping, put, received, said in (
            (far, far.asks_for(hop=GATEWAY), [], "the hardware address of the gateway 10.0.0.254"),
            (far, far.asks_for(hop=GATEWAY), [hop], "the next try, as the gateway 10.0.0.254 had only said its "
             "hardware address: 10.0.1.1 is pinged then"),
            (PING, PING.pings(), [], "the echo reply of 10.0.0.1"),
        ):  # fmt: skip
            outputs = [*begins(ping, *put), *steps(2, *[[]] * len(received)), *ping.shut(), UNFINISHED]
            lines = why(outputs, [start(b"ping"), *received])
            self.assertEqual(lines[0], f"the recording ends after 0 s, while line 2 waited for {said}")
        off = [*begins(PING, *PING.pings()), *steps(2, PING.shut()), UNFINISHED]
        said = "the power was switched off after 0 s, while line 2 waited for the echo reply of 10.0.0.1"
        self.assertEqual(sentence(off, [start(b"ping"), Off()]), said)

    def test_why_no_reply_counted(self) -> None:
        elsewhere = Station(made.CLIENT.mac, OTHER.ip)
        damaged = PING.reply().frame[:36] + b"\0\0\0\1\0\0"
        unreachable = packet_frame(OTHER, made.CLIENT, PROTOCOL_ICMP, echo(3, 0, 0, b"", 1))
        for frame, said in (
            (PING.reply(identifier=1).frame, "an echo reply with identifier 1, and the ping's is 0"),
            (PING.reply(OTHER).frame, "an echo reply from 10.0.0.3, and 10.0.0.1 was pinged"),
            (unreachable, "ICMP from 10.0.0.3, host unreachable, which is no echo reply"),
            (packet_frame(OTHER, made.CLIENT, PROTOCOL_ICMP, echo(ECHO_REQUEST, 0, 0, b"")),
             "an echo request, which was answered"),
            (damaged, "ICMP from 10.0.0.1 with a wrong checksum or length"),
            (packet_frame(made.SERVER, elsewhere, PROTOCOL_ICMP, b""),
             "to the address 10.0.0.3, which isn't the client's, 10.0.0.2"),
            (made.from_server(b"").frame, "IPv4 protocol 17, which isn't ICMP"),
        ):  # fmt: skip
            with self.subTest(said):
                meanwhile(self, PING, PING.pings(), [Received(frame)], [[]], said)


class Shown(Case):
    """`show.py` on such opens."""

    def test_each_open_in_words(self) -> None:
        opens: list[Record] = [asking.opened for asking in (LookUp(3), Lease(4), Ping(5))]
        self.put("opens.out", [Step(1), *opens])
        self.assertEqual(
            self.works("tools/show.py opens.out --type OPEN").splitlines(),
            [
                "  OPEN 3 DNS, server 10.0.0.1 port 53, own port 49155, target a.b",
                "  OPEN 4 DHCP, server 255.255.255.255 port 67, own port 68",
                "  OPEN 5 PING, server 10.0.0.1, identifier 5",
            ],
        )

    def run_of(self, *askings: Asking) -> list[Record]:
        """Each of them asks, and is answered at once."""
        outputs: list[Record] = [Step(1), made.enter()]
        for number, asking in enumerate(askings, 2):
            put = asking.discovers() if isinstance(asking, Lease) else asking.asks_for()
            outputs += [Command(1, number, 0, True, (b"ask",)), *asking.begins(*put), Step(number)]
            outputs += [*asking.came(over=OK), Result(OK)]
        return [*outputs, *left()]

    def test_their_objects(self) -> None:
        outputs = self.run_of(Lease(0, 1), LookUp(1, 2), Ping(2, 3))
        self.assertIsNone(fault_of(outputs))
        self.put("run.out", outputs)
        lines = self.works("tools/show.py run.out --graph").splitlines()
        pictures = [
            ("open 0: DHCP with 255.255.255.255 port 67", "  dhcp 1", 1),
            ("open 1: DNS with 10.0.0.1 port 53, target a.b", "  resolver 2", 2),
            ("open 2: PING with 10.0.0.1", "  ping 3", 3),
        ]
        wanted = []
        for title, name, step in pictures:
            port, end = " " * (len(name) - 1) + "|", f"in step {step + 1}"
            life = f"made in step {step}, freed {end}; entered once from above, once from below"
            wanted += [title, f"{port}0   closed first, {end}: Ok", f"{name}    {life}",
                       f"{port}1   closed second, {end}: Ok", f"  ended {end}: Ok, as {name.strip()} slot 0 was closed "
                       "first; it went well", ""]
        self.assertEqual(lines, wanted[:-1])

    def test_one_of_them(self) -> None:
        """Its objects have the numbers that its GRAPH records give, and its frames stand after its TRYs."""
        self.put("run.out", self.run_of(Lease(0, 1), LookUp(1, 2), Ping(2, 3)))
        for number, (frame, name) in enumerate((("DHCP DISCOVER", "dhcp 1"), ("ARP", "resolver 2"), ("ARP", "ping 3"))):
            lines = self.works(f"tools/show.py run.out --open {number}").splitlines()
            events = [line for line in lines if "GRAPH" in line]
            self.assertEqual((len(events), {name in line for line in events}), (10, {True}), lines)
            [sent] = [line for line in lines if "FRAME" in line]
            self.assertIn(frame, sent)


if __name__ == "__main__":
    unittest.main()
