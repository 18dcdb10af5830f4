"""The device and the client's address, which scripts change: the program's whole output, record by record.

What is expected is written by hand from docs/SCRIPTS.md and docs/RECORDS.md.
"""

from __future__ import annotations

import unittest
from dataclasses import replace
from ipaddress import IPv4Address

from shared.causes import OK, Cause, Code
from shared.records import Done, Off, Open, Received, Record, Result, Sent, Start, Step, Tick, Try
from shared.kinds import Status
from shared.wire import Station, arp_reply, arp_request
from tests import made
from tests.graph_records import asked, shut, turned_back
from tests.replays import can_run
from tests.script_model import Model
from tests.script_rows import FIRST, UNFINISHED, Row, RowCase, ran, row

USAGE, BAD_NAME = Cause(Code.USAGE), Cause(Code.BAD_NAME)
FETCH = b"imgfetch tftp://%b/f"
GATEWAY = IPv4Address("10.0.0.254")
MOVED = Station(made.CLIENT.mac, IPv4Address("10.0.0.5"))


def sets(*commands: bytes, line: int = 2) -> list[Record]:
    """Commands on lines of their own, each of them Ok."""
    return [record for at, words in enumerate(commands, line) for record in ran(words, line=at)]


def opened(server: str) -> Open:
    return replace(made.tftp_open(b"f"), server=IPv4Address(server))


def refused(*commands: bytes, server: str = "10.0.0.1") -> Row:
    """After these commands there is no way to the server of a fetch."""
    cause = Cause(Code.NO_ROUTE, int(IPv4Address(server)))
    words, line = FETCH % server.encode(), len(commands) + 2
    fetch = [made.command(words, line), *turned_back(opened(server), cause), Result(cause)]
    return row(b"\n".join((*commands, words)), sets(*commands), fetch, cause=cause)


def fetched(*commands: bytes, server: str = "10.0.0.1", asks: str = "", client: Station = made.CLIENT) -> Row:
    """After these commands a fetch asks for the hardware address of its server, or of another host; then all is off."""
    words, line = FETCH % server.encode(), len(commands) + 2
    request = Sent(arp_request(client, IPv4Address(asks or server)))
    outputs = [Step(1), made.enter(), *sets(*commands), made.command(words, line)]
    outputs += [*asked(opened(server), Try(0, 1), request), Step(2), *shut(0), UNFINISHED]
    return Row([made.start(FIRST + b"\n".join((*commands, words))), Off()], outputs)


def without_address(row: Row) -> Row:
    """The same for a client to which START gives no address."""
    start, *later = row.inputs
    assert isinstance(start, Start)
    zero = IPv4Address(0)
    return Row([replace(start, ip=zero, mask=zero), *later], row.outputs)


def asleep(commands: list[bytes], *frames: tuple[Station | None, IPv4Address]) -> Row:
    """After these commands ARP requests come in a sleep, each answered by this client or not at all."""
    script = FIRST + b"\n".join((*commands, b"sleep 1"))
    inputs: list[Record] = [made.start(script)]
    outputs = [Step(1), made.enter(), *sets(*commands), made.command(b"sleep 1", len(commands) + 2)]
    for number, (client, address) in enumerate(frames, 2):
        inputs.append(Received(arp_request(made.SERVER, address)))
        outputs += [Step(number), *([Sent(arp_reply(client, made.SERVER))] if client else [])]
    outputs += [Step(len(frames) + 2), Result(OK), made.leave(OK), Done(Status.ENDED)]
    return Row([*inputs, Tick(1_000)], outputs)


def devices() -> dict[str, Row]:
    here, there = made.CLIENT.ip, MOVED.ip
    return {
        "a_closed_device_has_no_way": refused(b"ifclose"),
        "net0_is_the_device": refused(b"ifclose net0"),
        "a_device_that_is_opened_again": fetched(b"ifclose", b"ifopen", b"ifopen net0"),
        "a_closed_device_takes_nothing": asleep([b"ifclose"], (None, here), (None, here)),
        "an_open_device_answers": asleep([b"ifclose", b"ifopen"], (made.CLIENT, here)),
        "other_devices": row(
            b"ifclose net1 ; ifopen net1 ; ifclose NET0 ; ifopen ${none} ; ifclose",
            ran(b"ifclose net1", BAD_NAME), ran(b"ifopen net1", BAD_NAME, place=1),
            ran(b"ifclose NET0", BAD_NAME, place=2), ran(b"ifopen ", BAD_NAME, place=3), ran(b"ifclose", place=4),
        ),
        "words_of_ifopen": row(
            b"ifopen a b ; ifopen --x ; ifclose net0 net0 ; ifclose --net0",
            ran(b"ifopen a b", USAGE), ran(b"ifopen --x", USAGE, place=1), ran(b"ifclose net0 net0", USAGE, place=2),
            ran(b"ifclose --net0", USAGE, place=3), cause=USAGE,
        ),
        "another_device_closed": asleep([b"ifclose net1 ||"], (made.CLIENT, here)),
        "settings_open_no_device": without_address(refused(b"set net0/ip 10.0.0.2")),
        "an_open_device_needs_an_address": without_address(refused(b"ifopen")),
        "an_address_and_a_device": without_address(fetched(b"ifopen", b"set net0/ip 10.0.0.2")),
        "the_address_moves": asleep([b"set net0/ip 10.0.0.5"], (MOVED, there), (None, here)),
        "a_fetch_from_it": fetched(b"set net0/ip 10.0.0.5", client=MOVED),
        "the_root_has_no_address": asleep([b"set ip 10.0.0.5", b"set net0/dns 10.0.0.5"], (made.CLIENT, here)),
        "a_gateway": fetched(b"set net0/gateway 10.0.0.254", server="10.0.1.1", asks="10.0.0.254"),
        "no_gateway": refused(server="10.0.1.1"),
        "a_gateway_of_0": refused(b"set net0/gateway 0.0.0.0", server="10.0.1.1"),
        "a_gateway_that_is_cleared": refused(
            b"set net0/3 10.0.0.254", b"clear net0/gateway", server="10.0.1.1"
        ),
        "the_root_has_no_gateway": refused(b"set gateway 10.0.0.254", server="10.0.1.1"),
        "a_mask": fetched(b"set net0/netmask 255.0.0.0", server="10.9.9.9"),
        "a_mask_of_0": fetched(b"set net0/netmask 0.0.0.0", server="11.9.9.9"),
        "a_longer_mask": refused(b"set net0/netmask 255.255.255.252", server="10.0.0.9"),
        "a_mask_that_is_cleared": refused(b"set net0/netmask 255.0.0.0", b"clear net0/1", server="10.0.1.1"),
        "no_address": refused(b"clear net0/ip"),
        "an_address_of_0": refused(b"set net0/ip 0.0.0.0"),
        "an_address_of_three_bytes": refused(b"set net0/ip:hex 0a:00:00"),
        "an_address_of_five_bytes": asleep([b"set net0/ip:hex 0a:00:00:05:01"], (MOVED, there)),
        "an_address_that_is_counted": asleep(
            [b"set net0/ip:uint32 0x0a000004", b"inc net0/ip"], (MOVED, there), (None, here)
        ),
        "a_refused_address": asleep([b"set net0/ip 10.0.0.256 ||"], (made.CLIENT, here)),
    }  # fmt: skip


def mended(row: Row) -> Row:
    """A list that an empty `||` mends has a result that isn't Ok."""
    causes = {b"ifclose": BAD_NAME, b"set": Cause(Code.BAD_VALUE)}
    outputs = list(row.outputs)
    command = outputs[2]
    outputs[2] = replace(command, words=command.words[:-1])
    outputs[3] = Result(causes[command.words[0]])
    return Row(row.inputs, outputs)


ROWS = devices()
for name in ("another_device_closed", "a_refused_address"):
    ROWS[name] = mended(ROWS[name])
# the second reading fetches nothing that is there, and from 10.0.0.1 alone
READ = [name for name, row in ROWS.items() if not any(b"imgfetch" in record.script for record in row.inputs[:1])]


def all_inputs() -> dict[str, bytes]:
    return {f"device_{name}": made.spelled(row.inputs) for name, row in ROWS.items()}


@unittest.skipUnless(can_run(), "the program isn't built, and the toolchain's rt is missing")
class Devices(RowCase):
    def test_rows(self) -> None:
        for name, row in ROWS.items():
            with self.subTest(name):
                self.same(f"device_{name}", row)


class Readings(unittest.TestCase):
    def test_the_model_answers_the_rows(self) -> None:
        for name in READ:
            with self.subTest(name):
                start, *later = ROWS[name].inputs
                self.assertEqual(Model(start).run(later), ROWS[name].outputs)


if __name__ == "__main__":
    unittest.main()
