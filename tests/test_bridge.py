"""The bridge's session over a wire in memory, with the program at its other end and without it."""

from __future__ import annotations

import io
import re
import socket
import subprocess
import sys
import threading
import time
import unittest
from dataclasses import replace
from ipaddress import IPv4Address
from typing import Callable
from unittest import mock

from boot import is_built
from live_boot import WAYS
from shared.capture import PcapWriter, read_capture
from shared.causes import OK, Cause, Code
from shared.checksums import Sums, sums_of
from shared.devices import completed
from shared.kinds import Status
from shared.live_client import listening_place
from shared.live_session import ClientFault, Kept, Records, Session
from shared.messages import LeaseMessage, lease_message
from shared.progress import Progress
from shared.records import Command, Direction, Ended, Off, Received, Record, Result, Sent, Start
from shared.records import Step, Tick, read_records
from shared.wire import ARP, PROTOCOL_TCP, Opcode, arp_reply, packet_frame, padded, segment, tftp_data, tftp_oack
from shared.wire import udp_frame
from shared.wire_dhcp import Asker, Kind, Tag, answer, to_client
from tests import TOP, made
from tests.asking_records import LEASED, LEASED_CLIENT, NETMASK, Lease, LookUp, Ping
from tests.graph_run import fault_in
from tests.replays import replay_all, run_all

MOST_SECONDS = 30
FILE = made.KERNEL + bytes(range(256)) * 40
SCRIPT = b"#!ipxe\necho one moment\nimgexec tftp://10.0.0.1/k\n"
LEASE_SCRIPT = b"#!ipxe\necho one moment\ndhcp\nimgexec tftp://${next-server}/${filename}\n"


class Wire:
    """A device whose other end is this test."""

    def __init__(self) -> None:
        self.name, self.mac = "a wire in memory", None
        self.inner, self.outer = socket.socketpair(socket.AF_UNIX, socket.SOCK_DGRAM)
        self.inner.setblocking(False)
        self.outer.settimeout(0.2)

    def fileno(self) -> int:
        return self.inner.fileno()

    def receive(self) -> bytes | None:
        return self.inner.recv(65_535)

    def send(self, frame: bytes) -> None:
        self.inner.send(frame)

    def close(self) -> None:
        self.inner.close()
        self.outer.close()


class Server(threading.Thread):
    """Answers at the wire's other end: ARP, DHCP, and TFTP for one file; it loses the first DATA 2.

    It grants blocks of a size, or knows no options. A client that takes a lease has its address from then on, and
    asks for the file by its second open.
    """

    def __init__(self, wire: Wire, granted: int | None) -> None:
        super().__init__(daemon=True)
        self.granted, self.size = granted, granted or 512
        self.wire, self.is_over, self.has_lost = wire, False, False
        self.client, self.own = made.CLIENT, made.OWN_PORT

    def run(self) -> None:
        while not self.is_over:
            try:
                self.answer(self.wire.outer.recv(65_535))
            except TimeoutError:
                continue
            except OSError:
                return

    def answer(self, frame: bytes) -> None:
        if int.from_bytes(frame[12:14], "big") == ARP:
            self.wire.outer.send(padded(arp_reply(made.SERVER, self.client)))
            return
        body = frame[42:]
        asked = lease_message(body)
        if asked:
            self.lease(asked)
            return
        opcode = int.from_bytes(body[:2], "big")
        if opcode == Opcode.RRQ and self.granted:
            self.send(tftp_oack(blksize=self.granted, tsize=len(FILE)))
        elif opcode == Opcode.RRQ:
            self.give(1)
        elif opcode == Opcode.ACK:
            self.give(int.from_bytes(body[2:4], "big") + 1)

    def lease(self, asked: LeaseMessage) -> None:
        """Offers a lease and gives it, with the name of the file."""
        kind = Kind.OFFER if asked.kind == Kind.DISCOVER else Kind.ACK
        asker, server = Asker(asked.mac, asked.xid), made.SERVER.ip
        body = answer(asker, kind, server, NETMASK, (Tag.FILENAME, b"k\0"), given=LEASED, next_server=server)
        self.wire.outer.send(padded(to_client(made.SERVER, body)))
        self.client, self.own = LEASED_CLIENT, made.OWN_PORT + 1

    def give(self, block: int) -> None:
        if (block - 1) * self.size > len(FILE):
            return
        if block == 2 and not self.has_lost:
            self.has_lost = True
            return
        self.send(tftp_data(block, FILE[(block - 1) * self.size : block * self.size]))

    def send(self, body: bytes) -> None:
        ports = (made.SERVER_PORT, self.own)
        self.wire.outer.send(padded(udp_frame(made.SERVER, self.client, ports, body)))


class Bridged(unittest.TestCase):
    def setUp(self) -> None:
        self.wire = Wire()
        self.addCleanup(self.wire.close)
        self.input, self.output, self.pcap = io.BytesIO(), io.BytesIO(), io.BytesIO()
        self.said, self.printed = io.StringIO(), io.StringIO()
        self.progress = Progress(self.printed, self.said)
        self.listener = socket.create_server(("127.0.0.1", 0))
        self.addCleanup(self.listener.close)
        self.port = self.listener.getsockname()[1]

    def test_commands_while_they_begin(self) -> None:
        for command in (
            made.command(b"sleep 0x5"),
            made.command(b"sleep 05"),
            Command(1, 2, 0, False, (b"sleep", b"${}")),
        ):
            self.progress.take(0, command)
        said = ["sleep 0x5: goes on after 5 s", "sleep 05", "sleep ${}: its words can't be expanded"]
        self.assertEqual(self.said.getvalue().splitlines(), said)

    def test_a_script_that_never_waits(self) -> None:
        """Thousands of commands are a hundred lines in a second, and the count of the others."""
        with mock.patch("time.monotonic", lambda: 1.5):
            for _ in range(4_096):
                self.progress.take(0, made.command(b"goto again"))
                self.progress.take(0, Result(OK))
            self.progress.end()
        lines = self.said.getvalue().splitlines()
        self.assertEqual(lines, ["goto again"] * 100 + ["and 3996 lines more, which are left out"])

    def test_a_failure_while_it_comes(self) -> None:
        """With what the open's end means, where it is that open's; False isn't one."""
        look_up, refused, too_long = LookUp(0, 2), Cause(Code.REFUSED, 9, 3), Cause(Code.TOO_LONG, 1)
        for record in (
            made.command(b"nslookup a a.b"), look_up.opened, Ended(0, refused), Result(refused),
            made.command(b"echo a"), Result(too_long), made.command(b"isset a"), Result(Cause(Code.FALSE)),
        ):
            self.progress.take(0, record)
        failures = [line for line in self.said.getvalue().splitlines() if "failed" in line]
        self.assertEqual(
            failures,
            [
                "line 2: nslookup failed: Refused(record 9, code 3): there is no such name (NXDOMAIN)",
                "line 2: echo failed: TooLong(1: line or expanded words): a text is longer than its limit",
            ],
        )

    def test_what_asks_and_is_answered(self) -> None:
        lease, look_up, ping = Lease(), LookUp(1, 2), Ping(2, 3)
        timed_out, nothing = Cause(Code.TIMED_OUT, 4), Cause(Code.REFUSED, 9, 0)
        for asking, cause in ((lease, OK), (look_up, OK), (ping, OK), (lease, timed_out), (look_up, nothing)):
            self.progress.take(0, asking.opened)
            self.progress.take(0, Ended(asking.number, cause))
        said = re.sub(r"[0-9]\.[0-9]{2} s", "N s", self.said.getvalue())
        self.assertEqual(
            said.splitlines(),
            [
                "a lease came after N s",
                "the address of a.b came after N s",
                "the echo reply of 10.0.0.1 came after N s",
                "a lease didn't come: the tries of the timer's plan ran out without an answer",
                "the address of a.b didn't come: the name has no IPv4 address",
            ],
        )

    def session(self) -> Session:
        client, _ = self.listener.accept()
        self.addCleanup(client.close)
        kept = Kept(self.input, self.output, PcapWriter(self.pcap))
        take, note = self.progress.take, self.progress.note
        return Session(client, self.wire, made.CLIENT.mac, kept, take, note)

    def inputs(self) -> list[Record]:
        placed = read_records(io.BytesIO(self.input.getvalue()), Direction.INPUT)
        return [one.record for one in placed]

    def with_client(
        self, answer: bytes, wants_off: bool = False, holds: float = 0.0, loses: Callable[[], bool] = lambda: False
    ) -> Session:
        """A session with a client that says this, reads on for a while, and leaves."""

        def act() -> None:
            with socket.create_connection(("127.0.0.1", self.port)) as client:
                client.sendall(answer)
                client.settimeout(holds or 0.01)
                until = time.monotonic() + holds
                try:
                    while client.recv(1 << 16) and time.monotonic() < until:
                        pass
                except TimeoutError:
                    pass

        thread = threading.Thread(target=act, daemon=True)
        thread.start()
        session = self.session()
        session.wants_off, session.loses = wants_off, loses
        session.run(made.spelled([made.start(SCRIPT)]))
        thread.join(MOST_SECONDS)
        return session

    def test_time_and_frames(self) -> None:
        """START, TICKs of a quarter second at most, frames for the client and for all, and no others."""
        others = made.found().frame.replace(made.CLIENT.mac, bytes.fromhex("525400000009"))
        own = made.asked().frame
        for frame in (made.found().frame, others, own, bytes(2000), b"\xff" * 6 + bytes(10)):
            self.wire.outer.send(frame)
        session = self.with_client(made.spelled([Step(1), Sent(made.asked().frame)]), holds=0.6)
        first, *rest = self.inputs()
        self.assertEqual(first, made.start(SCRIPT))
        frames = [one.frame for one in rest if isinstance(one, Received)]
        self.assertEqual(frames, [made.found().frame, b"\xff" * 6 + bytes(10)])
        ticks = [one.milliseconds for one in rest if isinstance(one, Tick)]
        self.assertTrue(ticks and max(ticks) <= 250 and 400 <= sum(ticks) <= 900, ticks)
        self.assertEqual(self.wire.outer.recv(2000), made.asked().frame)
        self.assertEqual(session.counts.sent, 1)
        packets = list(read_capture(io.BytesIO(self.pcap.getvalue())))
        self.assertEqual(len(packets), 3)
        self.assertIsNone(session.status)

    def test_a_joined_frame(self) -> None:
        """Segments that were joined come one by one, and a datagram of that length doesn't."""
        body = bytes(place % 251 for place in range(5_000))
        text = segment(made.SERVER.ip, made.CLIENT.ip, (80, made.OWN_PORT), (1, 2), 0x18, 1_000, body)
        joined = packet_frame(made.SERVER, made.CLIENT, PROTOCOL_TCP, text)
        for frame in (joined, udp_frame(made.SERVER, made.CLIENT, (69, made.OWN_PORT), body)):
            self.wire.outer.send(frame)
        session = self.with_client(b"", holds=0.3)
        frames = [one.frame for one in self.inputs() if isinstance(one, Received)]
        self.assertEqual([len(frame) for frame in frames], [1_514, 1_514, 1_514, 674])
        self.assertEqual(b"".join(frame[54:] for frame in frames), body)
        counts = session.counts
        self.assertEqual((counts.joined, counts.cut_into, counts.too_long, counts.received), (1, 4, 1, 4))

    def test_loss(self) -> None:
        for frame in (made.found().frame, made.found().frame):
            self.wire.outer.send(frame)
        chance = iter((True, True, False))
        session = self.with_client(
            made.spelled([Step(1), Sent(made.asked().frame)]), holds=0.6, loses=lambda: next(chance)
        )
        passed = sum(isinstance(one, Received) for one in self.inputs())
        sent = session.counts.sent - (session.counts.lost - (2 - passed))
        self.assertEqual((session.counts.lost, passed + sent), (2, 1))

    def test_off(self) -> None:
        self.with_client(b"", wants_off=True, holds=0.3)
        self.assertEqual([one for one in self.inputs() if not isinstance(one, Tick)][1:], [Off()])

    def test_no_client_of_ours(self) -> None:
        for answer in (b"GET / HTTP/1.1\r\n\r\n", b"\0\0\0\1\7", b"\0\0\0\2\x8d\xff", bytes(8)):
            with self.subTest(answer), self.assertRaises(ClientFault):
                self.with_client(answer)

    def test_cut_records(self) -> None:
        """Records come out whole however they come in."""
        data = made.spelled(made.BOOT_OUTPUT)
        for size in (1, 7, len(data)):
            records, found = Records(), []
            for at in range(0, len(data), size):
                found += records.take(data[at : at + size])
            self.assertEqual(b"".join(len(one).to_bytes(4, "big") + one for one in found), data)

    @unittest.skipUnless(is_built(), "the program isn't built: a boot through a bridge in memory")
    def test_program(self) -> None:
        """The program boots over it; what was kept replays to what it wrote, byte for byte."""
        self.boot(Server(self.wire, None))

    @unittest.skipUnless(is_built(), "the program isn't built: a boot through a bridge in memory")
    def test_program_with_granted_blocks(self) -> None:
        self.boot(Server(self.wire, 1432))

    @unittest.skipUnless(is_built(), "the program isn't built: a boot through a bridge in memory")
    def test_program_with_a_lease(self) -> None:
        start = replace(made.start(LEASE_SCRIPT), ip=IPv4Address(0), mask=IPv4Address(0))
        self.boot(Server(self.wire, 1432), start)
        self.assertIn("a lease came after", self.said.getvalue())

    def boot(self, server: Server, start: Start = made.start(SCRIPT)) -> None:
        ran = {}
        words = {"live": ["live", f"127.0.0.1:{self.port}"]}
        thread = threading.Thread(target=lambda: ran.update(run_all(words)), daemon=True)
        thread.start()
        server.start()
        session = self.session()
        session.run(made.spelled([start]))
        server.is_over = True
        thread.join(MOST_SECONDS)
        self.progress.end()
        self.assertEqual((session.status, ran["live"].status), (Status.HANDED_OFF, 0))
        self.assertTrue(server.has_lost)
        self.assertEqual(self.printed.getvalue(), "one moment\n")
        blocks = len(FILE) // server.size + 1
        said = f"k from 10.0.0.1:69: {blocks} blocks, {len(FILE)} bytes"
        self.assertIn(said, self.said.getvalue())
        replayed = replay_all({"kept": self.input.getvalue()}, {})["kept"]
        self.assertEqual((replayed.status, replayed.output), (0, self.output.getvalue()))
        self.assertIsNone(fault_in(self.output.getvalue()))


class Checksums(unittest.TestCase):
    def test_completed(self) -> None:
        """A checksum that was left to a card is the one that a whole frame has."""
        for length in (0, 1, 2, 17, 18, 19, 512):
            frame = udp_frame(made.SERVER, made.CLIENT, (69, 49_152), bytes(range(256))[:length] * 2)
            left = frame[:40] + b"\x12\x34" + frame[42:]
            for shown in (left, padded(left)):
                mended = completed(shown)
                self.assertEqual(mended[: len(frame)], frame)
                self.assertIs(sums_of(mended), Sums.RIGHT)


class Places(unittest.TestCase):
    def test_listening_places(self) -> None:
        self.assertEqual(listening_place("127.0.0.1:7000"), ("127.0.0.1", 7000))
        self.assertEqual(listening_place("[::1]:0"), ("::1", 0))
        for text in ("7000", ":7000", "a:", "a:65536", "a:x"):
            with self.subTest(text), self.assertRaises(Exception):
                listening_place(text)


class LiveBoot(unittest.TestCase):
    """A boot from a real server over a real wire, where this machine can make one."""

    def test_boot(self) -> None:
        words = [sys.executable, "-B", str(TOP / "tools" / "live_boot.py"), "--w", "77"]
        done = subprocess.run(words, capture_output=True, text=True, timeout=300, check=False)
        if done.returncode == 77:
            self.skipTest(done.stderr.strip())
        self.assertEqual(done.returncode, 0, done.stderr)
        for way in WAYS:
            self.assertIn(f"booting by {way}: passed", done.stderr)
        self.assertEqual(done.stderr.count("bridge.py: this run: --w 77 --uuid "), len(WAYS))


if __name__ == "__main__":
    unittest.main()
