"""A real server answers what the tests and examples send: dnsmasq, over a wire between two network namespaces."""

from __future__ import annotations

import queue
import subprocess
import sys
import tempfile
import threading
import time
import unittest
from contextlib import ExitStack
from ipaddress import IPv4Address
from pathlib import Path
from typing import Callable

from shared import wire_dhcp, wire_dns
from shared.frames import datagram_of, packet_of
from shared.namespaces import PREFIX, SERVER_ADDRESS, missing, network
from shared.servers import Leases, Names, Tftp, dnsmasq
from shared.wire import Station, arp_reply, arp_request, tftp_request, udp_frame
from shared.wire_dhcp import Asker, Kind, Tag
from tests import TOP, made

SERVER = IPv4Address(SERVER_ADDRESS)
LEASES = Leases(SERVER + 99, SERVER + 109, IPv4Address((0xFFFFFFFF << (32 - PREFIX)) & 0xFFFFFFFF), "kernel")
NAMES = Names("boot.test", SERVER + 8)
MOST_SECONDS = 10.0
WHY = missing("dnsmasq")


class Wire:
    """The client's end of the wire, which a process in its namespace sends to and receives from."""

    def __init__(self, words: list[str]) -> None:
        self.process = subprocess.Popen(
            words, cwd=TOP, stdin=subprocess.PIPE, stdout=subprocess.PIPE, text=True, bufsize=1
        )
        self.frames: queue.Queue[bytes] = queue.Queue()
        assert self.process.stdout and self.process.stdout.readline() == "ready\n"
        threading.Thread(target=self._read, daemon=True).start()

    def _read(self) -> None:
        assert self.process.stdout
        for line in self.process.stdout:
            self.frames.put(bytes.fromhex(line))

    def send(self, frame: bytes) -> None:
        assert self.process.stdin
        self.process.stdin.write(frame.hex() + "\n")

    def receive(self, is_wanted: Callable[[bytes], bool]) -> bytes:
        """The next frame that is wanted; others are passed over."""
        until = time.monotonic() + MOST_SECONDS
        while True:
            frame = self.frames.get(timeout=max(until - time.monotonic(), 0.01))
            if is_wanted(frame):
                return frame

    def close(self) -> None:
        assert self.process.stdin and self.process.stdout
        self.process.stdin.close()
        self.process.wait(MOST_SECONDS)
        self.process.stdout.close()


def datagram(frame: bytes, port: int) -> bytes | None:
    """What a datagram to this port carries, its sums right."""
    packet = packet_of(frame)
    body = datagram_of(packet) if packet and packet.is_sound and packet.protocol == 17 else None
    return body if packet and packet.body[2:4] == port.to_bytes(2, "big") else None


def options_of(message: bytes) -> dict[int, bytes]:
    """The options in the main field of a message, each once."""
    found, text = {}, message[240:]
    while text and text[0] != 255:
        size = 1 if text[0] == 0 else 2 + text[1]
        if text[0]:
            found[text[0]] = text[2:size]
        text = text[size:]
    return found


@unittest.skipUnless(WHY is None, f"a real server: {WHY}")
class Dnsmasq(unittest.TestCase):
    @classmethod
    def setUpClass(cls) -> None:
        with ExitStack() as stack:
            folder = Path(stack.enter_context(tempfile.TemporaryDirectory()))
            folder.chmod(0o755)
            (folder / "kernel").write_bytes(made.KERNEL)
            joined = stack.enter_context(network())
            stack.enter_context(dnsmasq(joined, Tftp(folder), LEASES, NAMES))
            words = [sys.executable, "-B", "-m", "tests.wire_pipe", joined.client_device]
            cls.wire = Wire(joined.in_client(*words))
            stack.callback(cls.wire.close)
            cls.addClassCleanup(stack.pop_all().close)

    def answer(self, asker: Asker, body: bytes) -> bytes:
        """What the server says to a client's message."""
        self.wire.send(wire_dhcp.to_servers(asker, body))
        xid = asker.xid.to_bytes(4, "big")
        return datagram(self.wire.receive(lambda frame: (datagram(frame, 68) or b"")[4:8] == xid), 68) or b""

    def lease(self, asker: Asker) -> Station:
        """The client with the address that the server gives it."""
        offer = self.answer(asker, wire_dhcp.discover(asker))
        found, given = options_of(offer), IPv4Address(offer[16:20])
        self.assertEqual((offer[0], found[Tag.KIND], found[Tag.SERVER]), (2, b"\2", SERVER.packed))
        self.assertTrue(LEASES.first <= given <= LEASES.last)
        ack = self.answer(asker, wire_dhcp.request(asker, SERVER, given))
        self.assertEqual((options_of(ack)[Tag.KIND], ack[16:20], ack[20:24]), (b"\5", given.packed, SERVER.packed))
        self.assertEqual(options_of(ack)[Tag.NETMASK], LEASES.mask.packed)
        return Station(asker.mac, given)

    def found(self, client: Station) -> Station:
        """The server, whose hardware address is asked for."""
        self.wire.send(arp_request(client, SERVER))
        frame = self.wire.receive(lambda frame: frame[12:14] == b"\x08\x06" and frame[20:22] == b"\0\2")
        return Station(frame[22:28], IPv4Address(frame[28:32]))

    def ask(self, client: Station, port: int, body: bytes, own: int) -> bytes:
        """What the server answers to a datagram from this port, after it has asked where the client is."""
        server = self.found(client)
        self.wire.send(udp_frame(client, server, (own, port), body))
        while True:
            frame = self.wire.receive(lambda frame: frame[12:14] == b"\x08\x06" or datagram(frame, own) is not None)
            if frame[12:14] == b"\x08\x00":
                return datagram(frame, own) or b""
            if frame[20:22] == b"\0\1":
                self.wire.send(arp_reply(client, server))

    def test_a_lease(self) -> None:
        client = self.lease(Asker(made.CLIENT.mac, 0x2FEF003E))
        opening = self.ask(client, 69, tftp_request(b"kernel"), made.OWN_PORT)
        self.assertEqual(opening, b"\0\x06blksize\x001432\0tsize\x00516\0")

    def test_an_address_of_another_s_is_refused(self) -> None:
        asker = Asker(bytes.fromhex("525400000003"), 7)
        nak = self.answer(asker, wire_dhcp.request(asker, SERVER, IPv4Address("192.0.2.1")))
        self.assertEqual((options_of(nak)[Tag.KIND], nak[16:20]), (bytes((Kind.NAK,)), bytes(4)))

    def test_a_look_up(self) -> None:
        client = self.lease(Asker(bytes.fromhex("525400000004"), 8))
        for name, rcode, address in ((b"boot.test", 0, NAMES.address), (b"no.test", 5, None)):
            body = self.ask(client, 53, wire_dns.query(0x003E, name), made.OWN_PORT + 1)
            with self.subTest(name):
                self.assertEqual((body[:2], body[2] & 0x80, body[3] & 15), (b"\0\x3e", 0x80, rcode))
                self.assertEqual(body[12 : 12 + len(name) + 2], wire_dns.written(name))
                if address:
                    self.assertEqual(body[-4:], address.packed)


if __name__ == "__main__":
    unittest.main()
