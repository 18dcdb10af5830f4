"""`boot.py` over captures of firmware that takes a lease and then fetches: what it takes, changes and says.

The captures are made of bytes here: a client with numbers of its own, a server that leases and serves, noise before,
between and after, and checksums that a network card was still to fill in.
"""

from __future__ import annotations

import unittest
from ipaddress import IPv4Address

from boot import is_built
from shared.checksums import Sums, sums_of
from shared.frames import ends_of, packet_of
from shared.leases import lease_message_in
from shared.recordings import read_input
from shared.records import Received, Start, Tick
from shared.wire import ARP, Station, arp_reply, arp_request, padded, pseudo_header, sum16, tftp_data
from shared.wire import tftp_error, tftp_oack, tftp_request, udp_frame
from shared.wire_dhcp import Asker, Kind, Option, Tag, answer, discover, request, to_client, to_servers
from tests import made
from tests.test_boot import Launched
from tests.test_record import pcap_file

# the machine that was captured, its lease, and the number of its transaction
DEVICE = bytes.fromhex("525400123456")
LEASED = Station(DEVICE, IPv4Address("10.0.0.50"))
ASKER = Asker(DEVICE, 0x12345678)
SERVER, OTHER = made.SERVER, Station(bytes.fromhex("525400000009"), IPv4Address("10.0.0.9"))
GATEWAY = Station(bytes.fromhex("5254000000fe"), IPv4Address("10.0.0.254"))
FAR = Station(GATEWAY.mac, IPv4Address("192.0.2.7"))
MASK = (Tag.NETMASK, bytes((255, 255, 255, 0)))
KERNEL = b"\x7fELF" + bytes(600)
# the first word of ChaCha8 with a zero key, as its test vectors have it (3e00ef2f as bytes)
NUMBER = 0x2FEF003E
SECOND = 1_000_000
PORT = 2_070

Timed = tuple[int, bytes]


def unfilled(frame: bytes) -> bytes:
    """A datagram's frame with the sum of its pseudo-header alone, as a system hands it to a card that sums."""
    packet = packet_of(frame)
    assert packet
    pseudo = pseudo_header(packet.source, packet.target, packet.protocol, len(packet.body))
    return frame[:40] + sum16(pseudo).to_bytes(2, "big") + frame[42:]


def lease(at: int, *options: Option) -> list[Timed]:
    """A lease from an instant on: two servers offer, and the second one's offer is taken."""
    given = LEASED.ip
    other = answer(ASKER, Kind.OFFER, OTHER.ip, MASK, given=IPv4Address("10.0.0.77"))
    offer = answer(ASKER, Kind.OFFER, SERVER.ip, MASK, *options, given=given)
    ack = answer(ASKER, Kind.ACK, SERVER.ip, MASK, *options, given=given, next_server=SERVER.ip, file=b"k")
    return [
        (at, to_servers(ASKER, discover(ASKER))),
        (at + 1_000, to_client(OTHER, other)),
        (at + 2_000, unfilled(to_client(SERVER, offer))),
        (at + SECOND, to_servers(ASKER, request(ASKER, SERVER.ip, given))),
        (at + SECOND + 3_000, unfilled(to_client(SERVER, ack))),
    ]


def fetch(at: int, server: Station = SERVER, port: int = PORT, path: bytes = b"k") -> list[Timed]:
    """A file that is asked for and comes in two blocks."""
    asked = udp_frame(LEASED, server, (port, 69), tftp_request(path))
    blocks = [
        unfilled(udp_frame(server, LEASED, (40_000, port), tftp_data(number, part)))
        for number, part in ((1, KERNEL[:512]), (2, KERNEL[512:]))
    ]
    return [(at, asked), *((at + (n + 1) * 2_000, padded(block)) for n, block in enumerate(blocks))]


def noise(at: int) -> list[Timed]:
    """A host that looks for another."""
    return [(at, padded(arp_request(OTHER, SERVER.ip)))]


class Captures(Launched):
    def run_over(self, frames: list[Timed], words: str = "") -> tuple[list[object], str]:
        """The records that are made of a capture, and what is said."""
        self.put("s.pcap", pcap_file(frames))
        self.program("exit 9")
        _, said, status = self.ends(f"tools/boot.py s.pcap --program program --input in.rec {words}")
        self.assertEqual(status, 9, said)
        with (self.folder / "in.rec").open("rb") as stream:
            return [timed.record for timed in read_input(stream)], said

    def check_end(self, words: str = "") -> None:
        """The boot succeeds, where the program is built."""
        if is_built():
            _, said, status = self.ends(f"tools/boot.py s.pcap {words}")
            self.assertEqual(status, 0, said)

    def frames_of(self, records: list[object]) -> list[bytes]:
        return [record.frame for record in records if isinstance(record, Received)]

    def start_of(self, records: list[object]) -> Start:
        assert isinstance(records[0], Start)
        return records[0]


class Leased(Captures):
    # it begins after 20 s, and a minute passes before the file is asked for
    FRAMES = [*noise(0), *lease(20 * SECOND), *noise(40 * SECOND), *fetch(80 * SECOND), *noise(81 * SECOND)]

    def test_the_lease_and_the_fetch_are_replayed(self) -> None:
        records, said = self.run_over(self.FRAMES)
        start = self.start_of(records)
        self.assertEqual(start.script, b"#!ipxe\ndhcp\nimgexec tftp://10.0.0.1/k\n")
        self.assertEqual((start.mac, int(start.ip)), (DEVICE, 0))
        offer, ack, arp, first, second, other = self.frames_of(records)
        for frame, kind in ((offer, Kind.OFFER), (ack, Kind.ACK)):
            message = lease_message_in(frame)
            self.assertEqual((message.kind, message.xid, message.given), (kind, NUMBER, LEASED.ip))
        self.assertEqual(arp, arp_reply(SERVER, LEASED))
        for frame in (first, second):
            self.assertEqual(ends_of(packet_of(frame)).target_port, made.OWN_PORT + 1)
        self.assertEqual(other[12:14], ARP.to_bytes(2, "big"))
        self.assertEqual({sums_of(frame) for frame in self.frames_of(records)}, {Sums.RIGHT})
        time = sum(record.milliseconds for record in records if isinstance(record, Tick))
        self.assertEqual(time, 1_003 + 1_000)
        self.check_end()

    def test_each_change_is_said_in_a_line(self) -> None:
        lines = self.run_over(self.FRAMES)[1].splitlines()
        self.assertEqual(lines, [
            "boot.py: the client is 52:54:00:12:34:56, which asked 10.0.0.1 for a file first",
            "boot.py: its lease of 10.0.0.50 from 10.0.0.1 is replayed; --static gives the address by START",
            "boot.py: the script is made of the capture's first request: dhcp, and then imgexec tftp://10.0.0.1/k",
            "boot.py: the capture has no ARP answer of 10.0.0.1: one is made, of its frames' address 52:54:00:00:00:02",
            "boot.py: time begins at its lease, and goes on at its first request by TFTP: 2 other packets are left out",
            "boot.py: 1 DHCP answer of other servers is left out: their offers weren't taken",
            "boot.py: 2 DHCP answers got the transaction number 0x2fef003e, by which this client asks, in place of "
            "0x12345678",
            "boot.py: 2 frames got the port by which this client asks, in place of the capture's",
            "boot.py: 4 frames got the checksum that was left to a network card",
            "boot.py: the input recording has 19 records; 5 of 11 packets, 2.003 s",
        ])

    def test_another_key_gives_another_number(self) -> None:
        """The block of the key 01 and then zeros begins with cf5ee9a0 as bytes (ChaCha8, test vector 2)."""
        records, _ = self.run_over(self.FRAMES, f"--key 01{'00' * 31}")
        self.assertEqual(lease_message_in(self.frames_of(records)[0]).xid, 0xA0E95ECF)
        self.check_end(f"--key 01{'00' * 31}")

    def test_static(self) -> None:
        records, said = self.run_over(self.FRAMES, "--static")
        start = self.start_of(records)
        self.assertEqual(start.script, b"#!ipxe\nimgexec tftp://10.0.0.1/k\n")
        self.assertEqual((str(start.ip), str(start.mask)), ("10.0.0.50", "255.255.255.0"))
        self.assertIn("START gives it --ip 10.0.0.50, --mask 255.255.255.0, as its lease did\n", said)
        self.assertEqual([lease_message_in(frame) for frame in self.frames_of(records)], [None] * 4)
        self.check_end("--static")

    def test_static_without_a_lease(self) -> None:
        self.put("s.pcap", pcap_file(fetch(0)))
        _, said, status = self.ends("tools/boot.py s.pcap --static")
        self.assertEqual(status, 1)
        self.assertIn("it has no lease of 52:54:00:12:34:56 for --static to take the address of\n", said)

    def test_a_server_in_another_net(self) -> None:
        gateway: Option = (Tag.GATEWAY, GATEWAY.ip.packed)
        records, said = self.run_over([*lease(0, gateway), *fetch(5 * SECOND, FAR)])
        self.assertIn(arp_reply(GATEWAY, LEASED), self.frames_of(records))
        self.assertIn("has no ARP answer of 10.0.0.254: one is made", said)
        self.check_end()

    def test_an_answer_by_arp_of_the_capture_is_taken(self) -> None:
        own = padded(arp_reply(SERVER, LEASED))
        records, _ = self.run_over([*lease(0), (3 * SECOND, own), *fetch(5 * SECOND)])
        self.assertEqual(self.frames_of(records)[2], own)
        self.check_end()

    def test_a_request_for_the_size_alone(self) -> None:
        """As firmware asks: it gives that transfer up, and asks again from another port."""
        asked = udp_frame(LEASED, SERVER, (1_234, 69), tftp_request(b"k"))
        oack = udp_frame(SERVER, LEASED, (40_001, 1_234), tftp_oack(tsize=len(KERNEL)))
        ended = udp_frame(LEASED, SERVER, (1_234, 40_001), tftp_error(8, b"aborted"))
        probe = [(4 * SECOND, asked), (4 * SECOND + 1, oack), (4 * SECOND + 2, ended)]
        records, _ = self.run_over([*lease(0), *probe, *fetch(5 * SECOND)])
        self.assertEqual(len(self.frames_of(records)), 5)
        self.check_end()

    def test_a_script_of_one_s_own(self) -> None:
        self.put("own.ipxe", b"#!ipxe\ndhcp || goto none\nimgexec tftp://${next-server}/${filename}\n:none\n")
        records, said = self.run_over(self.FRAMES, "--script own.ipxe")
        self.assertEqual(self.start_of(records).script, self.get("own.ipxe"))
        self.assertNotIn("the script is made", said)
        self.check_end("--script own.ipxe")

    def test_a_script_without_dhcp(self) -> None:
        self.put("own.ipxe", b"#!ipxe\nimgexec tftp://10.0.0.1/k\n")
        records, _ = self.run_over(self.FRAMES, "--script own.ipxe")
        self.assertEqual(str(self.start_of(records).ip), "10.0.0.50")
        self.check_end("--script own.ipxe")


class Unleased(Captures):
    def test_the_address_is_that_of_the_request(self) -> None:
        records, _ = self.run_over([*noise(0), *fetch(30 * SECOND)])
        self.assertEqual(str(self.start_of(records).ip), "10.0.0.50")
        self.assertEqual(len(self.frames_of(records)), 3)
        self.check_end()

    def test_a_server_in_another_net(self) -> None:
        records, _ = self.run_over(fetch(0, FAR))
        self.assertEqual(str(self.start_of(records).gateway), "10.0.0.1")
        self.check_end()

    def test_a_path_that_no_uri_has(self) -> None:
        records, _ = self.run_over(fetch(0, path=b"/a b#1?${x}%"))
        line = b"imgexec tftp://10.0.0.1/a%20b%231%3F%24%7Bx%7D%25\n"
        self.assertEqual(self.start_of(records).script, b"#!ipxe\n" + line)

    def test_a_recording_takes_no_static(self) -> None:
        self.put("boot.rec", made.BOOT_INPUT)
        said = self.ends("tools/boot.py boot.rec --static")[1]
        self.assertIn("is a recording already, so --static can't change it", said)


if __name__ == "__main__":
    unittest.main()
