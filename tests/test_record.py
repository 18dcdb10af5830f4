"""`record.py`: recordings from scripts, addresses and captures, and what it refuses."""

from __future__ import annotations

import io
import struct
import unittest
from ipaddress import IPv4Address

from shared.recordings import read_input
from shared.records import Received, Record, Tick
from tests import made
from tests.case import Case
from tests.test_capture import enhanced, interface, option, section
from shared.wire import arp_reply, arp_request, padded, tftp_request, udp_frame

OTHER = made.Station(bytes.fromhex("525400000003"), IPv4Address("10.0.0.3"))


class Recording(Case):
    def test_every_field_of_start(self) -> None:
        self.put("s.ipxe", b"#!ipxe\n")
        key = bytes(range(32)).hex()
        self.works(
            "tools/record.py s.ipxe s.rec --mac 52:54:00:AB:cd:ef --ip 10.0.0.2 --mask 255.0.0.0 "
            "--gateway 10.0.0.254 --dns 10.0.0.53 --arch 7 --w 16383 "
            f"--uuid 00112233-4455-6677-8899-aabbccddeeff --key {key}"
        )
        self.assertEqual(
            self.get("s.rec").hex(),
            "00000053" "01" "01" "525400abcdef" "00112233445566778899aabbccddeeff" + key
            + "0007" "3fff" "0a000002" "ff000000" "0a0000fe" "0a000035" "2321697078650a",
        )

    def capture(self) -> list[tuple[int, bytes]]:
        """Microseconds and frames: four that the client receives, one of them stamped earlier
        than the one before it, and others."""
        ours = padded(made.found().frame)
        asked = arp_request(OTHER, made.CLIENT.ip)
        data = udp_frame(made.SERVER, made.CLIENT, (40_000, 49_152), b"\0\x03\0\x01abc")
        foreign = udp_frame(made.SERVER, OTHER, (1, 2), b"")
        sent = arp_request(made.CLIENT, made.SERVER.ip)
        early = [(0, sent), (1_999, ours), (600_000, foreign)]
        return early + [(602_000, data), (601_000, asked), (603_000, ours)]

    def expected(self) -> list[Record]:
        frames = dict(self.capture())
        return [
            Tick(1),
            Received(frames[1_999]),
            Tick(250),
            Tick(250),
            Tick(101),
            Received(frames[602_000]),
            Received(frames[601_000]),
            Tick(1),
            Received(frames[603_000]),
        ]

    def check_capture(self, data: bytes, words: str = "") -> list[Record]:
        self.put("s.ipxe", b"#!ipxe\n")
        self.put("s.pcap", data)
        self.works(f"tools/record.py s.ipxe s.rec --ip 10.0.0.2 --capture s.pcap {words}")
        return [timed.record for timed in read_input(io.BytesIO(self.get("s.rec")))][1:]

    def test_frames_and_ticks_of_a_pcap(self) -> None:
        data = pcap_file([(7_000_000 + time, frame) for time, frame in self.capture()])
        self.assertEqual(self.check_capture(data), self.expected())
        ticks = [record for record in self.check_capture(data, "--tick 60000")
                 if isinstance(record, Tick)]
        self.assertEqual(ticks, [Tick(1), Tick(601), Tick(1)])

    def test_frames_and_ticks_of_a_pcapng(self) -> None:
        data = section(">") + interface(">", option(">", 9, b"\x09"))
        for time, frame in self.capture():
            data += enhanced(">", (7_000_000 + time) * 1000, frame)
        self.assertEqual(self.check_capture(data), self.expected())

    def test_refusals_leave_no_file(self) -> None:
        self.put("s.ipxe", b"#!ipxe\n")
        self.put("long.ipxe", bytes(130_997))
        frame = made.found().frame
        self.put("cut.pcap", pcap_file([(0, frame)])[:-1])
        self.put("short.pcap", pcap_file([(0, frame)], cut=5))
        self.put("jumbo.pcap", pcap_file([(0, frame + bytes(1_500))]))
        self.put("runt.pcap", pcap_file([(0, frame[:13])]))
        self.put("text.pcap", b"no capture")
        for words, said in (
            ("none.ipxe", "none.ipxe"),
            ("long.ipxe", "long.ipxe: the script has more than 130996 bytes"),
            ("s.ipxe --capture none.pcap", "none.pcap"),
            ("s.ipxe --capture cut.pcap", "cut.pcap: at byte 40: the file ends inside a packet"),
            ("s.ipxe --gateway 10.0.0.1", "--gateway needs --ip"),
            ("s.ipxe --ip 10.0.0.2/24 --gateway 10.0.1.1", "not in the client's net 10.0.0.0/24"),
            ("s.ipxe --ip 10.0.0.0/24", "10.0.0.0 is the address of the net"),
            ("s.ipxe --ip 10.0.0.255/24", "10.0.0.255 is the broadcast address"),
            ("s.ipxe --ip 10.0.0.2/24 --mask 255.0.0.0", "differ"),
            ("s.ipxe --capture short.pcap", "at byte 24 was cut by the capture: 42 of 47 bytes"),
            ("s.ipxe --capture jumbo.pcap", "at byte 24 has 1542 bytes, not 14 to 1522"),
            ("s.ipxe --capture runt.pcap", "at byte 24 has 13 bytes"),
            ("s.ipxe --capture text.pcap", "text.pcap: at byte 0"),
        ):
            script, _, rest = words.partition(" ")
            self.fails(f"tools/record.py {script} made.rec {rest}", said)
            self.assertEqual(list(self.folder.glob("made.rec*")), [])

    def test_wrong_words(self) -> None:
        self.put("s.ipxe", b"")
        for words in (
            "--mac 52:54:00:00:00", "--mac 52:54:00:00:00:0g", "--ip 10.0.0", "--key 00",
            "--uuid x", "--arch 65536", "--w 16384", "--tick 0", "--tick 60001",
            "--mac 01:00:5e:00:00:01", "--mac 00:00:00:00:00:00", "--ip 224.0.0.1",
            "--ip 10.0.0.2/33", "--ip 255.255.255.255",
            "--ip 0.0.0.1", "--mask 255.0.255.0", "--mask 0.0.0.255",
            "--gateway 239.0.0.1", "--dns 127.0.0.1", "--port 49151", "--until x", "--from -1",
            "--w 1 --port 50000", "--from 1 --trim",
        ):
            name = words.split()[-2 if words.count("--") == 2 and "--trim" not in words else 0]
            name = "--trim" if "--trim" in words else name
            self.fails(f"tools/record.py s.ipxe made.rec {words}", f"argument {name}", 2)


DEVICE = "52:54:00:00:00:01"
SILENT = [(0, arp_request(made.CLIENT, made.SERVER.ip)), (16_000_000, arp_request(OTHER, OTHER.ip))]


class Times(Case):
    """Where the time of a recording begins and ends."""

    def total(self, words: str) -> int:
        """The time of the recording made with these words, in milliseconds."""
        self.put("s.ipxe", b"#!ipxe\n")
        self.call(f"tools/record.py s.ipxe s.rec --ip 10.0.0.2/24 {words}")
        return [timed.time for timed in read_input(io.BytesIO(self.get("s.rec")))][-1]

    def test_time_runs_to_the_last_packet_whoever_gets_it(self) -> None:
        self.put("s.pcap", pcap_file([*SILENT[:1], (16_000_000, SILENT[0][1])]))
        self.assertEqual(self.total("--capture s.pcap"), 16_000)

    def test_until_goes_on_or_cuts(self) -> None:
        self.put("s.pcap", pcap_file(SILENT))
        for words, wanted in (
            ("--until 20", 20_000), ("--until 3.5", 3_500), ("--until 0", 0), ("", 16_000),
        ):
            with self.subTest(words):
                self.assertEqual(self.total(f"--capture s.pcap {words}"), wanted)
        self.assertEqual(self.total("--until 16"), 16_000)

    def test_from_and_trim(self) -> None:
        foreign = arp_request(OTHER, made.SERVER.ip)
        packets = [(0, foreign), (4_000_000, SILENT[0][1]), (5_000_000, made.found().frame)]
        self.put("s.pcap", pcap_file(packets))
        self.assertEqual(self.total(f"--mac {DEVICE} --capture s.pcap"), 5_000)
        self.assertEqual(self.total(f"--mac {DEVICE} --capture s.pcap --from 4.5"), 500)
        self.assertEqual(self.total(f"--mac {DEVICE} --capture s.pcap --trim"), 1_000)

    def test_a_clock_that_jumped(self) -> None:
        self.put("s.ipxe", b"")
        self.put("s.pcap", pcap_file([(0, SILENT[0][1]), (10**13, SILENT[0][1])]))
        said = "s after the beginning, over a day"
        self.fails("tools/record.py s.ipxe s.rec --capture s.pcap", said)


class Warnings(Case):
    """What is said of a capture beside the recording."""

    def said(self, packets: list[tuple[int, bytes]], words: str = "", tail: bytes = b"") -> str:
        self.put("s.ipxe", b"#!ipxe\n")
        self.put("s.pcap", pcap_file(packets) + tail)
        done = self.call(f"tools/record.py s.ipxe s.rec --capture s.pcap {words}")
        self.assertEqual(done.status, 0, done.said)
        return done.said

    def frames(self) -> list[bytes]:
        records = [timed.record for timed in read_input(io.BytesIO(self.get("s.rec")))]
        return [record.frame for record in records if isinstance(record, Received)]

    def test_no_frame_for_the_device(self) -> None:
        said = self.said([(0, udp_frame(made.SERVER, OTHER, (1, 2), b""))] * 3)
        wanted = f"none of 3 packets is for {DEVICE}; there are 3 for 52:54:00:00:00:03\n"
        self.assertIn(wanted, said)

    def test_a_capture_that_is_cut_off(self) -> None:
        found = made.found().frame
        said = self.said([(0, found), (1, found)], tail=b"\0" * 5)
        self.assertIn("cut off: at byte 140: the file ends inside a packet's header; 2 ", said)
        self.assertEqual(self.frames(), [found, found])

    def test_frames_that_are_skipped(self) -> None:
        found = made.found().frame
        said = self.said([(0, found), (1, found + bytes(1_500))], "--skip")
        self.assertIn("1 frame skipped", said)
        self.assertEqual(self.frames(), [found])

    def test_checksums_that_a_card_fills_in(self) -> None:
        right = udp_frame(made.SERVER, made.CLIENT, (69, 49_152), b"\0\3\0\1abc")
        # the sum over the pseudo-header alone: addresses, protocol, length
        pseudo = right[26:34] + b"\0\x11" + right[38:40]
        total = sum(struct.unpack(">6H", pseudo))
        unfilled = right[:40] + struct.pack(">H", (total & 0xFFFF) + (total >> 16)) + right[42:]
        damaged = right[:40] + bytes([right[40] ^ 1]) + right[41:]
        said = self.said([(0, unfilled), (1, right), (2, damaged)])
        self.assertIn("1 of 3 frames have checksums that the network card fills in later", said)
        self.assertIn("1 of 3 frames have wrong checksums", said)
        self.assertEqual(self.frames(), [unfilled, right, damaged])
        said = self.said([(0, unfilled), (1, right), (2, damaged)], "--fix-checksums")
        self.assertNotIn("fills in later", said)
        self.assertEqual(self.frames(), [right, right, damaged])

    def test_what_is_taken_from_the_request(self) -> None:
        client = made.Station(bytes.fromhex("52540000beef"), IPv4Address("10.0.0.9"))
        asked = udp_frame(client, made.SERVER, (50_000, 69), tftp_request(b"k"))
        said = self.said([(0, asked), (1, arp_reply(made.SERVER, client))])
        self.assertIn("--mac 52:54:00:00:be:ef, --ip 10.0.0.9, --w 848 (port 50000)", said)
        start = next(read_input(io.BytesIO(self.get("s.rec")))).record
        self.assertEqual((start.mac, start.ip, start.w), (client.mac, client.ip, 848))
        self.assertEqual(self.said([(0, asked)], "--mac 52:54:00:00:be:ef --ip 10.0.0.9 --w 848"),
                         "record.py: warning: none of 1 packet is for 52:54:00:00:be:ef\n")

    def test_ports_that_a_real_client_chose(self) -> None:
        asked = udp_frame(made.CLIENT, made.SERVER, (2_070, 69), tftp_request(b"k"))
        again = udp_frame(made.CLIENT, made.SERVER, (2_071, 69), tftp_request(b"i"))
        answers = [udp_frame(made.SERVER, made.CLIENT, (40_000, port), b"\0\3\0\1abc")
                   for port in (2_070, 2_071)]
        packets = list(enumerate([asked, answers[0], again, answers[1]]))
        said = "asked from port 2070, 2071, and the run's opens have the ports from 49152 on"
        self.assertIn(said, self.said(packets))
        self.assertNotIn("warning", self.said(packets, "--map-ports"))
        wanted = [udp_frame(made.SERVER, made.CLIENT, (40_000, port), b"\0\3\0\1abc")
                  for port in (49_152, 49_153)]
        self.assertEqual(self.frames(), wanted)


class Cooked(Case):
    """Captures on `any`: Linux cooked headers, laid out by hand (libpcap's LINKTYPE_LINUX_SLL)."""

    def test_both_headers(self) -> None:
        """The server's machine captured: what it received has type 0, what it sent type 4."""
        asked, answer = made.asked().frame, made.found().frame
        data = udp_frame(made.SERVER, made.CLIENT, (40_000, 49_152), b"\0\3\0\1abc")
        foreign = udp_frame(made.SERVER, OTHER, (1, 2), b"")
        frames = [(1, asked), (4, answer), (4, data), (4, foreign)]
        for link, header in ((113, sll), (276, sll2)):
            packets = [(n, header(kind, frame)) for n, (kind, frame) in enumerate(frames)]
            self.put("s.ipxe", b"")
            self.put("s.pcap", pcap_file(packets, link=link))
            self.works("tools/record.py s.ipxe s.rec --ip 10.0.0.2 --capture s.pcap")
            records = [timed.record for timed in read_input(io.BytesIO(self.get("s.rec")))]
            self.assertEqual(records[1:], [Received(answer), Received(data)])


def sll(kind: int, frame: bytes) -> bytes:
    return struct.pack(">HHH", kind, 1, 6) + frame[6:12] + b"\0\0" + frame[12:]


def sll2(kind: int, frame: bytes) -> bytes:
    head = frame[12:14] + struct.pack(">HIHBB", 0, 2, 1, kind, 6)
    return head + frame[6:12] + b"\0\0" + frame[14:]


def pcap_file(packets: list[tuple[int, bytes]], cut: int = 0, link: int = 1) -> bytes:
    """A pcap file of packets with times in microseconds, each cut by so many bytes."""
    data = struct.pack(">IHHiIII", 0xA1B2C3D4, 2, 4, 0, 0, 65_535, link)
    for time, frame in packets:
        lengths = (len(frame), len(frame) + cut)
        data += struct.pack(">IIII", time // 10**6, time % 10**6, *lengths) + frame
    return data


if __name__ == "__main__":
    unittest.main()
