"""Captures built by hand: pcap and pcapng in both byte orders, and damage."""

from __future__ import annotations

import io
import struct
import unittest

from shared.capture import Packet, PcapWriter, read_capture
from shared.fields import Damaged

FRAME = bytes.fromhex("525400000001 525400000002 0806") + bytes(46)
SECOND = 10**9


def pcap(order: str, magic: int, fraction: int, frame: bytes = FRAME, link: int = 1) -> bytes:
    """A pcap file with one packet at 5 seconds and a fraction."""
    header = struct.pack(order + "IHHiIII", magic, 2, 4, 0, 0, 65_535, link)
    return header + struct.pack(order + "IIII", 5, fraction, len(frame), len(frame)) + frame


def block(order: str, kind: int, body: bytes) -> bytes:
    length = struct.pack(order + "I", 12 + len(body))
    return struct.pack(order + "I", kind) + length + body + length


def section(order: str) -> bytes:
    return block(order, 0x0A0D0D0A, struct.pack(order + "IHHq", 0x1A2B3C4D, 1, 0, -1))


def interface(order: str, options: bytes = b"", link: int = 1) -> bytes:
    return block(order, 1, struct.pack(order + "HHI", link, 0, 65_535) + options)


def option(order: str, code: int, value: bytes) -> bytes:
    padding = bytes(-len(value) % 4)
    return struct.pack(order + "HH", code, len(value)) + value + padding


def enhanced(order: str, ticks: int, frame: bytes = FRAME, number: int = 0) -> bytes:
    numbers = (number, ticks >> 32, ticks & 0xFFFFFFFF, len(frame), len(frame))
    padding = bytes(-len(frame) % 4)
    return block(order, 6, struct.pack(order + "IIIII", *numbers) + frame + padding)


def packets(data: bytes) -> list[Packet]:
    return list(read_capture(io.BytesIO(data)))


class Pcap(unittest.TestCase):
    def test_both_orders_and_units(self) -> None:
        for order in "<>":
            for magic, fraction in ((0xA1B2C3D4, 250_000), (0xA1B23C4D, 250_000_000)):
                with self.subTest(order=order, magic=hex(magic)):
                    [packet] = packets(pcap(order, magic, fraction))
                    self.assertEqual(packet.time, 5 * SECOND + SECOND // 4)
                    self.assertEqual((packet.frame, packet.length), (FRAME, len(FRAME)))

    def test_exact_bytes_are_written(self) -> None:
        stream = io.BytesIO()
        PcapWriter(stream).put(1_250, b"abcdefghijklmn")
        self.assertEqual(
            stream.getvalue(),
            bytes.fromhex("d4c3b2a1 0200 0400 00000000 00000000 00000400 01000000")
            + bytes.fromhex("01000000 90d00300 0e000000 0e000000")
            + b"abcdefghijklmn",
        )

    def test_what_is_written_is_read(self) -> None:
        stream = io.BytesIO()
        writer = PcapWriter(stream)
        for time in (0, 999, 60_001):
            writer.put(time, FRAME)
        found = packets(stream.getvalue())
        self.assertEqual([packet.time // 10**6 for packet in found], [0, 999, 60_001])

    def test_a_file_without_packets(self) -> None:
        self.assertEqual(packets(pcap("<", 0xA1B2C3D4, 0)[:24]), [])

    def test_damage(self) -> None:
        good = pcap("<", 0xA1B2C3D4, 0)
        other_version = good[:4] + b"\x03\0" + good[6:]
        with_check_sequence = good[:20] + struct.pack("<I", 0x44000001) + good[24:]
        huge = good[:32] + struct.pack("<I", 262_145) + good[36:]
        for data, offset, why in (
            (b"", 0, "inside its first number"),
            (b"\x01\x02\x03\x04", 0, "begins no pcap"),
            (good[:23], 4, "inside the file's header"),
            (good[:30], 24, "inside a packet's header"),
            (good[:-1], 40, "inside a packet"),
            (other_version, 4, "version 3"),
            (with_check_sequence, 20, "check sequence"),
            (pcap("<", 0xA1B2C3D4, 0, link=12), 20, "link type 12"),
            (pcap("<", 0xA1B2C3D4, 10**6), 28, "no fraction"),
            (huge, 32, "262145"),
        ):
            with self.subTest(why=why), self.assertRaises(Damaged) as caught:
                packets(data)
            self.assertEqual(caught.exception.offset, offset)
            self.assertIn(why, caught.exception.why)


class Pcapng(unittest.TestCase):
    def test_both_orders(self) -> None:
        for order in "<>":
            with self.subTest(order=order):
                data = section(order) + interface(order) + enhanced(order, 5_250_000)
                [packet] = packets(data)
                self.assertEqual((packet.time, packet.frame), (5 * SECOND + SECOND // 4, FRAME))

    def test_how_interfaces_count_time(self) -> None:
        for options, ticks in (
            (option("<", 9, b"\x09"), 5_250_000_000),
            (option("<", 9, b"\x03"), 5_250),
            (option("<", 9, b"\x82"), 21),
            (option("<", 2, b"eth0") + option("<", 14, struct.pack("<q", 3)), 2_250_000),
        ):
            with self.subTest(options=options.hex()):
                data = section("<") + interface("<", options) + enhanced("<", ticks)
                self.assertEqual(packets(data)[0].time, 5 * SECOND + SECOND // 4)

    def test_other_blocks_are_passed_and_sections_begin_anew(self) -> None:
        head = section("<") + interface("<", link=12) + interface("<")
        head += block("<", 5, bytes(12)) + enhanced("<", 1, number=1)
        data = head + section(">") + interface(">") + enhanced(">", 2, FRAME[:17])
        found = packets(data)
        self.assertEqual([packet.time for packet in found], [1_000, 2_000])
        self.assertEqual([packet.frame for packet in found], [FRAME, FRAME[:17]])

    def test_damage(self) -> None:
        head = section("<") + interface("<")
        good = head + enhanced("<", 1)
        at = len(head)
        no_order = good[:8] + bytes(4) + good[12:]
        two_lengths = good[:-4] + bytes(4)
        odd = good[:at] + struct.pack("<II", 6, 30) + good[at + 8 :]
        past_end = block("<", 6, struct.pack("<IIIII", 0, 0, 0, 61, 61) + FRAME)
        past_option = interface("<", struct.pack("<HH", 9, 5) + bytes(4))
        with_check_sequence = interface("<", option("<", 13, b"\x04"))
        for data, offset, why in (
            (good[:6], 4, "inside a block's length"),
            (good[:-1], len(good) - 4, "second length"),
            (good[:-70], at + 8, "inside a block"),
            (good[: at + 2], at, "inside a block's type"),
            (no_order, 8, "no byte order"),
            (two_lengths, len(good) - 4, "two lengths differ"),
            (odd, at + 4, "no length 30"),
            (head + past_end, at + 20, "61 bytes goes past"),
            (head + enhanced("<", 1, number=1), at + 8, "no interface 1"),
            (section("<") + interface("<", link=12) + enhanced("<", 1), 48, "link type 12"),
            (section("<") + past_option, 44, "past its block's end"),
            (section("<") + with_check_sequence, 28, "check sequence"),
            (head + block("<", 3, bytes(8)), at, "has no time"),
            (head + block("<", 2, bytes(24)), at, "obsolete"),
        ):
            with self.subTest(why=why), self.assertRaises(Damaged) as caught:
                packets(data)
            self.assertIn(why, caught.exception.why)
            self.assertEqual(caught.exception.offset, offset)


if __name__ == "__main__":
    unittest.main()
