"""Joined frames: what a card has joined is cut into the segments that it was made of."""

from __future__ import annotations

import unittest

from shared.checksums import Sums, sums_of
from shared.joined import CWR, FIN, PSH, RST, SYN, cut
from shared.records import MAX_FRAME
from shared.wire import PROTOCOL_TCP, ethernet, ipv4, packet_frame, segment, udp_frame
from tests import made

ACK = 16
PORTS = (80, 49_152)
# a timestamp (RFC 7323), which stands in each piece
OPTIONS = bytes.fromhex("0101080a0000000100000002")
WHOLE = bytes(place % 251 for place in range(5_000))


def frame_of(number: int, flags: int, body: bytes, identification: int = 0, options: bytes = OPTIONS) -> bytes:
    text = segment(made.SERVER.ip, made.CLIENT.ip, PORTS, (number, 77), flags, 1_000, body, options)
    packet = ipv4(made.SERVER.ip, made.CLIENT.ip, PROTOCOL_TCP, text, identification)
    return ethernet(made.CLIENT.mac, made.SERVER.mac, 0x0800, packet)


class Joined(unittest.TestCase):
    def test_the_segments_that_it_stands_for(self) -> None:
        """Numbers count on, over their end too; the first alone says CWR, and the last PSH and FIN."""
        first = 2**32 - 2_000
        size = 1_500 - 20 - 20 - len(OPTIONS)
        places = range(0, len(WHOLE), size)
        flags = [ACK | CWR, ACK, ACK, ACK | PSH | FIN]
        wanted = [
            frame_of(first + at, flag, WHOLE[at : at + size], (0xFFFF + count) % 65_536)
            for count, (at, flag) in enumerate(zip(places, flags, strict=True))
        ]
        joined = frame_of(first, ACK | CWR | PSH | FIN, WHOLE, 0xFFFF)
        self.assertEqual(cut(joined), wanted)
        for piece in wanted:
            self.assertLessEqual(len(piece), MAX_FRAME)
            self.assertEqual(sums_of(piece), Sums.RIGHT)

    def test_a_sum_that_was_left_to_the_card(self) -> None:
        joined = bytearray(frame_of(1, ACK, WHOLE))
        unfilled = frame_of(1, ACK, WHOLE)
        pseudo = made.SERVER.ip.packed + made.CLIENT.ip.packed + b"\0\x06" + (20 + len(OPTIONS) + len(WHOLE)).to_bytes(2, "big")
        total = sum(int.from_bytes(pseudo[at : at + 2], "big") for at in range(0, len(pseudo), 2))
        joined[50:52] = ((total & 0xFFFF) + (total >> 16)).to_bytes(2, "big")
        self.assertEqual(sums_of(bytes(joined)), Sums.UNFILLED)
        self.assertEqual(cut(bytes(joined)), cut(unfilled))

    def test_what_is_not_cut(self) -> None:
        """A wrong sum, a connection's beginning or reset, another protocol, and what is cut off."""
        wrong = bytearray(frame_of(1, ACK, WHOLE))
        wrong[-1] ^= 1
        datagram = udp_frame(made.SERVER, made.CLIENT, PORTS, WHOLE)
        short = packet_frame(made.SERVER, made.CLIENT, PROTOCOL_TCP, b"\0" * 10)
        for frame in (
            bytes(wrong), frame_of(1, SYN | ACK, WHOLE), frame_of(1, RST | ACK, WHOLE), datagram, short,
            frame_of(1, ACK, b""), frame_of(1, ACK, WHOLE)[:2_048],
        ):  # fmt: skip
            self.assertEqual(cut(frame), [])


if __name__ == "__main__":
    unittest.main()
