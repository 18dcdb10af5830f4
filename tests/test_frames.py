"""Frames and their summaries; bytes and sums are worked out by hand or come from RFCs."""

from __future__ import annotations

import struct
import unittest
from ipaddress import IPv4Address

from shared.frames import Summaries
from tests.made import CLIENT, SERVER
from shared.wire import (
    IPV4,
    PROTOCOL_ICMP,
    PROTOCOL_TCP,
    Station,
    arp_reply,
    arp_request,
    checksum,
    ethernet,
    ipv4,
    padded,
    pseudo_header,
    sum16,
    tftp_ack,
    tftp_data,
    tftp_error,
    tftp_oack,
    tftp_request,
    udp_frame,
)

ARP_REQUEST = bytes.fromhex(
    "ffffffffffff 525400000001 0806 0001 0800 06 04 0001"
    "525400000001 0a000002 000000000000 0a000001"
)
ARP_REPLY = bytes.fromhex(
    "525400000001 525400000002 0806 0001 0800 06 04 0002"
    "525400000002 0a000001 525400000001 0a000002"
)
READ_REQUEST = bytes.fromhex(
    "525400000002 525400000001 0800"
    "4500 003b 0000 4000 4011 26b0 0a000002 0a000001"
    "c000 0045 0027 7959 0001 6b00 6f6374657400"
    "626c6b73697a6500 3134333200 7473697a6500 3000"
)
# the options of a domain, two name servers, a gateway and a mask
WAYS = "0f 03 6c616e 06 08 0a000001 0a000003 03 04 0a0000fe 01 04 ff000000"
ANY = Station(bytes([0xFF] * 6), IPv4Address("255.255.255.255"))
UNSET = Station(CLIENT.mac, IPv4Address(0))


def tcp_frame(sender: Station, to: Station, ports: tuple[int, int], rest: tuple[int, ...]) -> bytes:
    """A TCP frame; `rest` are number, acknowledgement, flags, window and the number of data."""
    number, acknowledgement, flags, window, data = rest
    head = struct.pack(">HHIIBBH", *ports, number, acknowledgement, 0x50, flags, window)
    body = b"x" * data
    pseudo = pseudo_header(sender.ip, to.ip, PROTOCOL_TCP, 20 + data)
    total = checksum(pseudo + head + bytes(4) + body)
    segment = head + struct.pack(">HH", total, 0) + body
    return ethernet(to.mac, sender.mac, IPV4, ipv4(sender.ip, to.ip, PROTOCOL_TCP, segment))


def dhcp(operation: int, kind: int, given: str = "0.0.0.0", options: str = "") -> bytes:
    """A DHCP message with its kind after a padding byte and a client identifier, and with these options after it."""
    head = bytes([operation, 1, 6, 0]) + bytes.fromhex("12345678") + bytes(8)
    fixed = (head + IPv4Address(given).packed).ljust(236, b"\0")
    return fixed + bytes.fromhex(f"63825363 00 3d 02 0105 35 01 {kind:02x} {options} ff")


class Sums(unittest.TestCase):
    def test_example_of_rfc_1071(self) -> None:
        self.assertEqual(sum16(bytes.fromhex("0001 f203 f4f5 f6f7")), 0xDDF2)

    def test_header_checksum(self) -> None:
        header = "4500 0073 0000 4000 4011 0000 c0a8 0001 c0a8 00c7"
        self.assertEqual(checksum(bytes.fromhex(header)), 0xB861)

    def test_ends(self) -> None:
        for data, total in ((b"", 0), (b"\0\0", 0), (b"\xff\xff", 0xFFFF), (b"\x12", 0x1200)):
            self.assertEqual(sum16(data), total)


class Written(unittest.TestCase):
    def test_frames_are_these_bytes(self) -> None:
        self.assertEqual(arp_request(CLIENT, SERVER.ip), ARP_REQUEST)
        self.assertEqual(arp_reply(SERVER, CLIENT), ARP_REPLY)
        frame = udp_frame(CLIENT, SERVER, (49_152, 69), tftp_request(b"k"))
        self.assertEqual(frame, READ_REQUEST)
        self.assertEqual(len(frame), 73)

    def test_padding(self) -> None:
        self.assertEqual(len(padded(ARP_REPLY)), 60)
        self.assertEqual(padded(bytes(61)), bytes(61))


class Summary(unittest.TestCase):
    def check(self, rows: list[tuple[bytes, str]]) -> None:
        summaries = Summaries()
        for frame, said in rows:
            self.assertEqual(summaries.of(frame), said)

    def test_arp_and_others(self) -> None:
        self.check(
            [
                (ARP_REQUEST, "ARP who has 10.0.0.1, asks 10.0.0.2 at 52:54:00:00:00:01"),
                (padded(ARP_REPLY), "ARP 10.0.0.1 is at 52:54:00:00:00:02, sent to 10.0.0.2"),
                (ARP_REPLY[:40], "ARP, not well-formed"),
                (
                    ARP_REQUEST[:12] + b"\x86\xdd",
                    "Ethernet type 0x86dd 52:54:00:00:00:01 > ff:ff:ff:ff:ff:ff",
                ),
                (READ_REQUEST[:12] + b"\x08\0", "IPv4, not well-formed"),
            ]
        )

    def test_tftp(self) -> None:
        ends = "10.0.0.1:40000 > 10.0.0.2:49152"
        options = tftp_oack(blksize=1432, tsize=2248)
        self.assertEqual(options, b"\0\x06blksize\x001432\0tsize\x002248\0")
        plain = b"\0\x01a b\0octet\0"
        asks = "10.0.0.2:49152 > 10.0.0.1:69 TFTP RRQ k octet blksize=1432 tsize=0"
        rows = [(READ_REQUEST, asks)]
        for body, said in (
            (tftp_data(7, bytes(512)), "TFTP DATA 7 of 512 bytes"),
            (tftp_data(8, b"a"), "TFTP DATA 8 of 1 byte"),
            (tftp_ack(65_535), "TFTP ACK 65535"),
            (tftp_error(1, b"File not found"), 'TFTP ERROR 1 "File not found"'),
            (b"\0\5\0\1gone", "TFTP ERROR 1 gone"),
            (b"\0\5\0\2gone\0\0x", "TFTP ERROR 2 gone"),
            (b"\0\5\0\0", 'TFTP ERROR 0 ""'),
            (b"\0\5\0", "UDP, 3 bytes"),
            (options, "TFTP OACK blksize=1432 tsize=2248"),
            (tftp_oack(), "TFTP OACK"),
            (b"\0\6tsize", "UDP, 7 bytes"),
            (plain, 'TFTP RRQ "a b" octet'),
            (tftp_request(b"a b"), 'TFTP RRQ "a b" octet blksize=1432 tsize=0'),
            (b"\0\x07ab", "UDP, 4 bytes"),
        ):
            rows.append((udp_frame(SERVER, CLIENT, (40_000, 49_152), body), f"{ends} {said}"))
        self.check(rows)

    def test_wrong_sums_are_named(self) -> None:
        head = "10.0.0.2:49152 > 10.0.0.1:69 TFTP RRQ"
        asked = "octet blksize=1432 tsize=0"
        turned = READ_REQUEST.replace(b"k\0", b"l\0")
        other_life = READ_REQUEST.replace(b"\x40\x11", b"\x3f\x11")
        without = READ_REQUEST.replace(b"\x79\x59", b"\0\0")
        self.check(
            [
                (turned, f"{head} l {asked}, wrong checksum"),
                (other_life, f"{head} k {asked}, wrong header checksum"),
                (without, f"{head} k {asked}"),
            ]
        )

    def test_dhcp(self) -> None:
        to_server = "0.0.0.0:68 > 255.255.255.255:67"
        to_client = "10.0.0.1:67 > 255.255.255.255:68"
        self.check(
            [
                (
                    udp_frame(UNSET, ANY, (68, 67), dhcp(1, 1)),
                    f"{to_server} DHCP DISCOVER, xid 0x12345678",
                ),
                (
                    udp_frame(SERVER, ANY, (67, 68), dhcp(2, 2, "10.0.0.2")),
                    f"{to_client} DHCP OFFER, xid 0x12345678, gives 10.0.0.2",
                ),
                (
                    udp_frame(SERVER, ANY, (67, 68), dhcp(2, 5, "10.0.0.2", WAYS)),
                    f"{to_client} DHCP ACK, xid 0x12345678, gives 10.0.0.2, netmask 255.0.0.0, gateway 10.0.0.254, "
                    "dns 10.0.0.1, domain lan",
                ),
                (
                    udp_frame(SERVER, ANY, (67, 68), dhcp(2, 6)),
                    f"{to_client} DHCP NAK, xid 0x12345678",
                ),
                (udp_frame(SERVER, ANY, (67, 68), bytes(240)), f"{to_client} UDP, 240 bytes"),
            ]
        )

    def test_dns(self) -> None:
        query = "0102 0100 0001 0000 0000 0000 01 61 01 62 00 0001 0001"
        answers = "0102 8180 0001 0002 0000 0000 01 61 01 62 00 0001 0001"
        alias = "c00c 0005 0001 00000e10 0004 0163 c00e"
        address = "c021 0001 0001 00000e10 0004 0a000009"
        refused = "0102 8183 0001 0000 0000 0000 01 61 01 62 00 0001 0001"
        loop = "0102 8180 0001 0000 0000 0000 c00c 0001 0001"
        for digits, said in (
            (query, "DNS query 0x0102 a.b"),
            (answers + alias + address, "DNS answer 0x0102 a.b: is c.b, 10.0.0.9"),
            (refused, "DNS answer 0x0102 a.b: rcode 3 (NXDOMAIN)"),
            (loop, "UDP, 18 bytes"),
        ):
            frame = udp_frame(SERVER, CLIENT, (53, 49_152), bytes.fromhex(digits))
            self.check([(frame, f"10.0.0.1:53 > 10.0.0.2:49152 {said}")])

    def test_echo(self) -> None:
        for digits, said in (
            ("08 00 f7f8 0007 0000", "echo request, identifier 7, number 0"),
            ("00 00 fff8 0007 0000", "echo reply, identifier 7, number 0"),
            ("00 00 fff9 0007 0000", "echo reply, identifier 7, number 0, wrong checksum"),
            ("00 00 0000 0000 0000 00", "echo reply, identifier 0, number 0"),
            ("00 00 0000 0000 0000 01", "echo reply, identifier 0, number 0, wrong checksum"),
            ("03 01 fcfe 0000 0000", "host unreachable"),
            ("05 01 fafe 0000 0000", "type 5, code 1"),
        ):
            packet = ipv4(SERVER.ip, CLIENT.ip, PROTOCOL_ICMP, bytes.fromhex(digits))
            frame = ethernet(CLIENT.mac, SERVER.mac, IPV4, packet)
            self.check([(frame, f"10.0.0.1 > 10.0.0.2 ICMP {said}")])

    def test_tcp_places(self) -> None:
        up, down = (49_152, 80), (80, 49_152)
        to_server = "10.0.0.2:49152 > 10.0.0.1:80 TCP"
        to_client = "10.0.0.1:80 > 10.0.0.2:49152 TCP"
        self.check(
            [
                (
                    tcp_frame(SERVER, CLIENT, down, (7, 8, 16, 9, 1)),
                    f"{to_client} [ACK] number 7, 1 bytes, acknowledges number 8, window 9",
                ),
                (
                    tcp_frame(CLIENT, SERVER, up, (2**32 - 1, 0, 2, 65_535, 0)),
                    f"{to_server} [SYN] number 4294967295, window 65535",
                ),
                (
                    tcp_frame(SERVER, CLIENT, down, (1000, 0, 18, 500, 0)),
                    f"{to_client} [SYN ACK] number 1000, acknowledges place 0, window 500",
                ),
                (
                    tcp_frame(CLIENT, SERVER, up, (0, 1001, 24, 65_535, 75)),
                    f"{to_server} [PSH ACK] place 0, 75 bytes, acknowledges place 0, window 65535",
                ),
                (
                    tcp_frame(SERVER, CLIENT, down, (1601, 75, 17, 5, 400)),
                    f"{to_client} [FIN ACK] place 600, 400 bytes, acknowledges place 75, window 5",
                ),
            ]
        )


if __name__ == "__main__":
    unittest.main()
