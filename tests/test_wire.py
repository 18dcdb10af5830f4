"""What the tests and examples send by DHCP, DNS and pings: bytes that are worked out by hand, or come from RFCs."""

from __future__ import annotations

import struct
import unittest
from ipaddress import IPv4Address

from shared import wire_dhcp, wire_dns
from shared.frames import Summaries
from shared.wire_dhcp import Asker, Tag, options_text
from tests import made
from tests.asking_records import LEASED, Lease, LookUp, Ping
from shared.random_words import query_number, words_of, xid_of

# the first words of ChaCha8, as a published vector for a key of zeros has them
FIRST_BYTES = (
    "3e00ef2f895f40d67f5bb8e81f09a5a12c840ec3ce9a7f3b181be188ef711a1e"
    "984ce172b9216f419f445367456d5619314a42a3da86b001387bfdb80e0cfe42"
)
MAC = "52 54 00 00 00 01"
FIXED = f"01 01 06 00 2f ef 00 3e 0000 8000 {'00' * 16} {MAC} {'00' * 10} {'00' * 192} 63 82 53 63"
WHO = f"50 58 45 43 6c 69 65 6e 74 3a 41 72 63 68 3a {'30' * 5} 3a 55 4e 44 49 3a 30 30 32 30 30 31"
SINCE = (
    f"39 02 05 dc 5d 02 00 00 5e 03 01 02 01 3c 20 {WHO} 4d 04 69 50 58 45 "
    f"37 0a 01 03 06 0c 0f 11 42 43 af cb 3d 07 01 {MAC} 61 11 00 {'00' * 16} ff"
)


class RandomWords(unittest.TestCase):
    def test_words(self) -> None:
        self.assertEqual(struct.pack("<16I", *words_of(bytes(32), 0)).hex(), FIRST_BYTES)
        self.assertEqual([xid_of(k) for k in range(2)], [0x2FEF003E, 0x0DFAAED2])
        self.assertEqual([query_number(k) for k in range(3)], [0x003E, 0xAED2, 0xE77F])
        self.assertNotEqual(xid_of(0, b"\1" * 32), xid_of(0))


class DhcpMessages(unittest.TestCase):
    def test_what_a_client_sends(self) -> None:
        asker = Lease().asker
        asked = bytes.fromhex(f"{FIXED} 35 01 01 {SINCE}")
        wanted = bytes.fromhex(f"{FIXED} 35 01 03 36 04 0a 00 00 01 32 04 0a 00 00 32 {SINCE}")
        self.assertEqual(wire_dhcp.discover(asker), asked)
        self.assertEqual(wire_dhcp.request(asker, made.SERVER.ip, LEASED), wanted)
        self.assertEqual((len(asked), len(wanted)), (337, 349))
        frame = wire_dhcp.to_servers(asker, asked)
        self.assertEqual((len(frame), len(wire_dhcp.to_servers(asker, wanted))), (379, 391))
        head = f"ff ff ff ff ff ff {MAC} 08 00 45 00 01 6d 00 00 40 00 40 11"
        self.assertEqual(frame[:24].hex(), bytes.fromhex(head).hex())
        self.assertEqual(frame[26:40].hex(), bytes.fromhex("00000000 ffffffff 0044 0043 0159").hex())

    def test_another_machine(self) -> None:
        asker = Asker(made.CLIENT.mac, 7, arch=65_535)
        body = wire_dhcp.discover(asker)
        self.assertIn(b"\x5d\2\xff\xff", body)
        self.assertIn(b"PXEClient:Arch:65535:UNDI:002001", body)

    def test_a_long_value(self) -> None:
        """RFC 3396, section 7: the parts of a value stand in several options, one after the other."""
        whole = options_text([(Tag.FILENAME, b"a" * 300)])
        self.assertEqual(whole, b"\x43\xff" + b"a" * 255 + b"\x43\x2d" + b"a" * 45)
        self.assertEqual(options_text([(Tag.FILENAME, b"")]), b"\x43\0")

    def test_what_a_server_sends(self) -> None:
        offer = Lease().offer()
        self.assertEqual(offer.frame[42:58].hex(), "02010600" "2fef003e" "00008000" "00000000")
        self.assertEqual(offer.frame[58:62], LEASED.packed)
        self.assertEqual(offer.frame[278:294].hex(), "63825363" "350102" "36040a000001" "0104ff")
        said = "10.0.0.1:67 > 255.255.255.255:68 DHCP OFFER, xid 0x2fef003e, gives 10.0.0.50, netmask 255.255.255.0"
        self.assertEqual(Summaries().of(offer.frame), said)


class DnsMessages(unittest.TestCase):
    def test_names(self) -> None:
        """RFC 1035, section 4.1.4: F.ISI.ARPA at place 20, and FOO.F.ISI.ARPA by a pointer to it."""
        whole = wire_dns.written(b"F.ISI.ARPA")
        self.assertEqual(whole, b"\1F\3ISI\4ARPA\0")
        self.assertEqual(wire_dns.written(b"F.ISI.ARPA."), whole)
        self.assertEqual(b"\3FOO" + wire_dns.pointer(20), bytes.fromhex("03464f4f c014"))

    def test_messages(self) -> None:
        query = "0102 0100 0001 0000 0000 0000 01 61 01 62 00 0001 0001"
        self.assertEqual(wire_dns.query(0x0102, b"a.b"), bytes.fromhex(query))
        alias = "c00c 0005 0001 00000e10 0004 0163 c00e"
        address = "c021 0001 0001 00000e10 0004 0a000009"
        answer = f"0102 8180 0001 0002 0000 0000 01 61 01 62 00 0001 0001 {alias} {address}"
        records = [
            wire_dns.alias(wire_dns.pointer(12), b"\1c" + wire_dns.pointer(14)),
            wire_dns.address(wire_dns.pointer(33), IPv4Address("10.0.0.9")),
        ]
        self.assertEqual(wire_dns.answer(0x0102, b"a.b", *records), bytes.fromhex(answer))
        self.assertEqual(wire_dns.answer(1, b"a", rcode=3)[:4].hex(), "00018183")

    def test_a_look_up(self) -> None:
        _, sent = LookUp().queries()
        self.assertEqual(len(sent.frame), 63)
        self.assertEqual(sent.frame[42:].hex(), "003e0100000100000000000001610162000001" "0001")
        said = "10.0.0.2:49152 > 10.0.0.1:53 DNS query 0x003e a.b"
        self.assertEqual(Summaries().of(sent.frame), said)
        said = "10.0.0.1:53 > 10.0.0.2:49152 DNS answer 0x003e a.b: 10.0.0.9"
        self.assertEqual(Summaries().of(LookUp().found().frame), said)


class Pings(unittest.TestCase):
    def test_a_ping(self) -> None:
        _, sent = Ping(7).pings()
        self.assertEqual(len(sent.frame), 42)
        self.assertEqual(sent.frame[34:].hex(), "0800" "f7f8" "0007" "0000")
        self.assertEqual(sent.frame[23], 1)
        self.assertEqual(Ping(7).reply().frame[34:].hex(), "0000" "fff8" "0007" "0000")
        said = "10.0.0.2 > 10.0.0.1 ICMP echo request, identifier 7, number 0"
        self.assertEqual(Summaries().of(sent.frame), said)


if __name__ == "__main__":
    unittest.main()
