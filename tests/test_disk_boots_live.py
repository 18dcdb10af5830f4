"""Disks of real targets, tgtd and istgt, booted over a wire: the sector is the image's, byte for byte, and each run replays."""

from __future__ import annotations

import io
import unittest
from ipaddress import IPv4Address

from shared.causes import OK, Cause, Code
from shared.frames import packet_of, segment_data
from shared.iscsi import opcode_of, pdus_in
from shared.kinds import PartKind, Status
from shared.namespaces import CLIENT_ADDRESS, PREFIX, SERVER_ADDRESS, missing
from shared.recordings import read_input
from shared.records import Done, Part, Received, Record, Sent
from shared.servers import Leases
from tests import istgt_target
from tests.disk_target import IMAGE, NAME, UNIT, Secrets
from tests.ibft_reader import Table
from tests.test_drives_live import BOTH, BOTH_WAYS, MAC, ONE_WAY, STOPPED, URI, USER, WHY, WHY_NO_ISTGT, OverWire
from tests.test_replay import read_all

BOOT = f"sanboot {URI}"
LUN = UNIT.to_bytes(2, "big") + bytes(6)
BIG = 60_000_000
PING_IN, PING_OUT, TARGET_PORT = 0x20, 0x00, (3_260).to_bytes(2, "big")
LEASES = Leases(IPv4Address("10.77.0.50"), IPv4Address("10.77.0.60"), IPv4Address("255.255.255.0"), "")


def booted(outputs: list[Record]) -> tuple[bytes, Table | None]:
    """What a run hands off: the sector, and the boot table where there is one."""
    parts = {kind: b"".join(one.piece for one in outputs if isinstance(one, Part) and one.kind is kind) for kind in PartKind}
    assert {kind for kind, piece in parts.items() if piece} <= {PartKind.SECTOR, PartKind.TABLE}
    return parts[PartKind.SECTOR], Table(parts[PartKind.TABLE]) if parts[PartKind.TABLE] else None


def pings_in(recording: list[Record], opcode: int) -> int:
    """How many messages of this kind to or from a target the frames of a recording begin."""
    frames = [one.frame for one in recording if isinstance(one, (Received, Sent))]
    packets = [packet for packet in map(packet_of, frames) if packet is not None]
    pdus = [pdu for packet in packets if TARGET_PORT in (packet.body[:2], packet.body[2:4]) for pdu in pdus_in(segment_data(packet))]
    return sum(opcode_of(pdu) == opcode for pdu in pdus)


class Boots(OverWire):
    """What is asked of each target."""

    def boots(self, secrets: Secrets, *lines: str, **given: object) -> Table:
        """The disk is booted by these lines; its boot table."""
        outputs = self.run_of(secrets, *lines, **given)
        self.assertEqual(outputs[-1], Done(Status.HANDED_OFF))
        self.assertEqual(set(self.results(outputs)), {OK})
        self.assertEqual(set(self.ends(outputs)), {STOPPED})
        sector, table = booted(outputs)
        self.assertEqual(sector, IMAGE[:512])
        assert table is not None
        return table

    def check(self, table: Table, targets: int = 1, client: str = CLIENT_ADDRESS, **wanted: object) -> None:
        """What an operating system reads in the table."""
        _, interfaces, offsets = table.offsets()
        self.assertEqual(len(offsets), targets)
        interface = table.interface(interfaces[0])
        self.assertEqual((interface["address"], interface["prefix"]), (client, PREFIX))
        for index, offset in enumerate(offsets):
            plain = {"index": index, "address": SERVER_ADDRESS, "port": 3_260, "lun": LUN, "chap": 0, "name": NAME.encode()}
            plain |= dict.fromkeys(("user", "secret", "reverse user", "reverse secret"), b"")
            self.assertEqual(table.target(offset), {**plain, **{name.replace("_", " "): value for name, value in wanted.items()}})

    def by_uri(self) -> None:
        self.check(self.boots(Secrets(), BOOT))
        self.check(self.boots(Secrets(), *USER, BOOT))
        one_way = {"chap": 1, "user": b"u", "secret": b"b" * 12}
        self.check(self.boots(ONE_WAY, *USER, BOOT), **one_way)
        self.check(self.boots(BOTH_WAYS, *BOTH, BOOT), **{**one_way, "chap": 2}, reverse_user=b"r", reverse_secret=b"c" * 12)

    def hooked(self) -> None:
        """As a drive that is hooked, and as the second of two."""
        self.check(self.boots(BOTH_WAYS, *BOTH, f"sanhook {URI}", "sleep 1", "sanboot"), chap=2, user=b"u", secret=b"b" * 12,
                   reverse_user=b"r", reverse_secret=b"c" * 12)  # fmt: skip
        other = f"sanhook --drive 200 {URI}"
        self.check(self.boots(Secrets(), f"sanhook {URI}", other, "sanboot --drive 200"), 2)
        outputs = self.run_of(Secrets(), f"sanboot --no-describe {URI}")
        self.assertEqual(booted(outputs), (IMAGE[:512], None))

    def fails_by(self, secrets: Secrets, lines: tuple[str, ...], code: Code, b: int) -> None:
        """It fails so, and no drive is left."""
        outputs = self.run_of(secrets, *lines[:-1], f"{lines[-1]} ;", "sanunhook")
        failed, last = self.results(outputs)[-2:]
        self.assertEqual(((failed.code, failed.b), last), ((code, b), Cause(Code.NO_DRIVE)))
        self.assertEqual(booted(outputs), (b"", None))

    def wrong(self) -> None:
        self.fails_by(ONE_WAY, ("set username u", "set password wrongwrongwrong", BOOT), Code.REFUSED, 513)
        self.fails_by(BOTH_WAYS, (*BOTH[:3], "set reverse-password wrongwrongwrong", BOOT), Code.BROKEN, 0)

    def beside_a_file(self, is_answered: bool) -> None:
        """A large file comes by HTTP while the target, which nobody asks for anything, pings, with a tag or without."""
        lines = (f"sanhook {URI}", f"imgfetch http://{SERVER_ADDRESS}/big", "sleep 3", "sanboot")
        self.check(self.boots(Secrets(pings=1), *lines, files={"big": IMAGE * (BIG // len(IMAGE) + 1)}))
        received = [timed.record for timed in read_input(io.BytesIO(self.inputs))]
        self.assertGreater(pings_in(received, PING_IN), 0)
        self.assertEqual(pings_in(read_all(self.outputs), PING_OUT) > 0, is_answered)


@unittest.skipUnless(WHY is None, f"live boots of disks: {WHY}")
class OfTgtd(Boots):
    def test_by_its_uri(self) -> None:
        self.by_uri()

    def test_a_hooked_one(self) -> None:
        self.hooked()

    def test_what_fails(self) -> None:
        self.wrong()
        self.fails_by(Secrets(), (f"sanboot iscsi:{SERVER_ADDRESS}:::9:{NAME}",), Code.REFUSED, 2)

    def test_beside_a_large_file(self) -> None:
        self.beside_a_file(True)


@unittest.skipUnless(WHY_NO_ISTGT is None, f"live boots of istgt's disks: {WHY_NO_ISTGT}")
class OfIstgt(Boots):
    target = staticmethod(istgt_target.istgt_target)

    def test_by_its_uri(self) -> None:
        self.by_uri()

    def test_a_hooked_one(self) -> None:
        self.hooked()

    def test_what_fails(self) -> None:
        self.wrong()

    def test_beside_a_large_file(self) -> None:
        self.beside_a_file(False)


class RootPath(Leases):
    """Leases that name the disk, and no file."""

    def options(self) -> tuple[str, ...]:
        kept = tuple(option for option in super().options() if not option.startswith("--dhcp-boot"))
        return (*kept, f"--dhcp-option=17,{URI}", "--dhcp-option=encap:175,190,u", f"--dhcp-option=encap:175,191,{'b' * 12}")


@unittest.skipUnless((WHY or missing("dnsmasq")) is None, f"live boots by a lease: {WHY or missing('dnsmasq')}")
class ByLease(Boots):
    def test_the_built_in_script(self) -> None:
        """The disk and its secrets come by the lease, and nobody has written a script."""
        leases = RootPath(LEASES.first, LEASES.last, LEASES.mask, "")
        outputs = self.run_of(ONE_WAY, leases=(leases,))
        self.assertEqual(outputs[-1], Done(Status.HANDED_OFF))
        self.assertEqual(self.results(outputs), [OK, Cause(Code.FALSE), OK, OK, OK])
        sector, table = booted(outputs)
        self.assertEqual(sector, IMAGE[:512])
        assert table is not None
        _, interfaces, targets = table.offsets()
        found = IPv4Address(str(table.interface(interfaces[0])["address"]))
        self.assertTrue(LEASES.first <= found <= LEASES.last)
        self.assertEqual(table.interface(interfaces[0])["mac"], MAC)
        target = table.target(targets[0])
        self.assertEqual((target["name"], target["chap"], target["user"]), (NAME.encode(), 1, b"u"))


if __name__ == "__main__":
    unittest.main()
