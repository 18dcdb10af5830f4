"""Drives by iSCSI that outlive their command: the program's whole output, record by record."""

from __future__ import annotations

import random
import unittest

from shared.causes import OK
from shared.kinds import PartKind
from shared.records import Command, Open, Part, Record, Result
from tests import TOP, drive_boot_rows, drive_booted_rows, drive_life_rows, drive_name_rows, drive_read_rows, drive_rows
from tests import drive_state_rows, made
from tests.drive_chance import random_boot, random_row
from tests.drive_model import DISK, OTHER, UUID_NAME
from tests.drive_pdus import cut
from tests.drive_rows import MD5_OF_ABC
from tests.drive_session import Names, Session
from tests.drive_target import Target, block_of
from tests.ibft_reader import Table
from tests.replays import can_run, replayed
from tests.script_rows import Row, RowCase
from tests.test_replay import read_all

SEED, BY_CHANCE, LEAST_BOOTS = 17, 300, 100
ROWS: dict[str, Row] = {
    **drive_rows.ROWS, **drive_life_rows.ROWS, **drive_state_rows.ROWS, **drive_name_rows.ROWS, **drive_boot_rows.ROWS,
    **drive_read_rows.ROWS, **drive_booted_rows.ROWS,
}  # fmt: skip
# the recorded sessions, with the user, the secret, the target's user and its secret (tests/iscsi/README.md)
CHAP, BOTH = (b"u", b"b" * 12), (b"u", b"b" * 12, b"r", b"c" * 12)
RECORDED: dict[str, tuple[bytes, ...]] = {
    "plain": (), "chap": CHAP, "both": BOTH, "wrong": (b"u", b"wrong"), "istgt-plain": (), "istgt-chap": CHAP,
    "istgt-both": BOTH, "istgt-wrong": (b"u", b"wrong"), "ping": (), "write": (), "sense": (),
}  # fmt: skip
# the blocks that were read there, first and number; the last read of `sense` and those past the end were refused
READS: dict[str, tuple[tuple[int, int], ...]] = {
    "plain": ((0, 1), (5, 3), (2_047, 2)), "chap": ((0, 1), (5, 3), (2_047, 2)), "both": ((0, 1), (5, 3), (2_047, 2)),
    "ping": ((5, 3),), "write": ((0, 17),), "sense": ((0, 1), (2_000, 1)), "istgt-plain": ((0, 1), (5, 3), (0, 17)),
    "istgt-chap": ((5, 3),), "istgt-both": ((5, 3),),
}  # fmt: skip
# what capture.py logs in with
WORDS = [0, 0x00123456, 7, 0x00010203, 0x04050607, 0x08090A0B, 0x0C0D0E0F, *[0] * 9]
UNIT = bytes.fromhex("0001000000000000")


def by_chance() -> dict[str, Row]:
    """Targets that are slow, silent, broken and out of order, by a second reading of the rules."""
    chance, boots = random.Random(SEED), random.Random(SEED)
    rows = {f"chance_{number}": random_row(chance) for number in range(BY_CHANCE)}
    return {**rows, **{f"boot_by_chance_{number}": random_boot(boots) for number in range(BY_CHANCE)}}


READ_TWICE = by_chance()


def all_inputs() -> dict[str, bytes]:
    return {f"drives_{name}": made.spelled(row.inputs) for name, row in {**ROWS, **READ_TWICE}.items()}


@unittest.skipUnless(can_run(), "the program isn't built, and the toolchain's rt is missing")
class Drives(RowCase):
    def test_rows(self) -> None:
        self.same_all(ROWS)

    def test_targets_by_chance(self) -> None:
        self.same_all(READ_TWICE)

    def test_the_sector_is_that_of_the_drive_named(self) -> None:
        """Byte for byte, in what the program writes."""
        count = 0
        for name in {**ROWS, **READ_TWICE}:
            outputs = read_all(replayed()[f"drives_{name}"].output)
            opened = boots_of(outputs)
            if opened is None:
                continue
            count += 1
            with self.subTest(name):
                sectors = [one for one in outputs if isinstance(one, Part) and one.kind is PartKind.SECTOR]
                target, unit = opened.target[:-9], opened.target[-8:]
                self.assertEqual(sectors, [Part(PartKind.SECTOR, 0, 0, block_of(target, unit, 0))])
        self.assertGreater(count, LEAST_BOOTS)

    def same_all(self, rows: dict[str, Row]) -> None:
        for name, row in rows.items():
            with self.subTest(name):
                self.same(f"drives_{name}", row)


def boots_of(outputs: list[Record]) -> Open | None:
    """The open of the drive that the last command boots, by the commands' words alone, where a disk is handed off."""
    if not any(isinstance(one, Part) and one.kind is PartKind.SECTOR for one in outputs):
        return None
    drives: dict[int, Open] = {}
    words: tuple[bytes, ...] = ()
    opened, setting = None, 128
    for one in outputs:
        match one:
            case Command():
                words, opened = one.words, None
            case Open():
                opened = one
            case Result() if words[:2] == (b"set", b"san-drive"):
                setting = int(words[2], 0)
            case Result() if words[0] in (b"sanhook", b"sanboot") and opened:
                number = int(words[words.index(b"--drive") + 1], 0) if b"--drive" in words else setting
                drives[number] = opened
    number = int(words[words.index(b"--drive") + 1], 0) if b"--drive" in words else setting
    return opened or drives[number]


def hookings(row: Row) -> list[Result]:
    """The results of the two hookings, after those of the settings."""
    results = [one for one in row.outputs if isinstance(one, Result)]
    begin = sum(isinstance(one, Command) and one.words[0] == b"set" for one in row.outputs)
    return results[begin : begin + 2]


class Readings(unittest.TestCase):
    """The tests' own session, target and boot table, against what others have said and read."""

    def test_sessions_of_two_targets(self) -> None:
        """Up to its reads' ends the session says what capture.py said to tgtd and istgt, and reads what the disk has."""
        for name, secrets in RECORDED.items():
            with self.subTest(name):
                lines = (TOP / "tests" / "iscsi" / f"{name}.txt").read_text().splitlines()
                said = [bytes.fromhex(line[2:]) for line in lines if line[0] == ">"]
                come = b"".join(bytes.fromhex(line[2:]) for line in lines if line[0] == "<")
                self.assertEqual(self.spoken(secrets, READS.get(name, ()), come), said[: self.count])

    def spoken(self, secrets: tuple[bytes, ...], reads: tuple[tuple[int, int], ...], come: bytes) -> list[bytes]:
        """What is said in a session with these reads, up to the last one's end; a refusal ends it."""
        names = Names(b"iqn.2026-11.lan.boot:client", DISK, UNIT, *secrets)
        session, ended, left = Session(names, WORDS), False, list(reads)
        said = [session.first()]
        for pdu in cut(come)[0]:
            if ended or (session.stage == "idle" and not left and session.blocks):
                break
            taken = session.takes(1, pdu)
            said += [taken.text] if taken.text else []
            ended = taken.cause is not None
            if session.read is not None:
                place, count = reads[len(reads) - len(left) - 1]
                self.assertEqual(session.read, b"".join(at.to_bytes(2, "big") * 256 for at in range(place, place + count)))
                session.read = None
            if session.stage == "idle" and not ended and left:
                said.append(session.reads(*left.pop(0)))
        self.assertTrue(ended or session.blocks == 2_048)
        self.assertFalse(left)
        self.count = len(said)
        return said

    def test_a_session_with_the_tests_target(self) -> None:
        target = Target(DISK, UNIT, user=b"u", secret=b"b", own_user=b"r", own_secret=b"d", checks=2)
        session = Session(Names(UUID_NAME, DISK, UNIT, b"u", b"b", b"r", b"d"), WORDS)
        said = session.first()
        while session.blocks is None:
            answers, said = target.receives(said), b""
            for pdu in cut(answers)[0]:
                said += session.takes(1, pdu).text
        self.assertEqual((session.chap, session.blocks, target.initiator), (2, 2_048, UUID_NAME))

    def test_the_answer_to_a_challenge(self) -> None:
        """The one of RFC 1321's test suite."""
        self.assertIn(MD5_OF_ABC, made.spelled(drive_rows.ROWS["chap"].outputs))

    def test_what_an_operating_system_finds(self) -> None:
        """The boot tables of the rows, read by another reader."""
        table = self.table_of("hand_off_with_two")
        _, interfaces, targets = table.offsets()
        self.assertEqual(table.initiator(), UUID_NAME)
        self.assertEqual(table.interface(interfaces[0])["address"], "10.0.0.2")
        found = [table.target(offset) for offset in targets]
        self.assertEqual([(one["index"], one["name"], one["port"]) for one in found], [(0, DISK, 3_260), (1, OTHER, 3_260)])
        table = self.table_of("hand_off_with_all_settings")
        _, interfaces, targets = table.offsets()
        self.assertEqual(table.initiator(), b"iqn.me")
        self.assertEqual(table.interface(interfaces[0]), INTERFACE)
        self.assertEqual([table.target(offset) for offset in targets], [TARGET])

    def table_of(self, name: str) -> Table:
        (part,) = (one for one in ROWS[name].outputs if isinstance(one, Part) and one.kind is PartKind.TABLE)
        return Table(part.piece)

    def test_where_there_is_no_table(self) -> None:
        for name in ("hand_off_of_one_that_isn_t_described", "hand_off_after_its_end"):
            kinds = [one.kind for one in ROWS[name].outputs if isinstance(one, Part)]
            self.assertNotIn(PartKind.TABLE, kinds)

    def test_chance_comes_far(self) -> None:
        """Of the rows by chance many hook both drives, and others fail."""
        results = [hookings(row) for row in READ_TWICE.values()]
        self.assertGreater(sum(both == [Result(OK)] * 2 for both in results), BY_CHANCE // 8)
        self.assertGreater(sum(any(one != Result(OK) for one in both) for both in results), BY_CHANCE // 8)
        boots = [row.outputs for name, row in READ_TWICE.items() if name.startswith("boot_")]
        self.assertGreater(sum(boots_of(outputs) is not None for outputs in boots), BY_CHANCE // 8)


INTERFACE = {
    "address": "10.0.0.2",
    "gateway": "10.0.0.254",
    "first dns": "10.0.0.3",
    "second dns": None,
    "dhcp": "10.0.0.7",
    "prefix": 20,
    "mac": "52:54:00:00:00:01",
    "host": b"box",
}
TARGET = {
    "index": 0,
    "address": "10.0.0.1",
    "port": 860,
    "lun": bytes.fromhex("0002000300000000"),
    "chap": 2,
    "name": b"iqn.x:t",
    "user": b"u",
    "secret": b"b",
    "reverse user": b"r",
    "reverse secret": b"d",
}


if __name__ == "__main__":
    unittest.main()
