"""Which record a bad input is refused by, over inputs by chance, longer than what is read at a time."""

from __future__ import annotations

import unittest
from random import Random
from typing import NamedTuple

from shared.records import Off, Received, Tick, spell
from tests import made
from tests.replays import can_run, replay_all

RUNS = 120
LONGEST = 220_000
START = spell(made.start(b"#!ipxe\nsleep 4000000\n"))

# records of no form, of which nothing that follows says more, and what a run may not use there
NO_RECORDS = {
    "type": bytes.fromhex("00000001 09"),
    "empty": bytes.fromhex("00000000"),
    "long": bytes.fromhex("7fffffff 02"),
    "short-frame": bytes.fromhex("0000000e 02") + bytes(13),
    "long-frame": bytes.fromhex("000005f4 02") + bytes(1_523),
    "no-time": bytes.fromhex("00000003 03 0000"),
    "long-time": bytes.fromhex("00000003 03 ea61"),
    "off-with-more": bytes.fromhex("00000002 04 00"),
    "second-start": START,
}


class Refused(NamedTuple):
    """An input, and the record that is refused: its number, from 1, and the place of its first byte, from 0."""

    input: bytes
    number: int
    place: int


def used(random: Random) -> bytes:
    """A record that a run may use while it sleeps."""
    if random.random() < 0.5:
        return spell(Tick(random.randint(1, 60_000)))
    return spell(Received(random.randbytes(random.choice((14, 60, random.randint(14, 1_522), 1_522)))))


def input_by(random: Random) -> Refused:
    """Many records, and one that is refused, or begins and doesn't end; then others."""
    length, spelled, number = random.randint(0, LONGEST), bytearray(START), 2
    while len(spelled) < length:
        spelled += used(random)
        number += 1
    place = len(spelled)
    if random.random() < 0.25:
        last = used(random)
        return Refused(bytes(spelled + last[: random.randint(1, len(last) - 1)]), number, place)
    spelled += random.choice(list(NO_RECORDS.values()))
    for _ in range(random.randint(0, 100)):
        spelled += used(random)
    return Refused(bytes(spelled), number, place)


@unittest.skipUnless(can_run(), "the program isn't built, and the toolchain's rt is missing")
class RefusedRecords(unittest.TestCase):
    def check(self, inputs: dict[str, Refused]) -> None:
        runs = replay_all({name: one.input for name, one in inputs.items()})
        for name, one in inputs.items():
            with self.subTest(name):
                ran = runs[name]
                self.assertEqual((ran.ending, ran.status), ("ended", 6))
                self.assertEqual(ran.said.splitlines()[0], "netboot: bad record")
                self.assertTrue(
                    ran.said.splitlines()[1].endswith(f": record {one.number}, at byte {one.place}"), ran.said
                )

    def test_each(self) -> None:
        """Each first behind START, behind a record that ends where a read does, and behind one that goes on over it."""
        inputs = {}
        for name, record in NO_RECORDS.items():
            for behind in (len(START), 65_536, 65_540, 131_072):
                spelled, number = bytearray(START), 2
                while len(spelled) < behind:
                    left = behind - len(spelled)
                    body = left - 5 if 19 <= left <= 1_527 else min(1_000, max(14, left - 500))
                    spelled += spell(Received(bytes(body)))
                    number += 1
                inputs[f"{name}-{behind}"] = Refused(bytes(spelled + record), number, len(spelled))
        self.check(inputs)

    def test_the_first(self) -> None:
        bad = bytearray(START)
        bad[62] = 64
        firsts = {"w": bytes(bad), "tick": spell(Tick(1)), "off": spell(Off()), "cut": START[:-1], "type": NO_RECORDS["type"]}
        self.check({name: Refused(first + bytes(70_000), 1, 0) for name, first in firsts.items() if name != "cut"})
        self.check({"cut": Refused(firsts["cut"], 1, 0)})

    def test_by_chance(self) -> None:
        self.check({str(seed): input_by(Random(seed)) for seed in range(RUNS)})


if __name__ == "__main__":
    unittest.main()
