"""Targets by chance: two drives whose segments come lost, doubled, cut and in another order, while a script sleeps.

The names of the login are by chance too, and may hold zero bytes; its target asks for CHAP, or doesn't.
"""

from __future__ import annotations

import random

from shared.causes import OK
from shared.records import Record, Result
from tests import made
from tests.boot_table import BootClient, BootTarget
from tests.drive_life_rows import drive, run_of
from tests.drive_model import DISK, OTHER, UUID_NAME, DriveRun, Hooked
from tests.drive_name_rows import sets
from tests.drive_pdus import BUSY, CHECK_CONDITION, GOOD, NO_TAG, word
from tests.drive_records import uri
from tests.drive_rows import NO_DRIVE
from tests.drive_session import Names, sent
from tests.drive_state_rows import described
from tests.drive_target import Target, Wrong
from tests.script_rows import Row
from tests.web_records import ACK, FIN, PSH, RST, SYN, Segment

MOST_RECORDS = 70
SIZES = (b"", bytes.fromhex("02040064"), bytes.fromhex("020405b4"))
SLEEP_SECONDS = 30
SLEEP = b"sleep %d" % SLEEP_SECONDS
SETTINGS = {"initiator": b"initiator-iqn", "user": b"username", "secret": b"password"}
BAD = (b"\x3f" + bytes(47), b"\x31" + bytes(47), bytes([0x25, 0x81, 0, 0, 1, 0, 0, 0]), bytes(48), b"\xff" * 48)


class Talker:
    """The target of one connection: all that it has said, and how far it was taken."""

    def __init__(self, chance: random.Random, hooked: Hooked) -> None:
        self.chance, self.hooked = chance, hooked
        self.stream = b""
        self.has_fin = False

    def next(self) -> Record:
        """Its next segment: from where the client is, before it or after it, with what it acknowledges."""
        chance, talk = self.chance, self.hooked.talk
        if not talk.is_open:
            return talk.wire.answers(chance.choice(SIZES))
        self.stream += self.answers()
        self.add()
        begin = min(max(0, talk.next + chance.choice((0, 0, 0, 0, 0, 0, -7, -60, 20, 100))), len(self.stream))
        end = min(len(self.stream), begin + chance.choice((1_460, 1_460, 1_460, 1_460, 1, 47, 48, 60, 200)))
        is_end = self.has_fin and end == len(self.stream)
        acknowledged = chance.choice((talk.sent, talk.sent, talk.sent, talk.sent, talk.acked, (talk.acked + talk.sent) // 2))
        flags = ACK | (FIN if is_end else 0) | chance.choice((0, PSH))
        window = chance.choice((65_535, 65_535, 65_535, 1_000, 100))
        return talk.wire.brings(begin, self.stream[begin:end], flags, acknowledged, window)

    def answers(self) -> bytes:
        """What it says to what was said; nothing where bytes that weren't its own have led the client astray."""
        try:
            return self.hooked.answers()
        except (Wrong, KeyError):
            return b""

    def add(self) -> None:
        """What a target says without being asked."""
        chance, target = self.chance, self.hooked.target
        lot = chance.random()
        if self.hooked.talk.session.is_open and lot < 0.1:
            self.stream += target.pings(chance.choice((NO_TAG, word(7))))
        elif lot < 0.104:
            self.stream += chance.choice(BAD)
        elif lot < 0.108:
            self.has_fin = True

    def odd(self) -> Record:
        """A segment that isn't in its place."""
        chance, talk = self.chance, self.hooked.talk
        place = chance.choice((-1, 0, 1, 70_000, talk.next, talk.next // 2))
        flags = chance.choice((0, PSH, SYN, SYN | ACK, ACK, FIN | PSH))
        flags |= RST if chance.random() < 0.05 else 0
        acknowledges = talk.wire.ours + 1 + chance.choice((0, talk.sent, talk.sent + 1, talk.sent + 100_000))
        number = (talk.wire.theirs + 1 + place) & 0xFFFF_FFFF
        return talk.wire.received(Segment(number, acknowledges & 0xFFFF_FFFF, flags, 65_535, chance.randbytes(chance.choice((0, 0, 0, 3)))))


def chance_names(chance: random.Random) -> dict[str, bytes]:
    """What is set of the login's names, in a quarter of the runs."""
    chosen = SETTINGS if chance.random() < 0.25 else ()
    return {name: bytes(chance.choices(b"\0=au", k=chance.randint(1, 5))) for name in chosen if chance.random() < 0.8}


class ChanceRun:
    """A script of two hookings and a sleep, over what comes by chance."""

    def __init__(self, chance: random.Random) -> None:
        self.chance = chance
        self.names = chance_names(chance)
        lines = [sets(SETTINGS[name], value) for name, value in self.names.items()]
        self.run: DriveRun = run_of(*lines, drive(200) + b" ;", b"sanhook " + uri(DISK) + b" ;", *self.boot(), SLEEP)
        for line, words in enumerate(lines, 2):
            self.run.ran(words, line=line)
        self.line = len(lines) + 2
        self.talkers: dict[int, Talker] = {}
        self.waits: Hooked | None = None
        self.ends_at: int | None = None
        self.is_done = False

    def boot(self) -> tuple[bytes, ...]:
        """The line between the hookings and the sleep."""
        return ()

    def row(self) -> Row:
        self.hook(drive(200), OTHER)
        while not self.is_done and len(self.run.inputs) < MOST_RECORDS:
            self.uses()
        if self.is_done:
            return self.run.row()
        return self.run.off() if self.chance.random() < 0.5 else self.run.stops()

    def begins(self, words: bytes) -> None:
        self.run.begins(words, self.line)
        self.line += 1

    def target(self, name: bytes) -> Target:
        """One that asks for CHAP knows the user's name as it is sent, or as it is set."""
        chance = self.chance
        made_so = Target(name, checks=chance.choice((0, 0, 0, 1, 4)), blocks=chance.choice((*[2_048] * 8, 1 << 32)))
        if "user" in self.names and chance.random() < 0.4:
            user = self.names["user"]
            made_so.user = user if chance.random() < 0.2 else sent(user)
            made_so.secret = self.names.get("secret", b"")
        return made_so

    def hook(self, words: bytes, name: bytes) -> None:
        self.begins(words)
        self.waits = self.run.asks_target(self.target(name), Names(**{"initiator": UUID_NAME, "target": name, **self.names}))
        self.talkers[self.waits.number] = Talker(self.chance, self.waits)
        if not self.run.known:
            self.run.finds(made.SERVER)

    def uses(self) -> None:
        """One record more."""
        living = [self.talkers[number] for number in self.run.living]
        lot = self.chance.random()
        if not living or lot < 0.15:
            self.run.passes(self.chance.choice((1, 250, 500, 5_000, 15_000)))
        else:
            talker = self.chance.choice(living)
            self.run.receives(talker.hooked, talker.odd() if lot < 0.2 else talker.next())
        self.goes_on()

    def goes_on(self) -> None:
        """What the script does by that."""
        if self.waits is not None:
            talk = self.waits.talk
            if talk.session.blocks is None and talk.over is None:
                return
            self.run.put(Result(OK if talk.session.blocks is not None else talk.over))
            if self.waits.number == 0:
                self.hook(b"sanhook " + uri(DISK), DISK)
                return
            self.waits = None
            self.has_hooked()
        elif self.ends_at is not None and self.run.now >= self.ends_at:
            self.run.put(Result(OK))
            self.is_done = True
            self.run.left()


    def has_hooked(self) -> None:
        """Both commands have ended."""
        self.sleeps()

    def sleeps(self) -> None:
        self.begins(SLEEP)
        self.ends_at = self.run.now + 1_000 * SLEEP_SECONDS


class ChanceBoot(ChanceRun):
    """The same, and between the hookings and the sleep one of the disks is booted, by its number or by its URI."""

    # the drive of the number 200 is the first open, that of 128 the second or what is hooked in its place
    words = b""
    boots: Hooked | None = None
    is_read = False

    def boot(self) -> tuple[bytes, ...]:
        options = self.chance.choice((b"", b"--keep ", b"--no-describe "))
        self.words = (b"sanboot " + options + self.chance.choice((b"", b"--drive 200", uri(DISK)))).strip()
        return (self.words + b" ;",)

    def target(self, name: bytes) -> Target:
        made_so, chance = super().target(name), self.chance
        made_so.cuts = chance.choice(((), (), (0,), (100, 101), (511,)))
        made_so.reads_with = chance.choice((*[GOOD] * 6, CHECK_CONDITION, BUSY))
        made_so.is_apart = chance.random() < 0.3
        return made_so

    def has_hooked(self) -> None:
        living = self.run.living
        if uri(DISK) not in self.words:
            self.boots = living.get(0 if b"200" in self.words else 1)
            self.begins(self.words)
            if self.boots is None:
                self.run.put(Result(NO_DRIVE))
                self.sleeps()
            else:
                self.reads()
            return
        self.begins(self.words)
        if 1 in living:
            self.run.let_go(living[1])
        names = Names(**{"initiator": UUID_NAME, "target": DISK, **self.names})
        self.boots = self.run.asks_target(self.target(DISK), names)
        self.talkers[self.boots.number] = Talker(self.chance, self.boots)

    def reads(self) -> None:
        assert self.boots is not None
        self.is_read = True
        self.run.reads(self.boots)

    def goes_on(self) -> None:
        if self.boots is None:
            super().goes_on()
            return
        session, over = self.boots.talk.session, self.boots.talk.over
        if session.read is not None:
            self.is_done = True
            self.run.hands_off(session.read, *self.table())
        elif over is not None:
            self.run.put(Result(over))
            self.boots = None
            self.sleeps()
        elif session.blocks is not None and not self.is_read:
            self.reads()

    def table(self) -> list[Record]:
        """Of the drives that live those that are described, by rising number; the last hooked one is that of 128."""
        living = list(self.run.living.values())
        is_hidden = b"--no-describe" in self.words and self.boots and self.boots.number == 2
        high = [one for one in living if one.number == 0]
        low = [one for one in living if one.number > 0 and not (is_hidden and one is self.boots)]
        drives = [one.talk.session for one in (*low, *high)]
        if not drives:
            return []
        client = BootClient(drives[0].names.initiator, made.CLIENT.mac, made.CLIENT.ip)
        return [described(*(self.of_table(one.names, one.chap) for one in drives), client=client)]

    def of_table(self, names: Names, chap: int) -> BootTarget:
        texts = {"user": names.user, "secret": names.secret} if chap else {}
        return BootTarget(made.SERVER.ip, names.target, chap=chap, **texts)


def random_row(chance: random.Random) -> Row:
    """A run, up to its end or to the input's."""
    return ChanceRun(chance).row()


def random_boot(chance: random.Random) -> Row:
    return ChanceBoot(chance).row()
