"""A second reading of drives: scripts that hook disks and let them go, over connections that live beside one another.

The connection is that of web_model.py, the session that of drive_session.py. A run is put together record by record; what
the target sends is what drive_target.py answers.
"""

from __future__ import annotations

from dataclasses import dataclass, field, replace
from ipaddress import IPv4Address

from shared.causes import OK, Cause, Code
from shared.kinds import PartKind, Status, Way
from shared.random_words import words_of
from shared.records import Done, Off, Part, Received, Record, Result, Tick
from shared.wire import Station, arp_reply
from tests import made
from tests.drive_pdus import HEAD, Pdu, length_at
from tests.drive_records import Drive
from tests.drive_session import MOST_DATA, Names, Said, Session
from tests.drive_target import Target
from tests.graph_records import STOPPED, TIMER, entered, left
from tests.nested_rows import Run
from tests.script_rows import UNFINISHED, Row
from tests.web_model import Talk, segment_for
from tests.web_records import ACK, Segment

UUID_NAME = b"iqn.2010-04.org.ipxe:00000000-0000-0000-0000-000000000000"
DISK = b"iqn.2026-11.lan.boot:disk"
OTHER = b"iqn.2026-11.lan.boot:other"


@dataclass
class DriveTalk(Talk):
    """A drive's open, from its OPEN on."""

    wire: Drive
    text: bytes = b""
    now: int = 0
    session: Session = field(kw_only=True)
    # the beginning of a PDU that isn't whole
    part: bytes = b""
    time: int = 0

    def reads(self, now: int) -> list[Record]:
        """The user asks for the first block."""
        self.time = now
        return self.wire.reads(*self._says(self.session.reads(0, 1)))

    def _delivers(self, rec: int, piece: bytes) -> list[list[Record]]:
        """In one entry the iSCSI takes PDU after PDU, until all is taken or it has ended."""
        within: list[Record] = []
        while piece and self.over is None:
            pdu, count = self._next(piece)
            piece = piece[count:]
            within += self._does(rec, pdu)
        return [self.wire.read(*within, rest=piece != b"")]

    def _next(self, piece: bytes) -> tuple[Pdu | bool, int]:
        """The PDU that is whole by this piece, whether none can be cut any more, and how much of it was taken."""
        whole = self.part + piece
        if len(whole) >= 8 and (whole[4] or int.from_bytes(whole[5:8], "big") > MOST_DATA):
            return True, max(8 - len(self.part), 0)
        size = length_at(whole)
        if size is None or len(whole) < size:
            self.part = whole
            return False, len(piece)
        count = size - len(self.part)
        self.part = b""
        length = int.from_bytes(whole[5:8], "big")
        return Pdu(whole[:HEAD], whole[HEAD : HEAD + length]), count

    def _does(self, rec: int, pdu: Pdu | bool) -> list[Record]:
        if pdu is False:
            return []
        if pdu is True:
            return self._breaks(rec)
        was_open = self.session.is_open
        said = self.session.takes(rec, pdu)
        self.over = said.cause
        if was_open:
            return self.wire.rises(*self._unit(said))
        if said.cause is not None:
            return self.wire.deciding(said.cause, self.closing())
        return self.wire.rises(*self._unit(said)) if said.opens else self.wire.sends(*self._says(said.text))

    def _unit(self, said: Said) -> list[Record]:
        """What the disk does with a PDU, or with the open session."""
        if said.cause is not None:
            return self.wire.unit_ends(said.cause, self.closing())
        return self.wire.asks(*self._says(said.text)) if said.text else []

    def _says(self, text: bytes) -> list[Record]:
        self.text += text
        # what was sent and isn't acknowledged goes first; a connection that has broken sends no more
        return self.goes_on(False, self.time) if self.acked == self.sent and not self.is_broken else []

    def _breaks(self, rec: int) -> list[Record]:
        """No further PDU comes."""
        self.over = Cause(Code.BROKEN, rec)
        if self.session.is_open:
            return self.wire.rises(*self.wire.unit_ends(self.over, self.closing()))
        return self.wire.deciding(self.over, self.closing())

    def _finishes(self, rec: int) -> list[list[Record]]:
        if self.over is not None:
            return [self.wire.end_dropped()]
        return [self.wire.read(*self._breaks(rec))]

    def comes(self, rec: int, come: Segment, now: int) -> list[Record]:
        self.time = now
        return super().comes(rec, come, now)


@dataclass
class Hooked:
    """A drive's open that lives, and the target that it talks to."""

    talk: DriveTalk
    target: Target
    # how much of what was said the target has read, and how much it has sent
    received: int = 0
    given: int = 0

    @property
    def number(self) -> int:
        return self.talk.wire.number

    def answers(self) -> bytes:
        """What the target has to say to all that was sent."""
        said = self.talk.text[self.received : self.talk.sent]
        self.received = self.talk.sent
        return self.target.receives(said)

    def brings(self, stream: bytes, flags: int = ACK) -> Record:
        """A segment of the target's, which acknowledges all that was sent."""
        come = self.talk.wire.brings(self.given, stream, flags, self.talk.sent)
        self.given += len(stream)
        return come


class DriveRun(Run):
    """A run of a script with drives; the opens that live are kept by their numbers."""

    def __init__(self, script: bytes, **starts: object) -> None:
        super().__init__(script)
        self.inputs[0] = self.start = replace(self.inputs[0], **starts)
        self.now = 0
        self.known: set[IPv4Address] = set()
        self.living: dict[int, Hooked] = {}

    # what records bring

    def passes(self, milliseconds: int, *more: Record) -> DriveRun:
        """Time passes, for each open that lives."""
        self.now += milliseconds
        self.uses(Tick(milliseconds))
        for hooked in list(self.living.values()):
            hooked.talk.time = self.now
            self.put(*hooked.talk.passes(self.now))
            self._forget(hooked)
        self.put(*more)
        return self

    def receives(self, hooked: Hooked, record: Record) -> DriveRun:
        """A segment for one of them."""
        assert isinstance(record, Received)
        come = segment_for(hooked.talk.wire, record.frame)
        assert come is not None
        self.uses(record)
        self.put(*hooked.talk.comes(len(self.inputs), come, self.now))
        self._forget(hooked)
        return self

    def _forget(self, hooked: Hooked) -> None:
        if hooked.talk.over is not None:
            del self.living[hooked.number]

    def finds(self, server: Station) -> None:
        """The server's hardware address comes, and a quarter of a second."""
        self.uses(Received(arp_reply(server, self.client)))
        self.known.add(server.ip)
        self.is_known = made.SERVER.ip in self.known
        self.passes(250)

    # opens

    def asks_target(self, target: Target, names: Names | None = None, server: Station = made.SERVER, port: int = 3_260,
                    waited: int | None = None) -> Hooked:
        """The open of a drive begins with these settings; `waited` is the disk that has waited for its server's address."""
        names = names or Names(UUID_NAME, target.name, target.lun)
        first, lower = (self.objects + 1, None) if waited is None else (waited, self.objects + 1)
        url = target.name + b"\0" + target.lun
        wire = Drive(url, self.opens, first, lower, server, port, self.client, key=self.start.key)
        session = Session(names.sent(), words_of(self.start.key, self.opens))
        talk = DriveTalk(wire, session.first(), self.now, session=session)
        begins = wire.asked if waited is None else wire.asked_next
        self.put(*begins(*(wire.syn(1) if server.ip in self.known else wire.looks())))
        hooked = self.living[self.opens] = Hooked(talk, target)
        self.opens, self.objects = self.opens + 1, self.objects + (3 if waited is None else 2)
        return hooked

    def connects(self, hooked: Hooked) -> DriveRun:
        """The target's SYN comes, once its hardware address is known."""
        if hooked.talk.wire.server.ip not in self.known:
            self.finds(hooked.talk.wire.server)
        return self.receives(hooked, hooked.talk.wire.answers())

    def serves(self, hooked: Hooked, more: bytes = b"", flags: int = ACK) -> DriveRun:
        """The target answers all that was said, in one segment."""
        return self.receives(hooked, hooked.brings(hooked.answers() + more, flags))

    def logs_in(self, hooked: Hooked) -> DriveRun:
        """Up to the answer to READ CAPACITY, which the target is still to give."""
        self.connects(hooked)
        while hooked.talk.session.stage != "size":
            self.serves(hooked)
        return self

    def hooks(self, words: bytes, target: Target, names: Names | None = None, line: int = 2, place: int = 0) -> Hooked:
        """`sanhook` is Ok."""
        self.begins(words, line, place)
        hooked = self.asks_target(target, names)
        self.logs_in(hooked).serves(hooked).put(Result(OK))
        return hooked

    def hooks_within(self, words: bytes, target: Target) -> Hooked:
        """The same in a script within another, on its first line."""
        self.begins(words, depth=2)
        hooked = self.asks_target(target)
        self.logs_in(hooked).serves(hooked).put(Result(OK))
        return hooked

    def fails_by(self, words: bytes, target: Target, names: Names | None = None, line: int = 2) -> Cause:
        """`sanhook` fails by what the target says; the cause."""
        self.begins(words, line)
        hooked = self.asks_target(target, names)
        self.connects(hooked)
        while hooked.talk.over is None:
            self.serves(hooked)
        self.put(Result(hooked.talk.over))
        return hooked.talk.over

    # boots

    def reads(self, hooked: Hooked) -> DriveRun:
        """A drive's first block is asked for."""
        return self.put(*hooked.talk.reads(self.now))

    def asks_and_reads(self, target: Target, names: Names | None = None, port: int = 3_260) -> Hooked:
        """The open of `sanboot` of a URI begins, up to the answer to its read, which the target is still to give."""
        hooked = self.asks_target(target, names, port=port)
        self.logs_in(hooked).serves(hooked).reads(hooked)
        return hooked

    def hands_off(self, block: bytes, *parts: Record) -> Row:
        """`sanboot` is Ok: the block is handed off, and these parts after it."""
        self.put(Result(OK)).shuts().put(Part(PartKind.SECTOR, 0, 0, block), *parts)
        return self.put(Done(Status.HANDED_OFF)).row()

    # its address

    def moves_to(self, client: Station) -> DriveRun:
        """The client has another address."""
        self.client = client
        for hooked in self.living.values():
            hooked.talk.wire = replace(hooked.talk.wire, client=client)
        return self

    def loses_its_way(self, hooked: Hooked, milliseconds: int) -> DriveRun:
        """Time passes, and there is no way to the target for what is due then."""
        cause = Cause(Code.NO_ROUTE, int(hooked.talk.wire.server.ip))
        self.now += milliseconds
        tcp = hooked.talk.wire.trio.tcp
        self.uses(Tick(milliseconds), entered(tcp, TIMER, Way.TIME), left(tcp, TIMER))
        return self.let_go(hooked, cause, is_down=True)

    def has_no_way(self, target: Target, cause: Cause, waited: int | None = None) -> DriveRun:
        """There is no way to its server, and the command fails."""
        first, lower = (self.objects + 1, None) if waited is None else (waited, self.objects + 1)
        server = Station(b"", IPv4Address(cause.a))
        wire = Drive(target.name + b"\0" + target.lun, self.opens, first, lower, server)
        begins = wire.asked() if waited is None else wire.asked_next()
        self.put(*begins, *wire.let_go(cause), Result(cause))
        self.opens, self.objects = self.opens + 1, self.objects + (3 if waited is None else 2)
        return self

    # ends

    def let_go_by(self, words: bytes, hooked: Hooked, line: int = 2, place: int = 0) -> DriveRun:
        """`sanunhook`."""
        return self.begins(words, line, place).let_go(hooked).put(Result(OK))

    def let_go(self, hooked: Hooked, cause: Cause = STOPPED, *, is_down: bool = False) -> DriveRun:
        """The open is closed from above; nothing is sent where the device is down."""
        closing = hooked.talk.closing()
        self.put(*hooked.talk.wire.let_go(cause, *([closing] if closing and not is_down else [])))
        del self.living[hooked.number]
        return self

    def shuts(self) -> DriveRun:
        """The run ends: what lives is closed, by rising number."""
        for hooked in self.living.values():
            closing = hooked.talk.closing()
            self.put(*hooked.talk.wire.shut(*([closing] if closing else [])))
        self.living.clear()
        return self

    def off(self) -> Row:
        """The power is switched off."""
        self.uses(Off())
        return self.shuts().put(UNFINISHED).row()

    def stops(self) -> Row:
        """The input ends while a command waits."""
        return self.shuts().put(UNFINISHED).row()

    def left(self, cause: Cause = OK) -> Row:
        """The first script is left, and with it the run ends."""
        self.put(made.leave(cause)).shuts()
        return self.put(Done(Status.ENDED if cause == OK else Status.SCRIPT_FAILED)).row()
