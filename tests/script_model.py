"""A second reading of the rules of scripts (docs/SCRIPTS.md): what a run of one writes.

Its fetches are of a client whose device is down, nobody offers it a lease, and the only frames that bring it anything
are ARP requests.
"""

from __future__ import annotations

from ipaddress import IPv4Address
from typing import Iterable, Iterator, NamedTuple

from shared.causes import OK, Cause, Code
from shared.kinds import OpenKind, Status
from shared.records import Command, Done, Off, Open, Received, Record, Result, Sent, Start
from shared.records import Step, Text, Tick
from shared.wire import Station, arp_reply, arp_request
from tests import graph_records, made
from tests.asking_records import Lease
from tests.settings_model import Refusal, Table, expand_all, name_of, number_of

MOST_COMMANDS = 4_096
MOST_OPENS = 16_384
MOST_SECONDS = 4_000_000
LEAST_STEP, MOST_STEP = -(1 << 31), (1 << 31) - 1
NOT_SCRIPT = Cause(Code.NOT_SCRIPT)
LONG_LINE = Cause(Code.TOO_LONG, 1)
TOO_MANY_WORDS = Cause(Code.TOO_MANY, 1)
NO_ROUTE = Cause(Code.NO_ROUTE, 0x0A000001)
UNKNOWN, USAGE = Cause(Code.UNKNOWN), Cause(Code.USAGE)
# the tries of a lease wait so long, in milliseconds
LEASE_WAITS = (1_000, 2_000, 4_000, 8_000)
UNLEASED = Cause(Code.TIMED_OUT, len(LEASE_WAITS))
FILE = b"tftp://10.0.0.1/f"
BUILT_IN = b"""#!ipxe
dhcp || exit 1
isset ${filename} || goto san
chain ${filename} && exit 0 || goto san
:san
isset ${root-path} || exit 1
sanboot ${root-path}
"""


def numbered(text: bytes) -> dict[int, bytes]:
    """The lines after joining, by their numbers."""
    found: dict[int, bytes] = {}
    number, is_open = 0, False
    while text:
        number += 1
        line, feed, text = text.partition(b"\n")
        if feed and line[-1:] == b"\r":
            line = line[:-1]
        joins = bool(feed) and line[-1:] == b"\\"
        piece = line[:-1] if joins else line
        key = max(found) if is_open else number
        found[key] = found.get(key, b"") + piece
        is_open = joins
    return found


def refusal(text: bytes) -> Cause | None:
    """Why a text is left at once."""
    first = text.split(b"\n")[0].removesuffix(b"\r")
    if first[:6] != b"#!ipxe" or first[6:].strip(b" \t"):
        return NOT_SCRIPT
    lines = numbered(text)
    if any(len(line) > 4_096 for line in lines.values()):
        return LONG_LINE
    return None


def label_of(line: bytes) -> bytes | None:
    line = line.strip(b" \t")
    is_alone = line[:1] == b":" and len(line) > 1 and not any(blank in line for blank in b" \t")
    return line[1:] if is_alone else None


def is_list(line: bytes) -> bool:
    line = line.strip(b" \t")
    return line[:1] not in (b"", b"#") and label_of(line) is None


class Item(NamedTuple):
    """A command of a list with the join before it, and its place."""

    join: bytes
    place: int
    words: tuple[bytes, ...]


def items(line: bytes) -> list[Item] | None:
    """The commands of a list; None where it has too many words or joins."""
    join, words, found, number = b"", [], [], 0
    for text in line.replace(b"\t", b" ").split(b" "):
        if text[:1] == b"#":
            break
        if text in (b"&&", b"||", b";"):
            found.append(Item(join, len(found), tuple(words)))
            join, words = text, []
        elif text:
            words.append(text)
            number += 1
    found.append(Item(join, len(found), tuple(words)))
    return found if number <= 64 and len(found) <= 65 else None


class Left(Exception):
    """The script is left with a cause."""


class Over(Exception):
    """The run is ended from outside, with this status."""


class Ran(NamedTuple):
    """A command: its COMMAND with what it puts before its RESULT, what it waits for, and its result."""

    begins: list[Record]
    sleep: int
    lease: Lease | None
    result: Cause


class Model:
    """Runs the script of a START over the records after it."""

    def __init__(self, start: Start) -> None:
        self.text = start.script or BUILT_IN
        self.lines = numbered(self.text)
        self.end = max(self.lines, default=0)
        self.table = Table(start)
        self.last = OK
        self.opens = self.objects = 0
        self.live: Lease | None = None
        self.target: int | None = None
        self.is_left = False
        self.start = start
        self.is_up = start.ip != IPv4Address(0)
        self.time = self.begun = 0
        self.step = 1

    def run(self, later: Iterable[Record] = ()) -> list[Record]:
        """The output of a run."""
        self.later = iter(later)
        self.records: list[Record] = [Step(1), made.enter()]
        try:
            for ran in self.commands():
                self.put(ran)
        except Left as left:
            [cause] = left.args
            status = Status.ENDED if cause == OK else Status.SCRIPT_FAILED
            self.records += [made.leave(cause), Done(status)]
        except Over as over:
            self.records += [*(self.live.shut() if self.live else []), Done(*over.args)]
        return self.records

    def put(self, ran: Ran) -> None:
        """Puts a command, which may have to wait for its step and for its end."""
        if self.begun == MOST_COMMANDS:
            self.use_record()
        self.begun += 1
        self.records += ran.begins
        due = self.time + ran.sleep
        while self.time < due:
            self.use_record()
        if ran.lease:
            self.wait_for(ran.lease)
        self.records.append(Result(ran.result))

    def wait_for(self, lease: Lease) -> None:
        """It is asked for again and again, until all tries have had their time."""
        self.live, due = lease, self.time
        for attempt, wait in enumerate(LEASE_WAITS, 2):
            due = self.time + wait
            while self.use_time() < due:
                self.records += lease.passed()
            if attempt <= len(LEASE_WAITS):
                self.records += lease.passed(*lease.discovers(attempt))
        self.records += lease.passed(over=UNLEASED)
        self.live = None

    def use_time(self) -> int:
        """Uses records up to the next TICK; the time at it."""
        while not isinstance(self.use_record(), Tick):
            pass
        return self.time

    def use_record(self) -> Record:
        """The next record comes, and so begins a step."""
        record = next(self.later, None)
        if record is None:
            raise Over(Status.UNFINISHED)
        if isinstance(record, Start):
            raise Over(Status.BAD_RECORD)
        self.step, self.begun = self.step + 1, 0
        self.records.append(Step(self.step))
        if isinstance(record, Off):
            raise Over(Status.UNFINISHED)
        if isinstance(record, Tick):
            self.time += record.milliseconds
        else:
            self.records += self.replies(record)
        return record

    def replies(self, record: Record) -> list[Record]:
        """What a frame is replied by: a request for the client's address by an ARP reply."""
        client = Station(self.start.mac, self.address())
        asks = record == Received(arp_request(made.SERVER, client.ip))
        is_there = self.is_up and client.ip != IPv4Address(0)
        return [Sent(arp_reply(client, made.SERVER))] if asks and is_there else []

    def address(self) -> IPv4Address:
        """The first four bytes of net0's `ip`, which is 0 where there are none."""
        value = self.table.find(name_of(b"net0/ip"))
        found = value.bytes[:4] if value else b""
        return IPv4Address(found if len(found) == 4 else 0)

    def commands(self) -> Iterator[Ran]:
        """The commands that run, until the script is left."""
        cause = refusal(self.text)
        if cause:
            raise Left(cause)
        number = 1
        while number < self.end:
            number += 1
            if is_list(self.lines.get(number, b"")):
                yield from self.list(number)
            if self.target is not None:
                number, self.target = self.target, None
            if self.last != OK:
                raise Left(self.last)
        raise Left(OK)

    def list(self, number: int) -> Iterator[Ran]:
        found = items(self.lines[number])
        if found is None:
            raise Left(TOO_MANY_WORDS)
        for item in found:
            runs = {b"&&": self.last == OK, b"||": self.last != OK}.get(item.join, True)
            if not runs:
                continue
            if not item.words:
                self.last = OK
                continue
            ran = self.command(number, item)
            self.last = ran.result
            yield ran
            if self.is_left:
                raise Left(self.last)
            if self.target is not None:
                return

    def command(self, number: int, item: Item) -> Ran:
        """A command's words are expanded, and then it is carried out."""
        self.printed: list[Record] = []
        self.sleep, self.lease = 0, None
        words, is_expanded, result = item.words, False, OK
        try:
            words, is_expanded = expand_all(words, self.table), True
            self.does(words[0], list(words[1:]))
        except Refusal as refused:
            [result] = refused.args
        begins = Command(1, number, item.place, is_expanded, words)
        return Ran([begins, *self.printed], self.sleep, self.lease, result)

    def does(self, name: bytes, words: list[bytes]) -> None:
        commands = {
            b"echo": self.echo, b"exit": self.exit, b"goto": self.goto, b"imgfetch": self.fetch,
            b"set": self.set, b"clear": self.clear, b"show": self.show, b"inc": self.inc,
            b"isset": self.isset, b"iseq": self.iseq, b"sleep": self.sleeps,
            b"ifopen": self.ifopen, b"ifclose": self.ifclose, b"dhcp": self.dhcp,
        }  # fmt: skip
        if name not in commands:
            raise Refusal(UNKNOWN)
        if words and words[0][:2] == b"--":
            raise Refusal(USAGE)
        commands[name](words)

    def echo(self, words: list[bytes]) -> None:
        end = b"\n"
        if words[:1] == [b"-n"]:
            end, words = b"", words[1:]
        if words and (words[0][:2] == b"--" or words[0] == b"-n"):
            raise Refusal(USAGE)
        self.printed = [Text(b" ".join(words) + end)]

    def exit(self, words: list[bytes]) -> None:
        fits(words, 0, 1)
        number = number_in(words[0] if words else b"0", 0, 255)
        self.is_left = True
        if number:
            raise Refusal(Cause(Code.EXIT, number))

    def goto(self, words: list[bytes]) -> None:
        fits(words, 1, 1)
        for number, line in sorted(self.lines.items()):
            if label_of(line) == words[0]:
                self.target = number
                return
        raise Refusal(Cause(Code.NO_LABEL))

    def set(self, words: list[bytes]) -> None:
        fits(words, 1, 64)
        self.table.set(name_of(words[0]), b" ".join(words[1:]))

    def clear(self, words: list[bytes]) -> None:
        fits(words, 1, 1)
        name = name_of(words[0])
        self.table.named(name).pop(name.key, None)

    def show(self, words: list[bytes]) -> None:
        fits(words, 1, 1)
        value = self.table.shown(name_of(words[0]))
        self.printed = [Text(words[0] + b" = " + value + b"\n")]

    def inc(self, words: list[bytes]) -> None:
        fits(words, 1, 2)
        number = number_in(words[1] if len(words) > 1 else b"1", LEAST_STEP, MOST_STEP)
        self.table.add(name_of(words[0]), number)

    def isset(self, words: list[bytes]) -> None:
        fits(words, 0, 1)
        if words in ([], [b""]):
            raise Refusal(Cause(Code.FALSE))

    def iseq(self, words: list[bytes]) -> None:
        fits(words, 2, 2)
        if words[0] != words[1]:
            raise Refusal(Cause(Code.FALSE))

    def sleeps(self, words: list[bytes]) -> None:
        fits(words, 1, 1)
        self.sleep = 1_000 * number_in(words[0], 0, MOST_SECONDS)

    def ifopen(self, words: list[bytes]) -> None:
        self.sets_device(words, True)

    def ifclose(self, words: list[bytes]) -> None:
        self.sets_device(words, False)

    def sets_device(self, words: list[bytes], is_up: bool) -> None:
        fits(words, 0, 1)
        if words not in ([], [b"net0"]):
            raise Refusal(Cause(Code.BAD_NAME))
        self.is_up = is_up

    def dhcp(self, words: list[bytes]) -> None:
        self.sets_device(words, True)
        start = self.start
        number = self.next_open()
        self.objects += 1
        client = Station(start.mac, IPv4Address(0))
        lease = Lease(number, self.objects, client, start.key, start.uuid, start.arch)
        self.printed = lease.begins(*lease.discovers())
        self.lease = lease
        raise Refusal(UNLEASED)

    def next_open(self) -> int:
        if self.opens == MOST_OPENS:
            raise Refusal(Cause(Code.FULL, 2))
        self.opens += 1
        return self.opens - 1

    def fetch(self, words: list[bytes]) -> None:
        fits(words, 1, 1)
        if words != [FILE]:
            raise Refusal(Cause(Code.BAD_URI))
        number = self.next_open()
        pair = graph_records.Pair(number, self.objects + 1)
        self.objects += 2
        server, own = IPv4Address("10.0.0.1"), 49_152 + number
        opened = Open(number, OpenKind.TFTP, server, 69, own, b"f")
        self.printed = graph_records.turned_back(opened, NO_ROUTE, pair)
        raise Refusal(NO_ROUTE)


def fits(words: list[bytes], least: int, most: int) -> None:
    if not least <= len(words) <= most:
        raise Refusal(USAGE)


def number_in(text: bytes, least: int, most: int) -> int:
    number = number_of(text, least, most)
    if number is None:
        raise Refusal(USAGE)
    return number
