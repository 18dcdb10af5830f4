"""Goes over an output recording and gathers what failed, and what was waited for."""

from __future__ import annotations

from collections import deque
from dataclasses import dataclass, field, replace

from shared.causes import OK, Cause, Code
from shared.command_line import Refused
from shared.drives import names_drive
from shared.frames import asked_address
from shared.full_steps import FullSteps
from shared.kinds import OpenKind, PartKind, ScriptMove
from shared.links import Link
from shared.objects import Close, Objects, When
from shared.records import (
    Advance,
    Command,
    Done,
    Ended,
    Graph,
    Open,
    Part,
    Record,
    Result,
    Script,
    Sent,
    Step,
    Try,
)
from shared.texts import word

# What is kept of a recording, whatever it holds: the last failures, and of each the last opens.
MOST_FAILURES = 100
MOST_OPENS = 16
MOST_TRIES = 16
MOST_NESTED = 64
MOST_TEXT = 256
# causes that the drives show which are hooked, where a command has no open, and those of a close from above
OF_DRIVES = (Code.FULL, Code.NO_DRIVE, Code.REFUSED, Code.BROKEN, Code.TIMED_OUT)
FROM_ABOVE = (Code.STOPPED, Code.DOWN)


@dataclass(slots=True)
class Evidence:
    """An output record with the step that it stands in, the frame directly after a TRY, the first close of the objects
    of the open that an ENDED is of, and whether its step's message brought an address that was looked up."""

    step: int
    record: Record
    frame: Sent | None = None
    closed: Close | None = None
    is_found: bool = False
    # a COMMAND of a script that another of depth 1 was replaced by
    in_place: bool = False


@dataclass(slots=True)
class OpenStory:
    """An open, its last place, the tries of the message that it sent last, and its end.

    Where its server is a name, `look_up` is the open that found the address.
    """

    opened: Evidence
    look_up: OpenStory | None = None
    tries: deque[Evidence] = field(default_factory=lambda: deque(maxlen=MOST_TRIES))
    block: int = 0
    ended: Evidence | None = None
    # of a drive: its command was Ok; it was asked for blocks
    is_hooked: bool = False
    is_read: bool = False

    def is_drive(self) -> bool:
        return self.open.kind is OpenKind.ISCSI

    def is_fetch(self) -> bool:
        return self.open.kind in (OpenKind.TFTP, OpenKind.HTTP)

    def is_look_up(self) -> bool:
        return self.open.kind is OpenKind.DNS

    @property
    def open(self) -> Open:
        assert isinstance(self.opened.record, Open)
        return self.opened.record

    @property
    def name(self) -> bytes | None:
        """The name of its server, where that was looked up."""
        return self.look_up.open.target if self.look_up else None

    def asked(self) -> list[bytes]:
        """The frames of the last tries."""
        return [tried.frame.frame for tried in self.tries if tried.frame]

    def sent(self) -> list[Evidence]:
        """The last tries that sent the message, and no ARP request in its place; or all, where none did."""
        sent = [tried for tried in self.tries if tried.frame and asked_address(tried.frame.frame) is None]
        return sent or list(self.tries)

    def parts(self) -> list[OpenStory]:
        """It, and before it the look-up of its server."""
        return [self.look_up, self] if self.look_up else [self]


@dataclass(slots=True)
class CommandStory:
    """A command, the opens that it made or else those of the drives that stood, and the leave of
    the script that it ran."""

    command: Evidence
    drives: list[OpenStory]
    opens: deque[OpenStory] = field(default_factory=lambda: deque(maxlen=MOST_OPENS))
    left: Evidence | None = None

    @property
    def words(self) -> Command:
        assert isinstance(self.command.record, Command)
        return self.command.record


@dataclass(slots=True)
class Failure:
    """A failed RESULT with its command, or a script that was left by its text.

    Of such a script, `last` is the command that ended last, and `result` its result. `link` is the client's link then.
    """

    what: Evidence
    cause: Cause
    story: CommandStory | None = None
    last: Command | None = None
    result: Cause = OK
    link: Link = Link()

    def opens(self) -> list[OpenStory]:
        """The opens that show the cause: a command's last with its look-up, or each where moves were too many."""
        if self.story is None or self.story.left:
            return []
        if self.cause.code is Code.TOO_MANY:
            return list(self.story.opens)
        if self.story.opens:
            return self.story.opens[-1].parts()
        return self.story.drives if self.cause.code in OF_DRIVES else []

    def evidence(self) -> list[Evidence]:
        """The records that show the cause, in their order."""
        found = [self.story.command] if self.story else []
        for story in self.opens():
            found.append(story.opened)
            if self.cause.code is Code.TIMED_OUT and story is self.opens()[-1]:
                found += story.tries
            if story.ended:
                found.append(story.ended)
        if self.story and self.story.left:
            found.append(self.story.left)
        return found


class Trace:
    """Goes over the records of an output recording and gathers the failures."""

    def __init__(self) -> None:
        self.step = 0
        self.running: list[CommandStory] = []
        self.live: dict[int, OpenStory] = {}
        self.objects = Objects()
        self.failures: deque[Failure] = deque(maxlen=MOST_FAILURES)
        # the first that a test's answer isn't, and how many of those there are
        self.first: Failure | None = None
        self.failed = 0
        self.waiting: OpenStory | None = None
        self.kernel: bytes = b""
        self.sizes: dict[PartKind, int] = {}
        self.initrds = 0
        # the servers that sent files, each once
        self.sources: list[str] = []
        self.done: Done | None = None
        self.full = FullSteps()
        # the first script was replaced by another
        self.is_replaced = False
        self.last: Command | None = None
        self.link = Link()
        # the drive whose session ended last by itself, after its command
        self.lost: OpenStory | None = None
        # the drive's open that a disk is handed off of
        self.booted: Open | None = None
        # nothing has set `san-drive` so far, as a lease may
        self.is_usual_drive = True
        self._last_cause: Cause | None = None
        self._last_try: Evidence | None = None

    def take(self, record: Record) -> None:
        here = Evidence(self.step, record)
        last_try, self._last_try = self._last_try, None
        self.full.take(record)
        match record:
            case Step():
                self.step = record.number
            case Sent() if last_try:
                last_try.frame = record
            case Graph():
                self.objects.take(When(self.step), record)
                self._asked(record)
            case Part():
                self._part(record)
            case Done():
                self.done = record
            case _:
                self._take_of_script(here, record)

    def _take_of_script(self, here: Evidence, record: Record) -> None:
        """A record of a script, its commands or its opens."""
        match record:
            case Command():
                self._command(here, record)
            case Result():
                self._result(here, record.cause)
            case Script():
                self._script(here, record)
            case Open():
                self._open(here, record)
            case Try():
                self._try(here, record)
            case Advance():
                self._story(record.number).block = record.place
            case Ended():
                self._ended(here, record)

    def _command(self, here: Evidence, command: Command) -> None:
        if len(self.running) == MOST_NESTED:
            raise Refused(f"more than {MOST_NESTED} commands run at once in step {self.step}")
        here.in_place = self.is_replaced and command.depth == 1
        self.running.append(CommandStory(here, self._drives(command)))
        self.waiting = None

    def _drives(self, command: Command) -> list[OpenStory]:
        """The opens of hooked drives, where the command may be one about a drive."""
        if not command.words[0].startswith(b"san"):
            return []
        return [story for story in self.live.values() if story.is_drive()][:MOST_OPENS]

    def _result(self, here: Evidence, cause: Cause) -> None:
        if not self.running:
            raise Refused(f"a RESULT without its COMMAND in step {self.step}")
        story = self.running.pop()
        self.last, self._last_cause = story.words, cause
        self.waiting = None
        if cause != OK:
            self._fail(Failure(here, cause, story, link=self.link))
            return
        last = story.opens[-1] if story.opens else None
        if last and last.is_drive():
            self.booted = last.open if last.is_read else None
            last.is_hooked, self.lost = True, last if last.ended else self.lost
        is_leased = last is not None and last.open.kind is OpenKind.DHCP
        self.is_usual_drive &= not is_leased and not names_drive(story.words)
        self.link = self.link.leased(here.step) if is_leased else self.link.after(story.words)

    def _fail(self, failure: Failure) -> None:
        if failure.cause.code is not Code.FALSE:
            self.first = self.first or failure
        self.failed += 1
        self.failures.append(failure)

    def _script(self, here: Evidence, script: Script) -> None:
        self.is_replaced |= script.move is ScriptMove.REPLACED and script.depth == 1
        if script.move is not ScriptMove.LEAVE:
            self.last, self._last_cause = None, None
        elif self.running:
            self.running[-1].left = here
        elif script.cause not in (OK, self._last_cause):
            result = self._last_cause or OK
            self._fail(Failure(here, script.cause, None, self.last, result))

    def _open(self, here: Evidence, opened: Open) -> None:
        here.record = replace(opened, target=opened.target[:MOST_TEXT])
        self.objects.take(When(self.step), here.record)
        opens = self.running[-1].opens if self.running else deque()
        story = OpenStory(here)
        if opens and opens[-1].is_look_up() and not story.is_look_up():
            story.look_up = opens[-1]
        self.live[opened.number] = self.waiting = story
        opens.append(story)
        if opened.kind is OpenKind.DHCP:
            self.link = self.link.up()

    def _asked(self, graph: Graph) -> None:
        """A drive that is asked for blocks is the command's open, whichever command has hooked it."""
        opened = self.objects.asked(graph)
        story = self.live.get(opened.number) if opened else None
        if story is None:
            return
        story.is_read, self.waiting = True, story
        opens = self.running[-1].opens if self.running else deque()
        if all(one is not story for one in opens):
            opens.append(story)

    def _story(self, number: int) -> OpenStory:
        story = self.live.get(number)
        if story is None:
            raise Refused(f"step {self.step} speaks of open {number}, which is not open")
        return story

    def _try(self, here: Evidence, tried: Try) -> None:
        tries = self._story(tried.number).tries
        if tried.attempt == 1:
            tries.clear()
        tries.append(here)
        self._last_try = here

    def _ended(self, here: Evidence, ended: Ended) -> None:
        family = self.objects.take(When(self.step), ended)
        here.closed = family.first if family else None
        story = self._story(ended.number)
        here.is_found = story.is_look_up() and ended.cause == OK
        story.ended = here
        if ended.cause == OK and story.is_fetch():
            self._note_source(story)
        if story.is_hooked and ended.cause.code not in FROM_ABOVE:
            self.lost = story
        del self.live[ended.number]

    def _note_source(self, story: OpenStory) -> None:
        server = f"{word(story.name)} ({story.open.server})" if story.name else str(story.open.server)
        if server not in self.sources and len(self.sources) < MOST_OPENS:
            self.sources.append(server)

    def _part(self, part: Part) -> None:
        self.sizes[part.kind] = self.sizes.get(part.kind, 0) + len(part.piece)
        if part.kind is PartKind.INITRD:
            self.initrds = max(self.initrds, part.index + 1)
        if part.kind is PartKind.KERNEL_NAME:
            self.kernel = (self.kernel + part.piece)[:MOST_TEXT]
