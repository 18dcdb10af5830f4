"""What the input recording of a run says of the records that its account names."""

from __future__ import annotations

from dataclasses import dataclass, field
from ipaddress import IPv4Address
from pathlib import Path

from shared.command_line import Refused
from shared.describe import Lines
from shared.leases import lease_message_in
from shared.meanwhile import Meanwhile, meanwhile_of
from shared.places import joined
from shared.recordings import Timed, input_of
from shared.records import Command, Received, Record, Start
from shared.script_faults import Fault, fault_of
from shared.script_text import Line, command_of, script_of, words_of
from shared.stories import Failure, OpenStory
from shared.texts import word
from shared.wire_dhcp import Kind, Tag

MOST_OFFERS = 16


@dataclass(slots=True)
class Inputs:
    """What the input recording says of the records that were asked for."""

    path: Path | None
    times: dict[int, int] = field(default_factory=dict)
    records: dict[int, Record] = field(default_factory=dict)
    lines: dict[int, str] = field(default_factory=dict)
    start: Start | None = None
    # the first script's lines, by their numbers
    script: dict[int, Line] = field(default_factory=dict)
    # what came while opens lived, by their numbers
    meanwhiles: dict[int, Meanwhile] = field(default_factory=dict)
    # the files that servers offered, by the servers' addresses
    offered: dict[IPv4Address, bytes] = field(default_factory=dict)
    damage: str | None = None

    def read(self, numbers: set[int], waited: list[OpenStory], last: int) -> None:
        """Reads as far as one of these records, or the last that was used, stands."""
        if self.path is None:
            return
        furthest, lines = max(numbers | {last}), Lines()
        try:
            for timed in input_of(self.path):
                self._take(timed, numbers, waited, last, lines)
                if timed.number >= furthest:
                    return
        except Refused as refusal:
            self.damage = str(refusal)

    def _take(
        self, timed: Timed, numbers: set[int], waited: list[OpenStory], last: int, lines: Lines
    ) -> None:
        if isinstance(timed.record, Start):
            self.start = timed.record
            self.script = script_of(timed.record.script)
            for story in waited:
                self._watch(timed.record, story)
        text = lines.of(timed.record)
        if timed.number in numbers:
            self.times[timed.number] = timed.time
            self.records[timed.number] = timed.record
            self.lines[timed.number] = text
        if isinstance(timed.record, Received):
            self._note_offer(timed.record.frame)
            for story in waited:
                meanwhile, end = self.meanwhiles.get(story.open.number), story.ended.step if story.ended else last
                if meanwhile and story.opened.step < timed.number <= end:
                    meanwhile.take(timed.record.frame)

    def _watch(self, start: Start, story: OpenStory) -> None:
        meanwhile = meanwhile_of(start, story.open, story.asked())
        if meanwhile:
            self.meanwhiles[story.open.number] = meanwhile

    def while_of(self, story: OpenStory | None) -> Meanwhile | None:
        """What came while an open lived, where that was watched."""
        return self.meanwhiles.get(story.open.number) if story else None

    def _note_offer(self, frame: bytes) -> None:
        """The file that a server's offer names, for the client."""
        message = lease_message_in(frame)
        if message is None or message.kind != Kind.OFFER or self.start is None or message.mac != self.start.mac:
            return
        server, name = message.address(Tag.SERVER), message.boot_file()
        if server and name and len(self.offered) < MOST_OFFERS:
            self.offered[server] = name

    def at(self, step: int) -> str:
        if self.path is None:
            return f"step {step}"
        if step not in self.times:
            raise Refused(self.damage or self.missing(step))
        return f"step {step} at {self.times[step]} ms"

    def missing(self, number: int) -> str:
        return f"the input recording has no record {number}: it is another run's"

    def script_line(self, depth: int, line: int) -> list[str]:
        """A line of the first script with those joined to it, where that depth's script is known."""
        found = self.script.get(line)
        if depth != 1 or found is None:
            return []
        numbers = f"lines {line} to {found.last}" if found.last > line else f"line {line}"
        built_in = "" if self.start and self.start.script else "built-in "
        return [f"  {built_in}script {numbers}: {word(found.text)}"]

    def command_lines(self, command: Command) -> list[str]:
        """A command's line, and its words as they are written, where they were expanded to others."""
        lines = self.script_line(command.depth, command.line)
        written = command_of(self.script[command.line].text, command.place) if lines else ()
        is_alone = lines and written == tuple(words_of(self.script[command.line].text))
        if written and command.expanded and written != command.words and not is_alone:
            lines.append(f"  written there: {joined(written)}")
        return lines

    def fault(self, failure: Failure) -> Fault | None:
        """What is wrong with the first script's text, where that is why it was left."""
        if failure.story or self.start is None:
            return None
        return fault_of(self.start.script, failure.cause, failure.last, failure.result)
