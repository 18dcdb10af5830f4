"""Says how a run ended: a sentence, and then the records that show it."""

from __future__ import annotations

from pathlib import Path
from typing import BinaryIO, Iterator

from shared.advice import of_failure, said
from shared.advice import of_silence as of_silence_advice
from shared.causes import MEANING, Cause, Code
from shared.command_line import Refused, read_stream
from shared.describe import Lines, server_of, target_text
from shared.drive_sentences import of_no_secret
from shared.drive_words import Lost
from shared.drives import is_about_drives, target_name
from shared.fields import CutOff
from shared.full_steps import MOST_COMMANDS
from shared.kinds import OpenKind, Status
from shared.leases import Lease, lease_given, names_file, of_unnamed
from shared.objects import ending
from shared.open_sentences import Came, meaning, named_server, of_break, of_refusal, of_response, of_silence, of_wait
from shared.places import command_at, line_of, place_of, words_in
from shared.recordings import read_output
from shared.records import (
    Advance,
    Command,
    Ended,
    Off,
    Open,
    Received,
    Record,
    Script,
    Try,
)
from shared.sentences import Met, of_local, of_sleep, seconds, seconds_of_sleep
from shared.success import of_success
from shared.stories import CommandStory, Evidence, Failure, OpenStory, Trace
from shared.texts import word
from shared.why_inputs import Inputs

# Causes that name the input record whose message decided.
BY_MESSAGE = (Code.REFUSED, Code.BROKEN)
# causes that a lease may show, by what it leaves out
BY_LEASE = (Code.NO_ROUTE, Code.NO_SERVER)
# causes for which a script leaves by `exit`, where no open shows them
BY_NAME = (Code.NO_SERVER, Code.BAD_NAME)
# how long an open tries without an answer, in seconds
PATIENCE, LEASE_PATIENCE = 16, 15


class Account:
    """The account of a run: what its output shows, with what its input says of that."""

    def __init__(self, trace: Trace, cut_off: str | None, input_path: Path | None) -> None:
        self.trace = trace
        self.cut_off = cut_off
        self.inputs = Inputs(input_path)
        self.lines = Lines()
        self.is_bad = trace.done is not None and trace.done.status is Status.BAD_RECORD
        self.inputs.read(self._numbers(), self._silent(), trace.step)

    def _silent(self) -> list[OpenStory]:
        """The opens that the account may call silent: the one that is waited for, and those of failures that it names."""
        decisive = self._decisive()
        named = [self.trace.first, decisive, self._before(decisive) if decisive else None]
        opens = [one.opens()[-1] for one in named if one and one.cause.code is Code.TIMED_OUT and one.opens()]
        opens += [self.trace.waiting] if self.trace.waiting else []
        return list({id(story): story for story in opens}.values())

    def _waited(self) -> OpenStory | None:
        """The open for which the run waited last, if nothing ended that."""
        decisive = self._decisive()
        if self.trace.waiting or decisive is None or decisive.cause.code is not Code.TIMED_OUT:
            return self.trace.waiting
        opens = decisive.opens()
        return opens[-1] if opens else None

    def _decisive(self) -> Failure | None:
        """The failure by which a failed script ended: the innermost of its last ones."""
        if self.trace.done is None or self.trace.done.status is not Status.SCRIPT_FAILED:
            return None
        failures = list(self.trace.failures)
        while len(failures) > 1 and failures[-1].story and failures[-1].story.left:
            failures.pop()
        return failures[-1] if failures else None

    def _numbers(self) -> set[int]:
        """The input records that the account names."""
        found = {1} | ({self.trace.step} if self.trace.step else set())
        first = [self.trace.first] if self.trace.first else []
        for failure in [*first, *self.trace.failures]:
            found.add(failure.what.step)
            found.update(evidence.step for evidence in failure.evidence())
            if failure.cause.code in BY_MESSAGE:
                found.add(failure.cause.a)
            if failure.cause.code in BY_LEASE and failure.link.lease:
                found.add(failure.link.lease)
        if self.trace.link.lease:
            found.add(self.trace.link.lease)
        if self.trace.waiting:
            found.update(evidence.step for evidence in self._wait_evidence(self.trace.waiting))
        found.update(story.command.step for story in self.trace.running[-1:])
        if self.trace.full.last():
            found.add(self.trace.full.last())
        if self.is_bad:
            found.add(self.trace.step + 1)
        return found

    def report(self) -> Iterator[str]:
        yield self.sentence() + self._to_do()
        if self.trace.waiting and not self._decisive():
            yield from self._waiting(self.trace.waiting)
        elif self._slept():
            yield from self._sleeping(self.trace.running[-1])
        yield from self._full_step()
        if self.trace.failed > len(self.trace.failures):
            last = len(self.trace.failures)
            yield f"{self.trace.failed} commands failed; these are the last {last}"
        for failure in self.trace.failures:
            yield from self._explain(failure)
        yield from self._meanwhile()

    def sentence(self) -> str:
        """How the run ended, in words for somebody who doesn't know the program."""
        done = self.trace.done
        if done is None:
            return self._cut_off()
        match done.status:
            case Status.HANDED_OFF:
                return of_success(self.trace, self.inputs.times.get(self.trace.step)) + self._of_lost()
            case Status.ENDED:
                return self._passed_over("ended well", "the script ended well") + self._of_file_name() + self._of_lost()
            case Status.SCRIPT_FAILED:
                how = self._failure_sentence()
                return self._passed_over(f"failed: {how}", how) + self._of_file_name()
            case Status.UNFINISHED:
                how = self._unfinished()
                return self._passed_over(f"didn't end: {how}", how)
            case Status.BAD_RECORD:
                return self._bad_record()
        return "4294967295 records were used, the most that there can be, and more follows"

    def _to_do(self) -> str:
        """What to do about the failure that is named first, or about what is waited for."""
        decisive = self._decisive()
        named = self.trace.first if self.trace.first and self.trace.first.story else decisive
        status = self.trace.done.status if self.trace.done else None
        if status in (Status.HANDED_OFF, Status.BAD_RECORD, None):
            return ""
        if named is not None:
            opens = named.opens()
            return of_failure(named, self._came(opens[-1]).answer if opens else None)
        answer = self._came(self.trace.waiting).answer if self.trace.waiting else None
        return said(of_silence_advice(self.trace.waiting, answer)) if self.trace.waiting and answer else ""

    def _passed_over(self, then: str, alone: str) -> str:
        """The first failure after which the script went on, and what became of the script then; or that alone."""
        first, last = self.trace.first, self._decisive()
        if first is None or first is last or first.story is None:
            return alone
        sentence = self._sentence_on(first)
        place = f"{line_of(first.story.words)}: "
        placed = sentence if sentence.startswith(place) else place + sentence
        again = then.endswith(f": {sentence}")
        return f"{placed}; the script went on, and {'failed so again' if again else then}"

    def _of_lost(self) -> str:
        """On a drive whose session has ended by itself meanwhile."""
        lost = self._lost()
        return f"; the session with {word(lost.target)} had ended in step {lost.step}: {lost.why}" if lost else ""

    def _of_file_name(self) -> str:
        """On a lease that names no file, where the script would boot what a lease names."""
        number, start = self.trace.link.lease, self.inputs.start
        message = self.inputs.records.get(number or 0)
        decisive = self._decisive()
        is_of_disk = decisive is not None and decisive.story is not None and is_about_drives(decisive.story.words)
        if start is None or is_of_disk or not isinstance(message, Received) or not names_file(start.script):
            return ""
        return of_unnamed(message.frame, self.inputs.offered)

    def _cut_off(self) -> str:
        how = self.cut_off or "it ends without DONE, as where a read or a write failed"
        running = self._running()
        return f"the output is cut off: {how}{f'; {running} was running' if running else ''}"

    def _running(self) -> str | None:
        return line_of(self.trace.running[-1].words) if self.trace.running else None

    def _failure_sentence(self) -> str:
        failure = self._decisive()
        if failure is None:
            return "the script failed"
        before = self._before(failure) if failure.cause.code is Code.EXIT else None
        return self._sentence_on(failure) + (f"; before that, {self._sentence_on(before)}" if before else "")

    def _before(self, failure: Failure) -> Failure | None:
        """The failure before this one, where a server or its name took part in it."""
        failures = list(self.trace.failures)
        place = failures.index(failure)
        before = failures[place - 1] if place else None
        is_meant = before and before is not self.trace.first
        return before if is_meant and (before.opens() or before.cause.code in BY_NAME) else None

    def _sentence_on(self, failure: Failure) -> str:
        opens = failure.opens()
        message = self.inputs.records.get(failure.cause.a) if failure.cause.code in BY_MESSAGE else None
        frame = message.frame if isinstance(message, Received) else None
        if opens and failure.cause.code is Code.REFUSED:
            return of_refusal(failure.cause, opens[-1], frame)
        if opens and failure.cause.code is Code.TIMED_OUT:
            return self._silence(opens[-1])
        if opens and failure.cause.code is Code.BROKEN:
            shown = self.inputs.lines.get(failure.cause.a, f"record {failure.cause.a}")
            return of_break(opens[-1], frame, shown)
        if opens and failure.cause.code is Code.NO_SECRET:
            return of_no_secret(opens[-1], named_server(opens[-1]))
        said = of_response(failure.cause, opens) if opens else ""
        if said:
            return said
        fault = self.inputs.fault(failure)
        if fault:
            return fault.why
        command = failure.story.words if failure.story else None
        sentence = of_local(failure.cause, command, self.inputs.start, self._met(failure))
        return f"{line_of(failure.story.words)}: {sentence}" if failure.story else sentence

    def _met(self, failure: Failure) -> Met:
        """What the command of a failure met."""
        last = failure.opens()[-1] if failure.opens() else None
        looked_up = last.open.target if last and last.is_look_up() else None
        server = named_server(last) if last else None
        return Met(server, looked_up, failure.link, self._lease(failure), self._lost())

    def _lost(self) -> Lost | None:
        """The drive whose session has ended last by itself."""
        lost = self.trace.lost
        if lost is None or lost.ended is None or not isinstance(lost.ended.record, Ended):
            return None
        return Lost(target_name(lost.open), lost.ended.step, meaning(lost.open, lost.ended.record.cause))

    def _lease(self, failure: Failure) -> Lease | None:
        """The lease that the client held at a failure which that may show, where it is known."""
        is_meant = failure.cause.code in BY_LEASE and not failure.link.is_down
        number = failure.link.lease if is_meant else None
        message = self.inputs.records.get(number or 0)
        return lease_given(message.frame) if isinstance(message, Received) else None

    def _silence(self, story: OpenStory) -> str:
        sent, span = story.sent(), None
        if sent and story.ended:
            first, last = sent[0].step, story.ended.step
            if first in self.inputs.times and last in self.inputs.times:
                span = self.inputs.times[last] - self.inputs.times[first]
        return of_silence(story, span, self._came(story))

    def _came(self, story: OpenStory) -> Came:
        meanwhile = self.inputs.while_of(story)
        return Came(self.inputs.path is not None, meanwhile.answer() if meanwhile else None)

    def _unfinished(self) -> str:
        step = self.trace.step
        what, when = "the input ended, or the power was switched off", ""
        if step in self.inputs.times:
            is_off = isinstance(self.inputs.records[step], Off)
            what = "the power was switched off" if is_off else "the recording ends"
            when = f" after {seconds(self.inputs.times[step])}"
        running, waiting = self._running(), self.trace.waiting
        if self.trace.full.last():
            return f"{what}{when}, and the script had more to do"
        if running is None:
            return f"{what}{when}, before the script's end"
        if waiting is None:
            return f"{what}{when}, while {running} {self._slept() or 'was running'}"
        meanwhile = self.inputs.while_of(waiting)
        wanted = of_wait(waiting, meanwhile.hosts if meanwhile else None)
        answer = self._came(waiting).answer
        return f"{what}{when}, while {running} waited for {wanted}{f'; {answer}' if answer else ''}"

    def _slept(self) -> str | None:
        """How long the command that runs has slept, where it sleeps."""
        if not self.trace.running:
            return None
        story, times = self.trace.running[-1], self.inputs.times
        begun, now = times.get(story.command.step), times.get(self.trace.step)
        return of_sleep(story.words, None if begun is None or now is None else now - begun)

    def _sleeping(self, story: CommandStory) -> Iterator[str]:
        """The command that sleeps, and until when."""
        yield f"  {self.inputs.at(story.command.step)}: {self._plainly(story.command)}"
        if not story.command.in_place:
            yield from self.inputs.command_lines(story.words)
        if story.command.step in self.inputs.times and self.trace.done:
            slept = seconds_of_sleep(story.words) or 0
            end = self.inputs.times[story.command.step] / 1_000 + slept
            yield f"  it goes on at {end:g} s: record.py --until {end:g}"

    def _bad_record(self) -> str:
        number = self.trace.step + 1
        sentence = f"input record {number} can't be used"
        if self.inputs.path is None:
            return f"{sentence}: give the input recording by --input to see it"
        if self.inputs.damage:
            return f"{sentence}: {self.inputs.damage}"
        if number in self.inputs.lines:
            return f"{sentence}: it is {self.inputs.lines[number]}"
        return f"{sentence}: the input ends after record {self.trace.step}"

    def _explain(self, failure: Failure) -> Iterator[str]:
        """A failure's cause, and the records that show it."""
        what = line_of(failure.story.words) if failure.story else "the script"
        yield f"{what} failed in {self.inputs.at(failure.what.step)}: {failure.cause}"
        yield f"  meaning: {MEANING[failure.cause.code]}"
        for evidence in failure.evidence():
            yield from self._shown(evidence, failure.cause)
            if isinstance(evidence.record, Command) and not evidence.in_place:
                yield from self.inputs.command_lines(evidence.record)
        fault = self.inputs.fault(failure)
        if fault:
            yield from self.inputs.script_line(1, fault.line)
        if failure.cause.code in BY_MESSAGE:
            yield self._message(failure.cause.a)
        if self._lease(failure):
            yield self._message(failure.link.lease or 0)
        elif failure.cause.code is Code.NO_ROUTE and self.inputs.start:
            yield f"  record 1: {self.inputs.lines[1]}"

    def _shown(self, evidence: Evidence, said: Cause | None = None) -> Iterator[str]:
        """A record in plain words, and the message of a look-up that brought an address."""
        yield f"  {self.inputs.at(evidence.step)}: {self._plainly(evidence, said)}"
        if evidence.is_found and self.inputs.path:
            yield self._message(evidence.step)

    def _message(self, number: int) -> str:
        """The deciding message of a failure."""
        if self.inputs.path is None:
            return f"  record {number}: give the input recording by --input to see its message"
        if number not in self.inputs.lines:
            raise Refused(self.inputs.damage or self.inputs.missing(number))
        return f"  record {number} at {self.inputs.times[number]} ms: {self.inputs.lines[number]}"

    def _wait_evidence(self, story: OpenStory) -> list[Evidence]:
        look_up = [story.look_up.opened, story.look_up.ended] if story.look_up else []
        shown = [*look_up, story.opened, *story.tries, story.ended]
        return [evidence for evidence in shown if evidence]

    def _waiting(self, story: OpenStory) -> Iterator[str]:
        """What a command waited for, and the records that show it."""
        if self.trace.running and not self.trace.running[-1].command.in_place:
            yield from self.inputs.command_lines(self.trace.running[-1].words)
        for evidence in self._wait_evidence(story):
            yield from self._shown(evidence)
        is_off = isinstance(self.inputs.records.get(self.trace.step), Off)
        if self.inputs.start and not is_off and self.trace.done:
            patience = LEASE_PATIENCE if story.open.kind is OpenKind.DHCP else PATIENCE
            since = story.tries[0] if story.tries else story.opened
            # a second more than that, so that the end comes within it
            until = self.inputs.times[since.step] // 1_000 + patience + 1
            yield f"  a silent server is given up after some {patience} s: record.py --until {until}"

    def _full_step(self) -> Iterator[str]:
        """Of a script that had more to do: why its last step ended, and its last command."""
        step = self.trace.full.last()
        if step is None or self.trace.done is None or self.trace.last is None:
            return
        last = self.trace.last
        why = f"{MOST_COMMANDS} commands began, and no more may begin in one step"
        yield f"  {self.inputs.at(step)}: {why}"
        yield f"  the script goes on with the next frame or time; the last was {command_at(last)}"
        yield from self.inputs.command_lines(last)

    def _meanwhile(self) -> Iterator[str]:
        meanwhile = self.inputs.while_of(self._waited())
        if meanwhile is None:
            return
        lines = meanwhile.lines()
        if lines:
            yield "what came meanwhile, and why it didn't count:"
            yield from (f"  {line}" for line in lines)
        else:
            yield "nothing came meanwhile"

    def _plainly(self, evidence: Evidence, said: Cause | None = None) -> str:
        """A record in plain words; the meaning of an end's cause too, unless it is one whose meaning was said."""
        match evidence.record:
            case Command() as command:
                as_written = "" if command.expanded else " (as written, since they can't be expanded)"
                return f"{place_of(command)} begins: {words_in(command)}{as_written}"
            case Open() as opened:
                target = f"{target_text(opened)} is asked for: " if opened.target else ""
                own = "with our identifier" if opened.kind is OpenKind.PING else "from our port"
                return f"{target}{opened.kind.name} with {server_of(opened)}, {own} {opened.own}"
            case Try() as tried:
                frame = self.lines.of(evidence.frame) if evidence.frame else "FRAME missing"
                return f"try {tried.attempt}: {frame.removeprefix('FRAME ')}"
            case Ended() as ended:
                meaning = "" if ended.cause == said else f"; {MEANING[ended.cause.code]}"
                return f"that ends: {ending(ended.cause, evidence.closed)}{meaning}"
            case Script() as script:
                return f"its script ends: {script.cause}"
            case Advance() | _:
                return self.lines.of(evidence.record)


def reasons(path: Path, stream: BinaryIO, input_path: Path | None) -> Iterator[str]:
    """How a run ended, as lines of text; the stream is its output recording."""
    trace, cut_off = Trace(), []

    def until_cut_off(stream: BinaryIO) -> Iterator[Record]:
        try:
            yield from read_output(stream)
        except CutOff as damage:
            cut_off.append(str(damage))

    for record in read_stream(path, stream, until_cut_off):
        trace.take(record)
    yield from Account(trace, cut_off[0] if cut_off else None, input_path).report()
