"""Says in one line what a record is."""

from __future__ import annotations

from typing import Any, Callable

from shared.drives import is_whole, target_name, unit_of
from shared.frames import Summaries
from shared.kinds import GraphEvent, OpenKind, PartKind, ScriptMove, Way
from shared.objects import Names, title
from shared.records import (
    Advance,
    Command,
    Done,
    Ended,
    Graph,
    Off,
    Open,
    Part,
    Received,
    Record,
    Result,
    Script,
    Sent,
    Start,
    Step,
    Text,
    Tick,
    Try,
)
from shared.texts import count, mac, quoted, word

# by time an object is entered at its timer alone
ENTERED = {Way.UP: " from below", Way.DOWN: " from above", Way.CLOSE: " by a close", Way.TIME: ""}


def _start(start: Start) -> str:
    key = "zero" if start.key == bytes(32) else start.key.hex()
    return (
        f"START version {start.version}, mac {mac(start.mac)}, ip {start.ip}, mask {start.mask}, "
        f"gateway {start.gateway}, dns {start.dns}, uuid {start.uuid}, arch {start.arch}, "
        f"w {start.w}, key {key}, script of {count(len(start.script), 'byte')}"
    )


def _command(command: Command) -> str:
    words = " ".join(word(text) for text in command.words)
    unexpanded = "" if command.expanded else ", not expanded, words as written"
    place = f"depth {command.depth}, line {command.line}, place {command.place}"
    return f"COMMAND {place}{unexpanded}: {words}"


def _script(script: Script) -> str:
    cause = f", {script.cause}" if script.move is ScriptMove.LEAVE else ""
    return f"SCRIPT {title(script.move.name)}, depth {script.depth}{cause}"


def server_of(opened: Open) -> str:
    """The server of an open, with its port where the protocol has ports."""
    return str(opened.server) if opened.kind is OpenKind.PING else f"{opened.server} port {opened.port}"


def target_text(opened: Open) -> str:
    """What an open asks for; a drive's target by its name, and with the unit."""
    if opened.kind is OpenKind.ISCSI and is_whole(opened):
        return f"{word(target_name(opened))}, unit {unit_of(opened)}"
    return word(opened.target)


def _open(opened: Open) -> str:
    target = f", target {target_text(opened)}" if opened.target else ""
    own = "identifier" if opened.kind is OpenKind.PING else "own port"
    return f"OPEN {opened.number} {opened.kind.name}, server {server_of(opened)}, {own} {opened.own}{target}"


def _graph(graph: Graph, names: Names) -> str:
    """An event in words; an object whose Made wasn't read has a number and no kind."""
    name, port = names.of(graph.object), names.port(graph.object, graph.slot)
    match graph.event:
        case GraphEvent.MADE | GraphEvent.HELD | GraphEvent.FREED:
            what = f"{title(graph.event.name)} {name}"
        case GraphEvent.LET_GO:
            what = f"let go of {name}"
        case GraphEvent.PLUGGED:
            what = f"plugged {port} to {names.port(graph.other, graph.other_slot)}"
        case GraphEvent.UNPLUGGED:
            what = f"unplugged {port} from {names.port(graph.other, graph.other_slot)}"
        case GraphEvent.ENTERED:
            what = f"entered {port}{ENTERED[Way(graph.other_slot)]}"
        case GraphEvent.LEFT:
            what = f"left {port}"
        case GraphEvent.DROPPED:
            what = f"dropped a message at {port}"
        case GraphEvent.CLOSED:
            what = f"closed {port}: {graph.cause}"
    return f"GRAPH {what}"


def _part(part: Part) -> str:
    index = f" {part.index}" if part.kind in (PartKind.INITRD, PartKind.INITRD_NAME) else ""
    size = count(len(part.piece), "byte")
    text = f": {quoted(part.piece)}" if part.kind in TEXT_PARTS else ""
    return f"PART {title(part.kind.name)}{index}, {size} from {part.offset}{text}"


TEXT_PARTS = (PartKind.COMMAND_LINE, PartKind.KERNEL_NAME, PartKind.INITRD_NAME)

LINES: dict[type[Record], Callable[[Any], str]] = {
    Start: _start,
    Tick: lambda tick: f"TICK {tick.milliseconds}",
    Off: lambda _: "OFF",
    Step: lambda step: f"STEP {step.number}",
    Text: lambda text: f"TEXT {quoted(text.text)}",
    Command: _command,
    Result: lambda result: f"RESULT {result.cause}",
    Script: _script,
    Open: _open,
    Try: lambda record: f"TRY {record.attempt} of open {record.number}",
    Advance: lambda record: f"ADVANCE of open {record.number} to {record.place}",
    Ended: lambda record: f"ENDED open {record.number}, {record.cause}",
    Part: _part,
    Done: lambda done: f"DONE {done.status.value} {title(done.status.name)}",
}


class Lines:
    """Lines on records in order; it remembers what the summaries of frames, and objects' names, need."""

    def __init__(self) -> None:
        self.summaries = Summaries()
        self.names = Names()

    def of(self, record: Record) -> str:
        if isinstance(record, (Received, Sent)):
            summary = self.summaries.of(record.frame)
            return f"FRAME {summary}; {len(record.frame)} bytes"
        if isinstance(record, Graph):
            self.names.take(record)
            line = _graph(record, self.names)
            self.names.drop(record)
            return line
        return LINES[type(record)](record)
