"""What to do about a failure, as the end of the sentence on it; at most one paragraph of docs/SCRIPTS.md is named."""

from __future__ import annotations

from shared.causes import Cause, Code
from shared.drive_sentences import drive_advice
from shared.drives import is_about_drives
from shared.frames import asked_address
from shared.ipxe import is_ipxe, option_of
from shared.kinds import OpenKind
from shared.records import Command
from shared.stories import Failure, OpenStory

TO_DO = ". To do: "
COMMANDS = 'docs/SCRIPTS.md, "Commands"'
FILES = 'docs/SCRIPTS.md, "Files"'
SETTINGS = 'docs/SCRIPTS.md, "Settings"'
OF_TEXT = {
    Code.BAD_URI: f"write it as `http://HOST/PATH` or `tftp://HOST/PATH` ({FILES})",
    Code.NO_SCHEME: f"serve the file by HTTP or TFTP, and write it as `http://HOST/PATH` or `tftp://HOST/PATH` ({FILES})",
    Code.BAD_VALUE: f"mend the value ({SETTINGS})",
    Code.NO_LABEL: "add that line, or mend the name",
    Code.NOT_BOOTABLE: "name a script or a kernel there",
}
OF_SILENCE = {
    OpenKind.TFTP: "see that a TFTP server runs there, and that no firewall stops it",
    OpenKind.DHCP: "see that a DHCP server serves this net and this client",
    OpenKind.DNS: "see that a name server runs there, or give another by `set dns ADDRESS`",
    OpenKind.PING: "see that it is switched on, and answers pings",
    OpenKind.ISCSI: "see that a target listens there, and that no firewall stops it",
}
OF_TFTP_ERROR = {1: "put the file there, or mend its name", 2: "let the server read the file"}
SEE_LOG = "see the server's log"


def of_failure(failure: Failure, answer: str | None) -> str:
    """What to do about a failure, where something is known; an answer came meanwhile that didn't count, or none."""
    opens = failure.opens()
    command = failure.story.words if failure.story else None
    if opens[-1].is_drive() if opens else command and is_about_drives(command):
        advice = drive_advice(failure.cause, opens[-1] if opens else None, command)
        if advice:
            return said(advice)
    if opens and failure.cause.code is Code.TIMED_OUT:
        return said(of_silence(opens[-1], answer))
    if opens and failure.cause.code in (Code.REFUSED, Code.BROKEN):
        return said(_of_refusal(failure.cause, opens[-1]))
    return said(_of_text(failure.cause, failure.story.words) if failure.story else None)


def said(advice: str | None) -> str:
    return f"{TO_DO}{advice}" if advice else ""


def of_silence(story: OpenStory, answer: str | None) -> str | None:
    """What to do where an open isn't answered."""
    kind, asked = story.open.kind, story.asked()
    if answer:
        return _of_answer(kind, answer)
    if asked and asked_address(asked[-1]) is not None:
        return "see that it is switched on, and in the client's net"
    return OF_SILENCE.get(kind)


def _of_answer(kind: OpenKind, answer: str) -> str | None:
    """What to do about an answer that didn't count, by what is said of it."""
    for part, advice in (
        ("port unreachable", f"start a server for {kind.name} there"),
        ("by ICMP on", "see that the host is switched on, and the way to it"),
        ("wrong checksum", "where it is a capture, mend its checksums by --fix-checksums"),
        ("hardware address", "give the client's hardware address by --mac"),
        ("another transaction", "where it is a capture, let boot.py replay its lease"),
        ("to port", "where it is a capture, lead its answers by --map-ports"),
    ):
        if part in answer:
            return advice
    return SEE_LOG


def _of_refusal(cause: Cause, story: OpenStory) -> str | None:
    match story.open.kind:
        case OpenKind.TFTP if cause.code is Code.BROKEN:
            return "let the server grant blocks of at most 1432 bytes, if that is what it did; else see its log"
        case OpenKind.TFTP:
            return OF_TFTP_ERROR.get(cause.b, SEE_LOG)
        case OpenKind.DNS:
            return "mend the name, or add it at the name server"
    return SEE_LOG


def _of_text(cause: Cause, command: Command) -> str | None:
    """What to do about a command that no server took part in."""
    name = command.words[0]
    if command.expanded and option_of(command):
        return f"leave it out ({COMMANDS})"
    match cause.code:
        case Code.UNKNOWN:
            return f"leave it out ({COMMANDS})" if is_ipxe(name) else f"mend the name ({COMMANDS})"
        case Code.USAGE:
            return f"write it in that form ({COMMANDS})"
        case Code.BAD_NAME if not command.expanded or name in (b"set", b"clear", b"show", b"inc"):
            return f"mend the name ({SETTINGS})"
    return OF_TEXT.get(cause.code)
