"""The one sentence on a drive that isn't hooked, and what to do about it, for somebody who runs a target."""

from __future__ import annotations

from shared.causes import MEANING, Cause, Code
from shared.drive_words import NO_PLACE
from shared.drives import HOOK, drive_text, target_name
from shared.frames import is_fin, packet_of, segment_data
from shared.iscsi import DATA_IN, HEAD, LOGIN_RESPONSE, SCSI_RESPONSE, keys_of, opcode_of, pdu_text, pdus_in
from shared.records import Command
from shared.stories import OpenStory
from shared.texts import word

RESET = 65_535
SEE_LOG = "see the target's log"
PAGE = "docs/SAN.md"
FAILURES = f'{PAGE}, "What failures mean"'
BLOCK_LENGTH, NO_SUCH_BLOCK = 512, b"\xff" * 4
# what a login's status says, by its class and detail (RFC 7143, section 11.13.5)
LOGIN_STATUSES = {
    (1, 1): "the target has moved for some time, and such moves aren't followed",
    (1, 2): "the target has moved for good, and such moves aren't followed",
    (2, 0): "the initiator has made a mistake",
    (2, 1): "the user or the secret is wrong, or CHAP is wanted and wasn't offered",
    (2, 2): "this initiator may not use the target",
    (2, 3): "there is no such target",
    (2, 4): "the target was removed, and none stands in its place",
    (2, 5): "the version of iSCSI isn't served",
    (2, 6): "there are too many connections",
    (2, 7): "a parameter is missing",
    (3, 0): "the target has failed",
    (3, 1): "the service isn't there for now",
    (3, 2): "the target has no resources left",
}
LOGIN_ADVICE = {
    (1, 1): "name the server in the URI to which it has moved",
    (1, 2): "name the server in the URI to which it has moved",
    (2, 1): "let `username` and `password` be what the target wants",
    (2, 2): "let the target serve this initiator, by its name or its address",
    (2, 3): "mend the target's name, or serve it there",
}
STATUSES = {2: "check condition", 8: "busy", 0x18: "reservation conflict", 0x28: "task set full"}


def drive_meaning(cause: Cause) -> str:
    """What the end of a drive's open means."""
    if cause.code is Code.BROKEN:
        return "the target closed the session, or sent what isn't allowed in it"
    if cause.code is not Code.REFUSED:
        return MEANING[cause.code]
    if cause.b == RESET:
        return "the server reset the connection"
    if cause.b > 255:
        return f"the login was refused: {_login_status(cause.b)}"
    return f"the unit answered: {_status(cause.b)}"


def _login_status(code: int) -> str:
    kind, detail = divmod(code, 256)
    named = LOGIN_STATUSES.get((kind, detail))
    return f"{named} (class {kind}, detail {detail})" if named else f"class {kind}, detail {detail}"


def _status(code: int) -> str:
    return f"{STATUSES[code]} (SCSI status {code})" if code in STATUSES else f"SCSI status {code}"


def of_drive_refusal(cause: Cause, story: OpenStory, server: str) -> str:
    """On a target that refused, or a connection that was reset."""
    target = word(target_name(story.open))
    if cause.b == RESET and story.block:
        return f"{server} reset the connection of the session with {target}"
    if cause.b == RESET:
        return f"{server} reset the connection to its port {story.open.port}, as where no target listens there: {target}"
    if cause.b > 255:
        return f"{server} refused the login to {target}: {_login_status(cause.b)}"
    return f"{server} answered a command for {drive_text(story.open)}: {_status(cause.b)}"


def of_drive_break(story: OpenStory, server: str, frame: bytes | None, shown: str) -> str:
    """On a target that sent what isn't allowed in its place, or closed the connection."""
    target = word(target_name(story.open))
    packet = packet_of(frame) if frame else None
    pdus = pdus_in(segment_data(packet)) if packet else []
    found = _fault_of(pdus[-1]) if pdus and not story.is_read else None
    if found:
        return found.format(server=server, target=target, drive=drive_text(story.open))
    if packet and is_fin(packet):
        return f"{server} closed the connection of the session with {target}, after {story.block} bytes"
    said = pdu_text(pdus[-1]) if pdus else shown
    if story.is_read and pdus and opcode_of(pdus[-1]) in (DATA_IN, SCSI_RESPONSE):
        return f"{server} didn't send the first block of {drive_text(story.open)} whole and in order: {said}"
    return f"{server} sent what isn't allowed in the session with {target}: {said}"


def _fault_of(last: bytes) -> str | None:
    """What is wrong with the last PDU of a segment, where that is one of these."""
    opcode = opcode_of(last)
    if opcode == LOGIN_RESPONSE:
        keys = keys_of(last)
        if b"CHAP_R" in keys or b"CHAP_N" in keys:
            return "{target} of {server} didn't prove itself: its answer isn't by `reverse-username` and `reverse-password`"
        if keys.get(b"HeaderDigest", b"None") != b"None" or keys.get(b"DataDigest", b"None") != b"None":
            return "{target} of {server} wants a digest, and none is built"
        if keys.get(b"AuthMethod", b"None") == b"None":
            return "{server} let the client in to {target} without CHAP, and `reverse-username` is set; or it broke off the login"
        return None
    size = last[HEAD : HEAD + 8]
    # the answer to READ CAPACITY alone has eight bytes
    if opcode == DATA_IN and len(size) == 8 == int.from_bytes(last[5:8], "big"):
        length = int.from_bytes(size[4:], "big")
        if length != BLOCK_LENGTH:
            return f"{{drive}} at {{server}} has blocks of {length} bytes, and only {BLOCK_LENGTH} are read"
        if size[:4] == NO_SUCH_BLOCK:
            return "{drive} at {server} has more blocks than READ CAPACITY(10) can say: 2 TiB and more aren't read"
    return None


def of_no_secret(story: OpenStory, server: str) -> str:
    return f"{word(target_name(story.open))} of {server} asks for CHAP, and `username` or `password` isn't set"


def drive_advice(cause: Cause, story: OpenStory | None, command: Command | None) -> str | None:
    """What to do about it."""
    if cause.code is Code.REFUSED and cause.b == RESET:
        return f"see that a target listens there ({FAILURES})"
    if cause.code is Code.REFUSED and cause.b > 255:
        return f"{LOGIN_ADVICE.get(divmod(cause.b, 256), SEE_LOG)} ({FAILURES})"
    if cause.code is Code.REFUSED:
        return f"see that the target has that unit, and that it is ready ({FAILURES})"
    if cause.code is Code.BROKEN and story:
        return f"{SEE_LOG} ({FAILURES})"
    if cause.code is Code.NO_SECRET:
        return f"set both before `{(command.words[0] if command else HOOK).decode()}` ({PAGE}, \"CHAP\")"
    if cause.code is Code.FULL and cause.a == NO_PLACE:
        return "let one go by `sanunhook`, or hook in its place by its number"
    if command and cause.code in (Code.BAD_URI, Code.NO_SCHEME):
        return f"write it so ({PAGE}, \"The URI\")"
    return None
