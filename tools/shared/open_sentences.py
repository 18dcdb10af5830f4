"""The one sentence on an open that failed or is waited for, for somebody who runs the network and not the program."""

from __future__ import annotations

import re
from http import HTTPStatus
from ipaddress import IPv4Address
from typing import NamedTuple

from shared.answers import TFTP_ERRORS
from shared.causes import MEANING, OK, Cause, Code
from shared.describe import target_text
from shared.drive_sentences import drive_meaning, of_drive_break, of_drive_refusal
from shared.drives import drive_text
from shared.frames import asked_address, datagram_in, is_fin, is_syn, packet_of
from shared.kinds import OpenKind
from shared.leases import Offer, offer_taken, refusal_text
from shared.messages import RCODES, tftp_error_text
from shared.records import Open
from shared.sentences import seconds, times
from shared.stories import OpenStory
from shared.texts import word
from shared.wire import Opcode

# the blocks that are asked for (RFC 2348)
MOST_BLOCK = 1_432
ANSWERED_NEVER = "never answered"
# the code of a refusal that is a reset of the connection, and no status
RESET = 65_535
# the statuses that move a file to another place (RFC 9110, section 15.4)
MOVES = (301, 302, 303, 307, 308)
# what a server's response code says (RFC 1035, section 4.1.1)
DNS_REFUSALS = {
    1: "the query is malformed",
    2: "it failed to look the name up",
    3: "there is no such name",
    4: "it doesn't serve such queries",
    5: "it refuses to answer",
}


def meaning(opened: Open, cause: Cause) -> str:
    """What the end of an open means: of a refusal, what its code says."""
    match cause.code, opened.kind:
        case Code.REFUSED, OpenKind.DNS:
            return rcode_text(cause.b) if cause.b else "the name has no IPv4 address"
        case Code.REFUSED, OpenKind.DHCP:
            return "the server refused the lease (NAK)"
        case Code.REFUSED, OpenKind.TFTP:
            return f"the server answered: {TFTP_ERRORS.get(cause.b, f'error {cause.b}')}"
        case _, OpenKind.ISCSI:
            return drive_meaning(cause)
        case Code.REFUSED, OpenKind.HTTP:
            return "the server reset the connection" if cause.b == RESET else f"the server answered: {status_text(cause.b)}"
    return MEANING[cause.code]


def named_server(story: OpenStory) -> str:
    """The server of an open: what it is, or by which name it was looked up."""
    if story.is_look_up():
        return f"the name server {story.open.server}"
    return f"{word(story.name)} ({story.open.server})" if story.name else str(story.open.server)


def of_refusal(cause: Cause, story: OpenStory, frame: bytes | None) -> str:
    """On an open whose server refused, by a frame where it is known."""
    opened, server, path = story.open, named_server(story), word(story.open.target)
    match opened.kind:
        case OpenKind.DHCP:
            return _of_nak(offer_taken(story.asked()), frame)
        case OpenKind.DNS:
            return _of_rcode(cause.b, opened)
        case OpenKind.HTTP:
            return _of_status(cause.b, story)
        case OpenKind.ISCSI:
            return of_drive_refusal(cause, story, server)
    named = TFTP_ERRORS.get(cause.b)
    if named is None:
        text = error_text(frame) if frame else None
        said = word(text) if text else f"error {cause.b}"
        return f"{server} answered: {said}, when asked for {path}"
    return f"{server} answered: {named} ({path})"


def of_break(story: OpenStory, frame: bytes | None, shown: str) -> str:
    """On an open whose server sent what isn't allowed in its place, by a frame where it is known."""
    if story.open.kind is OpenKind.HTTP:
        return _of_broken_response(story, frame, shown)
    if story.is_drive():
        return of_drive_break(story, named_server(story), frame, shown)
    body = _of_tftp(frame, Opcode.OACK) if frame else None
    texts = (body or b"")[2:].lower().split(b"\0")
    granted = next((value for name, value in zip(texts[::2], texts[1::2]) if name == b"blksize"), b"")
    if granted.isdigit() and int(granted) > MOST_BLOCK:
        return (f"{named_server(story)} grants blocks of {int(granted)} bytes of {word(story.open.target)}, and at most "
                f"{MOST_BLOCK} are asked for, as where a capture's client asked for more")
    return f"{named_server(story)} sent what isn't allowed in its place: {shown}"


def status_text(code: int) -> str:
    """A status of HTTP, with its phrase where it has one (RFC 9110, section 15)."""
    phrase = {status.value: status.phrase for status in HTTPStatus}.get(code)
    return f"{code} {phrase}" if phrase else f"status {code}"


def _of_status(code: int, story: OpenStory) -> str:
    """On a response that refuses, or a connection that was reset before it was whole."""
    server, url = named_server(story), word(story.open.target)
    if code == RESET and story.block:
        return f"{server} reset the connection after {story.block} bytes of its response for {url}"
    if code == RESET:
        return f"{server} reset the connection to its port {story.open.port}, as where nobody listens there: {url}"
    hint = "; it names no place to which it has moved" if code in MOVES else ""
    return f"{server} answered: {status_text(code)} ({url}){hint}"


def of_response(cause: Cause, stories: list[OpenStory]) -> str:
    """On a response that passes a limit, or that has moved the file to what isn't fetched; empty if it doesn't."""
    last = stories[-1]
    if last.open.kind is not OpenKind.HTTP:
        return ""
    server, url = named_server(last), word(last.open.target)
    match cause.code, cause.a:
        case Code.TOO_MANY, 2:
            return f"{word(stories[0].open.target)} was moved more than five times, the last time by {server} from {url}"
        case Code.TOO_MANY, 7:
            return f"the head of the response of {server} for {url} has more than 64 fields"
        case Code.TOO_LARGE, 1:
            return f"{url} has more than 268435456 bytes, the most of an image, as {server} sends it"
        case Code.TOO_LONG, 6:
            return f"the head, a size line or a trailer of the response of {server} for {url} has more than 16384 bytes"
        case Code.NO_SCHEME | Code.BAD_URI | Code.BAD_NAME | Code.NO_SERVER, _ if last.ended and last.ended.record.cause == OK:
            return f"{server} has moved {url} to a place that can't be asked for: {MEANING[cause.code]}"
    return ""


def _of_broken_response(story: OpenStory, frame: bytes | None, shown: str) -> str:
    """On a response that isn't one, or that was cut off: the server's end came before that of its body."""
    server, url = named_server(story), word(story.open.target)
    packet = packet_of(frame) if frame else None
    if packet and is_fin(packet):
        return f"{server} closed the connection after {story.block} bytes, before its response for {url} was whole"
    return f"{server} sent no response of HTTP for {url}, or a body that isn't framed as its head says: {shown}"


def _of_nak(offer: Offer | None, frame: bytes | None) -> str:
    text = refusal_text(frame) if frame else None
    said = f": {word(text)}" if text else ""
    if offer is None:
        return f"the DHCP server refused the lease (NAK){said}"
    return f"the DHCP server {offer.server} offered {offer.address}, and then refused to lease it (NAK){said}"


def _of_rcode(code: int, opened: Open) -> str:
    name, server, hint = word(opened.target), f"the name server {opened.server}", _name_hint(opened.target)
    if code == 0:
        return f"{name} has no IPv4 address, as {server} answered{hint}"
    return f"{server} answered, when asked for {name}: {rcode_text(code)}{hint}"


def _name_hint(name: bytes) -> str:
    """What may be meant by a name that isn't found, where it is an address by its looks, or alone."""
    if name.startswith(b"["):
        return f"; {word(name)} is an address of IPv6, which isn't built, and so was looked up"
    if re.fullmatch(rb"[0-9.]+", name):
        return f"; {word(name)} isn't four decimals from 0 to 255, and so no address, and was looked up"
    return "" if b"." in name else f"; {word(name)} has no dot, and no `domain` was set to stand after it"


def rcode_text(code: int) -> str:
    """What a response code other than 0 says, with its name."""
    return f"{DNS_REFUSALS[code]} ({RCODES[code]})" if code in DNS_REFUSALS else f"response code {code}"


class Came(NamedTuple):
    """What came while an open waited: whether it is known, and an answer that didn't count, in words."""

    is_known: bool
    answer: str | None


def of_silence(story: OpenStory, span: int | None, came: Came) -> str:
    """On an open whose server didn't answer; the span is the time since it was asked first."""
    asked = [tried.frame.frame for tried in story.sent() if tried.frame]
    often = times(len(asked)) + (f" in {seconds(span)}" if span is not None else "")
    silent = _silent(story, asked, ANSWERED_NEVER if came.is_known else "gave no answer that counted")
    return f"{came.answer}; {silent.asked} {often}" if came.answer else f"{silent.sentence} {often}"


class Silent(NamedTuple):
    """A sentence on who is silent, up to how often it was asked, and the part of it that says what was done."""

    sentence: str
    asked: str


def _silent(story: OpenStory, asked: list[bytes], how: str) -> Silent:
    hop, path, server = asked_address(asked[-1]) if asked else None, word(story.open.target), named_server(story)
    if hop:
        who = _hop(story, hop)
        return Silent(f"{who} {how}: its hardware address was asked for", f"the hardware address of {who} was asked for")
    match story.open.kind:
        case OpenKind.DHCP:
            return _silent_lease(offer_taken(asked), how)
        case OpenKind.DNS:
            return Silent(f"{server} {how}: it was asked for {path}", f"it was asked for {path}")
        case OpenKind.PING:
            return Silent(f"{server} {how}: it was pinged", f"{server} was pinged")
        case OpenKind.HTTP | OpenKind.ISCSI:
            return _silent_connection(story, asked, how)
    if story.block or is_acknowledgement(asked):
        last = f"block {story.block} of {path}" if story.block else f"its OACK for {path}"
        sentence = f"{server} stopped answering after {last}, which was acknowledged"
        return Silent(sentence, f"{last} was acknowledged")
    return Silent(f"{server} {how}: {path} was asked for", f"{path} was asked for")


def _silent_connection(story: OpenStory, asked: list[bytes], how: str) -> Silent:
    """On a connection: its SYN, its request, or nothing that waits to be acknowledged, and then probes."""
    server, url = named_server(story), target_text(story.open)
    packet = packet_of(asked[-1]) if asked else None
    if packet and is_syn(packet):
        port = f"a connection to its port {story.open.port} was asked for"
        return Silent(f"{server} {how}: {port}", port)
    if story.is_drive():
        return Silent(f"{server} stopped answering in the session with {url}", f"it was asked in the session with {url}")
    after = f"after {story.block} bytes of its response for {url}" if story.block else f"when asked for {url}"
    return Silent(f"{server} stopped answering {after}", f"it was asked on {url}")


def _hop(story: OpenStory, hop: IPv4Address) -> str:
    """The host to which an open's frames go: its server, or the gateway before that."""
    return named_server(story) if hop == story.open.server else f"the gateway {hop}"


def _silent_lease(offer: Offer | None, how: str) -> Silent:
    if offer is None:
        nobody = "no DHCP server offered a lease" if how == ANSWERED_NEVER else "no offer of a lease counted"
        return Silent(f"{nobody}: one was asked for", "a lease was asked for")
    what = f"the DHCP server {offer.server} offered {offer.address}"
    asked = f"the lease of {offer.address} was asked for"
    to = "the request" if how == ANSWERED_NEVER else "to the request"
    return Silent(f"{what}, and {how} {to} for it, which was sent", asked)


def of_wait(story: OpenStory, known: set[IPv4Address] | None) -> str:
    """What an open waits for; of the known hosts the hardware address has come, where that is known."""
    opened, asked, server = story.open, story.asked(), named_server(story)
    hop = asked_address(asked[-1]) if asked else None
    if hop and known is None:
        return f"{_hop(story, hop)}, whose hardware address was asked for"
    if hop and known is not None and hop not in known:
        return f"the hardware address of {_hop(story, hop)}"
    if hop:
        is_ping = opened.kind is OpenKind.PING
        then = f"{server} is pinged" if is_ping else f"{target_text(opened)} is asked for"
        return f"the next try, as {_hop(story, hop)} had only said its hardware address: {then} then"
    match opened.kind:
        case OpenKind.DHCP:
            return _of_awaited_lease(offer_taken(asked))
        case OpenKind.DNS:
            return f"the answer of {server} on {word(opened.target)}"
        case OpenKind.PING:
            return f"the echo reply of {server}"
        case OpenKind.HTTP | OpenKind.ISCSI:
            return _of_awaited_response(story, asked)
    path = word(opened.target)
    if story.block or is_acknowledgement(asked):
        return f"block {story.block + 1} of {path} from {server}"
    return f"the first answer of {server} to the request for {path}"


def _of_awaited_response(story: OpenStory, asked: list[bytes]) -> str:
    server, url = named_server(story), word(story.open.target)
    packet = packet_of(asked[-1]) if asked else None
    if packet and is_syn(packet):
        return f"the connection to port {story.open.port} of {server}"
    if story.is_read:
        return f"the first block of {drive_text(story.open)} from {server}"
    if story.is_drive():
        return f"what {server} says next in the session with {target_text(story.open)}"
    if story.block:
        return f"more of the response of {server} for {url}, of which {story.block} bytes have come"
    return f"the first bytes of the response of {server} for {url}"


def _of_awaited_lease(offer: Offer | None) -> str:
    if offer is None:
        return "the offer of a DHCP server"
    return f"the answer of the DHCP server {offer.server} to the request for {offer.address}"


def is_acknowledgement(asked: list[bytes]) -> bool:
    """Whether the last of these frames acknowledges: block 0 stands for the first OACK (RFC 2347)."""
    return bool(asked) and _of_tftp(asked[-1], Opcode.ACK) is not None


def error_text(frame: bytes) -> bytes | None:
    """The text of a TFTP ERROR."""
    body = _of_tftp(frame, Opcode.ERROR)
    return None if body is None else tftp_error_text(body)


def _of_tftp(frame: bytes, opcode: Opcode) -> bytes | None:
    """The datagram that a frame carries, where it is a TFTP packet of this kind."""
    body = datagram_in(frame)
    return body if body and int.from_bytes(body[:2], "big") == opcode else None
