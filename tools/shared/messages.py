"""Says in a few words what a message over UDP is: TFTP, DHCP or DNS. None: not of that kind."""

from __future__ import annotations

from dataclasses import dataclass
from ipaddress import IPv4Address
from typing import Iterator

from shared.texts import count, word
from shared.wire import Opcode
from shared.wire_dhcp import COOKIE, END, Kind, Tag

DHCP_FIXED = 236
# the options that lead to other hosts, with the names that their settings have
WAYS = ((Tag.NETMASK, "netmask"), (Tag.GATEWAY, "gateway"), (Tag.DNS, "dns"))
# what option 52 says of the two other fields (RFC 2132, section 9.3)
FILE_HAS_OPTIONS, SERVER_HAS_OPTIONS = 1, 2
DNS_HEADER = 12
DNS_RESPONSE = 0x8000
DNS_A = 1
DNS_CNAME = 5
# the names of response codes and of other records than are read here, as servers' logs have them
RCODES = {1: "FORMERR", 2: "SERVFAIL", 3: "NXDOMAIN", 4: "NOTIMP", 5: "REFUSED"}
OTHER_RECORDS = {6: "SOA", 16: "TXT", 28: "AAAA", 46: "RRSIG", 65: "HTTPS"}
DNS_MAX_NAME = 255
DNS_POINTER = 0xC0


def tftp(body: bytes) -> str | None:
    """A TFTP packet (RFC 1350, section 5; RFC 2347)."""
    opcode = int.from_bytes(body[0:2], "big")
    if len(body) >= 2 and opcode == Opcode.OACK:
        options = _texts(body[2:])
        return None if options is None else f"TFTP OACK{_options(options)}"
    if len(body) < 4:
        return None
    number = int.from_bytes(body[2:4], "big")
    match opcode:
        case Opcode.RRQ | Opcode.WRQ:
            return _tftp_request("RRQ" if opcode == Opcode.RRQ else "WRQ", body[2:])
        case Opcode.DATA:
            return f"TFTP DATA {number} of {count(len(body) - 4, 'byte')}"
        case Opcode.ACK if len(body) == 4:
            return f"TFTP ACK {number}"
        case Opcode.ERROR:
            return f"TFTP ERROR {number} {word(tftp_error_text(body))}"
    return None


def tftp_error_text(body: bytes) -> bytes:
    """The text of a TFTP ERROR: the bytes before the first zero byte, or all where there is none."""
    return body[4:].partition(b"\0")[0]


def _texts(data: bytes) -> list[bytes] | None:
    """Texts that each end in a zero byte."""
    *texts, rest = data.split(b"\0")
    return None if rest else texts


def _options(texts: list[bytes]) -> str:
    pairs = zip(texts[0::2], texts[1::2])
    return "".join(f" {word(name)}={word(value)}" for name, value in pairs)


def _tftp_request(name: str, data: bytes) -> str | None:
    texts = _texts(data)
    if texts is None or len(texts) < 2:
        return None
    return f"TFTP {name} {word(texts[0])} {word(texts[1])}{_options(texts[2:])}"


@dataclass(frozen=True, slots=True)
class LeaseMessage:
    """A DHCP message, as far as a lease depends on it (RFC 2131, section 2)."""

    operation: int
    xid: int
    given: IPv4Address
    mac: bytes
    options: bytes
    server_field: bytes = b""
    file_field: bytes = b""

    @property
    def kind(self) -> int | None:
        value = self.option(Tag.KIND)
        return value[0] if value else None

    @property
    def name(self) -> str:
        if self.kind is None:
            return "without a kind"
        return Kind(self.kind).name if self.kind in list(Kind) else f"kind {self.kind}"

    def option(self, tag: int) -> bytes | None:
        """The value of an option of the main field, where it stands there."""
        return next((value for found, value in options_of(self.options) if found == tag), None)

    def boot_file(self) -> bytes | None:
        """The name of the file to boot: of its own field, or by option 67 in any field that has options."""
        overload = (self.option(Tag.OVERLOAD) or b"\0")[0]
        own = self.file_field.split(b"\0", 1)[0]
        if own and not overload & FILE_HAS_OPTIONS:
            return own
        texts = [self.options]
        texts += [self.file_field] if overload & FILE_HAS_OPTIONS else []
        texts += [self.server_field] if overload & SERVER_HAS_OPTIONS else []
        pieces = [value for text in texts for tag, value in options_of(text) if tag == Tag.FILENAME and value]
        return b"".join(pieces).rstrip(b"\0") or None

    def address(self, tag: int) -> IPv4Address | None:
        """The first four bytes of such a value."""
        value = self.option(tag)
        return IPv4Address(value[:4]) if value and len(value) >= 4 else None

    def is_sound(self) -> bool:
        """Whether no option goes past the message's end."""
        return all(value is not None for _, value in options_of(self.options))


def options_of(text: bytes) -> Iterator[tuple[int, bytes | None]]:
    """The options of a field; the value of one that goes past its end is None."""
    at = 0
    while at < len(text) and text[at] != END[0]:
        if text[at] == 0:
            at += 1
            continue
        end = at + 2 + (text[at + 1] if at + 1 < len(text) else len(text))
        yield text[at], text[at + 2 : end] if end <= len(text) else None
        at = end


def lease_message(body: bytes) -> LeaseMessage | None:
    """What a datagram says by DHCP, if it is such a message."""
    if len(body) < DHCP_FIXED + 4 or body[DHCP_FIXED : DHCP_FIXED + 4] != COOKIE:
        return None
    xid, given = int.from_bytes(body[4:8], "big"), IPv4Address(body[16:20])
    fields = body[44:108], body[108:DHCP_FIXED]
    return LeaseMessage(body[0], xid, given, body[28:34], body[DHCP_FIXED + 4 :], *fields)


def dhcp(body: bytes) -> str | None:
    """A DHCP message."""
    message = lease_message(body)
    if message is None:
        return None
    lease = f", gives {message.given}" if int(message.given) else ""
    return f"DHCP {message.name}, xid 0x{message.xid:08x}{lease}{_of_ways(message)}"


def _of_ways(message: LeaseMessage) -> str:
    """What a message says of ways to other hosts, by the names of settings."""
    addresses = [(name, message.address(tag)) for tag, name in WAYS]
    said = [f", {name} {address}" for name, address in addresses if address]
    domain = message.option(Tag.DOMAIN)
    return "".join(said) + (f", domain {word(domain)}" if domain else "")


@dataclass(frozen=True, slots=True)
class NameMessage:
    """A DNS query or answer with one question (RFC 1035, section 4.1)."""

    number: int
    flags: int
    name: bytes
    records: list[str]

    @property
    def is_answer(self) -> bool:
        return self.flags & DNS_RESPONSE != 0

    @property
    def rcode(self) -> int:
        return self.flags & 15


def name_message(body: bytes) -> NameMessage | None:
    """What a datagram says by DNS, if it is such a message."""
    if len(body) < DNS_HEADER or int.from_bytes(body[4:6], "big") != 1:
        return None
    question = _dns_name(body, DNS_HEADER)
    if question is None:
        return None
    name, at = question
    number, flags = int.from_bytes(body[0:2], "big"), int.from_bytes(body[2:4], "big")
    return NameMessage(number, flags, name, _dns_records(body, at + 4, int.from_bytes(body[6:8], "big")))


def dns(body: bytes) -> str | None:
    """A DNS query or answer."""
    message = name_message(body)
    if message is None:
        return None
    asked = f"0x{message.number:04x} {word(message.name)}"
    if not message.is_answer:
        return f"DNS query {asked}"
    if message.rcode:
        name = f" ({RCODES[message.rcode]})" if message.rcode in RCODES else ""
        return f"DNS answer {asked}: rcode {message.rcode}{name}"
    return f"DNS answer {asked}: {', '.join(message.records) or 'nothing'}"


def _dns_name(body: bytes, at: int) -> tuple[bytes, int] | None:
    """A name and the place after it. Pointers lead to earlier places only."""
    labels: list[bytes] = []
    after = None
    limit = at
    while at < len(body):
        length = body[at]
        if length & DNS_POINTER == DNS_POINTER and at + 1 < len(body):
            after = after or at + 2
            at = int.from_bytes(body[at : at + 2], "big") & 0x3FFF
            if at >= limit:
                return None
            limit = at
        elif length & DNS_POINTER or sum(map(len, labels)) > DNS_MAX_NAME:
            return None
        elif length == 0:
            return b".".join(labels), after or at + 1
        else:
            labels.append(body[at + 1 : at + 1 + length])
            at += 1 + length
    return None


def _dns_records(body: bytes, at: int, answers: int) -> list[str]:
    """The addresses and other names of the answer section, and which other records it has, as far as it can be read."""
    found = []
    for _ in range(answers):
        owner = _dns_name(body, at)
        if owner is None or owner[1] + 10 > len(body):
            break
        at = owner[1]
        kind = int.from_bytes(body[at : at + 2], "big")
        length = int.from_bytes(body[at + 8 : at + 10], "big")
        data = at + 10
        alias = _dns_name(body, data) if kind == DNS_CNAME else None
        if kind == DNS_A and length == 4 and data + 4 <= len(body):
            found.append(str(IPv4Address(body[data : data + 4])))
        elif alias:
            found.append(f"is {word(alias[0])}")
        else:
            found.append(f"{OTHER_RECORDS.get(kind, f'kind {kind}')} record")
        at = data + length
    return found
