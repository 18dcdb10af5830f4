"""A second reading of the rules of settings and of expansion (docs/SCRIPTS.md)."""

from __future__ import annotations

import base64
import binascii
import re
from ipaddress import IPv4Address
from typing import Callable, NamedTuple
from uuid import UUID

from shared.causes import Cause, Code
from shared.records import Start

MOST_BYTES = 4_096
MOST_VALUE = 1_024
MOST_SETTINGS = 128
BAD_NAME, BAD_VALUE = Cause(Code.BAD_NAME), Cause(Code.BAD_VALUE)
LONG_WORDS, LONG_VALUE = Cause(Code.TOO_LONG, 1), Cause(Code.TOO_LONG, 2)
MANY_SETTINGS = Cause(Code.TOO_MANY, 5)
ROOT = b""

LISTED = {
    b"netmask": ("1", "ipv4"),
    b"gateway": ("3", "ipv4"),
    b"dns": ("6", "ipv4"),
    b"hostname": ("12", "string"),
    b"domain": ("15", "string"),
    b"root-path": ("17", "string"),
    b"dhcp-server": ("54", "ipv4"),
    b"filename": ("67", "string"),
    b"user-class": ("77", "string"),
    b"initiator-iqn": ("203", "string"),
    b"priority": ("175.1", "int8"),
    b"keep-san": ("175.8", "int8"),
    b"skip-san-boot": ("175.9", "int8"),
    b"no-pxedhcp": ("175.176", "uint8"),
    b"busid": ("175.177", "hex"),
    b"san-drive": ("175.189", "uint8"),
    b"username": ("175.190", "string"),
    b"password": ("175.191", "string"),
    b"reverse-username": ("175.192", "string"),
    b"reverse-password": ("175.193", "string"),
    b"version": ("175.235", "string"),
}
UNTAGGED = {b"ip": "ipv4", b"next-server": "ipv4", b"mac": "hex", b"uuid": "uuid"}
KINDS_OF_TAGS = {tag.encode(): kind for tag, kind in LISTED.values()}
INTEGERS = {"int8": 1, "int16": 2, "int32": 4, "uint8": 1, "uint16": 2, "uint32": 4}
JOINED_BY = {"hex": b":", "hexhyp": b"-", "hexraw": b""}
KINDS = ("string", "ipv4", *INTEGERS, *JOINED_BY, "base64", "uuid", "uristring")
UNESCAPED = frozenset(b"abcdefghijklmnopqrstuvwxyzABCDEFGHIJKLMNOPQRSTUVWXYZ0123456789-._~")

WORD = rb"(?![0-9]+(?![\w-]))[A-Za-z0-9_-]{1,63}"
NUMBER = rb"(?:[1-9]|[1-9][0-9]|1[0-9][0-9]|2[0-4][0-9]|25[0-4])"
NAME = re.compile(
    rb"(?:(%b(?:\.%b)?)/)?(%b|%b(?:\.%b)?)(?::([a-z0-9]+))?" % (WORD, WORD, WORD, NUMBER, NUMBER)
)


class Refusal(Exception):
    """A command is refused with a cause."""


class Name(NamedTuple):
    """Of a setting: its block, its tag or else its word, and the kind that is given with it."""

    block: bytes | None
    key: bytes
    kind: str | None

    def usual_kind(self) -> str:
        return KINDS_OF_TAGS.get(self.key) or UNTAGGED.get(self.key, "string")


def name_of(text: bytes) -> Name:
    """The name that a text is; BadName where it is none."""
    found = NAME.fullmatch(text)
    kind = found[3].decode() if found and found[3] is not None else None
    if found is None or kind not in (None, *KINDS):
        raise Refusal(BAD_NAME)
    tag, _ = LISTED.get(found[2], (None, None))
    return Name(found[1], tag.encode() if tag else found[2], kind)


def number_of(text: bytes, least: int, most: int) -> int | None:
    """A decimal without zeros in front, or `0x` and hexadecimal; `-` where numbers below 0 are in range."""
    found = re.fullmatch(rb"(-?)(?:(0|[1-9][0-9]*)|0x([0-9A-Fa-f]+))", text)
    if found is None or (found[1] and least >= 0):
        return None
    number = int(found[2]) if found[2] is not None else int(found[3], 16)
    number = -number if found[1] else number
    return number if least <= number <= most else None


def range_of(kind: str) -> tuple[int, int]:
    bits = 8 * INTEGERS[kind]
    return (-(1 << bits - 1), (1 << bits - 1) - 1) if kind[0] == "i" else (0, (1 << bits) - 1)


def integer(kind: str, value: bytes) -> int:
    """The number that a value is by an integer kind: its last bytes, extended by their sign or by zeros."""
    return int.from_bytes(value[-INTEGERS[kind]:], "big", signed=kind[0] == "i")


def printed(kind: str, value: bytes) -> bytes:
    """A value as text. Servers end texts in zero bytes, which the two text kinds leave out."""
    if kind in ("string", "uristring"):
        value = value.rstrip(b"\0")
    if kind == "ipv4":
        return b".".join(b"%d" % byte for byte in value[:4]) if len(value) >= 4 else b""
    if kind in INTEGERS:
        number = integer(kind, value)
        return b"" if not value else b"%d" % number if kind[0] == "i" else b"0x%x" % number
    if kind in JOINED_BY:
        return JOINED_BY[kind].join(b"%02x" % byte for byte in value)
    if kind == "base64":
        return base64.b64encode(value)
    if kind == "uuid":
        return str(UUID(bytes=value)).encode() if len(value) == 16 else b""
    if kind == "uristring":
        return b"".join(bytes([b]) if b in UNESCAPED else b"%%%02X" % b for b in value)
    return value


def parsed(kind: str, text: bytes) -> bytes:
    """The bytes that a text is by a kind; BadValue where it is none."""
    value = read_integer(kind, text) if kind in INTEGERS else READS[kind](text)
    if value is None:
        raise Refusal(BAD_VALUE)
    return value


def read_integer(kind: str, text: bytes) -> bytes | None:
    number = number_of(text, *range_of(kind))
    return None if number is None else number.to_bytes(INTEGERS[kind], "big", signed=number < 0)


def read_address(text: bytes) -> bytes | None:
    numbers = [number_of(part, 0, 255) if part.isdigit() else None for part in text.split(b".")]
    return None if len(numbers) != 4 or None in numbers else bytes(numbers)


def read_pairs(join: bytes) -> Callable[[bytes], bytes | None]:
    pair = rb"[0-9A-Fa-f]{2}"
    form = re.compile(rb"%b(?:%b%b)*" % (pair, join, pair))
    return lambda text: bytes.fromhex(text.replace(join, b"").decode()) if form.fullmatch(text) else None


def read_base64(text: bytes) -> bytes | None:
    """The canonical form alone."""
    try:
        value = base64.b64decode(text, validate=True)
    except binascii.Error:
        return None
    return value if base64.b64encode(value) == text else None


def read_uuid(text: bytes) -> bytes | None:
    form = b"-".join(rb"[0-9A-Fa-f]{%d}" % length for length in (8, 4, 4, 4, 12))
    return UUID(text.decode()).bytes if re.fullmatch(form, text) else None


def read_escaped(text: bytes) -> bytes:
    """Percent-decoded; a `%` without two digits after it stays as it is."""
    return re.sub(rb"%([0-9A-Fa-f]{2})", lambda found: bytes([int(found[1], 16)]), text)


READS: dict[str, Callable[[bytes], bytes | None]] = {
    "string": lambda text: text,
    "ipv4": read_address,
    **{kind: read_pairs(join) for kind, join in JOINED_BY.items()},
    "base64": read_base64,
    "uuid": read_uuid,
    "uristring": read_escaped,
}


class Value(NamedTuple):
    kind: str
    bytes: bytes


class Table:
    """The settings of a run: the root's, and those of net0, which START gives."""

    def __init__(self, start: Start) -> None:
        given = {b"mac": start.mac, b"uuid": start.uuid.bytes}
        if start.ip != IPv4Address(0):
            addresses = {b"ip": start.ip, b"1": start.mask, b"3": start.gateway, b"6": start.dns}
            given |= {key: ip.packed for key, ip in addresses.items() if ip != IPv4Address(0)}
        net0 = {key: Value(Name(None, key, None).usual_kind(), value) for key, value in given.items()}
        self.blocks: dict[bytes, dict[bytes, Value]] = {ROOT: {}, b"net0": net0}

    def find(self, name: Name) -> Value | None:
        """The first that has the setting: the root and then net0, or the named block and those below it."""
        for block, settings in self.blocks.items():
            is_meant = name.block in (None, block) or block.startswith((name.block or b"") + b".")
            if is_meant and name.key in settings:
                return settings[name.key]
        return None

    def shown(self, name: Name) -> bytes:
        value = self.find(name)
        return printed(name.kind or value.kind, value.bytes) if value else b""

    def named(self, name: Name) -> dict[bytes, Value]:
        """The settings of the named block, or of the root; BadName where there is no such block."""
        block = self.blocks.get(ROOT if name.block is None else name.block)
        if block is None:
            raise Refusal(BAD_NAME)
        return block

    def put(self, name: Name, kind: str, value: bytes) -> None:
        block = self.named(name)
        if len(value) > MOST_VALUE:
            raise Refusal(LONG_VALUE)
        if name.key not in block and len(block) == MOST_SETTINGS:
            raise Refusal(MANY_SETTINGS)
        block[name.key] = Value(kind, value)

    def set(self, name: Name, text: bytes) -> None:
        """Reads a text by the name's kind; one without bytes clears."""
        block = self.named(name)
        kind = name.kind or name.usual_kind()
        if not text:
            block.pop(name.key, None)
            return
        self.put(name, kind, parsed(kind, text))

    def add(self, name: Name, number: int) -> None:
        old = self.named(name).get(name.key)
        kind, total = "int32", number
        if old:
            if old.kind not in INTEGERS:
                raise Refusal(BAD_VALUE)
            kind, total = old.kind, integer(old.kind, old.bytes) + number
        least, most = range_of(kind)
        if not least <= total <= most:
            raise Refusal(BAD_VALUE)
        self.put(name, kind, total.to_bytes(INTEGERS[kind], "big", signed=total < 0))


def expand(text: bytes, table: Table) -> bytes:
    """A word's text; BadName goes before TooLong."""
    parts, rest = [b""], text
    while rest:
        if rest[:2] == b"${":
            parts.append(b"")
            rest = rest[2:]
            continue
        if rest[:1] == b"}" and len(parts) > 1:
            name = name_of(parts.pop())
            parts[-1] += table.shown(name)
        else:
            parts[-1] += rest[:1]
        rest = rest[1:]
    whole = b"${".join(parts)
    if len(whole) > MOST_BYTES:
        raise Refusal(LONG_WORDS)
    return whole


def expand_all(words: tuple[bytes, ...], table: Table) -> tuple[bytes, ...]:
    """A command's words, from the left; the length of all is judged last."""
    expanded = tuple(expand(word, table) for word in words)
    if sum(map(len, expanded)) > MOST_BYTES:
        raise Refusal(LONG_WORDS)
    return expanded
