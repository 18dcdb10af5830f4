"""Names of settings and their kinds, as docs/SCRIPTS.md has them: what is wrong with one, in words."""

from __future__ import annotations

import re

from shared.texts import word

MOST_SETTINGS = 128
MOST_VALUE = 1_024
BLOCKS = (b"net0",)
# the block that a lease makes
LEASED = b"net0.dhcp"

# The kinds, with what each reads.
READS = {
    b"string": "any bytes",
    b"ipv4": "an address of four decimals",
    b"int8": "a number from -128 to 127",
    b"int16": "a number from -32768 to 32767",
    b"int32": "a number from -2147483648 to 2147483647",
    b"uint8": "a number from 0 to 255",
    b"uint16": "a number from 0 to 65535",
    b"uint32": "a number from 0 to 4294967295",
    b"hex": "pairs of hexadecimal digits joined by `:`",
    b"hexhyp": "pairs of hexadecimal digits joined by `-`",
    b"hexraw": "pairs of hexadecimal digits with nothing between them",
    b"base64": "base64 with its padding",
    b"uuid": "a UUID with its hyphens",
    b"uristring": "any bytes, or %XX for one",
}
# The names and tags that have another kind than string.
KINDS = {
    b"netmask": b"ipv4", b"1": b"ipv4", b"gateway": b"ipv4", b"3": b"ipv4", b"dns": b"ipv4", b"6": b"ipv4",
    b"dhcp-server": b"ipv4", b"54": b"ipv4", b"ip": b"ipv4", b"next-server": b"ipv4", b"uuid": b"uuid", b"mac": b"hex",
    b"priority": b"int8", b"175.1": b"int8", b"keep-san": b"int8", b"175.8": b"int8", b"skip-san-boot": b"int8",
    b"175.9": b"int8", b"no-pxedhcp": b"uint8", b"175.176": b"uint8", b"san-drive": b"uint8", b"175.189": b"uint8",
    b"busid": b"hex", b"175.177": b"hex",
}  # fmt: skip

WORD = rb"(?![0-9]+(?:[./:]|$))[A-Za-z0-9_-]{1,63}"
NUMBER = rb"(?:[1-9]|[1-9][0-9]|1[0-9][0-9]|2[0-4][0-9]|25[0-4])"
BLOCK = re.compile(rb"%b(?:\.%b)?" % (WORD, WORD))
KEY = re.compile(rb"%b|%b(?:\.%b)?" % (WORD, NUMBER, NUMBER))
# a part that has no other part in it, where no value can be: what stands there is a name
PART = re.compile(rb"\$\{([^${}]*)\}")


def parts_of(name: bytes) -> tuple[bytes | None, bytes, bytes | None]:
    """The block, the setting and the kind of `[block/]name[:kind]`, without a look at what they are."""
    block, slash, rest = name.rpartition(b"/")
    key, colon, kind = rest.partition(b":")
    return block if slash else None, key, kind if colon else None


def name_fault(name: bytes) -> str | None:
    """Why a text is no name of a setting, if it is none."""
    block, key, kind = parts_of(name)
    if kind is not None and kind not in READS:
        return f"{word(name)} has a kind that there isn't: {word(kind)}"
    if (block is None or BLOCK.fullmatch(block)) and KEY.fullmatch(key):
        return None
    form = "letters, digits, `-` and `_`, or a tag as `67` and `175.190`"
    return f"{word(name)} is no name of a setting: `[block/]name[:kind]`, the name of {form}"


def part_fault(words: tuple[bytes, ...]) -> str | None:
    """Why words as they are written can't be expanded, where a part shows that by itself."""
    for text in words:
        for found in PART.finditer(text):
            fault = name_fault(found[1])
            if fault:
                return fault
    return None


def kind_of(name: bytes) -> bytes:
    """The kind by which `set` reads a value: the one given with the name, or that of the name."""
    _, key, kind = parts_of(name)
    return kind or KINDS.get(key, b"string")


def block_of(name: bytes) -> bytes | None:
    """The block that `set`, `clear` and `inc` use; None for the root."""
    return parts_of(name)[0]


def place_of(name: bytes) -> str:
    """The same in words."""
    block = block_of(name)
    return "the root" if block is None else f"the block {word(block)}"
