"""Scripts within scripts made by chance, and the files of their server."""

from __future__ import annotations

import random

from tests.nested_rows import EFI, ELF, LINUX, URI
from tests.script_rows import FIRST

SCRIPTS, FOLDERS = (b"a", b"b", b"c", b"s.ipxe"), (b"", b"d/")
FILES = {
    b"k": ELF, b"vmlinuz": LINUX, b"p.efi": EFI, b"o": b"hello", b"n": b"", b"big": bytes(1_024), b"d/k": ELF + b" of d",
    b"d/o": b"#!ipx", b"l": FIRST + b"#" * 4_097, b"r": b"#!ipxe \r\nexit 4\r\n",
}  # fmt: skip
NAMES = (*SCRIPTS, b"k", b"vmlinuz", b"p.efi", b"o", b"n", b"big", b"l", b"r", b"missing", b"x", b"10.0.0.1")
OPTIONS = (b"--name x", b"--name k", b"--name a", b"--name --k", b"--autofree", b"--replace", b"--replace --autofree",
           b"--name a --name b", b"--x", b"--name", b"--autofree --autofree")  # fmt: skip
ARGS = (b"", b"", b" q", b" console=ttyS0 ip=dhcp", b" a  b", b" --name")
FETCHES, SELECTS, EXECUTES = ((b"imgfetch", b"initrd", b"module"), (b"imgselect", b"kernel", b"imgload"),
                              (b"imgexec", b"chain", b"boot"))  # fmt: skip
OTHERS = (b"echo x", b"foo", b"exit", b"exit 3", b"exit 0", b"goto a", b"goto b", b"goto none", b"iseq a b", b"iseq a a",
          b"", b"# c", b"imgstat", b"imgstat", b"imgstat x", b"boot", b"imgexec", b"chain --replace", b"imgfree",
          b"imgargs", b"imgargs --x", b"imgfree --x")  # fmt: skip
FRONTS = (b"", b"", b"", b"/", b"../", b"./", b"d/", b"d/../", URI, URI + b"d/", b"https://10.0.0.1/", URI + b"../")
WHOLE = (URI, URI, URI, URI + b"d/")


def random_uri(chance: random.Random, is_first: bool) -> bytes:
    """The URI of a script or of another file, in the first script mostly a whole one."""
    front = chance.choice(WHOLE if is_first and chance.random() < 0.85 else FRONTS)
    kind = chance.random()
    return front + chance.choice(SCRIPTS if kind < 0.45 else NAMES[4:12] if kind < 0.93 else NAMES[12:14])


def random_command(chance: random.Random, is_first: bool) -> bytes:
    kind = chance.random()
    if kind < 0.15:
        return chance.choice(OTHERS)
    if kind < 0.3:
        return b"imgargs " + chance.choice(NAMES) + chance.choice(ARGS)
    if kind < 0.38:
        return b"imgfree " + b" ".join(chance.choice(NAMES) for _ in range(chance.choice((1, 1, 2))))
    name = chance.choice(chance.choice((FETCHES, SELECTS, EXECUTES, EXECUTES)))
    option = chance.choice(OPTIONS[:7] if chance.random() < 0.8 else OPTIONS) + b" " if chance.random() < 0.25 else b""
    target = chance.choice(NAMES) if chance.random() < 0.2 else random_uri(chance, is_first)
    return name + b" " + option + target + chance.choice(ARGS)


def random_script(chance: random.Random, most: int, is_first: bool) -> bytes:
    """A text of a few lines, most of whose failures are mended."""
    text = FIRST
    for _ in range(chance.randint(1, most)):
        if chance.random() < 0.12:
            text += chance.choice((b":a\n", b":b\n", b"\n"))
            continue
        line = random_command(chance, is_first)
        for _ in range(chance.choice((0, 0, 1, 2))):
            line += chance.choice((b" && ", b" || ", b" ; ", b" ; ")) + random_command(chance, is_first)
        text += line + chance.choice((b" ;\n", b" ;\n", b" ;\n", b" ||\n", b"\n"))
    return text


def random_case(chance: random.Random) -> tuple[bytes, dict[bytes, bytes]]:
    """The first script, and the files."""
    files = dict(FILES)
    for folder in FOLDERS:
        for name in SCRIPTS:
            files[folder + name] = random_script(chance, 4, False)
    return random_script(chance, 7, True), files
