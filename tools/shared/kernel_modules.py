"""A kernel's modules: what each needs and which devices it is for, and the lists of that from which they are loaded."""

from __future__ import annotations

import lzma
import re
import struct
from dataclasses import dataclass
from pathlib import PurePosixPath
from typing import Callable, Iterable

from shared.command_line import Refused

SECTION = b".modinfo"
ELF_HEADER, SECTION_HEADER = struct.Struct("<16sHHIQQQIHHHHHH"), struct.Struct("<IIQQQQIIQQ")


@dataclass(frozen=True, slots=True)
class Module:
    """A module: its path within the kernel's folder of modules, its file without compression, and what it says."""

    path: str
    content: bytes
    needs: tuple[str, ...]
    aliases: tuple[str, ...]


def name_of(path: str) -> str:
    """A module's name; in it `-` and `_` are the same."""
    return plain(PurePosixPath(path).name.split(".ko")[0])


def plain(name: str) -> str:
    return name.replace("-", "_")


def is_module(path: str) -> bool:
    return bool(re.search(r"\.ko(\.\w+)?$", path))


def read_module(path: str, content: bytes) -> Module:
    """A module as it stands in a kernel's package. Its signature is its file's end, and stays."""
    if path.endswith(".ko.xz"):
        path, content = path.removesuffix(".xz"), lzma.decompress(content)
    if not path.endswith(".ko"):
        raise Refused(f"{path}: only modules that are plain or compressed by xz can be read")
    said = [text.partition("=") for text in _information(path, content)]
    needs = [value for name, _, value in said if name == "depends"]
    return Module(
        path,
        content,
        tuple(plain(one) for one in ",".join(needs).split(",") if one),
        tuple(value for name, _, value in said if name == "alias"),
    )


def _information(path: str, content: bytes) -> list[str]:
    """The texts of the section that says what a module is (modinfo(8)), in an ELF file of 64 bits."""
    try:
        header = ELF_HEADER.unpack_from(content)
        at, size, count, names = header[6], header[11], header[12], header[13]
        sections = [SECTION_HEADER.unpack_from(content, at + size * k) for k in range(count)]
        start = sections[names][4]
        for section in sections:
            if content.startswith(SECTION + b"\0", start + section[0]):
                texts = content[section[4] : section[4] + section[5]].split(b"\0")
                return [text.decode("utf-8", "replace") for text in texts if text]
    except (struct.error, IndexError) as error:
        raise Refused(f"{path}: it is no module of a kernel for 64 bits") from error
    return []


def with_needs(wanted: Iterable[str], read: Callable[[str], Module | None]) -> list[Module]:
    """These modules and all that they need, by their names. What isn't read is a part of the kernel itself."""
    found: dict[str, Module] = {}
    left = [plain(name) for name in wanted]
    while left:
        name = left.pop()
        module = None if name in found else read(name)
        if module:
            found[name] = module
            left += module.needs
    return [found[name] for name in sorted(found)]


def needs_list(modules: list[Module]) -> str:
    """modules.dep: each module's path, and those of all that it needs; the last is to be loaded first."""
    by_name = {name_of(module.path): module for module in modules}

    def add_needs(module: Module, before: list[str]) -> list[str]:
        for name in module.needs:
            needed = by_name.get(name)
            if needed and needed.path not in before:
                add_needs(needed, before)
                before.append(needed.path)
        return before

    return "".join(f"{' '.join([f'{one.path}:', *reversed(add_needs(one, []))])}\n" for one in modules)


def alias_list(modules: list[Module]) -> str:
    """modules.alias: which module is for a device of which kind."""
    return "".join(f"alias {alias} {name_of(one.path)}\n" for one in modules for alias in one.aliases)
