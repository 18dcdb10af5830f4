"""How long each part of a machine's start took, by the lines on its console."""

from __future__ import annotations

import re
from dataclasses import dataclass, field
from typing import NamedTuple


class Mark(NamedTuple):
    """What a part ends with, as a line of the console has it: the first such line, or the last."""

    part: str
    line: str
    is_last: bool = False


OURS = (
    Mark("init", "init: started"),
    Mark("drivers", "init: cards:"),
    Mark("card and client", "bridge: this run"),
    Mark("lease", ": the address is "),
    Mark("run", "bridge: .* frames received"),
    Mark("kexec's load", "kexec: loaded"),
    Mark("going over", "kexec: going over"),
)
OF_IPXE = (
    Mark("firmware", "iPXE initialising devices"),
    Mark("lease", r"^net0: [0-9.]+/"),
    Mark("run", r"\.\.\. ok$", is_last=True),
)


@dataclass(slots=True)
class Table:
    """The parts in the order in which they came, with the seconds since power-on at which each ended."""

    title: str = "part"
    marks: tuple[Mark, ...] = OURS
    parts: dict[str, float] = field(default_factory=dict)

    def see(self, line: str, seconds: float) -> None:
        for mark in self.marks:
            if re.search(mark.line, line) and (mark.is_last or mark.part not in self.parts):
                self.parts.pop(mark.part, None)
                self.parts[mark.part] = seconds

    def end(self, name: str, seconds: float) -> None:
        self.parts[name] = seconds

    def __str__(self) -> str:
        lines, before = [f"{self.title:26} {'took':>8} {'at':>8}"], 0.0
        for name, seconds in self.parts.items():
            lines.append(f"{name:26} {seconds - before:8.2f} {seconds:8.2f}")
            before = seconds
        return "\n".join(lines)
