#!/usr/bin/env python3
"""Lists the contracts: each public function of a crate with its comment and its clauses, as they stand in the sources."""

from __future__ import annotations

import argparse
import re
import sys
from dataclasses import dataclass, field
from pathlib import Path

TOP = Path(__file__).resolve().parent.parent
CRATES = TOP / "crates"

DESCRIPTION = """\
Lists what is proved of each public function: its comment, and the clauses of its contract by name.
With --text each clause's text too. Without names of crates all crates are listed. It reads the sources
alone; the gate (.ci/run) proves that each function meets its clauses."""

FUNCTION = re.compile(r"^(\s*)(?:pub(?:\(crate\))? )?(?:unsafe )?(?:const )?fn (\w+)")
OWNER = re.compile(r"^(?:impl(?:<[^{]*?>)? (?:(?P<of>[\w:]+)(?:<[^{]*>)? for )?(?P<type>\w+)|(?:pub )?trait (?P<trait>\w+))")
CLAUSE = re.compile(r"^\s+(requires|ensures)\*?(?: (\w+))? \{(.*)$")


@dataclass
class Clause:
    """What a function asks of its caller, or promises."""

    kind: str
    name: str
    text: str


@dataclass
class Function:
    """A function with its contract."""

    crate: str
    owner: str
    name: str
    public: bool
    said: str
    clauses: list[Clause] = field(default_factory=list)

    @property
    def path(self) -> str:
        return f"{self.owner}::{self.name}" if self.owner else self.name

    def names(self, kind: str) -> list[str]:
        """The clauses' names; a lone clause without a name is called `ensures`."""
        return [clause.name or kind for clause in self.clauses if clause.kind == kind]


def balanced(text: str) -> bool:
    return text.count("{") == text.count("}")


def clauses_from(lines: list[str], at: int) -> list[Clause]:
    """The clauses that stand after a signature, up to its body or its end."""
    found: list[Clause] = []
    while at < len(lines) and not lines[at].strip().startswith(("{", "}", "///", "fn ", "pub fn ")):
        begun = CLAUSE.match(lines[at])
        if not begun:
            at += 1
            continue
        text = "{" + begun[3]
        while not balanced(text) and at + 1 < len(lines):
            at += 1
            text += " " + lines[at].strip()
        text = text.strip()
        found.append(Clause(begun[1], begun[2] or "", text.rstrip(";").strip()[1:-1].strip()))
        at += 1
        if text.endswith(";"):
            break
    return found


def comment_before(lines: list[str], at: int) -> str:
    """What a function's comment says."""
    said: list[str] = []
    at -= 1
    while at >= 0 and lines[at].strip().startswith(("///", "#[")):
        if lines[at].strip().startswith("///"):
            said.insert(0, lines[at].strip()[3:].strip())
        at -= 1
    return " ".join(said)


def functions_of_file(crate: str, path: Path) -> list[Function]:
    lines = path.read_text().splitlines()
    owner, found, public_trait = "", [], False
    for at, line in enumerate(lines):
        owned = OWNER.match(line)
        if owned:
            owner = owned["trait"] or owned["type"]
            public_trait = bool(owned["of"]) or (bool(owned["trait"]) and line.startswith("pub"))
        elif line == "}":
            owner, public_trait = "", False
        named = FUNCTION.match(line)
        if named:
            public = line.strip().startswith("pub fn") or line.strip().startswith("pub const fn")
            clauses = [] if line.rstrip().endswith(("{", "}", ";")) else clauses_from(lines, at + 1)
            found.append(
                Function(
                    crate, owner if named[1] else "", named[2], public or public_trait,
                    comment_before(lines, at), clauses,
                )
            )
    return found


def crates() -> list[str]:
    return re.findall(r"^(\w+)(?: [^:\n]*)?:", (TOP / "crates.txt").read_text(), re.M)


def functions(crate: str) -> list[Function]:
    """All functions of a crate but those of its tests; a crate whose name ends in _tests has nothing else."""
    files = [] if crate.endswith("_tests") else sorted((CRATES / crate / "src").rglob("*.rt"))
    return [
        function
        for path in files
        if "test" not in path.name and "tests" not in path.parts
        for function in functions_of_file(crate, path)
    ]


def cell(text: str) -> str:
    return text.replace("|", "\\|")


def table(crate: str, with_text: bool) -> str:
    """A crate's table of contracts."""
    rows = [f"## {crate}", "", "| Function | What it is | Requires | Ensures |", "|---|---|---|---|"]
    for function in functions(crate):
        if not function.public or not function.clauses:
            continue
        row = [f"`{function.path}`", function.said]
        row += [", ".join(function.names(kind)) for kind in ("requires", "ensures")]
        rows.append("| " + " | ".join(map(cell, row)) + " |")
        if with_text:
            rows += [f"|  | `{cell(c.text)}` | | {c.kind} {c.name} |" for c in function.clauses]
    return "\n".join(rows) + "\n"


def main() -> int:
    parser = argparse.ArgumentParser(description=DESCRIPTION)
    parser.add_argument("crates", nargs="*", metavar="CRATE", help="a crate's name; without any, all")
    parser.add_argument("--text", action="store_true", help="each clause's text too")
    words = parser.parse_args()
    unknown = [name for name in words.crates if name not in crates()]
    if unknown:
        print(f"clauses.py: there is no crate {unknown[0]}", file=sys.stderr)
        return 2
    for name in words.crates or crates():
        print(table(name, words.text))
    return 0


if __name__ == "__main__":
    sys.exit(main())
