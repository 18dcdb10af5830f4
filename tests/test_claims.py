"""docs/CLAIMS.md: that each contract it names is there, clause by clause, and each definition."""

from __future__ import annotations

import re
import sys
import unittest

from tests import TOP

sys.path.insert(0, str(TOP / "measure"))

import clauses  # noqa: E402

PAGE = (TOP / "docs" / "CLAIMS.md").read_text()
DEFINED = re.compile(r"^(?:pub |abbrev |unfoldable |data |record )*(?:pub )?([A-Za-z][\w-]*) ?(?:[:({]|$)", re.M)


def cells(line: str) -> list[str]:
    return [cell.strip() for cell in re.split(r"(?<!\\)\|", line.strip())[1:-1]]


def rows(title: str) -> list[list[str]]:
    """The rows of the tables below this heading, up to the next of its level."""
    part = re.search(rf"^## {title}\n(.*?)(?=^## |\Z)", PAGE, re.M | re.S)
    found = [cells(line) for line in part[1].splitlines() if line.startswith("|")]
    return [row for row in found if not re.fullmatch(r"-+", row[0])]


def contracts(crates: list[str]) -> dict[str, set[str]]:
    """The clauses' names of each function of these crates, by its path."""
    found: dict[str, set[str]] = {}
    for crate in crates:
        for function in clauses.functions(crate):
            found.setdefault(function.path, set()).update(function.names("ensures"))
    return found


def defined() -> set[str]:
    """The names of all definitions, with those of a record's fields and of a datatype's cases."""
    names: set[str] = set()
    for path in (TOP / "crates").glob("*/specs/*.antt"):
        names.update(re.findall(r"\b([A-Za-z][\w]*)\b(?= :)", path.read_text()))
        names.update(re.findall(r"^(?:pub )?(?:data|record) (?:pub )?(\w+)", path.read_text(), re.M))
        names.update(re.findall(r"^pub (?:data|record) (\w+)", path.read_text(), re.M))
    return names


class Claims(unittest.TestCase):
    def test_the_theorems_clauses_are_there(self) -> None:
        netboot = contracts(["nb_boot"])["netboot"]
        known = defined() | netboot
        for promise, said in rows("The theorem"):
            if promise == "Promise":
                continue
            with self.subTest(promise=promise):
                self.assertIn(re.match(r"(\w+)", said)[1], netboot)
                for name in re.findall(r"`([\w.]+)`", said):
                    for part in name.split("."):
                        self.assertIn(part, known)

    def test_the_laws_and_libraries_are_there(self) -> None:
        for title in ("The laws below it", "The libraries"):
            for promise, named, said in rows(title):
                if promise == "Promise":
                    continue
                with self.subTest(promise=promise):
                    self.check(contracts(re.findall(r"`(\w+)`", named)), said)

    def check(self, there: dict[str, set[str]], said: str) -> None:
        """Each part of a cell names functions, and then clauses that one of them has."""
        for part in said.split(";"):
            functions, _, names = part.partition(": ")
            paths = re.findall(r"`([\w:]+)`", functions)
            self.assertTrue(paths, part)
            for path in paths:
                self.assertIn(path, there)
            for name in filter(None, (name.strip() for name in names.split(","))):
                self.assertTrue(any(name in there[path] for path in paths), f"{paths}: {name}")

    def test_every_crate_with_contracts_has_a_row(self) -> None:
        named = {
            crate
            for title in ("The laws below it", "The libraries")
            for row in rows(title)
            for crate in re.findall(r"`(\w+)`", row[1])
        }
        without = {c for c in clauses.crates() if any(f.clauses for f in clauses.functions(c))} - named
        self.assertEqual(without, set())


if __name__ == "__main__":
    unittest.main()
