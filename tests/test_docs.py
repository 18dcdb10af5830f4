"""The documents: their words, their tables, and that what they name is there."""

from __future__ import annotations

import re
import unittest
from textwrap import dedent

from shared.ipxe import NOT_BUILT, NOT_SET
from tests import TOP

DOCS = TOP / "docs"
PAGES = [TOP / "README.md", TOP / "examples" / "README.md", *sorted(DOCS.glob("*.md"))]
MOST_WORDS = 45
MOST_SENTENCES = 6

# A definition of a module of specs: a name at the beginning of a line, or in a block of those that cite one another.
DEFINED = re.compile(r"^(?:(?:abbrev|unfoldable) )*pub (?!mod |use )(?:record |data )?([^\s:]+)", re.M)
TOGETHER = re.compile(r"^(?:\w+ )*mutual\n((?:  .*\n|\n)+)", re.M)

# Each has a plainer word: a prefix of, after, out of memory, invalid, received, returned.
UNUSUAL = r"\b(?:a front of|behind|want of memory|of no form|heard|heeds?|told|tells|went up)\b"


def cells(line: str) -> list[str]:
    """The cells of a table's line; `\\|` is a character."""
    return [cell.strip() for cell in re.split(r"(?<!\\)\|", line.strip())[1:-1]]


def plain(text: str) -> str:
    """A page's words, without code and links, and without the names of clauses in CLAIMS.md."""
    text = re.sub(r"^```.*?^```$", "", text, flags=re.M | re.S)
    return re.sub(r"`[^`]*`|\([^()]*\.md\)", "", text)


class Words(unittest.TestCase):
    def test_plain_english(self) -> None:
        for page in PAGES:
            for number, line in enumerate(plain(page.read_text()).splitlines(), 1):
                # the second column of a table of claims has the names of clauses
                said = " | ".join(cells(line)[::2]) if line.startswith("|") else line
                with self.subTest(page=page.name, line=line):
                    self.assertNotRegex(said, UNUSUAL, f"{page.name}:{number}")

    def test_comments_too(self) -> None:
        """The comments of the crates have the same words; what an outside is told is the graph's own term."""
        unusual = UNUSUAL.replace("|told|tells", "").replace("a front of", "front of")
        for path in sorted((TOP / "crates").rglob("*")):
            if path.suffix not in (".rt", ".antt") or "out" in path.parts:
                continue
            for number, line in enumerate(path.read_text().splitlines(), 1):
                said = re.match(r"\s*(?://[/!]?|--) (.*)", line)
                if said and re.search(unusual, said[1]):
                    self.fail(f"{path.relative_to(TOP)}:{number}: {said[1]}")

    def test_the_cells_of_claims_are_short(self) -> None:
        for line in (DOCS / "CLAIMS.md").read_text().splitlines():
            for cell in cells(line) if line.startswith("|") else []:
                self.assertLessEqual(len(cell.split()), MOST_WORDS, cell)

    def test_what_is_proved_is_said_briefly(self) -> None:
        readme = (TOP / "README.md").read_text()
        proved = re.search(r"^\*\*Proved\*\*(.*?)\n\n", readme, re.M | re.S)
        self.assertIsNotNone(proved)
        sentences = re.findall(r"\.(?:\s|$)", re.sub(r"\(\S+\.md\)", "", proved[1]) + "\n")
        self.assertLessEqual(len(sentences), MOST_SENTENCES)


class Names(unittest.TestCase):
    def test_each_crate_has_one_row_and_one_place(self) -> None:
        crates = re.findall(r"^(\w+)(?: [^:\n]*)?:", (TOP / "crates.txt").read_text(), re.M)
        self.assertEqual(set(crates), {path.name for path in (TOP / "crates").iterdir()})
        rows: dict[str, list[str]] = {crate: [] for crate in crates}
        for page in PAGES:
            for line in page.read_text().splitlines():
                named = [cell for cell in cells(line)[:2] if cell.strip("`") in crates]
                if named and len(cells(line)) >= 5:
                    rows[named[0].strip("`")].append(page.name)
        wrong = {crate: pages for crate, pages in rows.items() if pages != ["ARCHITECTURE.md"]}
        self.assertEqual(wrong, {}, "crates without exactly one row in ARCHITECTURE.md")

    def test_each_crate_lists_what_its_text_names(self) -> None:
        """A library that is listed and not named costs each gate time."""
        for line in (TOP / "crates.txt").read_text().splitlines():
            crate, _, listed = line.partition(":")
            folder = TOP / "crates" / crate.split()[0]
            parts = [path for path in folder.rglob("*") if path.suffix in (".rt", ".antt") and "out" not in path.parts]
            named = {name for path in parts for name in re.findall(r"\w+", path.read_text())}
            self.assertEqual([name for name in listed.split() if name not in named], [], crate)

    def test_no_definition_s_name_stands_in_two_modules(self) -> None:
        """A clause cites definitions by their names alone, so each has one meaning."""
        modules: dict[str, list[str]] = {}
        for path in sorted((TOP / "crates").glob("*/specs/*.antt")):
            text = TOGETHER.sub(lambda block: dedent(block[1]), path.read_text())
            for name in set(DEFINED.findall(text)):
                modules.setdefault(name, []).append(f"{path.parts[-3]}/{path.stem}")
        self.assertEqual({name: places for name, places in modules.items() if len(places) > 1}, {})

    def test_what_is_named_is_there(self) -> None:
        for page in PAGES:
            text = page.read_text()
            for name in re.findall(r"\b((?:tools|tests|measure|docs)/[\w/.]*\w)", text):
                self.assertTrue((TOP / name).exists(), f"{page.name}: {name}")
            for link in re.findall(r"\]\(([^)#:]+)\)", text):
                self.assertTrue((page.parent / link).exists(), f"{page.name}: {link}")


class Layout(unittest.TestCase):
    def test_tools_import_no_test_and_no_measure(self) -> None:
        folders = ("measure", "tests")
        others = {path.stem for folder in folders for path in (TOP / folder).glob("*.py")}
        others |= set(folders)
        for path in (TOP / "tools").rglob("*.py"):
            for name in re.findall(r"^\s*(?:from|import) (\w+)", path.read_text(), re.M):
                self.assertNotIn(name, others - {"__init__"}, path)

    def test_tools_are_what_users_run(self) -> None:
        for path in (TOP / "tools").iterdir():
            if path.name in ("shared", "__pycache__"):
                continue
            self.assertTrue(path.stat().st_mode & 0o111, f"{path} can't be run")
            is_named = f"tools/{path.name}" in (TOP / "README.md").read_text()
            self.assertTrue(is_named, f"README.md doesn't name tools/{path.name}")


class NotBuilt(unittest.TestCase):
    def test_all_that_ipxe_has_is_listed(self) -> None:
        """The page lists the commands and settings by which `--why` says that something isn't built, and no others."""
        section = (DOCS / "SCRIPTS.md").read_text().split("## What iPXE has and this hasn't yet")[1].split("\n## ")[0]
        _, commands, settings = re.split(r"^(?:Commands, each|Settings that)", section, flags=re.M)
        for listed, known in ((commands.split("\n\n")[1], NOT_BUILT), (settings.split("\n\n")[1], NOT_SET)):
            self.assertEqual(re.findall(r"`([^`]+)`", listed), [name.decode() for name in sorted(known)])


if __name__ == "__main__":
    unittest.main()
