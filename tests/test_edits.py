"""The must-fail edits, those of the gate and the further ones: that each can be made, and stands once. Whether they are
refused is for the prover to say."""

from __future__ import annotations

import io
import shutil
import tempfile
import unittest
from contextlib import redirect_stderr, redirect_stdout
from pathlib import Path
from unittest.mock import patch

import edits
from tests import TOP

OLD, NEW, FILE = "old: ", "new:", "file: "


def refused(crate: Path, edit: Path) -> str | None:
    """Why an edit can't be made in its crate, if so: each pair's old text stands once in what the pairs before made."""
    texts: dict[Path, str] = {}
    path = old = None
    for line in edit.read_text().splitlines():
        if line.startswith(FILE):
            path = crate / line.removeprefix(FILE).strip()
        elif line.startswith(OLD):
            old = line.removeprefix(OLD)
        elif line.startswith(NEW):
            if path is None or old is None or not path.is_file():
                return "it names no file, or no old text"
            text = texts.setdefault(path, path.read_text())
            new = line.removeprefix(NEW).removeprefix(" ")
            if text.count(old) != 1:
                return f"{old!r} stands {text.count(old)} times in {path.name}"
            if new == old:
                return f"{old!r} stays as it is"
            texts[path] = text.replace(old, new)
    return None if texts else "it changes nothing"


class Edits(unittest.TestCase):
    def test_each_can_be_made(self) -> None:
        names = {path.parent.parent.name for path in (TOP / "crates").glob("*/must-fail/*.edit")}
        self.assertGreater(len(names), 40)
        for crate in sorted(names | set(edits.crates_with_further())):
            for edit in (*edits.of_gate(crate), *edits.further(crate)):
                with self.subTest(crate=crate, edit=edit.stem):
                    self.assertIsNone(refused(TOP / "crates" / crate, edit))

    def test_the_gate_has_few_of_each_crate(self) -> None:
        for folder in (TOP / "crates").glob("*/must-fail"):
            crate = folder.parent.name
            with self.subTest(crate=crate):
                self.assertLessEqual(len(edits.of_gate(crate)), edits.MOST)
                both = {edit.name for edit in edits.of_gate(crate)} & {edit.name for edit in edits.further(crate)}
                self.assertEqual(both, set())

    def test_an_edit_that_cant_be_made_is_told(self) -> None:
        with tempfile.TemporaryDirectory() as name:
            crate, edit = Path(name), Path(name) / "x.edit"
            (crate / "src").mkdir()
            (crate / "src" / "lib.rt").write_text("a + b\na * b\n")
            for text, why in (
                ("file: src/lib.rt\nold: a + b\nnew: a - b\n", None),
                ("file: src/lib.rt\nold: a + b\nnew: a * c\nold: a * c\nnew: 1\n", None),
                ("file: src/lib.rt\nold: b\nnew: c\n", "'b' stands 2 times in lib.rt"),
                ("file: src/lib.rt\nold: a - b\nnew: c\n", "'a - b' stands 0 times in lib.rt"),
                ("file: src/lib.rt\nold: a + b\nnew: a + b\n", "'a + b' stays as it is"),
                ("file: src/other.rt\nold: a\nnew: b\n", "it names no file, or no old text"),
                ("file: src/lib.rt\n", "it changes nothing"),
            ):
                with self.subTest(text=text):
                    edit.write_text(text)
                    self.assertEqual(refused(crate, edit), why)


class Command(unittest.TestCase):
    """The tool, in a folder of its own with one crate."""

    def setUp(self) -> None:
        folder = tempfile.TemporaryDirectory()
        self.addCleanup(folder.cleanup)
        self.top = Path(folder.name)
        self.must_fail = self.top / "crates" / "nb_a" / "must-fail"
        self.further = self.top / "tests" / "edits" / "nb_a"
        for at, name in ((self.must_fail, "one.edit"), (self.further, "two.edit")):
            at.mkdir(parents=True)
            (at / name).write_text("file: src/lib.rt\n")
        for name, value in (("TOP", self.top), ("FURTHER", self.further.parent)):
            patched = patch.object(edits, name, value)
            patched.start()
            self.addCleanup(patched.stop)

    def call(self, *words: str) -> tuple[int, str, str]:
        printed, said = io.StringIO(), io.StringIO()
        with redirect_stdout(printed), redirect_stderr(said):
            status = edits.main([*words])
        return status, printed.getvalue(), said.getvalue()

    def test_they_are_listed(self) -> None:
        self.assertEqual(self.call("--list"), (0, "nb_a: two\n", ""))

    def test_a_crate_must_be_named_and_be_there(self) -> None:
        self.assertEqual(self.call()[0], 2)
        self.assertEqual(self.call("nb_b"), (2, "", "edits.py: there is no crate nb_b\n"))

    def test_they_stand_beside_the_others_while_they_are_tried(self) -> None:
        seen: list[list[str]] = []

        def run(words: list[str], cwd: Path, check: bool) -> object:
            seen.append([*words, *sorted(path.name for path in (cwd / "crates" / "nb_a" / "must-fail").iterdir())])
            return type("Done", (), {"returncode": 1})

        with patch("edits.subprocess.run", run):
            self.assertEqual(self.call("nb_a")[0], 1)
        self.assertEqual(seen, [["rt", "must-fail", "nb_a", "one.edit", "two.edit"]])
        self.assertEqual([path.name for path in self.must_fail.iterdir()], ["one.edit"])

    def test_a_crate_without_others_is_left_without_their_folder(self) -> None:
        shutil.rmtree(self.must_fail)
        with edits.beside("nb_a"):
            self.assertEqual([path.name for path in self.must_fail.iterdir()], ["two.edit"])
        self.assertFalse(self.must_fail.exists())


if __name__ == "__main__":
    unittest.main()
