"""The built program's files: outputs that are inputs, links, pipes, full disks, strange names."""

from __future__ import annotations

import os
import resource
import subprocess
import threading
import unittest
from typing import Callable

from boot import BUILT, is_built
from tests import made
from tests.case import Case

CAN_NOT = "netboot: cannot attach"


def is_able() -> bool:
    """Whether the program is built, and is one that looks at its files."""
    if not is_built():
        return False
    return subprocess.run([BUILT, "--version"], capture_output=True, check=False).returncode == 0


@unittest.skipUnless(is_able(), "the program isn't built, or is one without --version")
class Files(Case):
    def setUp(self) -> None:
        super().setUp()
        self.put("a.rec", made.HELLO_INPUT)
        self.put("kept", b"what was there")

    def ends(
        self, *words: str | bytes, prepare: Callable[[], None] | None = None
    ) -> tuple[int, list[str], str]:
        """The program's status, the lines on standard error, and what it printed."""
        done = subprocess.run(
            [BUILT, *words],
            cwd=self.folder,
            capture_output=True,
            text=True,
            errors="backslashreplace",
            preexec_fn=prepare,
            check=False,
            timeout=60,
        )
        return done.returncode, done.stderr.splitlines(), done.stdout

    def test_an_output_that_is_the_input(self) -> None:
        path = self.folder / "a.rec"
        (self.folder / "soft").symlink_to(path)
        (self.folder / "soft-soft").symlink_to("soft")
        (self.folder / "folder").symlink_to(self.folder)
        os.link(path, self.folder / "hard")
        for name in ("a.rec", "./a.rec", str(path), "soft", "soft-soft", "folder/a.rec", "hard"):
            with self.subTest(name):
                status, said, _ = self.ends("replay", "a.rec", name)
                self.assertEqual((status, said[:1]), (10, [CAN_NOT]))
                self.assertEqual(self.get("a.rec"), made.HELLO_INPUT)
                status, said, _ = self.ends("replay", name, "a.rec")
                self.assertEqual((status, said[:1]), (10, [CAN_NOT]))
                self.assertEqual(self.get("a.rec"), made.HELLO_INPUT)

    def test_what_can_not_be_opened_is_named(self) -> None:
        for words, name in ((("none", "made"), "none"), (("a.rec", "none/made"), "none/made")):
            status, said, _ = self.ends("replay", *words)
            self.assertEqual((status, said[:1]), (10, [CAN_NOT]))
            self.assertIn(name, " ".join(said[1:]))
        self.assertFalse((self.folder / "made").exists())

    def test_a_name_of_any_bytes_works_or_is_named_as_such(self) -> None:
        status, said, _ = self.ends("replay", "a.rec", b"made-\xff")
        self.assertIn((status, said[:1]), [(3, []), (10, [CAN_NOT])])
        if status == 10:
            self.assertIn("UTF-8", " ".join(said[1:]))

    def test_a_link_is_followed(self) -> None:
        (self.folder / "link").symlink_to("kept")
        self.assertEqual(self.ends("replay", "a.rec", "link")[0], 3)
        self.assertTrue((self.folder / "link").is_symlink())
        self.assertEqual(self.get("kept"), made.HELLO_OUTPUT)

    def test_pipes(self) -> None:
        os.mkfifo(self.folder / "pipe")
        found: list[bytes] = []
        reader = threading.Thread(target=lambda: found.append(self.get("pipe")))
        reader.start()
        self.assertEqual(self.ends("replay", "a.rec", "pipe")[0], 3)
        reader.join(timeout=10)
        self.assertEqual(found, [made.HELLO_OUTPUT])

    def test_a_device_that_is_full(self) -> None:
        status, said, _ = self.ends("replay", "a.rec", "/dev/full")
        self.assertEqual((status, said[:1]), (8, ["netboot: write fault"]))
        self.assertIn("/dev/full", " ".join(said[1:]))

    def test_a_limit_of_files_is_a_write_fault(self) -> None:
        def prepare() -> None:
            resource.setrlimit(resource.RLIMIT_FSIZE, (100, 100))

        status, said, _ = self.ends("replay", "a.rec", "made", prepare=prepare)
        self.assertEqual((status, said[:1]), (8, ["netboot: write fault"]))
        self.assertEqual(self.get("made"), made.HELLO_OUTPUT[: len(self.get("made"))])

    def test_a_bad_record_is_named(self) -> None:
        self.put("bad.rec", made.HELLO_INPUT[:50])
        status, said, _ = self.ends("replay", "bad.rec", "made")
        self.assertEqual((status, said[:1]), (6, ["netboot: bad record"]))
        self.assertRegex(" ".join(said[1:]), r"record 1\b.*byte")

    def test_help_and_version(self) -> None:
        for word in ("--help", "--version"):
            status, said, printed = self.ends(word)
            self.assertEqual((status, said), (0, []))
            self.assertIn("netboot", printed)


if __name__ == "__main__":
    unittest.main()
