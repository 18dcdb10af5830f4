"""The program itself, from end to end: what it writes, how it ends and what it says."""

from __future__ import annotations

import os
import subprocess
import unittest
from pathlib import Path

from boot import BUILT, is_built
from tests import made
from tests.case import Case
from tests.replays import can_run, replayed

USAGE = "usage: netboot replay IN OUT | live HOST:PORT | lab N\n"
MOST_IMAGES = 64

# words of no form
INVALID = {
    "words": ["replay", "a"],
    "labs": ["lab", "65"],
    "lab_and_more": ["lab", "2", "x"],
    "lab_from_zero": ["lab", "01"],
    "lab_of_none": ["lab", "0"],
    "lab_and_sign": ["lab", "+1"],
    "lab_alone": ["lab"],
    "lab_in_capitals": ["LAB", "2"],
}

# What images in a lab come to. Two are worked by hand in crates/nb_labrun_tests. In record 13 a third one is asked for; its
# frames and tries go on from there. Record 14 is the servers' frame 10, which acknowledges the FIN of a connection that has
# ended, and is reset. Frame 11, the options, comes twice: each is acknowledged, and only the first is a try. Block 1 is frame
# 12. Frame 13, block 2, is late, so nothing comes but TICKs: block 1 is acknowledged again 250 and 750 ms after the first
# time. The third TICK has block 2 sent again as frame 14, which is lost, and the sixth as frame 15, after which frame 13
# comes: both are acknowledged, the first as a try. Block 3 is frame 16, in record 26, and its acknowledgement is no try.
SUMMARIES = {
    2: "images 2\nbytes 2977\nrecords 13\nframes 12\ntries 6\nstatus 3\n",
    3: "images 3\nbytes 5931\nrecords 26\nframes 22\ntries 12\nstatus 3\n",
}

# recordings, and words
INPUTS = {"hello": made.HELLO_INPUT, "empty": b""}
WORDS = {
    "missing": ["replay", "/none/in", "/none/out"],
    **INVALID,
    **{f"lab_{images}": ["lab", str(images)] for images in SUMMARIES},
}


@unittest.skipUnless(can_run(), "the program isn't built, and the toolchain's rt is missing")
class Program(unittest.TestCase):
    def ended(self, case: str, status: int, said: str, output: bytes | None) -> None:
        """The status, the first line said, and the bytes written."""
        ran = replayed()[case]
        self.assertEqual((ran.ending, ran.status), ("ended", status))
        self.assertEqual(ran.said.splitlines(keepends=True)[:1], [said] if said else [])
        self.assertEqual(ran.output, output)

    def test_hello(self) -> None:
        self.ended("hello", 3, "", made.HELLO_OUTPUT)

    def test_no_record(self) -> None:
        self.ended("empty", 6, "netboot: bad record\n", bytes.fromhex("00000002 8d 06"))

    def test_missing_input(self) -> None:
        self.ended("missing", 10, "netboot: cannot attach\n", None)

    def test_words(self) -> None:
        for case in INVALID:
            with self.subTest(case):
                self.ended(case, 2, USAGE, None)

    def test_labs(self) -> None:
        for images, summary in SUMMARIES.items():
            ran = replayed()[f"lab_{images}"]
            self.assertEqual((ran.ending, ran.status, ran.said), ("ended", 3, summary))


@unittest.skipUnless(is_built(), "the program isn't built")
class Built(Case):
    def ends(self, *words: str | bytes, output: Path = Path(os.devnull)) -> tuple[int, str]:
        """The program's status, and the first line that it said."""
        with output.open("wb") as printed:
            done = subprocess.run(
                [BUILT, *words], cwd=self.folder, stdout=printed, stderr=subprocess.PIPE, check=False, timeout=60
            )
        return done.returncode, done.stderr.decode().partition("\n")[0] + "\n"

    def test_each_lab_twice(self) -> None:
        """Image i has 1000 + 977 i bytes."""
        for images in range(1, MOST_IMAGES + 1):
            with self.subTest(images=images):
                words = [BUILT, "lab", str(images)]
                first, again = (subprocess.run(words, capture_output=True, text=True, check=False) for _ in "12")
                self.assertEqual((first.returncode, first.stdout, first.stderr), (3, again.stdout, ""))
                self.assertEqual((again.returncode, again.stderr), (3, ""))
                names, numbers = zip(*(line.split(" ") for line in first.stdout.splitlines()))
                self.assertEqual(names, ("images", "bytes", "records", "frames", "tries", "status"))
                size = sum(1000 + 977 * i for i in range(images))
                self.assertEqual((*numbers[:2], numbers[-1]), (str(images), str(size), "3"))

    def test_a_summary_that_cant_be_written(self) -> None:
        self.assertEqual(self.ends("lab", "2", output=Path("/dev/full")), (8, "netboot: write fault\n"))

    def test_a_word_that_isnt_text(self) -> None:
        """A file or a peer of such a name can't be opened. Words of no form stay invalid, and nothing is made."""
        self.put("a.rec", made.HELLO_INPUT)
        for words in (
            (b"\xff",), ("lab", b"\xff"), ("lab", b"2\xff"), (b"lab\xff", "2"), ("lab", "2", b"\xff"),
            ("replay", b"\xff"), ("replay", "", b"\xff"), ("replay", "a.rec", "made", b"\xff"),
            (b"replay\xff", "a.rec", "made"), ("live", b"\xff"), ("live", "10.0.0.1:80", b"\xff"),
        ):  # fmt: skip
            with self.subTest(words):
                self.assertEqual(self.ends(*words), (2, USAGE))
        for words in (("replay", b"\xff", "made"), ("replay", "a.rec", b"made\xff"), ("live", b"\xff:80")):
            with self.subTest(words):
                self.assertEqual(self.ends(*words), (10, "netboot: cannot attach\n"))
        self.assertEqual({path.name for path in self.folder.iterdir()}, {"a.rec", "examples", "tools"})


if __name__ == "__main__":
    unittest.main()
