"""What the help of the tools and README.md give as examples works as it is typed at the top of the repository."""

from __future__ import annotations

import re
import shlex
import subprocess
import sys
import unittest

from tests import TOP
from tests.case import Case
from tests.test_bridging import PROGRAM

# boot.py makes what the others take
TOOLS = ("boot", "record", "show", "pcap", "handoff", "bridge", "live_boot")
NEED_MORE = ("bridge", "live_boot")
STATUSES_OF_A_RUN = (0, 3, 4, 5)


def examples_of(tool: str) -> list[list[str]]:
    """The words of each example in a tool's help; what is said beside one stands after two spaces."""
    words = [sys.executable, "-B", str(TOP / "tools" / f"{tool}.py"), "--help"]
    printed = subprocess.run(words, capture_output=True, text=True, check=True).stdout
    shown = printed[printed.index("examples") :].splitlines()[1:]
    return [shlex.split(re.split(r"\s{2,}", line.strip())[0]) for line in shown]


def blocks_of_readme() -> list[str]:
    return re.findall(r"^```sh\n(.*?)^```$", (TOP / "README.md").read_text(), re.M | re.S)


class Typed(Case):
    def test_files_that_are_given_are_there(self) -> None:
        for tool in TOOLS:
            found = examples_of(tool)
            self.assertTrue(found)
            made = {"boot.out", "boot.rec"}
            for words in found:
                with self.subTest(words):
                    self.assertIn(words[0], (f"tools/{tool}.py", "tools/boot.py"))
                    for word in words[1:]:
                        if re.search(r"\.(ipxe|rec|pcap|out)$", word) and word.startswith("examples/"):
                            self.assertTrue((TOP / word).exists(), word)
                    first = words[1] if len(words) > 1 else "--"
                    is_there = first.startswith(("examples/", "--")) or first in made
                    self.assertTrue(is_there, f"{first} isn't there")

    @unittest.skipIf(PROGRAM is None, "the program is neither built nor kept")
    def test_they_work(self) -> None:
        (self.folder / "crates").symlink_to(TOP / "crates")
        for tool in TOOLS:
            for words in examples_of(tool):
                if tool not in NEED_MORE and "--run" not in words:
                    self.works_as_typed(words)

    @unittest.skipIf(PROGRAM is None, "the program is neither built nor kept")
    def test_readme(self) -> None:
        """What it shows of using the tools, up to what needs root or a network."""
        (self.folder / "crates").symlink_to(TOP / "crates")
        block = next(block for block in blocks_of_readme() if "tools/record.py" in block)
        for line in block.splitlines():
            words = shlex.split(line, comments=True)
            if words:
                self.works_as_typed(words)

    def works_as_typed(self, words: list[str]) -> None:
        with self.subTest(words):
            done = subprocess.run(
                [sys.executable, "-B", *words], cwd=self.folder, capture_output=True, text=True, check=False
            )
            wanted = STATUSES_OF_A_RUN if words[0] == "tools/boot.py" else (0,)
            self.assertIn(done.returncode, wanted, done.stderr)

    def test_root_is_asked_for_with_its_reason(self) -> None:
        """No command has `sudo` in it, which isn't everywhere; that root is needed is said, with why."""
        for page in (TOP / "README.md", TOP / "examples" / "README.md"):
            for block in re.findall(r"^```\w+\n(.*?)^```$", page.read_text(), re.M | re.S):
                self.assertNotIn("sudo", block, page.name)
        for sentence in re.split(r"\n\n", (TOP / "README.md").read_text()):
            if "sudo" in sentence:
                self.assertRegex(sentence, r"(?s)need root: .* namespaces, .*CAP_NET_RAW")

    def test_statuses_are_said(self) -> None:
        readme = (TOP / "README.md").read_text()
        for row in ("`bridge.py` | 5", "`live_boot.py` | 0, 1", "`live_boot.py` | 77"):
            self.assertIn(f"| {row} |", readme)


if __name__ == "__main__":
    unittest.main()
