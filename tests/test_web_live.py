"""Boots of an image of 60 MB from real web servers, over a wire that loses frames and one that doesn't; each run is replayed."""

from __future__ import annotations

import shutil
import subprocess
import sys
import tempfile
import unittest
from contextlib import ExitStack
from pathlib import Path
from random import Random

from boot import is_built
from shared.namespaces import CLIENT_ADDRESS, PREFIX, SERVER_ADDRESS, Network, missing, network
from shared.parts import write_parts
from shared.program import program
from shared.recordings import output_of
from shared.web_server import SERVERS, web_server
from tests import TOP

IMAGE_BYTES = 60_000_007
SCRIPT = f"#!ipxe\nimgexec http://{SERVER_ADDRESS}/image\n"
LOST_PERCENT = 1
MOST_SECONDS = 900
WHY = missing() or (None if is_built() else "the program isn't built")


@unittest.skipUnless(WHY is None, f"live boots by HTTP: {WHY}")
class LiveBoots(unittest.TestCase):
    @classmethod
    def setUpClass(cls) -> None:
        """The image, in a folder that each server may read."""
        cls.files = Path(tempfile.mkdtemp(prefix="netboot-"))
        cls.addClassCleanup(shutil.rmtree, cls.files)
        cls.files.chmod(0o755)
        cls.image = b"\x7fELF" + Random(0).randbytes(IMAGE_BYTES - 4)
        (cls.files / "image").write_bytes(cls.image)

    def test_each_server(self) -> None:
        for name in SERVERS:
            with self.subTest(name):
                self.boots(name)

    def test_each_server_with_loss(self) -> None:
        for name in SERVERS:
            with self.subTest(name):
                said = self.boots(name, "--lose", str(LOST_PERCENT))
                self.assertRegex(said, r"bridge\.py: \d+ frames were lost by chance")

    def boots(self, name: str, *words: str) -> str:
        """A boot from this server: the image is the one that was served, and the run replays; what was said."""
        if shutil.which(name) is None:
            self.skipTest(f"{name} is missing")
        with tempfile.TemporaryDirectory(prefix="netboot-") as spare, ExitStack() as stack:
            folder = Path(spare)
            joined = stack.enter_context(network())
            stack.enter_context(web_server(joined, self.files, name))
            done = self.bridged(joined, folder, *words)
            self.assertEqual(done.returncode, 0, done.stderr)
            write_parts(output_of(folder / "boot.out"), folder / "parts")
            self.assertTrue((folder / "parts" / "kernel").read_bytes() == self.image, "another image was handed off")
            again = folder / "again.out"
            subprocess.run([program(), "replay", folder / "boot.rec", again], check=False, timeout=MOST_SECONDS)
            self.assertTrue(again.read_bytes() == (folder / "boot.out").read_bytes(), "the run doesn't replay")
            return done.stderr

    def bridged(self, joined: Network, folder: Path, *words: str) -> subprocess.CompletedProcess[str]:
        (folder / "boot.ipxe").write_text(SCRIPT)
        line = [
            sys.executable, str(TOP / "tools" / "bridge.py"), str(folder / "boot.ipxe"), "--run", "--quiet",
            "--device", joined.client_device, "--ip", f"{CLIENT_ADDRESS}/{PREFIX}",
            "--record", str(folder / "boot.rec"), "--output", str(folder / "boot.out"), *words,
        ]  # fmt: skip
        return subprocess.run(
            joined.in_client(*line), capture_output=True, text=True, timeout=MOST_SECONDS, check=False
        )


if __name__ == "__main__":
    unittest.main()
