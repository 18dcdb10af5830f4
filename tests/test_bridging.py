"""The bridge as a user starts it, in network namespaces of its own: its numbers, its devices, its lines and its end."""

from __future__ import annotations

import os
import re
import shutil
import signal
import subprocess
import sys
import time
import unittest
from ipaddress import IPv4Address
from pathlib import Path

from shared.namespaces import missing
from shared.program import BUILT, cache, is_built, sum_of_sources
from shared.recordings import read_input, read_output
from shared.records import Off, Start
from tests import TOP
from tests.case import Case
from tests.spaces import Spaced

MOST_SECONDS = 60
MOST_SECONDS_TO_END = 2.0
# the built program, or one that an earlier run compiled
PROGRAM = BUILT if is_built() else cache().program(sum_of_sources())
NUMBERS = re.compile(r"^bridge\.py: this run: (--w \d+ --uuid [-0-9a-f]{36} --key [0-9a-f]{64})$", re.M)
LOOP = b"#!ipxe\n:again\necho on and on\ngoto again\n"


@unittest.skipIf(missing(), missing() or "")
@unittest.skipIf(PROGRAM is None, "the program is neither built nor kept")
class Bridging(Spaced):
    def setUp(self) -> None:
        super().setUp()
        self.put("exit.ipxe", b"#!ipxe\necho ${net0/ip}\nexit\n")
        self.put("loop.ipxe", LOOP)

    def ends(self, line: str) -> tuple[str, str, int]:
        with self.begun(line) as process:
            printed, said = process.communicate(timeout=MOST_SECONDS)
            return printed, said, process.returncode

    def started(self, name: str) -> Start:
        with (self.folder / name).open("rb") as stream:
            record = next(read_input(stream)).record
        assert isinstance(record, Start)
        return record

    def test_no_two_runs_are_alike(self) -> None:
        line = "tools/bridge.py exit.ipxe --device near --run --record {}.rec"
        starts, given = [], []
        for name in ("a", "b"):
            _, said, status = self.ends(line.format(name))
            self.assertEqual(status, 3, said)
            starts.append(self.started(f"{name}.rec"))
            given.append(NUMBERS.search(said)[1])
        one, other = starts
        self.assertNotEqual(one.key, other.key)
        self.assertNotEqual(one.uuid, other.uuid)
        self.assertNotEqual((one.w, one.key), (other.w, other.key))
        self.assertFalse(one.key == bytes(32) or one.uuid.int == 0)
        _, said, _ = self.ends(f"{line.format('c')} {given[0]}")
        self.assertEqual((self.started("c.rec"), NUMBERS.search(said)[1]), (one, given[0]))

    def test_without_an_address(self) -> None:
        """The host's own address on the interface isn't the client's."""
        self.ip("address add 10.77.0.9/24 dev near", is_inside=True)
        _, said, status = self.ends("tools/bridge.py exit.ipxe --device near --run --record a.rec")
        self.assertEqual((self.started("a.rec").ip, status), (IPv4Address(0), 3), said)
        self.assertIn("near has an address of this machine, 10.77.0.9", said)

    def test_a_tap_that_is_there(self) -> None:
        if not Path("/dev/net/tun").exists():
            self.skipTest("/dev/net/tun is missing")
        self.ip("tuntap add own mode tap", is_inside=True)
        for name, stays in (("own", True), ("new", False)):
            printed, said, status = self.ends(f"tools/bridge.py exit.ipxe --tap {name} --ip 10.0.0.2/24 --run")
            self.assertEqual((printed, status), ("10.0.0.2\n", 3), said)
            self.assertEqual(f" {name}:" in self.ip("link", is_inside=True), stays)

    def test_what_is_no_free_tap(self) -> None:
        if not Path("/dev/net/tun").exists():
            self.skipTest("/dev/net/tun is missing")
        line = "tools/bridge.py exit.ipxe --tap {} --run"
        _, said, status = self.ends(line.format("near"))
        self.assertEqual(status, 1)
        self.assertIn("bridge.py: near is there and is no tap; --device takes it\n", said)
        with self.begun("tools/bridge.py exit.ipxe --tap busy") as first:
            self.line_with(first, "waiting for")
            _, said, status = self.ends(line.format("busy"))
        self.assertEqual(status, 1)
        self.assertIn("bridge.py: busy is a tap that another program has open\n", said)

    def test_the_end_of_a_script_that_never_waits(self) -> None:
        line = "tools/bridge.py loop.ipxe --device near --run --record a.rec --output a.out"
        for number in (signal.SIGINT, signal.SIGTERM):
            with self.begun(line, subprocess.DEVNULL) as process:
                self.line_with(process, "echo on and on")
                begun = time.monotonic()
                process.send_signal(number)
                said = process.communicate(timeout=MOST_SECONDS)[1]
                span = time.monotonic() - begun
            self.assertEqual(process.returncode, 5, said)
            self.assertNotRegex(said, "[Bb]roken pipe|write fault|Traceback")
            self.assertLess(span, MOST_SECONDS_TO_END)
            with (self.folder / "a.rec").open("rb") as stream:
                self.assertEqual([timed.record for timed in read_input(stream)][-1], Off())
            with (self.folder / "a.out").open("rb") as stream:
                self.assertGreater(len(list(read_output(stream))), 100)

    def test_a_reader_that_leaves(self) -> None:
        line = "tools/bridge.py loop.ipxe --device near --run"
        with self.begun(line) as process:
            assert process.stdout
            process.stdout.readline()
            process.stdout.close()
            said = process.stderr.read() if process.stderr else ""
            process.wait(MOST_SECONDS)
        self.assertNotRegex(said, "[Bb]roken pipe|write fault|Traceback")

    def test_each_command_and_failure_is_a_line(self) -> None:
        self.put("fail.ipxe", b"#!ipxe\nimgfetch tftp://10.9.9.9/k || echo going on\nifstat\n")
        printed, said, status = self.ends("tools/bridge.py fail.ipxe --device near --run")
        self.assertEqual((printed, status), ("going on\n", 4), said)
        lines = [line for line in said.splitlines() if not line.startswith("bridge.py:")]
        # what a cause means, after its name, is the business of other tests
        self.assertEqual(
            [re.sub(r"(failed: [^:]*): .+", r"\1: why", line) for line in lines if "MB/s" not in line],
            [
                "imgfetch tftp://10.9.9.9/k",
                "line 2: imgfetch failed: NoRoute(10.9.9.9): why",
                "echo going on",
                "ifstat",
                "line 3: ifstat failed: Unknown: why",
            ],
        )


@unittest.skipIf(missing("dnsmasq"), missing("dnsmasq") or "")
@unittest.skipIf(PROGRAM is None, "the program is neither built nor kept")
class LiveBoots(Case):
    def test_ctrl_c(self) -> None:
        words = [sys.executable, "-B", str(TOP / "tools" / "live_boot.py"), "--kernel", shutil.which("python3")]
        words[-1] = os.path.realpath(sys.executable)
        with subprocess.Popen(words, stderr=subprocess.PIPE, stdout=subprocess.DEVNULL, text=True) as process:
            assert process.stderr
            for line in process.stderr:
                if line.startswith("imgexec"):
                    break
            begun = time.monotonic()
            process.send_signal(signal.SIGINT)
            said = process.communicate(timeout=MOST_SECONDS)[1]
        self.assertEqual(process.returncode, 5, said)
        self.assertNotRegex(said, "[Bb]roken pipe|write fault|Traceback")
        self.assertIn("live_boot.py: booting by TFTP: switched off\n", said)


if __name__ == "__main__":
    unittest.main()
