"""`boot.py`: what it takes, what it shows, how it ends, and what it leaves.

A program of the tests' own stands for netboot, where it isn't the point what netboot does.
"""

from __future__ import annotations

import os
import signal
import subprocess
import sys
import time
import unittest
from pathlib import Path

from boot import is_built
from shared.kinds import Status
from shared.records import Done
from shared.wire import arp_request, padded, tftp_data, tftp_request, udp_frame
from tests import TOP, made
from tests.case import Case
from tests.graph_run import fault_in
from tests.test_record import pcap_file

def ends(pid: int) -> bool:
    """Whether a process that was killed ends within ten seconds: on a busy machine that may take some."""
    until = time.monotonic() + 10
    while is_running(pid) and time.monotonic() < until:
        time.sleep(0.05)
    return not is_running(pid)


def is_running(pid: int) -> bool:
    """Whether a process is there, and isn't one that has ended and waits for its parent."""
    try:
        return Path(f"/proc/{pid}/stat").read_text().rsplit(")", 1)[1].split()[0] != "Z"
    except FileNotFoundError:
        return False


ASKED = arp_request(made.CLIENT, made.SERVER.ip)
SILENT = [(0, ASKED), (16_000_000, ASKED)]


class Launched(Case):
    """A launcher run as a process, with its temporary files in a folder of the test's."""

    def setUp(self) -> None:
        super().setUp()
        (self.folder / "temporary").mkdir()
        self.put("hello.out", made.HELLO_OUTPUT)
        self.put("s.ipxe", b"#!ipxe\necho hello\nexit\n")

    def program(self, text: str) -> None:
        """A program in netboot's place; its words are `replay IN OUT`."""
        self.put("program", b"#!/bin/sh\n" + text.encode())
        (self.folder / "program").chmod(0o755)

    def launch(self, line: str, path: str | None = None) -> subprocess.Popen[str]:
        environment = {**os.environ, "TMPDIR": str(self.folder / "temporary")}
        environment["PYTHONDONTWRITEBYTECODE"] = "1"
        if path is not None:
            environment["PATH"] = path
        return subprocess.Popen(
            [sys.executable, *line.split()],
            cwd=self.folder,
            env=environment,
            stdout=subprocess.PIPE,
            stderr=subprocess.PIPE,
            text=True,
        )

    def ends(self, line: str, path: str | None = None) -> tuple[str, str, int]:
        with self.launch(line, path) as process:
            printed, said = process.communicate(timeout=60)
        self.assertEqual(os.listdir(self.folder / "temporary"), [])
        return printed, said, process.returncode


class Programs(Launched):
    def test_text_trace_and_status(self) -> None:
        self.program(f'cp "{self.folder}/hello.out" "$3"; exit 3')
        printed, said, status = self.ends("tools/boot.py s.ipxe --program program")
        self.assertEqual((said, status), ("", 3))
        lines = printed.splitlines()
        self.assertEqual(lines, ["-- text", "hello", "the script ended well"])
        lines = self.ends("tools/boot.py s.ipxe --program program --trace")[0].splitlines()
        self.assertEqual(lines[:3], ["-- text", "hello", "-- trace"])
        self.assertIn("  COMMAND depth 1, line 2, place 0: echo hello", lines)
        self.assertEqual(lines[-1], "the script ended well")

    def test_the_options_of_record_are_passed_on(self) -> None:
        self.program("exit 9")
        self.ends("tools/boot.py s.ipxe --program program --ip 10.0.0.7/8 --mac 52:54:00:00:00:09 "
                  "--input in.rec")
        self.assertEqual(self.get("in.rec")[6:12].hex(":"), "52:54:00:00:00:09")
        self.assertEqual(self.get("in.rec")[64:72].hex("."), "0a.00.00.07.ff.00.00.00")

    def test_what_the_program_says_is_shown(self) -> None:
        self.program('echo "netboot: no memory" >&2; echo "in out.rec" >&2; exit 9')
        printed, said, status = self.ends("tools/boot.py s.ipxe --program program")
        wanted = "-- status 9: memory ran out\n"
        self.assertEqual((printed, said, status), (wanted, "netboot: no memory\nin out.rec\n", 9))

    def test_why_is_shown_of_what_ended_badly(self) -> None:
        self.put("bad.out", [Done(Status.BAD_RECORD)])
        self.put("bad.rec", made.HELLO_INPUT[:-1])
        self.program(f'cp "{self.folder}/bad.out" "$3"; exit 6')
        printed, _, status = self.ends("tools/boot.py bad.rec --program program")
        self.assertEqual(status, 6)
        self.assertIn("-- why\ninput record 1 can't be used: ", printed)
        self.assertNotIn("-- trace", printed)

    def test_options_that_a_recording_does_not_take(self) -> None:
        self.put("boot.rec", made.BOOT_INPUT)
        cases = (("--ip 10.0.0.9", "ip"), ("--from 1", "from"), ("--until 3", "until"))
        for words, option in cases:
            said = self.ends(f"tools/boot.py boot.rec {words}")[1]
            self.assertIn(f"is a recording already, so --{option} can't change it", said)

    def test_files_that_are_something_else(self) -> None:
        self.put("s.pcap", pcap_file(SILENT))
        for line, said in (
            ("boot.py hello.out", "hello.out is an output recording: show.py shows what it has"),
            ("boot.py s.pcap", "s.pcap: it has no request by TFTP or HTTP, so --script must say what to run"),
            ("boot.py none", "none: No such file or directory"),
            ("boot.py /dev/null", "/dev/null is no regular file"),
            ("show.py s.pcap", "s.pcap is a capture, and record.py makes a recording of it"),
            ("show.py s.ipxe", "s.ipxe is a script, and record.py makes a recording of it"),
        ):
            self.assertEqual(self.ends(f"tools/{line}")[1:], (f"{line.split()[0]}: {said}\n", 1))

    def test_a_signal(self) -> None:
        self.program("kill -9 $$")
        _, said, status = self.ends("tools/boot.py s.ipxe --program program")
        self.assertEqual((said, status), ("boot.py: the program was ended by SIGKILL\n", 1))

    def test_a_limit_of_files_is_no_signal_to_the_program(self) -> None:
        self.program('ulimit -f 1; head -c 100000 /dev/zero >"$3" 2>/dev/null && exit 3; exit 8')
        self.assertEqual(self.ends("tools/boot.py s.ipxe --program program")[2], 8)

    def test_interrupted_it_leaves_nothing_and_nobody(self) -> None:
        for number, wanted in ((signal.SIGINT, 130), (signal.SIGTERM, 143)):
            self.program('sleep 60 & echo $! >"$(dirname "$0")/pid"; sleep 60')
            with self.launch("tools/boot.py s.ipxe --program program") as process:
                pid = self.wait_for_pid()
                process.send_signal(number)
                printed, said = process.communicate(timeout=20)
            self.assertEqual(process.returncode, wanted)
            self.assertNotIn("Traceback", said)
            self.assertEqual(os.listdir(self.folder / "temporary"), [])
            self.assertTrue(ends(pid))
            (self.folder / "pid").unlink()

    def wait_for_pid(self) -> int:
        path = self.folder / "pid"
        for _ in range(200):
            if path.exists() and path.read_text():
                return int(path.read_text())
            time.sleep(0.05)
        raise AssertionError("the program wasn't started")

    def test_no_toolchain(self) -> None:
        copy = self.folder / "copy"
        subprocess.run(["cp", "-r", TOP / "tools", f"{copy}"], check=True)
        (self.folder / "crates" / "netboot").mkdir(parents=True)
        os.environ["XDG_CACHE_HOME"] = str(self.folder / "cache")
        self.addCleanup(os.environ.pop, "XDG_CACHE_HOME")
        _, said, status = self.ends("copy/boot.py s.ipxe", path="/none")
        self.assertEqual(status, 1)
        missing = "the program isn't built (crates/netboot/out/netboot), and the toolchain"
        self.assertIn(missing, said)

    def test_the_output_is_kept(self) -> None:
        self.program(f'cp "{self.folder}/hello.out" "$3"; exit 3')
        self.ends("tools/boot.py s.ipxe --program program --output kept.out")
        self.assertEqual(self.get("kept.out"), made.HELLO_OUTPUT)
        _, said, status = self.ends("tools/boot.py s.ipxe --program program --output s.ipxe")
        self.assertEqual(status, 1)
        self.assertIn("an output must not be an input", said)
        self.assertEqual(self.get("s.ipxe"), b"#!ipxe\necho hello\nexit\n")


@unittest.skipUnless(is_built(), "the program isn't built")
class Runs(Launched):
    """The built program, over a capture of each end."""

    def test_a_capture_of_a_silent_server(self) -> None:
        self.put("s.pcap", pcap_file(SILENT))
        self.put("f.ipxe", b"#!ipxe\nimgfetch tftp://10.0.0.1/f\n")
        line = "tools/boot.py f.ipxe --capture s.pcap --ip 10.0.0.2/24 --output kept.out"
        printed, _, status = self.ends(line)
        self.assertEqual(status, 4)
        self.assertIsNone(fault_in(self.get("kept.out")))
        said = "10.0.0.1 never answered: its hardware address was asked for six times in 15.75 s"
        self.assertIn(f"-- why\n{said}. To do: see that it is switched on, and in the client's net\n", printed)
        self.assertIn(": TimedOut(tries 6)\n", printed)

    def test_a_capture_alone(self) -> None:
        """A client that asks from a port of its own choice, and gets a kernel."""
        kernel = b"\x7fELF" + bytes(600)
        asked = udp_frame(made.CLIENT, made.SERVER, (2_070, 69), tftp_request(b"k"))
        blocks = [
            udp_frame(made.SERVER, made.CLIENT, (40_000, 2_070), tftp_data(number, part))
            for number, part in ((1, kernel[:512]), (2, kernel[512:]))
        ]
        frames = [made.found().frame, asked, *map(padded, blocks)]
        self.put("s.pcap", pcap_file([(n * 300_000, frame) for n, frame in enumerate(frames)]))
        printed, said, status = self.ends("tools/boot.py s.pcap --map-ports --output kept.out")
        self.assertEqual(status, 0, said)
        self.assertIsNone(fault_in(self.get("kept.out")))
        line = "the capture's first request: imgexec tftp://10.0.0.1/k"
        self.assertIn(line, said)
        self.assertEqual(printed, "The boot succeeded: kernel k (604 bytes) from 10.0.0.1, in 0.6 s of its time\n")

    def test_a_name_of_any_bytes(self) -> None:
        name = os.fsdecode(b"\xff\xfe.rec")
        Path(os.fsencode(self.folder / name).decode("utf-8", "surrogateescape")).write_bytes(
            made.HELLO_INPUT
        )
        printed, said, status = self.ends(f"tools/boot.py {name}")
        self.assertEqual((said, status), ("", 3))
        self.assertIn("-- text\nhello\n", printed)


if __name__ == "__main__":
    unittest.main()
