"""No file is lost: outputs that are inputs, links, pipes, full disks, interrupts, huge inputs."""

from __future__ import annotations

import os
import resource
import signal
import subprocess
import sys
import threading
import time
import unittest
from typing import Callable

from shared.causes import Cause, Code
from shared.kinds import OpenKind, PartKind, Status
from shared.records import Done, Open, Part, Record, Result, Sent, Step, Text, Tick
from shared.records import spell
from tests import made
from tests.case import Called, Case
from tests.test_record import pcap_file

FRAME = made.found().frame
HUGE = 200_000_000
ROOM = 256 * 1024 * 1024
SCRIPT = b"#!ipxe\necho hello\n"


class Tool(Case):
    """The tools as processes, on a small run."""

    def setUp(self) -> None:
        super().setUp()
        self.put("s.ipxe", SCRIPT)
        self.put("s.pcap", pcap_file([(0, FRAME), (1_000, FRAME)]))
        self.put("boot.rec", made.BOOT_INPUT)
        self.put("boot.out", made.BOOT_OUTPUT)
        self.put("kept", b"what was there")

    def end(
        self,
        line: str,
        prepare: Callable[[], None] | None = None,
        stdout: int = subprocess.PIPE,
        stdin: int = subprocess.DEVNULL,
    ) -> Called:
        """How a tool ends that runs as a process of its own."""
        done = subprocess.run(
            [sys.executable, *line.split()],
            cwd=self.folder,
            env={**os.environ, "PYTHONDONTWRITEBYTECODE": "1"},
            stdin=stdin,
            stdout=stdout,
            stderr=subprocess.PIPE,
            text=True,
            preexec_fn=prepare,
            check=False,
            timeout=120,
        )
        self.assertNotIn("Traceback", done.stderr, line)
        self.assertNotIn("Exception", done.stderr, line)
        return Called(done.returncode, done.stdout or "", done.stderr)

    def names(self) -> set[str]:
        return set(os.listdir(self.folder))


class Inputs(Tool):
    """An output that is an input of the same command is refused under any name."""

    CALLS = (
        ("tools/record.py s.ipxe {}", "s.ipxe"),
        ("tools/record.py s.ipxe {} --capture s.pcap", "s.pcap"),
        ("tools/pcap.py boot.rec --to {}", "boot.rec"),
        ("tools/pcap.py boot.rec boot.out --to {}", "boot.out"),
    )

    def names_of(self, name: str) -> list[str]:
        """The file under six names."""
        path, inner = self.folder / name, self.folder / "inner"
        inner.mkdir(exist_ok=True)
        for link in ("soft", "hard", "soft-soft", "folder"):
            (inner / link).unlink(missing_ok=True)
        (inner / "soft").symlink_to(path)
        (inner / "soft-soft").symlink_to(inner / "soft")
        (inner / "folder").symlink_to(self.folder)
        os.link(path, inner / "hard")
        links = [f"inner/{link}" for link in ("soft", "soft-soft", "hard", f"folder/{name}")]
        return [name, f"./inner/../{name}", str(path), *links]

    def test_each_tool_under_each_name(self) -> None:
        for line, name in self.CALLS:
            content = self.get(name)
            for other in self.names_of(name):
                with self.subTest(line, name=other):
                    done = self.call(line.format(other))
                    self.assertEqual((done.status, done.printed), (1, ""))
                    self.assertIn("an output must not be an input of the same command", done.said)
                    self.assertEqual(self.get(name), content)

    OTHERS = (
        ("tools/boot.py s.ipxe --output {}", "s.ipxe"),
        ("tools/boot.py s.ipxe --input {}", "s.ipxe"),
        ("tools/boot.py s.pcap --script s.ipxe --input {}", "s.ipxe"),
        ("tools/boot.py s.pcap --script s.ipxe --input {}", "s.pcap"),
        ("tools/boot.py s.ipxe --program kept --output {}", "kept"),
        ("tools/bridge.py s.ipxe --device none --record {}", "s.ipxe"),
        ("tools/bridge.py s.ipxe --device none --output {}", "s.ipxe"),
        ("tools/bridge.py s.ipxe --device none --pcap {}", "s.ipxe"),
        ("tools/handoff.py boot.out --to {}", "boot.out"),
        ("tools/live_boot.py --kernel kept --keep {}", "kept"),
        ("tools/show.py boot.out --input boot.rec --parts {}", "boot.rec"),
    )

    def test_each_other_tool_by_a_link(self) -> None:
        for line, name in self.OTHERS:
            content = self.get(name)
            self.names_of(name)
            with self.subTest(line, name=name):
                done = self.end(line.format("inner/soft-soft"))
                self.assertEqual((done.status, done.printed), (1, ""))
                self.assertIn("an output must not be an input of the same command", done.said)
                self.assertEqual(self.get(name), content)

    def test_two_outputs_that_are_one_file(self) -> None:
        self.names_of("kept")
        (self.folder / "dangling").symlink_to("new")
        bridge = "tools/bridge.py s.ipxe --device none"
        for line, options in (
            (f"{bridge} --record new --output new", "--record and --output"),
            (f"{bridge} --output new --pcap ./inner/../new", "--output and --pcap"),
            (f"{bridge} --record kept --pcap inner/hard", "--record and --pcap"),
            ("tools/boot.py s.ipxe --input dangling --output new", "--input and --output"),
        ):
            with self.subTest(line):
                done = self.end(line)
                self.assertEqual((done.status, done.printed), (1, ""))
                self.assertIn(f"{options} can't both be this file", done.said)
                self.assertEqual((self.get("kept"), (self.folder / "new").exists()), (b"what was there", False))

    def test_what_may_be_named_twice(self) -> None:
        line = "tools/bridge.py s.ipxe --device none --record /dev/null --output /dev/null"
        self.assertNotIn("can't both be", self.end(line).said)

    def test_standard_output_that_is_an_input(self) -> None:
        content = self.get("boot.rec")
        with (self.folder / "boot.rec").open("ab") as stream:
            done = self.end("tools/pcap.py boot.rec --to -", stdout=stream.fileno())
        self.assertEqual(done.status, 1)
        self.assertEqual(self.get("boot.rec"), content)


class Outputs(Tool):
    """Where an output goes, and what becomes of what was there."""

    MAKE = "tools/record.py s.ipxe {} --ip 10.0.0.2 --capture s.pcap"

    def setUp(self) -> None:
        super().setUp()
        self.works(self.MAKE.format("wanted"))
        self.wanted = self.get("wanted")

    def test_a_link_is_followed(self) -> None:
        (self.folder / "far").mkdir()
        self.put("far/old", b"old")
        for target in ("far/old", "far/new"):
            link = self.folder / "link"
            link.unlink(missing_ok=True)
            link.symlink_to(target)
            self.works(self.MAKE.format("link"))
            self.assertTrue(link.is_symlink())
            self.assertEqual(self.get(target), self.wanted)
        self.assertEqual(set(os.listdir(self.folder / "far")), {"old", "new"})

    def test_the_mode_of_a_file_stays(self) -> None:
        (self.folder / "kept").chmod(0o640)
        self.works(self.MAKE.format("kept"))
        self.assertEqual((self.folder / "kept").stat().st_mode & 0o777, 0o640)
        self.assertEqual(self.get("kept"), self.wanted)

    def test_other_files_beside_it_stay(self) -> None:
        for name in ("made.unfinished", ".netboot-made.part"):
            self.put(name, b"another's")
        before = self.names()
        self.works(self.MAKE.format("made"))
        self.fails("tools/record.py none made", "none")
        self.assertEqual(self.names(), before | {"made"})
        for name in ("made.unfinished", ".netboot-made.part"):
            self.assertEqual(self.get(name), b"another's")

    def test_a_pipe(self) -> None:
        os.mkfifo(self.folder / "pipe")
        found: list[bytes] = []
        reader = threading.Thread(target=lambda: found.append(self.get("pipe")))
        reader.start()
        self.works(self.MAKE.format("pipe"))
        reader.join(timeout=10)
        self.assertEqual(found, [self.wanted])
        self.assertTrue((self.folder / "pipe").is_fifo())

    def test_standard_output_and_input(self) -> None:
        with (self.folder / "made").open("wb") as stream:
            done = self.end(self.MAKE.format("-"), stdout=stream.fileno())
        self.assertEqual((done.status, self.get("made")), (0, self.wanted))
        self.assertEqual(done.said, "-: 4 records; 2 of 2 packets, 0.001 s\n")
        with (self.folder / "s.pcap").open("rb") as stream:
            line = "tools/record.py s.ipxe made --ip 10.0.0.2 --capture -"
            self.assertEqual(self.end(line, stdin=stream.fileno()).status, 0)
        self.assertEqual(self.get("made"), self.wanted)
        with (self.folder / "boot.out").open("rb") as stream:
            done = self.end("tools/show.py - --why", stdin=stream.fileno())
        self.assertEqual(done.printed, "The boot succeeded: kernel k (516 bytes) from 10.0.0.1\n")

    def test_a_device_that_is_full(self) -> None:
        for line in (self.MAKE.format("/dev/full"), "tools/pcap.py boot.rec --to /dev/full"):
            done = self.end(line)
            self.assertEqual((done.status, done.printed), (1, ""))
            self.assertIn("/dev/full: No space left on device\n", done.said)

    def test_a_limit_of_files(self) -> None:
        before = self.names()
        self.put("long.rec", [made.start(b""), *[made.found()] * 200])
        limit = resource.RLIMIT_FSIZE

        def prepare() -> None:
            resource.setrlimit(limit, (4_096, 4_096))

        done = self.end("tools/pcap.py long.rec --to kept", prepare)
        self.assertEqual((done.status, done.printed), (1, ""))
        self.assertIn("kept: File too large\n", done.said)
        self.assertEqual(self.get("kept"), b"what was there")
        self.assertEqual(self.names(), before | {"long.rec"})

    def test_a_full_disk(self) -> None:
        disk = self.folder / "disk"
        disk.mkdir()
        mount = ["mount", "-t", "tmpfs", "-o", "size=16k", "none", str(disk)]
        if subprocess.run(mount, capture_output=True, check=False).returncode != 0:
            self.skipTest("no small disk can be mounted here")
        try:
            (disk / "kept").write_bytes(b"what was there")
            self.put("long.rec", [made.start(b""), *[made.found()] * 1_000])
            done = self.end("tools/pcap.py long.rec --to disk/kept")
            self.assertEqual(done.status, 1)
            self.assertIn("disk/kept: No space left on device", done.said)
            self.assertEqual((disk / "kept").read_bytes(), b"what was there")
            self.assertEqual(os.listdir(disk), ["kept"])
        finally:
            subprocess.run(["umount", str(disk)], check=True)

    def test_parts_that_do_not_fit_leave_nothing(self) -> None:
        pieces = [Part(PartKind.KERNEL, 0, number * 60_000, bytes(60_000)) for number in range(3)]
        self.put("long.out", [Step(1), *pieces, Done(Status.HANDED_OFF)])
        before = self.names()

        def prepare() -> None:
            resource.setrlimit(resource.RLIMIT_FSIZE, (170_000, 170_000))

        done = self.end("tools/show.py long.out --parts new/parts", prepare)
        self.assertEqual((done.status, done.printed), (1, ""))
        self.assertIn("File too large", done.said)
        self.assertEqual(self.names(), before)

    def test_what_can_not_be_written(self) -> None:
        for name, said in (("inner", "Is a directory"), ("none/made", "no file can be made")):
            (self.folder / "inner").mkdir(exist_ok=True)
            self.fails(self.MAKE.format(name), said)

    def test_a_name_of_any_bytes(self) -> None:
        name = os.fsdecode(b"made-\xff")
        done = self.end(self.MAKE.format(name))
        self.assertEqual(done.status, 0)
        self.assertTrue(done.printed.startswith("made-\\xff: 4 records"))
        self.assertEqual((self.folder / name).read_bytes(), self.wanted)


class Ends(Tool):
    """How a tool ends whose output goes nowhere, or that is interrupted."""

    LONG = "tools/show.py long.rec"

    def setUp(self) -> None:
        super().setUp()
        self.put("long.rec", [made.start(b""), *[Tick(1)] * 20_000])

    def test_a_reader_that_goes_away(self) -> None:
        with self.start(self.LONG) as process:
            process.stdout.readline()
            process.stdout.close()
            self.assertEqual(process.stderr.read(), "")

    def test_standard_output_that_is_full(self) -> None:
        for line in (self.LONG, "tools/show.py boot.out --why", "tools/record.py s.ipxe made"):
            with open("/dev/full", "wb") as full:
                done = self.end(line, stdout=full.fileno())
            self.assertEqual(done.status, 1, line)
            self.assertIn("No space left on device\n", done.said)

    def test_standard_output_that_is_closed(self) -> None:
        for line in (self.LONG, "tools/record.py s.ipxe made", "tools/pcap.py boot.rec --to -"):
            done = self.end(line, lambda: os.close(1))
            self.assertEqual(done.status, 1, line)
            self.assertIn("standard output is closed\n", done.said)

    def test_standard_error_that_is_closed(self) -> None:
        done = self.end("tools/show.py none", lambda: os.close(2))
        self.assertEqual((done.status, done.printed), (1, ""))

    def test_interrupted(self) -> None:
        os.mkfifo(self.folder / "endless")
        before = self.names()
        for number, wanted in ((signal.SIGINT, 130), (signal.SIGTERM, 143)):
            with self.start("tools/pcap.py endless --to kept") as process:
                with (self.folder / "endless").open("wb") as stream:
                    stream.write(made.spelled(made.BOOT_INPUT))
                    stream.flush()
                    self.wait_for(lambda: self.names() != before)
                    process.send_signal(number)
                    said = process.stderr.read()
            self.assertEqual(process.returncode, wanted)
            self.assertNotIn("Traceback", said)
            self.assertEqual(self.get("kept"), b"what was there")
            self.assertEqual(self.names(), before)

    def wait_for(self, is_so: Callable[[], bool]) -> None:
        for _ in range(400):
            if is_so():
                return
            time.sleep(0.025)
        raise AssertionError("it never came")


class HugeInputs(Tool):
    """Inputs of 200 MB, in 256 MiB of memory."""

    def run_in_room(self, line: str, status: int = 0) -> Called:
        def prepare() -> None:
            resource.setrlimit(resource.RLIMIT_AS, (ROOM, ROOM))

        with open(os.devnull, "wb") as nowhere:
            done = self.end(line, prepare, stdout=nowhere.fileno())
        self.assertEqual(done.status, status, done.said)
        return done

    def put_many(self, name: str, first: list[Record], many: bytes, last: list[Record]) -> None:
        """A recording with so many of these records that it has 200 MB."""
        with (self.folder / name).open("wb") as stream:
            stream.write(made.spelled(first))
            for _ in range(HUGE // len(many)):
                stream.write(many)
            stream.write(made.spelled(last))

    def test_a_script(self) -> None:
        with (self.folder / "huge.ipxe").open("wb") as stream:
            stream.truncate(HUGE)
        done = self.run_in_room("tools/record.py huge.ipxe made", 1)
        self.assertIn("more than 130996 bytes", done.said)

    def test_a_capture(self) -> None:
        record = pcap_file([(0, FRAME + bytes(60_000))])[24:]
        with (self.folder / "huge.pcap").open("wb") as stream:
            stream.write(pcap_file([]))
            for _ in range(HUGE // len(record)):
                stream.write(record)
        done = self.run_in_room("tools/record.py s.ipxe made --capture huge.pcap --skip")
        self.assertIn("frames skipped", done.said)
        self.assertLess(len(self.get("made")), 1_000)

    def test_parts_of_a_handoff(self) -> None:
        piece = 65_536
        with (self.folder / "huge.out").open("wb") as stream:
            stream.write(made.spelled(made.BOOT_OUTPUT[:5]))
            for number in range(HUGE // piece):
                stream.write(spell(Part(PartKind.KERNEL, 0, number * piece, bytes(piece))))
            stream.write(spell(Done(Status.HANDED_OFF)))
        for words in ("", "--why", "--text", "--parts parts"):
            self.run_in_room(f"tools/show.py huge.out {words}")
        size = (self.folder / "parts" / "kernel").stat().st_size
        self.assertEqual(size, HUGE // piece * piece)

    def test_a_text_without_an_end(self) -> None:
        begin = [Step(1), made.enter(), made.command(b"echo")]
        self.put_many("huge.out", begin, spell(Text(b"x" * 4_160)) * 16, [])
        self.run_in_room("tools/show.py huge.out --text")
        self.run_in_room("tools/show.py huge.out --why")

    def test_failures_and_opens_without_an_end(self) -> None:
        cause = Cause(Code.FALSE)
        failed = made.spelled([made.command(b"iseq " + b"a" * 4_000), Result(cause)]) * 16
        self.put_many("huge.out", [Step(1), made.enter()], failed, [])
        self.run_in_room("tools/show.py huge.out --why")
        opened = made.spelled(
            [
                Open(number, OpenKind.HTTP, made.SERVER.ip, 80, 49_152, b"u" * 60_000)
                for number in range(4)
            ]
        )
        self.put_many("huge.out", [Step(1), made.enter(), made.command(b"x")], opened, [])
        self.run_in_room("tools/show.py huge.out --why")

    def test_frames_of_one_step(self) -> None:
        sent = made.spelled([Sent(made.asked().frame + bytes(1_400))] * 16)
        self.put_many("huge.out", [Step(1)], sent, [])
        self.put("in.rec", [made.start(b"")])
        self.run_in_room("tools/pcap.py in.rec huge.out --to made.pcap")
        self.assertGreater((self.folder / "made.pcap").stat().st_size, HUGE * 9 // 10)


if __name__ == "__main__":
    unittest.main()
