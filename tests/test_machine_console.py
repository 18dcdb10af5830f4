"""The console of a machine without a disk: its sentences are those of --why, and a transfer's line has what came."""

from __future__ import annotations

import importlib
import io
import re
import shutil
import subprocess
import tempfile
import unittest
from pathlib import Path
from unittest import mock

from shared.advice import TO_DO
from shared.causes import OK, Cause, Code
from shared.command_line import Refused
from shared.kinds import Status
from shared.records import Advance, Command, Done, Ended, Received, Record, Result, Sent, Step, Text, Try
from shared.why import reasons
from shared.wire import tftp_error, tftp_oack
from tests import TOP, drive_boot_rows, drive_booted_rows, drive_life_rows, drive_rows, made, test_drives, test_why
from tests.case import Case
from tests.script_rows import Row
from tests.web_fetches import LENGTH, WIRE
from tests.web_records import ACK, FIN, SYN
from tests.web_rows import ROWS

SOURCES = (TOP / "tests/machine/sees.c", *(TOP / "tools/machine" / name for name in ("console.c", "drives.c", "sentences.c")))
COMPILE = ("gcc", "-O1", "-g", "-Wall", "-Wextra", "-Wconversion", "-Werror", "-fsanitize=address,undefined",
           f"-I{TOP / 'tools/machine'}")
MOST_LINES = 400
# what these modules ask --why about
MODULES = tuple(f"tests.test_why{name}" for name in ("_opens", "_asking", "_names", "_causes", ""))
LEAST_RUNS = 40
# a failure of an open that a server took part in, or was silent in
OF_OPENS = re.compile(r"  failed: (?:Refused|TimedOut|Broken) \d+ \d+: (.*)")
# and one of a response that passes a limit, or moves the file to where it can't be asked for
OF_RESPONSES = re.compile(
    r"  failed: (?:Refused \d+ \d+|TimedOut \d+ 0|Broken \d+ 0|TooMany [27] 0|TooLarge 1 0|TooLong 6 0): (.*)|"
    r" has moved\n[^\n]*  failed: (?:NoScheme|BadUri|BadName|NoServer) 0 0: (.*)"
)
LEAST_RESPONSES = 30
# one of a drive's session
OF_DRIVES = re.compile(r"  failed: (?:Refused|TimedOut|Broken|NoSecret) \d+ \d+: (.*)")
LEAST_DRIVES = 60
DRIVES: dict[str, Row] = test_drives.ROWS
SPAN = re.compile(r" in [\d.]+ s\b")
Run = tuple[bytes, bytes]


def runs_of(name: str) -> list[Run]:
    """The runs with an input of which a module's tests ask why they ended so."""
    module, found = importlib.import_module(name), []
    asked = test_why.why

    def noted(outputs: list[Record] | bytes, inputs: list[Record] | bytes | None = None) -> list[str]:
        if inputs is not None:
            found.append(tuple(one if isinstance(one, bytes) else made.spelled(one) for one in (inputs, outputs)))
        return asked(outputs, inputs)

    with mock.patch.object(test_why, "why", noted), mock.patch.object(module, "why", noted, create=True):
        unittest.defaultTestLoader.loadTestsFromModule(module).run(unittest.TestResult())
    return found


def parts_of(sentence: str, wanted: str) -> list[str]:
    """How it failed, with the span only where that is wanted, and what is to be done."""
    how, _, to_do = sentence.partition(TO_DO)
    return [how if SPAN.search(wanted) else SPAN.sub("", how), to_do]


@unittest.skipUnless(shutil.which("gcc"), "gcc is missing")
class Console(Case):
    built: Path

    @classmethod
    def setUpClass(cls) -> None:
        folder = tempfile.TemporaryDirectory()
        cls.addClassCleanup(folder.cleanup)
        cls.built = Path(folder.name) / "sees"
        done = subprocess.run([*COMPILE, "-o", cls.built, *SOURCES], capture_output=True, text=True, check=False)
        if "cannot find" in done.stderr:
            raise unittest.SkipTest("gcc's address sanitizer is missing")
        assert done.returncode == 0, done.stderr

    def shown(self, inputs: bytes, outputs: bytes) -> str:
        self.put("in.rec", inputs)
        self.put("out.rec", outputs)
        done = subprocess.run([self.built, "in.rec", "out.rec"], cwd=self.folder, capture_output=True, check=False)
        self.assertEqual((done.returncode, done.stderr), (0, b""))
        self.assertNotRegex(done.stdout, rb"[\x00-\x08\x0b\x0c\x0e-\x1f\x7f-\xff]")
        return done.stdout.decode("ascii")

    def sentence(self, inputs: bytes, outputs: bytes) -> str | None:
        """The first line of --why, where the recordings are of one run."""
        self.put("in.rec", inputs)
        try:
            return next(reasons(Path("out.rec"), io.BytesIO(outputs), self.folder / "in.rec"))
        except Refused:
            return None

    def test_the_sentences_of_why(self) -> None:
        """On each run of the tests of --why in which an open failed: a sentence of the console stands in that line."""
        compared = 0
        for inputs, outputs in [run for name in MODULES for run in runs_of(name)]:
            shown, wanted = self.shown(inputs, outputs), self.sentence(inputs, outputs)
            said = OF_OPENS.findall(shown)
            if not said or wanted is None:
                continue
            compared += 1
            is_said = any(all(part in wanted for part in parts_of(one, wanted)) for one in said)
            self.assertTrue(is_said, f"{said}\n{wanted}")
        self.assertGreaterEqual(compared, LEAST_RUNS)

    def test_the_sentences_on_responses(self) -> None:
        """The same on each row of a fetch by HTTP that fails."""
        compared = 0
        for name, row in ROWS.items():
            inputs, outputs = made.spelled(row.inputs), made.spelled(row.outputs)
            shown, wanted = self.shown(inputs, outputs), self.sentence(inputs, outputs)
            said = [one or other for one, other in OF_RESPONSES.findall(shown)]
            if said and wanted is not None:
                compared += 1
                is_said = any(all(part in wanted for part in parts_of(one, wanted)) for one in said)
                self.assertTrue(is_said, f"{name}: {said}\n{wanted}")
        self.assertGreaterEqual(compared, LEAST_RESPONSES)

    def test_the_sentences_on_drives(self) -> None:
        """The same on each row of a drive that isn't hooked for what its target did."""
        compared = 0
        for name, row in DRIVES.items():
            inputs, outputs = made.spelled(row.inputs), made.spelled(row.outputs)
            shown, wanted = self.shown(inputs, outputs), self.sentence(inputs, outputs)
            # of a boot that succeeded --why doesn't say what failed before
            for said in OF_DRIVES.findall(shown) if row.outputs[-1] != Done(Status.HANDED_OFF) else ():
                compared += 1
                self.assertTrue(all(part in (wanted or "") for part in parts_of(said, wanted or "")), f"{name}: {said}\n{wanted}")
        self.assertGreaterEqual(compared, LEAST_DRIVES)

    def test_a_drive(self) -> None:
        """Its line ends once it is hooked, and what comes meanwhile begins a line."""
        row = drive_rows.ROWS["a_unit"]
        shown = self.shown(made.spelled(row.inputs), made.spelled(row.outputs))
        self.assertIn("  unit 1-ff02 of iqn.x:t at 10.0.0.1... is hooked\n", shown)
        self.assertNotIn("has ended", shown)

    def test_a_drive_that_ends(self) -> None:
        row = drive_life_rows.ROWS["let_go_after_its_target_s_end"]
        shown = self.shown(made.spelled(row.inputs), made.spelled(row.outputs))
        self.assertEqual(shown.count("the session with unit 0 of iqn.2026-11.lan.boot:disk has ended\n"), 1)

    def test_a_drive_that_is_booted(self) -> None:
        """By its URI, or as one that is hooked, beside another."""
        for rows, name, booted in (
            (drive_boot_rows.ROWS, "boot_a_unit", "unit 1-ff02 of iqn.x:t"),
            (drive_booted_rows.ROWS, "booted_of_two_the_lower", "unit 0 of iqn.2026-11.lan.boot:disk"),
            (drive_booted_rows.ROWS, "booted_of_two_the_higher", "unit 0 of iqn.2026-11.lan.boot:other"),
        ):
            shown = self.shown(made.spelled(rows[name].inputs), made.spelled(rows[name].outputs))
            lines = [line.rpartition("\r")[2].partition("] ")[2] for line in shown.splitlines()][-2:]
            self.assertEqual(lines, [f"  {booted} at 10.0.0.1... is booted", "the boot succeeded: a disk's first sector is handed off"])

    def test_size(self) -> None:
        for source in (TOP / "tools/machine").glob("*.[ch]"):
            self.assertLessEqual(len(source.read_text().splitlines()), MOST_LINES, source)

    def lines(self, outputs: list[Record], inputs: list[Record] | None = None) -> list[str]:
        """The lines as a terminal shows them, without the seconds."""
        script = made.start(b"#!ipxe\n")
        shown = self.shown(made.spelled([script, *(inputs or [])]), made.spelled(outputs))
        return [line.rpartition("\r")[2].partition("] ")[2] for line in shown.split("\n")]

    def test_a_transfer(self) -> None:
        """Its line is begun with the URI, and ends with what came; what goes between the two begins a line."""
        oack = made.from_server(tftp_oack(blksize=1432, tsize=40_810_276))
        begun = [Step(1), Command(1, 2, 0, True, (b"imgfetch", b"tftp://10.0.0.1/f")), made.tftp_open(b"f"), Step(2)]
        ended = [Advance(0, 28_499), Ended(0, OK), Result(OK), Done(Status.ENDED)]
        for between, lines in (
            ([], []),
            ([Text(b"a\x1b[2J\n")], ["  tftp://10.0.0.1/f..."]),
            ([Try(0, 1), made.asked()], ["  tftp://10.0.0.1/f...", "eth0: the address is 10.0.0.2"]),
        ):
            shown = self.lines([*begun, *between, *ended], [oack])
            shown = [line for line in shown if line and "1b[2J" not in line]
            self.assertEqual(shown[:-2], ["imgfetch tftp://10.0.0.1/f", *lines])
            self.assertRegex(shown[-2], r"^  tftp://10\.0\.0\.1/f\.\.\. ok, 40810276 bytes, \d+ kB/s$")
            self.assertEqual(shown[-1], "the script ended, and hands nothing off")

    def test_hostile_frames_and_names(self) -> None:
        """Each cut of each answer, and a target and a name of any bytes."""
        target = bytes(range(256)) * 8
        answers = [tftp_error(0, target[:1_000]), tftp_error(0, b""), tftp_oack(tsize=10**20),
                   tftp_oack(blksize="", tsize=0), b"\0\6blksize", b"\0\6\0\0\0", b"\0\5\0\0", b"\0", b""]
        whole = [made.from_server(answer) for answer in answers]
        inputs = [*whole, *[Received(one.frame[:size]) for one in whole for size in range(14, len(one.frame), 7)]]
        steps = [Step(number) for number in range(2, len(inputs) + 2)]
        cause = Cause(Code.REFUSED, 2, 0)
        outputs = [Step(1), made.command(b"imgfetch x"), made.tftp_open(target), Try(0, 1), Sent(bytes(14)), *steps,
                   Ended(0, cause), Result(cause), Done(Status.SCRIPT_FAILED)]
        shown = self.shown(made.spelled([made.start(b"#!ipxe\n"), *inputs]), made.spelled(outputs))
        self.assertIn("failed: Refused 2 0: 10.0.0.1 answered: ", shown)

    def test_a_transfer_by_http(self) -> None:
        """A file that has moved has a line for each place; at the last one stands what came."""
        row = ROWS["moved"]
        shown = self.shown(made.spelled(row.inputs), made.spelled(row.outputs)).split("\n")
        lines = [line.rpartition("\r")[2].partition("] ")[2] for line in shown]
        self.assertIn("  http://10.0.0.1/a... has moved", lines)
        self.assertTrue(any(re.match(r"  http://10\.0\.0\.1/b\.\.\. ok, \d+ bytes, \d+ kB/s$", line) for line in lines), lines)

    def test_hostile_responses(self) -> None:
        """Heads of any bytes, in any pieces, and each cut of their frames: they steer nothing, and a size is a number."""
        sizes = (b"-1", b"9" * 40, b"", b" 7", b"\x009", b"4294967296", b"\x1b[2J")
        heads = [*(b"HTTP/1.1 200 OK\nContent-Length:" + size + b"\n\n" for size in sizes), b"\n\n", b"\n\r\n", b"H" * 1_400,
                 bytes(range(256)) * 5]
        pieces = [WIRE.brings(place, head[:300], flags, LENGTH) for head in heads for place in (0, 1, 299, 2**31, 2**32 - 1)
                  for flags in (ACK, FIN | ACK, SYN)]
        inputs = [WIRE.answers(), *pieces, *[Received(pieces[0].frame[:size]) for size in range(14, 60)]]
        steps = [Step(number) for number in range(2, len(inputs) + 2)]
        opened = [one for step in steps for one in (step, *([WIRE.opened] if step.number % 3 == 0 else []))]
        cause = Cause(Code.BROKEN, 9)
        outputs = [Step(1), made.command(b"imgfetch x"), WIRE.opened, *opened, Ended(0, cause), Result(cause),
                   Done(Status.SCRIPT_FAILED)]
        self.assertIn("failed: Broken 9 0: 10.0.0.1 ", self.shown(made.spelled([made.start(b"#!ipxe\n"), *inputs]), made.spelled(outputs)))

    def test_each_cause_has_its_name(self) -> None:
        results = b"".join(b"\0\0\0\x0a\x85" + bytes([code]) + bytes(8) for code in [*Code, 22, 255])
        shown = self.shown(made.spelled([made.start(b"#!ipxe\n")]), made.spelled([Step(1)]) + results)
        names = [str(Cause(code)).partition("(")[0] for code in Code if code != Code.OK]
        self.assertEqual(re.findall(r"  failed: (\S+) 0 0: \w", shown), [*names, "?", "?"])


if __name__ == "__main__":
    unittest.main()
