"""`show.py`: what it prints, its filters and reports, and what it says of damage."""

from __future__ import annotations

import hashlib
import unittest

from shared.causes import OK
from shared.kinds import PartKind, Status
from shared.records import Command, Done, Graph, Part, Result, Step, Text, Tick
from tests import made
from tests.case import Case


class Showing(Case):
    def setUp(self) -> None:
        super().setUp()
        self.put("boot.rec", made.BOOT_INPUT)
        self.put("boot.out", made.BOOT_OUTPUT)

    def test_damage_is_named_after_what_is_complete(self) -> None:
        whole = made.HELLO_OUTPUT
        unknown = whole[:25] + bytes.fromhex("00000002 99 00") + whole[25:]
        past_end = whole[:25] + bytes.fromhex("0000ffff 83") + whole[30:]
        for data, said, lines in (
            (whole[:-1], "at byte 125: the file ends inside a record", 8),
            (unknown, "at byte 29: type 0x99", 2),
            (past_end, "at byte 25: the file ends inside a record", 2),
            (whole[:25] + b"\0\0", "at byte 25: the file ends inside a length", 2),
            (whole + bytes(4), "at byte 131: the length is 0", 9),
            (b"\0\0\0", "the file ends after 3 bytes, inside its first record", 0),
            (b"", "the file is empty", 0),
        ):
            with self.subTest(said=said):
                self.put("damaged.out", data)
                printed = self.fails("tools/show.py damaged.out", f"damaged.out: {said}")
                self.assertEqual(len(printed.splitlines()), lines)
        self.put("damaged.rec", made.HELLO_INPUT[:50])
        self.fails("tools/show.py damaged.rec", "damaged.rec: at byte 0")
        self.fails("tools/show.py absent.rec", "absent.rec")

    def test_damage_is_named_with_its_file(self) -> None:
        self.put("cut.rec", made.spelled(made.BOOT_INPUT)[:-1])
        self.fails("tools/show.py boot.out --input cut.rec", "cut.rec: at byte")
        self.put("cut.out", made.spelled(made.BOOT_OUTPUT)[:-1])
        self.fails("tools/show.py cut.out --input boot.rec", "cut.out: at byte")

    def test_types(self) -> None:
        printed = self.works("tools/show.py boot.out --type try --type DONE")
        self.assertEqual(
            printed.splitlines(),
            ["  TRY 1 of open 0", "  TRY 2 of open 0", "  TRY 1 of open 0", "  DONE 0 handed off"],
        )
        self.assertEqual(len(self.works("tools/show.py boot.rec --type FRAME").splitlines()), 3)
        self.fails("tools/show.py boot.rec --type FRAMES", "FRAMES is none of", 2)

    def test_a_step_after_4096_commands(self) -> None:
        goes = [made.command(b"goto a", 3), Result(OK)]
        begins = [Step(1), made.enter(), *goes * 4_096, Step(2)]
        self.put("loop.rec", [made.start(b"#!ipxe\n:a\ngoto a\n"), Tick(20)])
        self.put("loop.out", [*begins, *goes * 4_095, Step(3), *goes, Done(Status.UNFINISHED)])
        printed = self.works("tools/show.py loop.out --type STEP").splitlines()
        why = "after 4096 commands in step 1, the most that may begin in one"
        self.assertEqual(printed, ["STEP 1", f"STEP 2, {why}", "STEP 3"])
        self.put("loop.out", [*begins, Done(Status.UNFINISHED)])
        printed = self.works("tools/show.py loop.out --input loop.rec").splitlines()
        self.assertEqual(printed[-2], f"STEP 2 at 20 ms, on TICK 20, {why}")

    def test_words_as_they_are_written(self) -> None:
        """Where they are expanded to others, in the first script; where they can't be expanded it is said."""
        begins = [Step(1), made.enter(), made.command(b"echo a", 2), Result(OK)]
        refused = Command(1, 3, 1, False, (b"echo", b"${x+}"))
        outputs = [*begins, Command(1, 3, 0, True, (b"echo", b"a")), Result(OK), refused]
        self.put("words.out", [*outputs, Command(2, 3, 0, True, (b"echo", b"a"))])
        self.put("words.rec", [made.start(b"#!ipxe\necho a # ${x}\necho ${x} ; echo ${x+}\n")])
        printed = self.works("tools/show.py words.out --input words.rec --type COMMAND").splitlines()
        self.assertEqual(
            printed,
            [
                "  COMMAND depth 1, line 2, place 0: echo a",
                "  COMMAND depth 1, line 3, place 0: echo a",
                "    written as: echo ${x}",
                "  COMMAND depth 1, line 3, place 1, not expanded, words as written: echo ${x+}",
                "  COMMAND depth 2, line 3, place 0: echo a",
            ],
        )
        self.assertNotIn("written as", self.works("tools/show.py words.out --type COMMAND"))
        self.put("words.rec", [made.start(b"")])
        self.put("words.out", [Step(1), made.enter(), Command(1, 3, 0, True, (b"isset", b""))])
        printed = self.works("tools/show.py words.out --input words.rec")
        self.assertIn('place 0: isset ""\n    written as: isset ${filename}\n', printed)

    def test_texts(self) -> None:
        texts = (b"a", b"b\nc\t\x1b\n", b"", b"\n", b"\xff")
        self.put("texts.out", [Step(1), *map(Text, texts)])
        printed = self.works("tools/show.py texts.out --text")
        self.assertEqual(printed, "ab\nc\t\\x1b\n\n\\xff\n")

    def test_texts_in_utf_8(self) -> None:
        """Also a character that is cut; what could not be seen, or turns the line, is shown."""
        euro = "€".encode()
        texts = ("grüße ".encode(), euro[:1], euro[1:], b"\xe2\x82!", "\u202e\x85".encode())
        self.put("texts.out", [Step(1), *map(Text, texts)])
        printed = self.works("tools/show.py texts.out --text")
        self.assertEqual(printed, "grüße €\\xe2\\x82!\\xe2\\x80\\xae\\xc2\\x85\n")
        self.put("texts.out", [Step(1), Text("grüße\\\n".encode() + b"\xff")])
        self.assertIn('TEXT "grüße\\\\\\n\\xff"', self.works("tools/show.py texts.out"))

    def test_an_open(self) -> None:
        printed = self.works("tools/show.py boot.out --open 0 --input boot.rec").splitlines()
        steps = [line.split(",")[0] for line in printed if line.startswith("STEP")]
        self.assertEqual(
            steps,
            [f"STEP {step} at {time} ms" for step, time in ((1, 0), (3, 250), (4, 250), (5, 253), (6, 253))],
        )
        names = [line.split()[0] for line in printed if not line.startswith("STEP")]
        self.assertEqual(
            [name for name in names if name != "GRAPH"],
            "OPEN TRY FRAME TRY FRAME ADVANCE TRY FRAME ADVANCE FRAME ENDED".split(),
        )
        self.assertEqual(names.count("GRAPH"), sum(isinstance(one, Graph) for one in made.BOOT_OUTPUT))
        self.assertEqual(self.works("tools/show.py boot.out --open 1"), "")
        received = self.works("tools/show.py boot.rec --open 0")
        self.assertEqual(received.count("TFTP DATA"), 2)
        self.assertEqual(len(received.splitlines()), 2)

    def test_parts(self) -> None:
        name = b"../initrd.img"
        parts = [
            Part(PartKind.KERNEL_NAME, 0, 0, b"vmlinuz"),
            Part(PartKind.KERNEL, 0, 0, bytes(65_536)),
            Part(PartKind.KERNEL, 0, 65_536, b"end"),
            Part(PartKind.COMMAND_LINE, 0, 0, b"console=ttyS0"),
            Part(PartKind.INITRD_NAME, 0, 0, name),
            Part(PartKind.INITRD, 0, 0, b""),
            Part(PartKind.TABLE, 0, 0, b"iBFT"),
        ]
        self.put("parts.out", [Step(1), *parts, Done(Status.HANDED_OFF)])
        printed = self.works("tools/show.py parts.out --parts made/here")
        files = {
            "kernel": bytes(65_536) + b"end",
            "command-line": b"console=ttyS0",
            "initrd-0-..%2Finitrd.img": b"",
            "table": b"iBFT",
        }
        images = {
            "kernel": ", image vmlinuz",
            "initrd-0-..%2Finitrd.img": f", image {name.decode()}",
        }
        lines = []
        for file, content in files.items():
            self.assertEqual(self.get(f"made/here/{file}"), content)
            digest = hashlib.sha256(content).hexdigest()
            image = images.get(file, "")
            lines.append(f"made/here/{file}: {len(content)} bytes, sha256 {digest}{image}")
        self.assertEqual(printed.splitlines(), lines)
        self.fails("tools/show.py parts.out --parts made/here", "not an empty folder")

    def test_parts_that_are_not_whole(self) -> None:
        first = Part(PartKind.KERNEL, 0, 0, b"abc")
        gap = Part(PartKind.KERNEL, 0, 4, b"d")
        for records, said in (
            ([Step(1), first], "does not end in a hand-off"),
            ([Step(1), first, Done(Status.SCRIPT_FAILED)], "does not end in a hand-off"),
            ([Step(1), first, gap, Done(Status.HANDED_OFF)], "goes on at 4, not at 3"),
            ([Step(1), first, first, Done(Status.HANDED_OFF)], "goes on at 0, not at 3"),
        ):
            self.put("parts.out", records)
            self.fails("tools/show.py parts.out --parts made", said)
            self.assertEqual(list(self.folder.glob("made/*")), [])
        self.fails("tools/show.py boot.rec --parts made", "needs an output recording")

    def test_why(self) -> None:
        inputs, outputs = made.silent_run()
        self.put("silent.rec", inputs)
        self.put("silent.out", outputs)
        printed = self.works("tools/show.py silent.out --input silent.rec --why")
        self.assertEqual(printed.count(": try "), 6)
        self.fails("tools/show.py silent.rec --why", "needs an output recording")
        self.fails("tools/show.py silent.out --why --input silent.out", "is an output recording")
        self.put("short.rec", inputs[:6])
        self.fails("tools/show.py silent.out --input short.rec", "has no record 7")


if __name__ == "__main__":
    unittest.main()
