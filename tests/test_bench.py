"""The programs that count what calls of some crates cost, and the folders that they are built in."""

from __future__ import annotations

import io
import os
from contextlib import redirect_stdout
from pathlib import Path
from unittest.mock import patch

from bench import below, lay_out
from blocks import BLOCKS, measure_blocks
from disk import DISK, measure_disk, of_one_block, without_drive
from entries import ENTRIES, measure_entries
from lease import LEASE, measure_lease
from shared.command_line import Refused
from stream import STREAM, measure_stream
from tests.case import Case


class Laying(Case):
    def test_what_lies_below(self) -> None:
        uses = {"high": ["low", "other"], "low": ["lowest", "std"], "lowest": [], "far": ["low"]}
        self.assertEqual(below(("low",), uses), {"low", "lowest"})
        self.assertEqual(below(("high", "std"), uses), {"high", "low", "lowest"})

    def test_the_repository_of_a_program(self) -> None:
        """It has what the program uses, and nothing that uses those."""
        within = {
            "stream": {"nb_tcp", "nb_reasm", "nb_streams", "nb_wire"},
            "entries": {"nb_graph", "nb_ledger", "nb_terms"},
            "blocks": {"nb_nodes", "nb_graph", "nb_tftp", "nb_image"},
            "lease": {"nb_settings", "nb_dhcpmsg", "nb_wire"},
            "disk": {"nb_disk", "nb_login", "nb_iscsipdu", "nb_wire"},
        }
        for bench in (STREAM, ENTRIES, BLOCKS, LEASE, DISK):
            folder = self.folder / f"of-{bench.name}"
            folder.mkdir()
            crate = lay_out(bench, folder)
            self.assertEqual(crate, folder / "crates" / bench.name)
            laid = {path.name for path in (folder / "crates").iterdir()}
            self.assertLessEqual({bench.name} | within[bench.name], laid)
            self.assertFalse({"nb_stack", "nb_boot", "netboot"} & laid)
            for name in laid:
                self.assertTrue((folder / "crates" / name / "src").is_dir(), name)

    def test_a_drives_tasks_of_one_block(self) -> None:
        """The numbers are the first program's for eight blocks, and no other line differs."""
        bench = of_one_block(self.folder)
        self.assertEqual(bench[1:], (DISK.used, 512))
        pairs = zip(DISK.text.read_text().splitlines(), bench.text.read_text().splitlines(), strict=True)
        self.assertEqual(
            [(eight[-5:], one[-4:]) for eight, one in pairs if eight != one],
            [(" = 8;", "= 1;"), ("4096;", "512;"), ("4144;", "560;")],
        )

    def test_the_same_without_the_drive(self) -> None:
        calls = ("disk.read(", "disk.pdu(alloc, 2,")
        self.assertTrue(all(call in DISK.text.read_text() for call in calls))
        text = without_drive(DISK, self.folder).text.read_text()
        self.assertFalse(any(call in text for call in calls))
        without = self.folder / "without"
        without.mkdir()
        self.assertRaises(Refused, without_drive, of_one_block(self.folder)._replace(text=Path(__file__)), without)

    def test_missing_tools_are_named_in_a_line(self) -> None:
        for measure in (
            measure_stream,
            measure_entries,
            measure_blocks,
            measure_lease,
            measure_disk,
        ):
            printed = io.StringIO()
            with patch.dict(os.environ, PATH="/none"), redirect_stdout(printed):
                measure([])
            said = "instructions aren't counted, as these are missing: valgrind, cc, rt\n"
            self.assertEqual(printed.getvalue(), said)
