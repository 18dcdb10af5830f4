"""A table of the iSCSI Boot Firmware Table's writer, read by another reader."""

from __future__ import annotations

import shutil
import subprocess
import unittest

from bench import Bench, lay_out
from tests import TOP
from tests.case import Case
from tests.ibft_reader import NoTable, Table

PROGRAM = Bench(TOP / "tests" / "ibft.rt.txt", ("nb_ibft", "nb_terms", "nb_wire", "arrayvec"))


@unittest.skipUnless(shutil.which("rt"), "the toolchain's rt is missing")
class Read(Case):
    def table(self) -> bytes:
        crate = lay_out(PROGRAM, self.folder)
        ran = subprocess.run(["rt", "try"], cwd=crate, capture_output=True, text=True, check=False)
        line = next((line for line in ran.stdout.splitlines() if line.startswith("69424654")), None)
        self.assertIsNotNone(line, ran.stdout + ran.stderr)
        return bytes.fromhex(line)

    def test_what_an_operating_system_finds(self) -> None:
        raw = self.table()
        table = Table(raw)
        self.assertEqual(table.initiator(), b"iqn.2026-11.lan.boot:client")
        _, interfaces, targets = table.offsets()
        self.assertEqual([table.interface(offset) for offset in interfaces], [INTERFACE])
        self.assertEqual([table.target(offset) for offset in targets], TARGETS)
        changed = bytearray(raw)
        changed[100] ^= 1
        self.assertRaises(NoTable, Table, bytes(changed))


# what tests/ibft.rt.txt is to say
INTERFACE = {
    "address": "10.0.0.2",
    "gateway": "10.0.0.254",
    "first dns": "10.0.0.3",
    "second dns": None,
    "dhcp": "10.0.0.1",
    "prefix": 24,
    "mac": "52:54:00:ab:cd:ef",
    "host": b"diskless",
}
TARGETS = [
    {
        "index": 0,
        "address": "10.0.0.1",
        "port": 3260,
        "lun": bytes([0, 1, 0, 0, 0, 0, 0, 0]),
        "chap": 0,
        "name": b"iqn.2026-11.lan.boot:first",
        "user": b"",
        "secret": b"",
        "reverse user": b"",
        "reverse secret": b"",
    },
    {
        "index": 1,
        "address": "192.168.10.11",
        "port": 4000,
        "lun": bytes([0, 0, 0, 2, 0, 0, 0, 3]),
        "chap": 2,
        "name": b"iqn.2026-11.lan.boot:second",
        "user": b"client",
        "secret": b"the client's secret",
        "reverse user": b"target",
        "reverse secret": b"the target's secret",
    },
]


if __name__ == "__main__":
    unittest.main()
