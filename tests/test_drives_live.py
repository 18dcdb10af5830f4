"""Drives of real targets, tgtd and istgt: hooked over a wire, with CHAP and without, and each run replayed."""

from __future__ import annotations

import re
import subprocess
import sys
import tempfile
import unittest
from contextlib import AbstractContextManager, ExitStack
from dataclasses import dataclass
from ipaddress import IPv4Address
from pathlib import Path
from typing import Callable

from boot import is_built
from shared.causes import OK, Cause, Code
from shared.kinds import OpenKind, PartKind
from shared.namespaces import CLIENT_ADDRESS, PREFIX, SERVER_ADDRESS, Network, missing, network
from shared.program import program
from shared.recordings import output_of
from shared.records import Ended, Open, Part, Record, Result
from shared.servers import Leases, Names, Service, dnsmasq
from shared.web_server import PYTHON, usual, web_server
from tests import TOP, istgt_target
from tests.disk_target import NAME, PROGRAMS, UNIT, Secrets, disk_target
from tests.ibft_reader import Table
from tests.nested_rows import ELF

# of a run, and of one that fetches files of many bytes
MOST_SECONDS, MOST_WITH_FILES = 120, 600
WHY_NOT_BUILT = None if is_built() else "the program isn't built"
WHY = missing(*PROGRAMS) or WHY_NOT_BUILT
WHY_NO_ISTGT = missing(*istgt_target.PROGRAMS) or WHY_NOT_BUILT
URI = f"iscsi:{SERVER_ADDRESS}:::{UNIT}:{NAME}"
HOOK = f"sanhook {URI}"
USER = ("set username u", "set password bbbbbbbbbbbb")
BOTH = (*USER, "set reverse-username r", "set reverse-password cccccccccccc")
ONE_WAY, BOTH_WAYS = Secrets("u", "b" * 12), Secrets("u", "b" * 12, "r", "c" * 12)
STOPPED = Cause(Code.STOPPED)
# how many lines for dnsmasq the page has, and the hardware address that one of them names
LINES, MAC = 8, "52:54:00:00:00:01"


Serves = Callable[[Network, Path, Secrets], AbstractContextManager[None]]


class OverWire(unittest.TestCase):
    """Runs over a wire to a target."""

    target: Serves = staticmethod(disk_target)

    # the recordings of the last run
    inputs: bytes
    outputs: bytes

    def run_of(
        self, secrets: Secrets, *lines: str, leases: tuple[Service, ...] = (), files: dict[str, bytes] = {}
    ) -> list[Record]:
        """The output of a script over the wire to a target, with a fixed address or a lease; the run replays.

        Without lines the script is the built-in one. The files are served by HTTP, beside a kernel.
        """
        with tempfile.TemporaryDirectory(prefix="netboot-") as spare, ExitStack() as stack:
            folder = Path(spare)
            joined = stack.enter_context(network())
            stack.enter_context(self.target(joined, folder, secrets))
            for name, content in {"kernel": ELF, **files}.items():
                (folder / name).write_bytes(content)
            folder.chmod(0o755)
            stack.enter_context(web_server(joined, folder, usual() if files else PYTHON))
            if leases:
                stack.enter_context(dnsmasq(joined, *leases))
            (folder / "boot.ipxe").write_text("\n".join(("#!ipxe", *lines, "")) if lines else "")
            words = [
                sys.executable, str(TOP / "tools" / "bridge.py"), str(folder / "boot.ipxe"), "--run", "--quiet",
                "--device", joined.client_device, *(["--mac", MAC] if leases else ["--ip", f"{CLIENT_ADDRESS}/{PREFIX}"]),
                "--record", str(folder / "in.rec"), "--output", str(folder / "out.rec"),
            ]  # fmt: skip
            most = MOST_WITH_FILES if files else MOST_SECONDS
            done = subprocess.run(joined.in_client(*words), capture_output=True, text=True, timeout=most, check=False)
            again = folder / "again.rec"
            subprocess.run([program(), "replay", folder / "in.rec", again], check=False, timeout=most)
            self.inputs, self.outputs = (folder / "in.rec").read_bytes(), (folder / "out.rec").read_bytes()
            self.assertEqual(again.read_bytes(), self.outputs, done.stderr)
            return list(output_of(folder / "out.rec"))

    def results(self, outputs: list[Record]) -> list[Cause]:
        return [one.cause for one in outputs if isinstance(one, Result)]

    def ends(self, outputs: list[Record]) -> list[Cause]:
        drives = {one.number for one in outputs if isinstance(one, Open) and one.kind is OpenKind.ISCSI}
        return [one.cause for one in outputs if isinstance(one, Ended) and one.number in drives]


    def hooks(self, secrets: Secrets, *sets: str) -> None:
        """The disk is hooked, lives on while the script sleeps, and is let go."""
        outputs = self.run_of(secrets, *sets, HOOK, "sleep 2", "sanunhook")
        self.assertEqual(self.results(outputs), [OK] * (len(sets) + 3))
        self.assertEqual(self.ends(outputs), [STOPPED])

    def fails(self, secrets: Secrets, lines: tuple[str, ...], code: Code, b: int) -> None:
        """The last command fails so."""
        last = self.results(self.run_of(secrets, *lines))[-1]
        self.assertEqual((last.code, last.b), (code, b))


@unittest.skipUnless(WHY is None, f"live drives: {WHY}")
class LiveDrives(OverWire):
    def test_without_chap(self) -> None:
        self.hooks(Secrets())
        self.hooks(Secrets(), *USER)

    def test_with_chap(self) -> None:
        self.hooks(ONE_WAY, *USER)

    def test_with_chap_both_ways(self) -> None:
        self.hooks(BOTH_WAYS, *BOTH)

    def test_twice_and_anew(self) -> None:
        """Two sessions with one target, and one of them anew."""
        other = f"sanhook --drive 200 {URI}"
        outputs = self.run_of(Secrets(), HOOK, other, HOOK, "sanunhook", "sanunhook --drive 200")
        self.assertEqual(self.results(outputs), [OK] * 5)
        self.assertEqual(self.ends(outputs), [STOPPED] * 3)

    def test_what_fails(self) -> None:
        for secrets, lines, wanted in (
            # tgtd refuses a login that offers no CHAP, and so never asks for it
            (ONE_WAY, (HOOK,), (Code.REFUSED, 513)),
            (ONE_WAY, ("set username u", "set password wrongwrongwrong", HOOK), (Code.REFUSED, 513)),
            (BOTH_WAYS, (*BOTH[:3], "set reverse-password wrongwrongwrong", HOOK), (Code.BROKEN, 0)),
            (Secrets(), (*BOTH, HOOK), (Code.BROKEN, 0)),
            (Secrets(), (HOOK + "x",), (Code.REFUSED, 515)),
            (Secrets(), (f"sanhook iscsi:{SERVER_ADDRESS}:::9:{NAME}",), (Code.REFUSED, 2)),
            (Secrets(), (f"sanhook iscsi:{SERVER_ADDRESS}::3261:{UNIT}:{NAME}",), (Code.REFUSED, 65_535)),
        ):
            with self.subTest(lines=lines):
                self.fails(secrets, lines, *wanted)

    def test_the_boot_table(self) -> None:
        """A kernel that is fetched beside the drive is handed off with it."""
        kernel = f"imgexec http://{SERVER_ADDRESS}/kernel"
        outputs = self.run_of(BOTH_WAYS, "set initiator-iqn iqn.me", *BOTH, HOOK, kernel)
        self.assertEqual(self.results(outputs)[-2:], [OK, OK])
        self.assertEqual(self.ends(outputs), [STOPPED])
        pieces = [one.piece for one in outputs if isinstance(one, Part) and one.kind is PartKind.TABLE]
        table = Table(b"".join(pieces))
        _, _, targets = table.offsets()
        self.assertEqual((table.initiator(), len(targets)), (b"iqn.me", 1))
        target = table.target(targets[0])
        self.assertEqual((target["address"], target["port"], target["chap"]), (SERVER_ADDRESS, 3_260, 2))
        self.assertEqual((target["name"], target["user"], target["reverse user"]), (NAME.encode(), b"u", b"r"))


@unittest.skipUnless(WHY_NO_ISTGT is None, f"live drives of istgt: {WHY_NO_ISTGT}")
class OfIstgt(OverWire):
    target = staticmethod(istgt_target.istgt_target)

    def test_without_chap(self) -> None:
        self.hooks(Secrets())
        self.hooks(Secrets(), *USER)

    def test_with_chap(self) -> None:
        self.hooks(ONE_WAY, *USER)
        self.hooks(BOTH_WAYS, *BOTH)

    def test_what_fails(self) -> None:
        wrong = ("set username u", "set password wrongwrongwrong", HOOK)
        self.fails(ONE_WAY, wrong, Code.REFUSED, 513)
        self.fails(BOTH_WAYS, (*BOTH[:3], "set reverse-password wrongwrongwrong", HOOK), Code.BROKEN, 0)


@dataclass(frozen=True)
class OfPage:
    """The options of a lease as docs/SAN.md has them for dnsmasq, of this target's unit and by the server's name."""

    leases: Leases

    def options(self) -> tuple[str, ...]:
        page = (TOP / "docs" / "SAN.md").read_text()
        found = re.findall(r"`(dhcp-(?:option|host)=[^`]*)`", page)
        assert len(found) == LINES, found
        named = [line.replace("iscsi:10.0.0.1::::", f"iscsi:san.lan:::{UNIT}:").replace('"', "") for line in found]
        return (*self.leases.options(), *(f"--{line}" for line in named))

    def port(self) -> int:
        return self.leases.port()


@unittest.skipUnless((WHY or missing("dnsmasq")) is None, f"live drives by a lease: {WHY or missing('dnsmasq')}")
class ByLease(OverWire):
    def test_the_lines_of_the_page(self) -> None:
        """The URI, the initiator's name, the secrets and the number come by a lease, and the server's address by DNS."""
        first, last, mask = (IPv4Address(text) for text in ("10.77.0.50", "10.77.0.60", "255.255.255.0"))
        leases = OfPage(Leases(first, last, mask, "none"))
        names = Names("san.lan", IPv4Address(SERVER_ADDRESS))
        secrets = Secrets("client", "a-secret-of-16-b", "target", "another-of-16-by")
        lines = ("dhcp", "sanhook ${root-path}", "iseq ${san-drive:uint8} 0x81", f"imgexec http://{SERVER_ADDRESS}/kernel")
        outputs = self.run_of(secrets, *lines, leases=(leases, names))
        self.assertEqual(self.results(outputs), [OK] * 4)
        table = Table(b"".join(one.piece for one in outputs if isinstance(one, Part) and one.kind is PartKind.TABLE))
        _, interfaces, targets = table.offsets()
        self.assertEqual((table.initiator(), table.interface(interfaces[0])["host"]), (b"iqn.2026-11.lan.boot:client", b"box"))
        target = table.target(targets[0])
        self.assertEqual((target["user"], target["reverse user"], target["chap"]), (b"client", b"target", 2))


if __name__ == "__main__":
    unittest.main()
