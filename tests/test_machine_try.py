"""machine.py try: the console, the table and the status of a run, and that nothing stays; QEMU is a script here."""

from __future__ import annotations

import json
import os
import signal
import subprocess
import sys
import time
import unittest

from shared.kinds import PartKind, Status
from shared.namespaces import missing
from shared.records import Done, Part, Record, Step
from shared.needed import missing_packages
from shared.seconds_table import OURS, Table
from shared.virtual_machine import IPXE_NEEDS
from tests import made
from tests.case import Called, Case

WHY = missing("dnsmasq")
WHY_NO_ROM = missing_packages(IPXE_NEEDS)
# It says what a machine's console does and leaves the recordings; its own words, and what it could be asked, are kept. Its
# number is there, whole, before its first line, since it may be ended at any of its lines.
QEMU = """#!{python}
import json, os, subprocess, sys, time, urllib.request
open("{folder}/pid.new", "w").write(str(os.getpid()))
os.rename("{folder}/pid.new", "{folder}/pid")
words = sys.argv[1:]
json.dump(words, open("{folder}/words", "w"))
listening = subprocess.run(["cat", "/proc/net/udp"], capture_output=True, text=True).stdout
open("{folder}/listening", "w").write(listening)
try:
    open("{folder}/script", "wb").write(urllib.request.urlopen("http://10.77.0.1/netboot-beside.ipxe").read())
except OSError:
    pass
open("{folder}/fetched", "wb").write(urllib.request.urlopen("http://10.77.0.1/file").read())
for name in ("input", "output"):
    path = next((word.split("path=")[1] for word in words if word.startswith("file,id=" + name)), "/dev/null")
    open(path, "wb").write(open("{folder}/" + name, "rb").read())
for line in open("{folder}/says", newline=""):
    sys.stdout.write(line)
    sys.stdout.flush()
open("{folder}/said", "w").close()
time.sleep({sleeps})
"""
SAYS = """\
\x1b[2J[    0.0] Linux\r
init: started, at 1.0 s\r
init: cards: eth0, at 2.0 s\r
[    3.000] bridge: this run: --w 1\r
[    3.100]   a lease...\r[    3.900]   a lease... ok\r
[    4.000] eth0: the address is 10.77.0.100\r
[    5.000] bridge: 7 frames received, 7 sent, 0 not\r
"""
OF_IPXE = """\
iPXE initialising devices...ok\r
net0: 10.77.0.100/255.255.255.0 gw 10.77.0.1\r
tftp://10.77.0.1/first... ok\r
"""
LOADED = "kexec: loaded; the kernel's command line is: quiet\r\nkexec: going over to it\r\n"
PARTS: list[Record] = [
    Part(PartKind.KERNEL_NAME, 0, 0, b"k"), Part(PartKind.KERNEL, 0, 0, b"kernel"), Part(PartKind.COMMAND_LINE, 0, 0, b""),
]


@unittest.skipIf(WHY, f"trying a machine: {WHY}")
class Trying(Case):
    def setUp(self) -> None:
        super().setUp()
        for name in ("machine", "served", "bin"):
            (self.folder / name).mkdir()
        for name in ("vmlinuz", "initramfs", "netboot.iso", "netboot.efi"):
            self.put(f"machine/{name}", b"built\n")
        self.put("s.ipxe", b"#!ipxe\nexit 9\n")
        self.put("served/file", b"by HTTP")
        self.put("input", [made.start(b"#!ipxe\n")])

    def begin(self, more: str, says: str, output: list[Record], sleeps: float = 0) -> subprocess.Popen[str]:
        self.put("says", says.encode())
        self.put("output", output)
        script = QEMU.format(python=sys.executable, folder=self.folder, sleeps=sleeps)
        self.put("bin/qemu-system-x86_64", script.encode())
        (self.folder / "bin" / "qemu-system-x86_64").chmod(0o755)
        words = [sys.executable, "-B", "tools/machine.py", "try", "machine", "--serve", "served", *more.split()]
        return subprocess.Popen(
            words, cwd=self.folder, stdout=subprocess.PIPE, stderr=subprocess.PIPE, text=True,
            env={**os.environ, "PATH": f"{self.folder / 'bin'}:{os.environ['PATH']}"},
        )

    def tries(self, more: str, says: str, output: list[Record]) -> Called:
        with self.begin(more, says, output) as process:
            printed, said = process.communicate(timeout=60)
            return Called(process.returncode, printed, said)

    def words(self) -> list[str]:
        return list(json.loads(self.get("words")))

    def test_each_status(self) -> None:
        for status, why in (
            (Status.ENDED, "the script ended well"),
            (Status.SCRIPT_FAILED, "the script failed"),
            (Status.UNFINISHED, "the recording ends after 0 s, before the script's end"),
        ):
            done = self.tries("", SAYS, [Step(1), Done(status)])
            self.assertEqual((done.status, done.said), (int(status), ""))
            self.assertEqual(done.printed.splitlines()[-1], why)

    @unittest.skipIf(WHY_NO_ROM, f"trying iPXE's ROM: {WHY_NO_ROM}")
    def test_ipxe_beside_it(self) -> None:
        """The same server names iPXE a script that has the lease's file, and its seconds stand after ours."""
        done = self.tries("--ipxe --file kernel --script s.ipxe", SAYS + OF_IPXE, [Step(1), Done(Status.ENDED)])
        self.assertEqual((done.status, done.said), (int(Status.ENDED), ""))
        table = done.printed.partition("part by iPXE")[2].splitlines()
        self.assertEqual([line.split()[0] for line in table[1:]], ["firmware", "lease", "run"])
        self.assertEqual(self.get("script"), b"#!ipxe\nset filename kernel\nexit 9\n")
        words = self.words()
        self.assertIn("romfile=/usr/lib/ipxe/qemu/pxe-virtio.rom", words[words.index("-device") + 1])
        for name in ("-kernel", "-cdrom", "-drive"):
            self.assertNotIn(name, words)

    def test_a_hand_off(self) -> None:
        """Its console without what steers a terminal, and the seconds of each part."""
        done = self.tries("--input in.rec --output out.rec", SAYS + LOADED, [Step(1), *PARTS, Done(Status.HANDED_OFF)])
        self.assertEqual((done.status, done.said), (0, ""))
        lines = done.printed.splitlines()
        self.assertEqual(lines[:2], ["[    0.0] Linux", "init: started, at 1.0 s"])
        self.assertIn("[    3.900]   a lease... ok", lines)
        table = lines[lines.index("") + 1 :]
        self.assertEqual([" ".join(line.split()[:-2]) for line in table],
                         ["part", "init", "drivers", "card and client", "lease", "run", "kexec's load", "going over"])
        self.assertEqual(self.get("in.rec"), self.get("input"))
        self.assertEqual(self.get("out.rec"), self.get("output"))

    def test_what_did_not_come_to_its_end(self) -> None:
        handed_off = [Step(1), *PARTS, Done(Status.HANDED_OFF)]
        refused = "kexec: kernel: it isn't a Linux kernel that can be started from another"
        for says, output, more, why in (
            (SAYS, [Step(1)], "", "no run came to its end"),
            ("", [], "", "no run came to its end"),
            (SAYS + refused + "\n", handed_off, "", refused),
            (SAYS, handed_off, "", "the machine didn't go over to its kernel"),
            (SAYS + LOADED, handed_off, "--until payload:", "`payload:` didn't come"),
        ):
            done = self.tries(more, says, output)
            self.assertEqual((done.status, done.said), (1, f"machine.py: {why}\n"))

    def test_what_the_machine_is(self) -> None:
        """Without a disk, with the built files, and a server of leases (67) and files (69), also by HTTP, beside it."""
        self.tries("--append a,b --words debug --emulate --memory 384M", SAYS, [Step(1), Done(Status.ENDED)])
        words = self.words()
        line = words[words.index("-append") + 1]
        self.assertTrue(line.endswith('netboot_fail=off no_timer_check debug netboot_append="a,b"'), line)
        self.assertEqual(words[words.index("-kernel") + 1], "machine/vmlinuz")
        self.assertEqual([words[words.index(name) + 1] for name in ("-m", "-smp", "-accel")], ["384M", "1", "tcg"])
        for name in ("-drive", "-hda", "-cdrom"):
            self.assertNotIn(name, words)
        for port in ("0043", "0045"):
            self.assertIn(f":{port} ", self.get("listening").decode())
        self.assertEqual(self.get("fetched"), b"by HTTP")
        for kind, first in (("iso", "-cdrom"), ("efi", "-kernel")):
            self.tries(f"--from {kind} --firmware fw", SAYS, [Step(1), Done(Status.ENDED)])
            words = self.words()
            self.assertEqual(words[words.index(first) + 1], f"machine/netboot.{kind}")
            self.assertEqual(words[words.index("-bios") + 1], "fw")
        self.put("vars", b"keys")
        self.tries("--from iso --firmware fw --variables vars --stick rec", SAYS, [Step(1), Done(Status.ENDED)])
        drives = [word for before, word in zip(self.words(), self.words()[1:]) if before == "-drive"]
        code = "if=pflash,format=raw,unit=0,readonly=on,file=fw"
        self.assertEqual(drives[:2], ["if=none,id=stick,format=raw,file=rec", code])
        self.assertNotIn("file=vars", drives[2])
        self.assertNotIn("-bios", self.words())

    def test_an_end_by_what_is_waited_for(self) -> None:
        handed_off = [Step(1), *PARTS, Done(Status.HANDED_OFF)]
        begun = time.monotonic()
        with self.begin("--until payload:", SAYS + LOADED + "payload: here\n", handed_off, sleeps=60) as process:
            printed, said = process.communicate(timeout=50)
        self.assertEqual((process.returncode, said), (0, ""))
        self.assertIn("`payload:`", printed)
        self.assertLess(time.monotonic() - begun, 50)
        self.is_gone(process)

    def test_an_end_by_what_a_screen_shows(self) -> None:
        """It has no line's end, and stands before the cursor goes elsewhere."""
        handed_off = [Step(1), *PARTS, Done(Status.HANDED_OFF)]
        screen = "\x1b[3;4H\x1b[1mSelect a language\x1b[0m\r\x1b[24;1H"
        with self.begin("--until language", SAYS + LOADED + screen, handed_off, sleeps=60) as process:
            printed, said = process.communicate(timeout=50)
        self.assertEqual((process.returncode, said), (0, ""))
        self.assertIn("`language`", printed)

    def test_an_end_by_time(self) -> None:
        with self.begin("--seconds 5", SAYS, [Step(1)], sleeps=60) as process:
            said = process.communicate(timeout=50)[1]
        self.assertEqual((process.returncode, said), (1, "machine.py: no run came to its end\n"))
        self.is_gone(process)

    def test_a_signal_leaves_nothing(self) -> None:
        for number, status in ((signal.SIGINT, 130), (signal.SIGTERM, 143)):
            (self.folder / "said").unlink(missing_ok=True)
            with self.begin("", SAYS, [Step(1)], sleeps=60) as process:
                until = time.monotonic() + 30
                while not (self.folder / "said").exists() and time.monotonic() < until:
                    time.sleep(0.05)
                process.send_signal(number)
                process.communicate(timeout=30)
            self.assertEqual(process.returncode, status)
            self.is_gone(process)

    def is_gone(self, process: subprocess.Popen[str]) -> None:
        """Neither the machine nor its network is there any more."""
        with self.assertRaises(ProcessLookupError):
            os.kill(int(self.get("pid")), 0)
        spaces = subprocess.run(["ip", "netns", "list"], capture_output=True, text=True, check=True).stdout
        self.assertNotIn(f"netboot-t-{process.pid}", spaces)

    def test_what_is_refused(self) -> None:
        (self.folder / "machine" / "initramfs").unlink()
        for more, why in (
            ("", "machine/initramfs isn't there: build makes it"),
            ("--from iso --script s.ipxe", "--script: the iso file has what it was built with"),
            ("--from iso --append quiet", "--append: the iso file has what it was built with"),
            ("--from efi --script s.ipxe", "--script: the efi file has what it was built with"),
            ('--from efi --append a"b', "--append can't have a \""),
        ):
            done = self.tries(more, SAYS, [])
            self.assertEqual((done.status, done.said), (1, f"machine.py: {why}\n"))


class Tables(unittest.TestCase):
    def test_each_part_once(self) -> None:
        table = Table()
        self.assertEqual(table.marks, OURS)
        for seconds, line in enumerate(("init: started", "noise", "init: started", "init: cards: eth0"), 1):
            table.see(line, seconds)
        table.end("`x`", 7.5)
        lines = [line.split() for line in str(table).splitlines()]
        self.assertEqual(lines[1:], [["init", "1.00", "1.00"], ["drivers", "3.00", "4.00"], ["`x`", "3.50", "7.50"]])


if __name__ == "__main__":
    unittest.main()
