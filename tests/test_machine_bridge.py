"""The bridge of a machine without a disk: it refuses a false client, and puts what bridge.py does onto and off the wire."""

from __future__ import annotations

import shutil
import signal
import subprocess
import sys
import tempfile
import time
import unittest
from ipaddress import IPv4Address
from pathlib import Path

from shared.causes import OK, Cause, Code
from shared.checksums import Sums, sums_of
from shared.kinds import OpenKind, PartKind, Status
from shared.machine_image import PROGRAMS
from shared.namespaces import missing
from shared.recordings import read_input, read_output
from shared.records import (
    Command, Done, Ended, Open, Part, Received, Record, Result, Sent, Start, Step, Text, Tick, spell
)
from shared.wire import arp_request, padded, tftp_data, udp_frame
from tests import TOP, made
from tests.spaces import Spaced

SOURCES = tuple(TOP / "tools" / "machine" / name for name in PROGRAMS["bridge"])
COMPILE = ("gcc", "-O1", "-g", "-Wall", "-Wextra", "-Wconversion", "-Werror", "-fsanitize=address,undefined")
FAILED = 100
MOST_SECONDS = 60
# `netboot live HOST:PORT`: says what stands in a file, reads what it is given or not, and leaves at the bridge's end
CLIENT = """\
#!{python}
import socket, sys
host, port = sys.argv[2].split(":")
with socket.create_connection((host, int(port))) as bridge:
    bridge.sendall(open("{folder}/says", "rb").read())
    if "{reads}" == "ends":
        bridge.shutdown(socket.SHUT_WR)
    while "{reads}" != "never" and bridge.recv(65536):
        pass
    if "{reads}" == "never":
        import time
        time.sleep(60)
"""
# Frames as a card brings them, to everybody who looks.
SENDER = """\
import socket, sys
near = bytes.fromhex("{near}")
card = socket.socket(socket.AF_PACKET, socket.SOCK_RAW)
card.bind(("far", 0))
for line in open("frames"):
    card.send(bytes.fromhex(line))
asking = socket.socket(socket.AF_INET, socket.SOCK_DGRAM)
for size in (0, 1, 2, 17, 18, 511, 1400):
    asking.sendto(bytes(range(256))[:200] * 7 if size == 1400 else bytes(size), ("10.77.0.2", 7000))
connecting = socket.socket(socket.AF_INET, socket.SOCK_STREAM)
connecting.setblocking(False)
connecting.connect_ex(("10.77.0.2", 80))
connecting.close()
"""
FAR = bytes.fromhex("525400000077")
OTHER = bytes.fromhex("525400000099")
GROUP = bytes.fromhex("333300000001")
ALL = b"\xff" * 6
KERNEL = bytes(range(256)) * 300
EVIL = b"../../\x1b[2Jevil\n\x9b"
PARTS = [
    Part(PartKind.KERNEL_NAME, 0, 0, EVIL),
    Part(PartKind.KERNEL, 0, 0, KERNEL[:65_536]),
    Part(PartKind.KERNEL, 0, 65_536, KERNEL[65_536:]),
    Part(PartKind.COMMAND_LINE, 0, 0, b"quiet"),
    Part(PartKind.INITRD_NAME, 0, 0, EVIL),
    Part(PartKind.INITRD, 0, 0, b"first"),
    Part(PartKind.INITRD_NAME, 1, 0, b"two"),
    Part(PartKind.INITRD, 1, 0, b"second"),
]
SECTOR, TABLE = Part(PartKind.SECTOR, 0, 0, bytes(range(256)) * 2), Part(PartKind.TABLE, 0, 0, b"iBFT")
HANDED_OFF = Done(Status.HANDED_OFF)
BEGUN = [Step(1), Text(b"\x1b]0;title\x07hello\n"), Command(1, 2, 0, True, (b"echo", EVIL))]


def spelled(*records: Record | bytes) -> bytes:
    return b"".join(one if isinstance(one, bytes) else spell(one) for one in records)


# What a false client writes, and why it is refused.
FALSE: dict[str, tuple[bytes, str]] = {
    "half a record": (spelled(*BEGUN, spell(Text(b"half"))[:-2]), "it ends inside a record"),
    "half a length": (spelled(*BEGUN, b"\0\0"), "it ends inside a record"),
    "a wrong type": (spelled(Step(1), b"\0\0\0\1\7"), "no record of an output has that type"),
    "a type beyond the last": (spelled(Step(1), b"\0\0\0\1\x8e"), "no record of an output has that type"),
    "a web browser": (b"GET / HTTP/1.1\r\n\r\n", "the length is no record's"),
    "a huge length": (spelled(Step(1), b"\xff\xff\xff\xff\x83"), "the length is no record's"),
    "one byte too many": (spelled(Step(1), (131_073).to_bytes(4, "big"), b"\x83"), "the length is no record's"),
    "no length": (spelled(Step(1), bytes(5)), "the length is no record's"),
    "a long text": (spelled(Step(1), (4_162).to_bytes(4, "big"), b"\x83", bytes(4_161)), "another length"),
    "a long frame": (spelled(Step(1), (1_524).to_bytes(4, "big"), b"\x82", bytes(1_523)), "another length"),
    "a short frame": (spelled(Step(1), b"\0\0\0\x0e\x82", bytes(13)), "another length"),
    "a short part": (spelled(Step(1), b"\0\0\0\7\x8c", bytes(6)), "another length"),
    "no step": (spelled(Text(b"hello\n")), "a record before the first STEP"),
    "another step": (spelled(Step(1), Step(3)), "a STEP that isn't the next one"),
    "a step too early": (spelled(*map(Step, range(1, 40))), "a STEP that isn't the next one"),
    "long words": (spelled(Step(1), b"\0\0\0\x0b\x84\1\0\0\0\2\0\1\1\xff\xff"), "its words don't fill the COMMAND"),
    "no words": (spelled(Step(1), b"\0\0\0\x09\x84\1\0\0\0\2\0\1\0"), "its words don't fill the COMMAND"),
    "a long target": (spelled(Step(1), b"\0\0\0\x0e\x87", bytes(11), b"\xff\xff"), "its target doesn't fill the OPEN"),
    "a gap": (spelled(Step(1), PARTS[0], PARTS[1], Part(PartKind.KERNEL, 0, 65_537, b"x")), "where it should"),
    "a piece twice": (spelled(Step(1), PARTS[0], PARTS[1], PARTS[1]), "where it should"),
    "a piece after a short one": (
        spelled(Step(1), PARTS[0], Part(PartKind.KERNEL, 0, 0, b"x"), Part(PartKind.KERNEL, 0, 1, b"y")), "where it should"
    ),
    "a part that begins late": (spelled(Step(1), PARTS[0], PARTS[2]), "where it should"),
    "no name": (spelled(Step(1), PARTS[1]), "a PART that doesn't follow the one before it"),
    "another initrd": (spelled(Step(1), *PARTS[:4], PARTS[6]), "a PART that doesn't follow the one before it"),
    "a part of no kind": (spelled(Step(1), b"\0\0\0\x08\x8c\7", bytes(6)), "a PART of no kind"),
    "a text among parts": (spelled(Step(1), PARTS[0], Text(b"x")), "a record between the parts"),
    "no command line": (spelled(Step(1), *PARTS[:3], HANDED_OFF), "DONE 0 without all parts"),
    "no parts": (spelled(Step(1), HANDED_OFF), "DONE 0 without all parts"),
    "parts for nothing": (spelled(Step(1), *PARTS, Done(Status.ENDED)), "parts without it"),
    "another status": (spelled(Step(1), b"\0\0\0\2\x8d\1"), "a DONE of no status"),
    "a sector of another length": (spelled(Step(1), Part(PartKind.SECTOR, 0, 0, bytes(511))), "a sector of another length"),
    "two sectors": (spelled(Step(1), SECTOR, SECTOR), "where it should"),
    "a sector after a kernel": (spelled(Step(1), *PARTS[:4], SECTOR), "a PART that doesn't follow the one before it"),
    "a kernel after a sector": (spelled(Step(1), SECTOR, PARTS[0]), "a PART that doesn't follow the one before it"),
    "a command line after a sector": (spelled(Step(1), SECTOR, PARTS[3]), "a PART that doesn't follow the one before it"),
    "a table alone": (spelled(Step(1), TABLE, HANDED_OFF), "a PART that doesn't follow the one before it"),
    "a sector after a table": (spelled(Step(1), SECTOR, TABLE, SECTOR), "a PART that doesn't follow the one before it"),
    "a sector of another number": (spelled(Step(1), b"\0\0\2\x08\x8c\4\0\1", bytes(516)), "a PART that doesn't follow"),
    "more after the end": (spelled(Step(1), Done(Status.ENDED), Text(b"x")), "a record after DONE"),
}


@unittest.skipIf(missing("gcc"), missing("gcc") or "")
class MachineBridge(Spaced):
    built: Path

    @classmethod
    def setUpClass(cls) -> None:
        folder = tempfile.TemporaryDirectory()
        cls.addClassCleanup(folder.cleanup)
        cls.built = Path(folder.name) / "bridge"
        done = subprocess.run(
            [*COMPILE, "-o", cls.built, *SOURCES], capture_output=True, text=True, check=False
        )
        if "cannot find" in done.stderr:
            raise unittest.SkipTest("gcc's address sanitizer is missing")
        assert done.returncode == 0, done.stderr

    def setUp(self) -> None:
        super().setUp()
        for name in ("all", "default", "near", "far"):
            path = f"/proc/sys/net/ipv6/conf/{name}/disable_ipv6"
            words = ["ip", "netns", "exec", self.space, "sh", "-c", f"[ ! -e {path} ] || echo 1 >{path}"]
            subprocess.run(words, check=True)
        self.put("s.ipxe", b"#!ipxe\nexit\n")

    def line(self, says: bytes, reads: str = "on", more: str = "") -> str:
        """The bridge's words, of a client that says this, and then reads on, ends its side, or never reads."""
        self.put("says", says)
        self.put("client", CLIENT.format(python=sys.executable, folder=self.folder, reads=reads).encode())
        (self.folder / "client").chmod(0o755)
        shutil.rmtree(self.folder / "parts", ignore_errors=True)
        return f"{self.built} -i near -d parts -r c.rec -o c.out {more} s.ipxe {self.folder}/client"

    def ends(self, says: bytes, reads: str = "on", more: str = "") -> tuple[str, int]:
        with self.begun(self.line(says, reads, more)) as process:
            printed, said = process.communicate(timeout=MOST_SECONDS)
        self.assertEqual(said, "")
        self.assertNotRegex(printed, "[\x00-\x08\x0b\x0c\x0e-\x1f\x7f-\x9f]")
        return printed, process.returncode

    def test_false_clients(self) -> None:
        for name, (says, why) in FALSE.items():
            with self.subTest(name):
                printed, status = self.ends(says, "ends")
                self.assertEqual(status, FAILED, printed)
                self.assertIn("bridge: the client's output is refused at byte ", printed)
                self.assertIn(why, printed)
                with (self.folder / "c.out").open("rb") as stream:
                    list(read_output(stream))

    def test_an_early_end(self) -> None:
        printed, status = self.ends(spelled(*BEGUN), "ends")
        self.assertEqual(status, FAILED)
        self.assertIn("bridge: the client left before DONE", printed)

    def test_a_hand_off(self) -> None:
        """What the client names steers neither a file's name nor the console; initrds stand at multiples of 4."""
        says = spelled(*BEGUN, Sent(made.asked().frame), *PARTS, HANDED_OFF)
        printed, status = self.ends(says)
        self.assertEqual(status, 0, printed)
        files = {path.name: path.read_bytes() for path in (self.folder / "parts").iterdir()}
        wanted = {"kernel": KERNEL, "command-line": b"quiet", "initrd": b"first\0\0\0second"}
        self.assertEqual(files, wanted)
        self.assertEqual(self.get("c.out"), says)
        self.assertIn(r"\x1b]0;title\x07hello" + "\n", printed)
        self.assertIn(r"echo ../../\x1b[2Jevil\x0a\x9b", printed)
        self.assertIn("0 frames received, 1 sent", printed)

    def test_a_disk(self) -> None:
        """Its first sector and the boot table become files; so does the sector alone."""
        for parts, wanted in (([SECTOR, TABLE], {"sector": SECTOR.piece, "table": TABLE.piece}), ([SECTOR], {"sector": SECTOR.piece})):
            printed, status = self.ends(spelled(*BEGUN, *parts, HANDED_OFF))
            self.assertEqual(status, 0, printed)
            self.assertEqual({path.name: path.read_bytes() for path in (self.folder / "parts").iterdir()}, wanted)
            self.assertIn("the boot succeeded: a disk's first sector is handed off", printed)

    def test_what_a_person_sees(self) -> None:
        """The address once, each transfer with its server and file, and each failure with its numbers and its meaning."""
        server = made.SERVER.ip
        says = spelled(
            Step(1), Open(0, OpenKind.TFTP, server, 69, 49_152, EVIL), Sent(made.asked().frame), Sent(made.asked().frame),
            Ended(0, OK), Result(OK), Open(1, OpenKind.DNS, server, 53, 49_153, b"boot.test"),
            Ended(1, Cause(Code.REFUSED, 7, 3)), Result(Cause(Code.REFUSED, 7, 3)),
            b"\0\0\0\x0a\x85\xff" + bytes(8), Done(Status.ENDED),
        )
        printed, status = self.ends(says)
        self.assertEqual(status, int(Status.ENDED), printed)
        lines = [line.rpartition("\r")[2].partition("] ")[2] for line in printed.splitlines()]
        self.assertEqual(
            lines[2:-1],
            [
                r'  tftp://10.0.0.1/"../../\x1b[2Jevil\n\x9b"...',
                "near: the address is 10.0.0.2",
                r'  tftp://10.0.0.1/"../../\x1b[2Jevil\n\x9b"... ok',
                "  boot.test of 10.0.0.1...",
                "  failed: Refused 7 3: the name server 10.0.0.1 answered, when asked for boot.test: there is no such "
                "name (NXDOMAIN). To do: mend the name, or add it at the name server",
                "  failed: ? 0 0: no cause has that number",
                "the script ended, and hands nothing off",
            ],
        )

    def test_each_status(self) -> None:
        for status in (Status.ENDED, Status.SCRIPT_FAILED, Status.UNFINISHED, Status.TOO_MANY_RECORDS):
            self.assertEqual(self.ends(spelled(Step(1), Done(status)))[1], int(status))

    def test_numbers(self) -> None:
        """Key and first port are drawn anew, the UUID is the machine's; they are printed for a replay."""
        starts = []
        for _ in range(2):
            printed, _ = self.ends(spelled(Step(1), Done(Status.ENDED)))
            with (self.folder / "c.rec").open("rb") as stream:
                start = next(read_input(stream)).record
            assert isinstance(start, Start)
            self.assertIn(f"this run: --w {start.w} --uuid {start.uuid} --key {start.key.hex()}\n", printed)
            self.assertEqual((start.ip, start.script), (IPv4Address(0), b"#!ipxe\nexit\n"))
            starts.append(start)
        self.assertNotEqual(starts[0].key, starts[1].key)
        own = Path("/sys/class/dmi/id/product_uuid")
        if own.exists():
            self.assertEqual(str(starts[0].uuid), own.read_text().strip().lower())

    def test_a_client_that_does_not_read(self) -> None:
        """Frames are lost, and said, when its room is full; it gets few TICKs, and it is ended at a signal."""
        near = self.hardware("near")
        frame = near + FAR + b"\x88\xb5" + bytes(1_400)
        self.put("frames", frame.hex().encode() + b"\n")
        self.put("flood", b"import socket, time\ncard = socket.socket(socket.AF_PACKET, socket.SOCK_RAW)\n"
                 b"card.bind(('far', 0))\nframe = bytes.fromhex(open('frames').read())\n"
                 b"for k in range(12_000): k % 64 or time.sleep(0.005); card.send(frame)\n")
        with self.begun(self.line(spelled(Step(1)), "never")) as process:
            self.line_with(process, "this run", is_error=False)
            with self.begun("flood") as flood:
                self.assertEqual(flood.wait(MOST_SECONDS), 0)
            begun = time.monotonic()
            process.send_signal(signal.SIGTERM)
            printed, said = process.communicate(timeout=MOST_SECONDS)
        self.assertEqual((process.returncode, said), (5, ""), printed)
        self.assertLess(time.monotonic() - begun, 3)
        self.assertRegex(printed, "[1-9][0-9]* came too fast")
        self.assertIn("the client didn't end, and is ended", printed)
        with (self.folder / "c.rec").open("rb") as stream:
            ticks = sum(isinstance(timed.record, Tick) for timed in read_input(stream))
        self.assertLessEqual(ticks, 7)

    def test_a_card_that_goes_down(self) -> None:
        with self.begun(self.line(spelled(Step(1)))) as process:
            self.line_with(process, "this run", is_error=False)
            self.ip("link set near down", is_inside=True)
            printed, said = process.communicate(timeout=MOST_SECONDS)
        self.assertEqual((process.returncode, said), (FAILED, ""), printed)
        self.assertIn("bridge: near: Network is down", printed)

    def hardware(self, name: str) -> bytes:
        printed = self.ip(f"-o link show {name}", is_inside=True)
        return bytes.fromhex(printed.split("link/ether ")[1].split()[0].replace(":", ""))

    def frames_to(self, near: bytes) -> list[bytes]:
        """For the client, for all, for a group, for another, of a VLAN, joined, and the client's own."""
        asked = arp_request(made.CLIENT, made.SERVER.ip)
        other = udp_frame(made.SERVER, made.CLIENT, (69, 49_152), tftp_data(1, b"data"))
        tagged = near + FAR + b"\x81\0\0\5\x08\0" + other[14:]
        return [
            near + FAR + other[12:], ALL + FAR + asked[12:], GROUP + FAR + b"\x86\xdd" + bytes(60),
            OTHER + FAR + other[12:], padded(tagged), near + FAR + b"\x08\0" + bytes(3_000),
            ALL + near + asked[12:], near + FAR + b"\x88\xb5" + bytes(1_508),
        ]

    def test_the_same_frames_as_the_bridge_in_python(self) -> None:
        """Both on one interface, and frames of each kind from its other end."""
        near = self.hardware("near")
        for line in ("address add 10.77.0.1/24 dev far", "link set near mtu 9000", "link set far mtu 9000",
                     f"neighbour add 10.77.0.2 lladdr {near.hex(':')} dev far"):
            self.ip(line, is_inside=True)
        frames = self.frames_to(near)
        self.put("frames", "".join(f"{frame.hex()}\n" for frame in frames).encode())
        self.put("sender", SENDER.format(near=near.hex()).encode())
        says, printed = spelled(Step(1), Sent(made.asked().frame)), []
        with self.begun(self.line(says)) as ours, self.begun(
            "tools/bridge.py s.ipxe --device near --record p.rec"
        ) as other:
            waiting = self.line_with(other, "waiting for").split("`")[1]
            with self.begun(f"{self.folder}/client {waiting.removeprefix('netboot ')}"):
                self.line_with(other, "a client runs")
                self.line_with(ours, "this run", is_error=False)
                with self.begun("sender") as sender:
                    self.assertEqual(sender.wait(MOST_SECONDS), 0, sender.stderr and sender.stderr.read())
                time.sleep(0.5)
                for process in (ours, other):
                    process.send_signal(signal.SIGTERM)
                for process in (ours, other):
                    printed.append("".join(process.communicate(timeout=MOST_SECONDS)))
                    self.assertEqual(process.returncode, 5)
        came, wanted = self.received("c.rec"), self.received("p.rec")
        self.assertEqual(came, wanted)
        self.assertEqual(came[:4], [frames[0], frames[1], frames[2], frames[7]])
        self.assertEqual(len(came), 4 + 7 + 1)
        self.assertEqual({sums_of(frame) for frame in came[4:]}, {Sums.RIGHT})
        self.assertIn("1 were joined to over 1522 bytes and left out", printed[0])
        self.assertIn("1 frame longer than 1,522 bytes, and no joined segments, were left out", printed[1])

    def received(self, name: str) -> list[bytes]:
        with (self.folder / name).open("rb") as stream:
            return [timed.record.frame for timed in read_input(stream) if isinstance(timed.record, Received)]


if __name__ == "__main__":
    unittest.main()
