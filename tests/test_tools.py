"""The tools on the examples and their page, and as processes of their own."""

from __future__ import annotations

import os
import re
import shutil
import struct
import subprocess
import unittest
from typing import Iterator, NamedTuple

from boot import is_built
from shared.causes import Cause, Code
from shared.random_words import words_of
from shared.recordings import read_input
from shared.records import Received
from tests import TOP, made
from tests.case import Case
from tests.drive_pdus import cut
from tests.drive_session import Names, Session
from tests.graph_run import fault_in

EXAMPLES = TOP / "examples"
CLIENT = Names(b"iqn.2026-11.lan.boot:client", b"iqn.2026-11.lan.boot:disk", user=b"client", secret=b"a-secret-of-16-b")


class Piece(NamedTuple):
    """A segment's port of ours, its number, what it acknowledges, and its bytes."""

    ours: str
    number: int
    acknowledged: int
    body: bytes


class Examples(Case):
    def test_recordings_are_made_from_their_scripts(self) -> None:
        self.assertEqual((EXAMPLES / "hello.rec").read_bytes(), made.HELLO_INPUT)
        for name in ("hello", "commands"):
            said = self.works(f"tools/record.py examples/{name}.ipxe {name}.rec")
            self.assertEqual(said, f"{name}.rec: 1 record\n")
            self.assertEqual(self.get(f"{name}.rec"), (EXAMPLES / f"{name}.rec").read_bytes())

    @unittest.skipUnless(is_built(), "the program isn't built")
    def test_the_page_shows_what_its_commands_print(self) -> None:
        """Runs the page from its beginning to its end: each `$` line, and each block of `sh`; then those of README.md."""
        (self.folder / "crates").symlink_to(TOP / "crates")
        page = (EXAMPLES / "README.md").read_text()
        blocks = re.findall(r"^```(sh|console)\n(.*?)^```$", page, re.M | re.S)
        self.assertGreaterEqual(len(blocks), 10)
        first = re.findall(r"^```(console)\n(.*?)^```$", (TOP / "README.md").read_text(), re.M | re.S)
        self.assertEqual(len(first), 1)
        blocks += first
        for kind, text in blocks:
            if kind == "sh":
                self.assertEqual(self.printed(text), "", text)
                continue
            for line, printed in re.findall(r"^\$ (.*)\n((?:(?!\$ ).*\n)*)", text, re.M):
                self.assertEqual(self.printed(line), printed, line)
        kept = list(self.folder.glob("*.out"))
        self.assertGreaterEqual(len(kept), 5)
        for path in kept:
            self.assertIsNone(fault_in(path.read_bytes()), path.name)

    def printed(self, line: str) -> str:
        """What a shell shows of a command line: standard output and standard error."""
        done = subprocess.run(
            ["sh", "-c", line],
            cwd=self.folder,
            env={**os.environ, "PYTHONDONTWRITEBYTECODE": "1", "LC_ALL": "C.UTF-8"},
            stdout=subprocess.PIPE,
            stderr=subprocess.STDOUT,
            text=True,
            check=False,
        )
        return done.stdout

    def test_the_boots_are_made_anew(self) -> None:
        (self.folder / "inner").mkdir()
        shutil.copy(EXAMPLES / "stations.py", self.folder / "inner")
        scripted = ("fallback", "chained", "settings", "dhcp", "lookup", "name-boot", "http-boot", "disk-boot")
        for name in scripted:
            shutil.copy(EXAMPLES / f"{name}.ipxe", self.folder / "inner")
        for name in ("tftp-boot", *scripted):
            maker = f"make_{name.replace('-', '_')}"
            shutil.copy(EXAMPLES / f"{maker}.py", self.folder / "inner")
            with self.start(f"inner/{maker}.py") as process:
                self.assertEqual(process.communicate()[1], "")
        made_anew = sorted((self.folder / "inner").glob("*.rec"))
        self.assertEqual(len(made_anew), 11)
        for path in made_anew:
            self.assertEqual(path.read_bytes(), (EXAMPLES / path.name).read_bytes(), path.name)

    def segments(self, name: str, port: str) -> Iterator[Piece]:
        """What a recording's server sends from this port; each segment's frame is written out from the RFCs."""
        with (EXAMPLES / f"{name}.rec").open("rb") as stream:
            records = [timed.record for timed in read_input(stream)]
        frames = [record.frame for record in records if isinstance(record, Received)][1:]
        for frame in frames:
            total = int.from_bytes(frame[16:18], "big")
            self.assertEqual(frame[:16].hex(), "52540000000152540000000208004500")
            self.assertEqual((frame[20:24].hex(), frame[26:36].hex()), ("40004006", f"0a0000010a000002{port}"))
            self.assertEqual(word_sum(frame[14:34]), 0xFFFF)
            pseudo = frame[26:34] + b"\0\x06" + (total - 20).to_bytes(2, "big")
            self.assertEqual(word_sum(pseudo + frame[34 : 14 + total]), 0xFFFF)
            head, numbers = (frame[46] >> 4) * 4, struct.unpack_from(">II", frame, 38)
            yield Piece(frame[36:38].hex(), *numbers, frame[34 + head : 14 + total])

    def test_frames_of_the_http_boot(self) -> None:
        """The bytes at their places are the response."""
        streams: dict[str, dict[int, bytes]] = {}
        for piece in self.segments("http-boot", "0050"):
            streams.setdefault(piece.ours, {})[piece.number] = piece.body
        self.assertEqual(list(streams), ["c000", "c001"])
        moved, whole = (b"".join(pieces[at] for at in sorted(pieces)) for pieces in streams.values())
        self.assertEqual(moved, b"HTTP/1.1 302 Found\r\nLocation: /v2/k\r\nContent-Length: 0\r\n\r\n")
        head, _, kernel = whole.partition(b"\r\n\r\n")
        self.assertEqual(head, b"HTTP/1.1 200 OK\r\nContent-Length: 4000")
        self.assertEqual((len(kernel), kernel[:4]), (4_000, b"\x7fELF"))

    def session(self, name: str) -> tuple[Session, list[Cause]]:
        """A second reading of what a target says, PDU after PDU, each of which acknowledges what was said before."""
        session, causes = Session(CLIENT, words_of(bytes(32), 0)), []
        connected, *pieces = self.segments(name, "0cbc")
        at = connected.acknowledged + len(session.first())
        self.assertEqual(connected.acknowledged, session.words[0] + 1)
        for piece in pieces:
            (pdu,), left = cut(piece.body)
            self.assertEqual((piece.ours, piece.acknowledged, left), ("c000", at, b""))
            said = session.takes(0, pdu)
            is_hooked = session.stage == "idle" and session.read is None
            at += len(said.text) + (len(session.reads(0, 1)) if is_hooked else 0)
            causes += [said.cause] if said.cause else []
        return session, causes

    def test_frames_of_the_disk_boots(self) -> None:
        """The disk has its size and its first block by CHAP; or the user or the secret is wrong."""
        session, causes = self.session("disk-boot")
        self.assertEqual((session.chap, session.blocks, causes), (1, 2_048, []))
        assert session.read
        self.assertEqual((len(session.read), session.read[-2:].hex()), (512, "55aa"))
        self.assertEqual(self.session("disk-refused")[1], [Cause(Code.REFUSED, 0, 2 * 256 + 1)])

    def test_frames_of_the_tftp_boot(self) -> None:
        """Each block's frame is written out from the RFCs, its sums added up word by word."""
        with (EXAMPLES / "tftp-boot.rec").open("rb") as stream:
            records = [timed.record for timed in read_input(stream)]
        frames = [record.frame for record in records if isinstance(record, Received)]
        self.assertEqual(frames[0][:42].hex(), "5254000000015254000000020806"
                         "00010800060400025254000000020a0000015254000000010a000002")
        blocks = []
        for frame in frames[1:]:
            length, total = struct.unpack_from(">H", frame, 38)[0], frame[16:18]
            self.assertEqual(frame[:16].hex(), "52540000000152540000000208004500")
            self.assertEqual(int.from_bytes(total, "big"), 20 + length)
            self.assertEqual(frame[20:24].hex(), "40004011")
            self.assertEqual(frame[26:38].hex(), "0a0000010a0000029c40c000")
            self.assertEqual(word_sum(frame[14:34]), 0xFFFF)
            pseudo = frame[26:34] + b"\0\x11" + frame[38:40]
            self.assertEqual(word_sum(pseudo + frame[34 : 34 + length]), 0xFFFF)
            self.assertEqual(frame[42:44], b"\0\x03")
            blocks.append((frame[45], frame[46 : 34 + length]))
        self.assertEqual([number for number, _ in blocks], [1, 2, 2, 3, 4, 3, 5])
        kernel = b"".join(dict(blocks)[number] for number in range(1, 6))
        self.assertEqual((len(kernel), kernel[:4]), (2_248, b"\x7fELF"))


def word_sum(data: bytes) -> int:
    """The ones' complement sum of 16-bit words, added one by one."""
    total = 0
    for (number,) in struct.iter_unpack(">H", data + bytes(len(data) % 2)):
        total += number
        total = (total & 0xFFFF) + (total >> 16)
    return total


class Processes(Case):
    """The tools as processes of their own."""

    def ends(self, line: str) -> tuple[str, str, int]:
        with self.start(line) as process:
            printed, said = process.communicate()
            return printed, said, process.returncode

    def test_help_and_missing_words(self) -> None:
        for name in ("record", "show", "pcap", "boot"):
            printed, said, status = self.ends(f"tools/{name}.py --help")
            self.assertEqual((said, status), ("", 0))
            self.assertIn("\nexamples", printed)
            printed, said, status = self.ends(f"tools/{name}.py")
            self.assertEqual((printed, status), ("", 2))
            self.assertIn("required", said)

    def test_status_and_message_of_a_refusal(self) -> None:
        self.put("cut.out", made.HELLO_OUTPUT[:30])
        printed, said, status = self.ends("tools/show.py cut.out")
        self.assertEqual((len(printed.splitlines()), status), (2, 1))
        why = "at byte 25: the file ends inside a record: 1 of 22 bytes"
        self.assertEqual(said, f"show.py: cut.out: {why}\n")


if __name__ == "__main__":
    unittest.main()
