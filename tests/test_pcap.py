"""`pcap.py`: the frames of a run as a capture, read back."""

from __future__ import annotations

import io
import shutil
import subprocess
import unittest

from boot import BUILT, is_built
from shared.capture import read_capture
from shared.records import Received
from shared.wire import tftp_data
from tests import TOP, made
from tests.case import Case
from tests.graph_run import fault_in


class Captures(Case):
    def setUp(self) -> None:
        super().setUp()
        self.put("boot.rec", made.BOOT_INPUT)
        self.put("boot.out", made.BOOT_OUTPUT)

    def frames(self, name: str) -> list[tuple[int, bytes]]:
        return frames_of(self.get(name))

    def test_received_and_sent_frames_by_their_times(self) -> None:
        printed = self.works("tools/pcap.py boot.rec boot.out --to boot.pcap")
        self.assertEqual(printed, "boot.pcap: 3 frames received, 4 sent\n")
        asked, found = made.asked().frame, made.found().frame
        data = [record.frame for record in made.BOOT_INPUT if isinstance(record, Received)][1:]
        sent = [record.frame for record in made.BOOT_OUTPUT if hasattr(record, "frame")][1:]
        self.assertEqual(
            self.frames("boot.pcap"),
            [(0, asked), (0, found), (250, sent[0]), (250, data[0]), (250, sent[1])]
            + [(253, data[1]), (253, sent[2])],
        )

    def test_records_after_the_end_were_not_received(self) -> None:
        self.put("boot.rec", [*made.BOOT_INPUT, made.found()])
        used = self.works("tools/pcap.py boot.rec boot.out --to a.pcap")
        self.assertIn("3 frames received, 4 sent", used)
        every = self.works("tools/pcap.py boot.rec --to a.pcap")
        self.assertIn("a.pcap: 4 frames of the input recording", every)

    def test_refusals_leave_no_file(self) -> None:
        self.put("short.rec", made.BOOT_INPUT[:3])
        self.put("cut.out", made.spelled(made.BOOT_OUTPUT)[:-1])
        for words, said in (
            ("short.rec boot.out", "has no record 4"),
            ("boot.rec cut.out", "cut.out: at byte"),
            ("boot.out boot.rec", "boot.rec is an input recording"),
            ("boot.out boot.out", "boot.out is an output recording"),
            ("boot.rec boot.rec", "boot.rec is an input recording"),
        ):
            self.fails(f"tools/pcap.py {words} --to a.pcap", said)
            self.assertEqual(list(self.folder.glob("a.pcap*")), [])

    def test_a_capture_made_into_a_recording_again(self) -> None:
        self.works("tools/pcap.py boot.rec boot.out --to boot.pcap")
        self.put("s.ipxe", made.BOOT_INPUT[0].script)
        self.works("tools/record.py s.ipxe a.rec --ip 10.0.0.2 --mask 255.255.255.0 "
                   "--capture boot.pcap")
        self.assertEqual(self.get("a.rec"), self.get("boot.rec"))


class Readers(Case):
    """What tshark and tcpdump say of each kind of capture that is written."""

    def setUp(self) -> None:
        super().setUp()
        self.put("boot.rec", made.BOOT_INPUT)
        self.put("boot.out", made.BOOT_OUTPUT)
        self.works("tools/pcap.py boot.rec boot.out --to boot.pcap")
        self.works("tools/pcap.py examples/tftp-boot.rec --to received.pcap")
        silent_inputs, silent_outputs = made.silent_run()
        self.put("silent.rec", silent_inputs)
        self.put("silent.out", silent_outputs)
        self.works("tools/pcap.py silent.rec silent.out --to silent.pcap")
        self.pcaps = ["boot.pcap", "received.pcap", "silent.pcap"]
        if is_built():
            words = [BUILT, "replay", TOP / "examples" / "tftp-boot.rec", "example.out"]
            subprocess.run(words, cwd=self.folder, check=True)
            self.assertIsNone(fault_in(self.get("example.out")))
            self.works("tools/pcap.py examples/tftp-boot.rec example.out --to example.pcap")
            self.pcaps.append("example.pcap")

    def said(self, line: str) -> str:
        done = subprocess.run(
            line.split(), cwd=self.folder, capture_output=True, text=True, check=True
        )
        return done.stdout

    @unittest.skipUnless(shutil.which("tshark"), "tshark is not installed")
    def test_tshark(self) -> None:
        checks = "-o ip.check_checksum:TRUE -o udp.check_checksum:TRUE"
        bad = "_ws.malformed||ip.checksum.status==0||udp.checksum.status==0"
        for name in self.pcaps:
            with self.subTest(name):
                frames = [frame for _, frame in frames_of(self.get(name))]
                lengths = self.said(f"tshark -r {name} -T fields -e frame.len").split()
                self.assertEqual(lengths, [str(len(frame)) for frame in frames])
                self.assertEqual(self.said(f"tshark -r {name} {checks} -Y {bad}"), "")

    @unittest.skipUnless(shutil.which("tshark"), "tshark is not installed")
    def test_tshark_would_see_a_bad_checksum(self) -> None:
        frame = made.from_server(tftp_data(1, b"abc")).frame
        damaged = frame[:40] + bytes([frame[40] ^ 1]) + frame[41:]
        self.put("bad.rec", [made.start(b""), Received(damaged)])
        self.works("tools/pcap.py bad.rec --to bad.pcap")
        words = "-o udp.check_checksum:TRUE -Y udp.checksum.status==0"
        self.assertNotEqual(self.said(f"tshark -r bad.pcap {words}"), "")

    @unittest.skipUnless(shutil.which("tcpdump"), "tcpdump is not installed")
    def test_tcpdump(self) -> None:
        """What it guesses of port 49152, which it takes for another protocol's, isn't looked at."""
        for name in self.pcaps:
            with self.subTest(name):
                printed = self.said(f"tcpdump -n -vv -r {name}")
                self.assertIn("10.0.0.1", printed)
                for word in ("bad", "incorrect", "truncated", "[|"):
                    self.assertNotIn(word, printed)

    @unittest.skipUnless(is_built(), "the program isn't built")
    def test_the_example_has_requests_and_answers(self) -> None:
        ports = [frame[34:38].hex() for _, frame in frames_of(self.get("example.pcap"))]
        self.assertIn("c0000045", ports)  # from 49152 to 69
        self.assertIn("c0009c40", ports)  # from 49152 to 40000
        self.assertIn("9c40c000", ports)  # from 40000 to 49152


def frames_of(content: bytes) -> list[tuple[int, bytes]]:
    """The frames of a capture, with their times in milliseconds."""
    packets = read_capture(io.BytesIO(content))
    return [(packet.time // 10**6, packet.frame) for packet in packets]


if __name__ == "__main__":
    unittest.main()
