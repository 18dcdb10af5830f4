"""Captures of boots by HTTP: what comes on the capture's connections is led to those of a run."""

from __future__ import annotations

import subprocess
import sys
import tempfile
import time
import unittest
from contextlib import ExitStack
from pathlib import Path
from random import Random

from boot import is_built
from shared.captured_web import segment_of
from shared.checksums import Sums, sums_of
from shared.namespaces import CLIENT_ADDRESS, PREFIX, Network, missing, network
from shared.random_words import words_of
from shared.web_server import web_server
from shared.wire import PROTOCOL_TCP, packet_frame, segment, web_request
from tests import made
from tests.test_boot import Launched
from tests.test_boot_capture import LEASED, SECOND, SERVER, Captures, Timed

SYN, PSH, ACK, FIN = 2, 8, 16, 1
OURS, THEIRS = 2**32 - 40, 2**32 - 10
# another client's request, whose path is that of the run
FOREIGN = b"GET /d/k?x=1 HTTP/1.1\r\nHost: files.example\r\nUser-Agent: firmware/1.0\r\nAccept: */*\r\n\r\n"
RESPONSE = b"HTTP/1.1 200 OK\r\nContent-Length: %d\r\n\r\n" % len(made.KERNEL) + made.KERNEL
OPTIONS = bytes.fromhex("020405b4")
WHY = missing("tcpdump") or (None if is_built() else "the program isn't built")


def sends(port: int, place: int, flags: int, taken: int, body: bytes = b"") -> bytes:
    """A segment of the capture's client."""
    numbers = (OURS + place, 0 if flags == SYN else THEIRS + 1 + taken)
    text = segment(LEASED.ip, SERVER.ip, (port, 80), numbers, flags, 65_535, body)
    return packet_frame(LEASED, SERVER, PROTOCOL_TCP, text)


def brings(port: int, place: int, flags: int, taken: int, body: bytes = b"") -> bytes:
    """A segment of its server, which acknowledges so much of the client's numbers."""
    options = OPTIONS if flags & SYN else b""
    text = segment(SERVER.ip, LEASED.ip, (80, port), (THEIRS + place, OURS + taken), flags, 65_535, body, options)
    return packet_frame(SERVER, LEASED, PROTOCOL_TCP, text)


def connection(at: int, port: int, request: bytes, response: bytes, cut: int = 0) -> list[Timed]:
    """A request, in one piece or in two, and its response."""
    whole = 1 + len(request)
    pieces = [(0, request[:cut]), (cut, request[cut:])] if cut else [(0, request)]
    frames = [sends(port, 0, SYN, 0), brings(port, 0, SYN | ACK, 1), sends(port, 1, ACK, 0)]
    for place, piece in pieces:
        frames += [sends(port, 1 + place, PSH | ACK, 0, piece), brings(port, 1, ACK, 1 + place + len(piece))]
    frames += [brings(port, 1, ACK, whole, response[:30]), brings(port, 31, PSH | ACK | FIN, whole, response[30:])]
    return [(at + 1_000 * number, frame) for number, frame in enumerate(frames)]


class WebCaptures(Captures):
    def test_its_segments_get_the_run_s_numbers(self) -> None:
        """Also where the capture's numbers pass their end, and its request is longer and comes in two pieces."""
        records, said = self.run_over(connection(5 * SECOND, 40_123, FOREIGN, RESPONSE, cut=50))
        self.assertEqual(self.start_of(records).script, b"#!ipxe\nimgexec http://10.0.0.1/d/k?x=1\n")
        arp, *frames = self.frames_of(records)
        self.assertEqual({sums_of(frame) for frame in frames}, {Sums.RIGHT})
        own, length = words_of(bytes(32), 0)[0], len(web_request(b"/d/k?x=1", b"10.0.0.1"))
        segments = [segment_of(frame) for frame in frames]
        self.assertEqual({one.ends.target_port for one in segments}, {made.OWN_PORT})
        wanted = [1, 1, 1 + length, 1 + length, 1 + length]
        self.assertEqual([one.acknowledged for one in segments], [(own + place) % 2**32 for place in wanted])
        self.assertEqual(b"".join(one.body for one in segments), RESPONSE)
        self.assertIn("boot.py: 5 segments got the port and the numbers of this client's connections", said)
        self.check_end()

    def test_moves_and_another_key(self) -> None:
        moved = b"HTTP/1.1 302 Found\r\nLocation: /k\r\nContent-Length: 0\r\n\r\n"
        second = FOREIGN.replace(b"/d/k?x=1", b"/k")
        frames = connection(0, 40_123, FOREIGN, moved) + connection(SECOND, 40_124, second, RESPONSE)
        for words, key in (("", bytes(32)), (f"--key {'5a' * 32}", b"\x5a" * 32)):
            records, _ = self.run_over(frames, words)
            segments = [segment_of(frame) for frame in self.frames_of(records)[1:]]
            first = [one for one in segments if one.flags & SYN]
            self.assertEqual([one.ends.target_port for one in first], [made.OWN_PORT, made.OWN_PORT + 1])
            self.assertEqual([one.acknowledged for one in first], [(words_of(key, k)[0] + 1) % 2**32 for k in (0, 1)])
            self.check_end(words)

    def test_the_script_s_name_of_the_host(self) -> None:
        self.put("named.ipxe", b"#!ipxe\nimgfetch http://files.example/d/k?x=1\n")
        records, _ = self.run_over(connection(0, 40_123, FOREIGN, RESPONSE), "--script named.ipxe")
        last = segment_of(self.frames_of(records)[-1])
        length = len(web_request(b"/d/k?x=1", b"files.example"))
        self.assertEqual(last.acknowledged, (words_of(bytes(32), 0)[0] + 1 + length) % 2**32)

    def test_a_connection_that_is_used_again(self) -> None:
        port = 40_123
        frames = connection(0, port, FOREIGN, RESPONSE)
        again = sends(port, 1 + len(FOREIGN), PSH | ACK, len(RESPONSE), FOREIGN)
        _, said = self.run_over([*frames, (SECOND, again)])
        self.assertIn("asked 1 time more on a connection that it had", said)

    def test_without_the_run_s_numbers(self) -> None:
        self.put("s.ipxe", b"#!ipxe\nimgfetch http://10.0.0.1/d/k?x=1\n")
        self.run_over(connection(0, 40_123, FOREIGN, RESPONSE))
        said = self.call("tools/record.py s.ipxe s.rec --ip 10.0.0.50/24 --mac 52:54:00:12:34:56 --capture s.pcap").said
        self.assertIn("the run's connections have other first numbers than the capture's", said)


class Example(Launched):
    """examples/captured-http.pcap: Python's http.server, and a client of the Linux kernel that joined three segments."""

    def test_it_boots(self) -> None:
        self.put("none", b"")
        words = "--input in.rec" if is_built() else "--input in.rec --program none"
        _, said, status = self.ends(f"tools/boot.py examples/captured-http.pcap {words}")
        if is_built():
            self.assertEqual(status, 0, said)
            self.assertIn("boot.py: 1 frame that a card had joined was cut into 3\n", said)


@unittest.skipUnless(WHY is None, f"a real capture: {WHY}")
class RealCapture(Launched):
    KERNEL = b"\x7fELF" + Random(1).randbytes(300_000)

    def served(self, stack: ExitStack, folder: Path) -> Network:
        """A server with the file, and tcpdump at the client's side; the server's end joins what it sends."""
        joined = stack.enter_context(network())
        device = joined.client_device
        line = f"-n {joined.client} address add {CLIENT_ADDRESS}/{PREFIX} dev {device}"
        subprocess.run(["ip", *line.split()], check=True)
        words = ("tcpdump", "--immediate-mode", "-U", "-i", device, "-w", str(folder / "real.pcap"), "not", "ip6")
        capture = subprocess.Popen(joined.in_client(*words), stderr=subprocess.PIPE)
        stack.callback(capture.wait, 10)
        stack.callback(capture.terminate)
        assert capture.stderr
        stack.callback(capture.stderr.close)
        self.assertIn(b"listening", capture.stderr.readline())
        stack.enter_context(web_server(joined, folder / "root"))
        return joined

    def test_it_boots_again(self) -> None:
        with tempfile.TemporaryDirectory() as name, ExitStack() as stack:
            folder = Path(name)
            (folder / "root").mkdir()
            folder.chmod(0o777)
            (folder / "root" / "kernel").write_bytes(self.KERNEL)
            joined = self.served(stack, folder)
            fetch = "import urllib.request; urllib.request.urlopen('http://10.77.0.1/kernel').read()"
            subprocess.run(joined.in_client(sys.executable, "-c", fetch), check=True)
            time.sleep(0.5)
            self.put("real.pcap", (folder / "real.pcap").read_bytes())
        printed, lines, status = self.ends("tools/boot.py real.pcap --input in.rec --output out.rec")
        self.assertEqual(status, 0, lines)
        self.assertIn("The boot succeeded: kernel kernel (300.0 kB) from 10.77.0.1, in ", printed)
        self.assertRegex(lines, r"boot\.py: \d+ frames that a card had joined were cut into \d+\n")
        self.works("tools/show.py out.rec --parts parts")
        self.assertEqual((self.folder / "parts" / "kernel").read_bytes(), self.KERNEL)


if __name__ == "__main__":
    unittest.main()
