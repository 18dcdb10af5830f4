"""The program over a connection: each end that a peer can have, and a run that replays."""

from __future__ import annotations

import socket
import threading
import unittest
from dataclasses import dataclass, field
from typing import Callable

from shared.records import Off, Tick, spell
from tests import made
from tests.graph_run import fault_in
from tests.nested_rows import ROWS
from tests.replays import Replayed, can_run, replay_all

MOST_SECONDS = 30
BOOT = made.spelled(made.BOOT_INPUT)
USUAL = ROWS["hand_off_the_usual_boot"]
SILENT = made.spelled([made.start(b"#!ipxe\nimgfetch tftp://10.0.0.1/f\n"), Tick(250)])


def reset(client: socket.socket) -> None:
    """Closes a connection as a peer does that vanishes: by a reset."""
    client.setsockopt(socket.SOL_SOCKET, socket.SO_LINGER, b"\1\0\0\0\0\0\0\0")
    client.close()


@dataclass
class Peer:
    """Listens at a port of its own, and does something with the one client that comes."""

    act: Callable[[socket.socket], None]
    taken: bytearray = field(default_factory=bytearray)

    def __post_init__(self) -> None:
        self.listener = socket.create_server(("127.0.0.1", 0))
        self.listener.settimeout(600)
        self.name = f"127.0.0.1:{self.listener.getsockname()[1]}"
        self.thread = threading.Thread(target=self._serve, daemon=True)
        self.thread.start()

    def _serve(self) -> None:
        client, _ = self.listener.accept()
        self.listener.close()
        with client:
            client.settimeout(MOST_SECONDS)
            try:
                self.act(client)
                if client.fileno() >= 0:
                    self.read(client)
            except ConnectionError:
                pass

    def read(self, client: socket.socket) -> None:
        """What the client sends, to its end."""
        while piece := client.recv(1 << 16):
            self.taken += piece


def sends(data: bytes) -> Callable[[socket.socket], None]:
    """Sends this, and ends its side."""

    def act(client: socket.socket) -> None:
        client.sendall(data)
        client.shutdown(socket.SHUT_WR)

    return act


def sends_and_resets(data: bytes) -> Callable[[socket.socket], None]:
    """Sends this, waits until it is used, and is gone."""

    def act(client: socket.socket) -> None:
        client.sendall(data)
        client.recv(1)
        reset(client)

    return act


def sends_on(client: socket.socket) -> None:
    """Sends a whole boot, and more when the run is over, until it is read."""
    client.sendall(BOOT + spell(Tick(1)) * 100_000)
    client.shutdown(socket.SHUT_WR)


def sends_in_pieces(data: bytes) -> Callable[[socket.socket], None]:
    """Sends this a byte at a time, and ends its side."""

    def act(client: socket.socket) -> None:
        for byte in data:
            client.send(bytes([byte]))
        client.shutdown(socket.SHUT_WR)

    return act


# What a peer does, the status, the first line, and how the second ends.
PEERS: dict[str, tuple[Callable[[socket.socket], None], int, str, str]] = {
    "boots": (sends(BOOT), 0, "", ""),
    "by-byte": (sends_in_pieces(BOOT), 0, "", ""),
    "usual": (sends(made.spelled(USUAL.inputs)), 0, "", ""),
    "goes-on": (sends_on, 0, "", ""),
    "nothing": (sends(b""), 6, "netboot: bad record", "record 1, at byte 0"),
    "half": (sends(BOOT[:60]), 6, "netboot: bad record", "record 1, at byte 0"),
    "half-tick": (
        sends(SILENT[:-1]), 6, "netboot: bad record", f"record 2, at byte {len(SILENT) - 7}"
    ),
    "noise": (sends(b"GET / HTTP/1.1\r\n\r\n"), 6, "netboot: bad record", "record 1, at byte 0"),
    "noise-after": (
        sends(SILENT + b"noise"), 6, "netboot: bad record", f"record 3, at byte {len(SILENT)}"
    ),
    "tick-first": (sends(spell(Tick(1)) + BOOT), 6, "netboot: bad record", "record 1, at byte 0"),
    "second-start": (
        sends(SILENT + BOOT), 6, "netboot: bad record", f"record 3, at byte {len(SILENT)}"
    ),
    "second-start-in-pieces": (
        sends_in_pieces(SILENT + BOOT), 6, "netboot: bad record", f"record 3, at byte {len(SILENT)}"
    ),
    "off": (sends(SILENT + spell(Off())), 5, "", ""),
    "silent-end": (sends(SILENT), 5, "", ""),
    "vanishes": (
        sends_and_resets(SILENT), 7, "netboot: read fault", "Connection reset by peer (os error 104)"
    ),
}


REPLAYED = {"file": BOOT, "file-off": SILENT + spell(Off())}
NO_PEERS = ("a", ":1", "a:", "a:0", "a:01", "a:+1", "a:-1", "a:0x1", "a:65536", "1:a", "a:1:")
BAD_WORDS = [["live", name] for name in NO_PEERS] + [["live"], ["live", "a:1", "b:2"], ["Live", "a:1"]]


def closed_port() -> str:
    """A port at which nobody listens."""
    with socket.create_server(("127.0.0.1", 0)) as listener:
        return f"127.0.0.1:{listener.getsockname()[1]}"


@unittest.skipUnless(can_run(), "the program isn't built, and the toolchain's rt is missing")
class Live(unittest.TestCase):
    ran: dict[str, Replayed]
    peers: dict[str, Peer]

    @classmethod
    def setUpClass(cls) -> None:
        cls.peers = {name: Peer(act) for name, (act, *_) in PEERS.items()}
        cls.closed = closed_port()
        words = {name: ["live", peer.name] for name, peer in cls.peers.items()}
        words["closed"] = ["live", cls.closed]
        words["unknown"] = ["live", "no-such-host.invalid:7000"]
        words |= {f"bad-{number}": bad for number, bad in enumerate(BAD_WORDS)}
        # One compiling serves all, where the program isn't built.
        cls.ran = replay_all(REPLAYED, words)
        for peer in cls.peers.values():
            peer.thread.join(MOST_SECONDS)

    def ended(self, case: str, status: int, first: str, second: str) -> None:
        ran = self.ran[case]
        self.assertEqual((ran.ending, ran.status), ("ended", status), (case, ran.said))
        lines = [line for line in ran.said.splitlines() if line]
        self.assertEqual(lines[:1], [first] if first else [], case)
        if second:
            self.assertTrue(lines[1].endswith(second), (case, lines))

    def test_peers(self) -> None:
        for case, (_, status, first, second) in PEERS.items():
            with self.subTest(case):
                self.assertFalse(self.peers[case].thread.is_alive(), "the peer waits for its end")
                self.ended(case, status, first, second)

    def test_each_is_a_run_of_the_graph(self) -> None:
        """As far as it was received, where the peer vanished."""
        for case, peer in self.peers.items():
            with self.subTest(case):
                self.assertIsNone(fault_in(bytes(peer.taken)))

    def test_nobody_there(self) -> None:
        self.ended("closed", 10, "netboot: cannot attach", "Connection refused (os error 111)")
        self.assertIn(self.closed, self.ran["closed"].said)
        self.ended("unknown", 10, "netboot: cannot attach", "")
        self.assertIn("no-such-host.invalid:7000: ", self.ran["unknown"].said)

    def test_same_as_replay(self) -> None:
        """What a peer is told is what the same input gives in a file; nothing of it is lost."""
        pairs = (("boots", "file"), ("by-byte", "file"), ("goes-on", "file"), ("off", "file-off"))
        for case, file in pairs:
            self.assertEqual(bytes(self.peers[case].taken), self.ran[file].output, case)
        self.assertEqual(self.ran["file"].output, made.spelled(made.BOOT_OUTPUT))

    def test_the_usual_boot(self) -> None:
        """A lease, the script that it names, and the hand-off of what that boots."""
        self.assertEqual(bytes(self.peers["usual"].taken), made.spelled(USUAL.outputs))

    def test_bad_words(self) -> None:
        """Words that are no peer's: the usage line stands alone, and nobody is called."""
        usage = ["usage: netboot replay IN OUT | live HOST:PORT | lab N"]
        for number, words in enumerate(BAD_WORDS):
            ran = self.ran[f"bad-{number}"]
            self.assertEqual((ran.status, ran.said.splitlines()), (2, usage), words)


if __name__ == "__main__":
    unittest.main()
