"""How a live run ends when its power is switched off, whatever the client and the terminal do; and how time waits."""

from __future__ import annotations

import io
import os
import signal
import socket
import threading
import time
import unittest
from typing import Callable
from unittest import mock

from shared import live_session
from shared.kinds import Status
from shared.live_session import Kept, Overdue, Session
from shared.power import power_switch
from shared.records import Direction, Done, Off, Record, Step, Text, Tick, read_records, spell
from tests import made
from tests.test_bridge import Wire

MOST_SECONDS = 2.0
MOST_SECONDS_OF_TEST = 30
START = made.spelled([made.start(b"#!ipxe\n:again\ngoto again\n")])
ONE = made.spelled([Step(1), Text(b"hello\n")])


class Live(unittest.TestCase):
    """A session over a wire in memory, with a client that the test plays."""

    def setUp(self) -> None:
        self.wire = Wire()
        self.addCleanup(self.wire.close)
        self.input, self.output = io.BytesIO(), io.BytesIO()
        self.said: list[str] = []
        self.ours, theirs = socket.socketpair()
        self.addCleanup(self.ours.close)
        self.addCleanup(theirs.close)
        self.theirs = theirs
        self.shown: Callable[[int, Record], None] = lambda *_: None
        # a connection of TCP alone has this option
        patch = mock.patch.object(live_session, "quick", lambda client: None)
        patch.start()
        self.addCleanup(patch.stop)

    def session(self) -> Session:
        kept = Kept(self.input, self.output)
        return Session(self.ours, self.wire, made.CLIENT.mac, kept, self.shown, self.said.append)

    def given(self) -> list[Record]:
        placed = read_records(io.BytesIO(self.input.getvalue()), Direction.INPUT)
        return [one.record for one in placed]

    def switched_off(self, number: int, after: float = 0.4) -> tuple[Session, float]:
        """A run that gets a signal after these seconds; how long it went on then."""
        session = self.session()
        timer = threading.Timer(after, os.kill, (os.getpid(), number))
        timer.start()
        begun = time.monotonic()
        try:
            with power_switch(session):
                session.run(START)
        except Overdue:
            pass
        timer.join()
        return session, time.monotonic() - begun - after


class Switched(Live):
    def test_a_client_that_does_not_answer(self) -> None:
        for number in (signal.SIGINT, signal.SIGTERM):
            with self.subTest(number):
                session, span = self.switched_off(number)
                self.assertLess(span, MOST_SECONDS)
                self.assertEqual((session.status, session.wants_off), (None, True))
                self.assertEqual(self.given()[-1], Off())

    def test_what_was_kept_is_whole_records(self) -> None:
        self.theirs.sendall(ONE + spell(Text(b"half"))[:-2])
        self.switched_off(signal.SIGINT)
        self.assertEqual(self.output.getvalue(), ONE)

    def test_a_client_that_ends_in_time(self) -> None:
        def answer() -> None:
            while off not in (given := self.theirs.recv(1 << 16)):
                self.assertTrue(given)
            self.theirs.sendall(ONE + spell(Done(Status.UNFINISHED)))
            self.theirs.close()

        off = spell(Off())
        thread = threading.Thread(target=answer, daemon=True)
        thread.start()
        session, span = self.switched_off(signal.SIGTERM)
        thread.join(MOST_SECONDS_OF_TEST)
        self.assertEqual((session.status, span < MOST_SECONDS), (Status.UNFINISHED, True))
        self.assertEqual(self.output.getvalue(), ONE + spell(Done(Status.UNFINISHED)))

    def test_a_terminal_that_stands_still(self) -> None:
        reader, writer = os.pipe()
        self.addCleanup(os.close, reader)
        self.addCleanup(os.close, writer)
        self.shown = lambda *_: os.write(writer, bytes(1 << 20)) and None
        self.theirs.sendall(ONE)
        _, span = self.switched_off(signal.SIGINT)
        self.assertLess(span, MOST_SECONDS)
        self.assertEqual(self.output.getvalue(), ONE)

    def test_time_waits_for_a_client_that_is_busy(self) -> None:
        """A script that never waits takes long for each record: few of them stand before the OFF."""
        self.switched_off(signal.SIGINT, 2.5)
        ticks = [one.milliseconds for one in self.given() if isinstance(one, Tick)]
        self.assertLessEqual(len(ticks), live_session.MOST_AHEAD + 1)
        self.assertGreaterEqual(min(ticks[1:]), 200)


class Silence(Live):
    def test_a_silent_device_is_named(self) -> None:
        with mock.patch.object(live_session, "MOST_SILENT_MILLISECONDS", 400):
            self.switched_off(signal.SIGINT, 1.5)
        self.assertEqual(len(self.said), 1, self.said)
        self.assertIn("a wire in memory: no frame for the client or for all came for", self.said[0])

    def test_one_that_speaks_is_not(self) -> None:
        def speak() -> None:
            for _ in range(12):
                self.wire.outer.send(made.found().frame)
                time.sleep(0.1)

        threading.Thread(target=speak, daemon=True).start()
        with mock.patch.object(live_session, "MOST_SILENT_MILLISECONDS", 900):
            self.switched_off(signal.SIGINT, 1.2)
        self.assertEqual(self.said, [])


if __name__ == "__main__":
    unittest.main()
