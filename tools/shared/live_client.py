"""The client of a live run: where it connects, and the program that is started as the client."""

from __future__ import annotations

import argparse
import re
import socket
import subprocess
from contextlib import contextmanager
from pathlib import Path
from typing import Callable, Iterator

from shared.command_line import Refused
from shared.processes import MOST_SECONDS_TO_END, end_group, kill_group
from shared.program import CRATE

SECONDS_BETWEEN_LOOKS = 0.2


def listening_place(text: str) -> tuple[str, int]:
    """HOST:PORT, where 0 is any port that is free."""
    host, colon, port = text.rpartition(":")
    if not colon or not host or not re.fullmatch("[0-9]{1,5}", port) or int(port) > 65_535:
        raise argparse.ArgumentTypeError(f"{text} is no HOST:PORT")
    return host.strip("[]"), int(port)


def listen(place: tuple[str, int]) -> socket.socket:
    host, port = place
    family = socket.AF_INET6 if ":" in host else socket.AF_INET
    try:
        return socket.create_server((host, port), family=family, backlog=1)
    except OSError as error:
        raise Refused(f"{host}:{port}: {error.strerror}") from error


def peer_of(listener: socket.socket) -> str:
    host, port = listener.getsockname()[:2]
    return f"[{host}]:{port}" if ":" in host else f"{host}:{port}"


class OwnClient:
    """The program, started as the client."""

    def __init__(self, program: Path, peer: str) -> None:
        self.process = subprocess.Popen(
            [program, "live", peer],
            cwd=CRATE,
            stdin=subprocess.DEVNULL,
            stdout=subprocess.DEVNULL,
            start_new_session=True,
        )

    def status(self) -> int | None:
        """The status with which it has ended, if it has."""
        return self.process.poll()

    def kill(self) -> None:
        """Ends it before its connection is closed, so that it doesn't say that this was closed."""
        kill_group(self.process)

    def end(self, say: Callable[[str], None]) -> None:
        """Waits for it, after the run."""
        try:
            self.process.wait(timeout=MOST_SECONDS_TO_END)
        except subprocess.TimeoutExpired:
            say("the program doesn't end, and is ended")
        end_group(self.process)


@contextmanager
def client_of(
    listener: socket.socket, program: Path | None, say: Callable[[str], None]
) -> Iterator[tuple[socket.socket, OwnClient | None]]:
    """The first client that connects; where a program is given, it is started as the client."""
    if program is None:
        say(f"waiting for `netboot live {peer_of(listener)}`")
        with _accepted(listener, None) as connection:
            yield connection, None
        return
    own = OwnClient(program, peer_of(listener))
    try:
        with _accepted(listener, own) as connection:
            try:
                yield connection, own
            except BaseException:
                own.kill()
                raise
        own.end(say)
    except BaseException:
        own.kill()
        raise


def _accepted(listener: socket.socket, own: OwnClient | None) -> socket.socket:
    """The first client; None comes any more where our own program has ended."""
    listener.settimeout(SECONDS_BETWEEN_LOOKS)
    while True:
        try:
            client, _ = listener.accept()
            listener.close()
            return client
        except TimeoutError:
            if own is not None and own.status() is not None:
                raise Refused(f"the program ended with status {own.status()}") from None
