"""How a live run is switched off: by the first SIGINT, SIGTERM or SIGHUP; a second one ends the tool itself."""

from __future__ import annotations

import signal
import threading
from contextlib import contextmanager
from typing import Iterator

from shared.live_session import Session

# with what follows, a run ends in two seconds
SECONDS_TO_END = 0.8
NUMBERS = (signal.SIGINT, signal.SIGTERM, signal.SIGHUP)


@contextmanager
def power_switch(session: Session) -> Iterator[None]:
    """Switches the client off at a signal, and gives it up where it hasn't ended some time later."""

    def switch_off(number: int, _: object) -> None:
        if session.wants_off:
            raise KeyboardInterrupt
        session.switch_off()
        signal.setitimer(signal.ITIMER_REAL, SECONDS_TO_END)

    def give_up(number: int, _: object) -> None:
        session.give_up()

    if threading.current_thread() is not threading.main_thread():
        yield
        return
    handlers = {number: switch_off for number in NUMBERS} | {signal.SIGALRM: give_up}
    before = {number: signal.signal(number, handler) for number, handler in handlers.items()}
    try:
        yield
    finally:
        signal.setitimer(signal.ITIMER_REAL, 0)
        for number, handler in before.items():
            signal.signal(number, handler)
