"""The processor time of a command and of all that it starts, by what each process works at.

Each process is looked at twice a second (proc(5), /proc/PID/stat): the time of its own, and the
time of those that it started and that have ended. What a process takes after it was last seen shows in the
time of the one that waits for it, so nothing is lost; it is divided only among those that end between two looks.
"""

from __future__ import annotations

import os
import resource
import subprocess
import time
from collections import Counter
from pathlib import Path
from typing import Callable, NamedTuple

PROOF, TESTS, EDITS = "proof", "tests", "edits"
PARTS = (PROOF, TESTS, EDITS)
TICKS = os.sysconf("SC_CLK_TCK")
PAUSE = 0.5
MINUTE = 60


class Share(NamedTuple):
    """What a process works at: a crate, and its proof, its tests or its edits."""

    crate: str
    part: str


REST = Share("", "rest")


class Seen(NamedTuple):
    """A process as it was last seen, with its times in ticks of the clock."""

    parent: int
    start: int
    own: int
    ended: int


NEW = Seen(0, 0, 0, 0)


def seen_in(stat: str) -> Seen:
    """Reads the line of /proc/PID/stat; the name in brackets may have blanks and brackets."""
    fields = stat[stat.rindex(")") + 2 :].split()
    own, ended = int(fields[11]) + int(fields[12]), int(fields[13]) + int(fields[14])
    return Seen(int(fields[1]), int(fields[19]), own, ended)


def share_of(words: list[str], folder: str) -> Share | None:
    """What a process with these words, in this folder, works at, where the words say it."""
    names = [Path(word).name for word in words]
    if "rattle" in names and "--crate-name" in words[:-1]:
        crate = words[words.index("--crate-name") + 1]
        if Path(folder).name.startswith("rt-edit"):
            return Share(crate, EDITS)
        return Share(crate, TESTS if "--test" in words else PROOF)
    built = [path.name for path in map(Path, words) if path.parent.name in ("out", "bin")]
    tests = [name.removesuffix("_tests") for name in built if name.endswith("_tests")]
    return Share(tests[0], TESTS) if tests else None


class Tally:
    """The ticks of each share so far, from one look at all processes to the next."""

    def __init__(self) -> None:
        self.spent: Counter[Share] = Counter()
        self.seen: dict[int, Seen] = {}
        self.shares: dict[int, Share] = {}
        self._owed: Counter[int] = Counter()
        self._ended: dict[int, list[Share]] = {}

    def look(self, now: dict[int, Seen], named: dict[int, Share]) -> None:
        """Takes what is seen now, parents before those that they started, and the shares that are known."""
        gone = {pid: it for pid, it in self.seen.items() if now.get(pid, NEW).start != it.start}
        shares: dict[int, Share] = {}
        for pid, it in now.items():
            before = NEW if pid in gone else self.seen.get(pid, NEW)
            shares[pid] = named.get(pid) or shares.get(it.parent, REST)
            self.spent[shares[pid]] += it.own - before.own
            self._take_ended(pid, it.ended - before.ended, gone, shares[pid])
        self.seen, self.shares = now, shares

    def _take_ended(self, pid: int, more: int, gone: dict[int, Seen], share: Share) -> None:
        """Divides what the time of a process's ended ones grew by, less what was seen of them before."""
        ended = [child for child, it in gone.items() if it.parent == pid]
        waiting = self._ended.setdefault(pid, [])
        waiting += [self.shares[child] for child in ended]
        self._owed[pid] += more - sum(known_of(child, gone) for child in ended)
        if self._owed[pid] <= 0:
            return
        for each in waiting or [share]:
            self.spent[each] += self._owed[pid] / len(waiting or [share])
        self._owed[pid], self._ended[pid] = 0, []


def known_of(pid: int, gone: dict[int, Seen]) -> int:
    """What was seen of an ended process, and of those under it that ended with it."""
    below = [child for child, it in gone.items() if it.parent == pid]
    return gone[pid].own + gone[pid].ended + sum(known_of(child, gone) for child in below)


def read_process(pid: int) -> Seen | None:
    try:
        with open(f"/proc/{pid}/stat", errors="replace") as stat:
            return seen_in(stat.read())
    except (OSError, ValueError):
        return None


def read_share(pid: int) -> Share | None:
    try:
        words = Path(f"/proc/{pid}/cmdline").read_text(errors="replace").split("\0")
        return share_of(words, os.readlink(f"/proc/{pid}/cwd"))
    except OSError:
        return None


class Watch:
    """A process and all that it starts, looked at again and again."""

    def __init__(self, top: int) -> None:
        self.top = top
        self.tally = Tally()
        self._named: dict[int, Share] = {}
        self._others: set[int] = set()

    def look(self) -> None:
        """Looks once, a parent before its children: so its time never has one that is still seen."""
        found = ((pid, read_process(pid)) for pid in self._below())
        now = {pid: it for pid, it in found if it}
        before = self.tally.seen
        same = {pid for pid, it in now.items() if it.start == before.get(pid, NEW).start}
        self._named = {pid: share for pid, share in self._named.items() if pid in same}
        for pid in now.keys() - self._named.keys():
            share = read_share(pid)
            if share:
                self._named[pid] = share
        self.tally.look(now, self._named)

    def seconds(self) -> Counter[Share]:
        return Counter({share: ticks / TICKS for share, ticks in self.tally.spent.items()})

    def _below(self) -> list[int]:
        """The process and all under it; one of another's is read once, as its starter stays."""
        listed = {int(name) for name in os.listdir("/proc") if name.isdigit()}
        found = {pid: read_process(pid) for pid in listed - self._others}
        ours = [self.top]
        for pid in ours:
            ours += [child for child, it in found.items() if it and it.parent == pid]
        self._others = (self._others & listed) | (found.keys() - set(ours))
        return ours


def seconds_of(words: list[str], report: Callable[[Counter[Share]], None]) -> tuple[int, Counter[Share]]:
    """Runs the words, and returns their status and each share's seconds; reports those so far each minute.

    With the rest, which is no crate's, the shares are all that the words took, as `time` counts it.
    """
    before, reported = spent_by_ended(), time.monotonic()
    with subprocess.Popen(words) as running:
        watch = Watch(running.pid)
        while running.poll() is None:
            watch.look()
            time.sleep(PAUSE)
            if time.monotonic() > reported + MINUTE:
                reported = time.monotonic()
                report(watch.seconds())
    shares = watch.seconds()
    shares[REST] += spent_by_ended() - before - sum(shares.values())
    return running.returncode, shares


def spent_by_ended() -> float:
    spent = resource.getrusage(resource.RUSAGE_CHILDREN)
    return spent.ru_utime + spent.ru_stime
