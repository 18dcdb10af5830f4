"""Sessions with two targets: what an initiator in Python says in them, and what ours says."""

from __future__ import annotations

import shutil
import subprocess
import unittest
from pathlib import Path

from bench import Bench, lay_out
from tests import TOP
from tests.case import Case

CAPTURED = TOP / "tests" / "iscsi"
USES = ("nb_disk", "nb_login", "nb_iscsipdu", "nb_terms", "nb_wire")
SECRET, BACK = "bbbbbbbbbbbb", "cccccccccccc"
NOBODY, USER, BOTH = ("", "", "", ""), ("u", SECRET, "", ""), ("u", SECRET, "r", BACK)
WRONG = ("u", "wrong", "", "")
# each session's names, and how it ends: with a refusal, or with what the client doesn't take
SESSIONS = {
    "plain": (NOBODY, ["OutOfDisk of Some(2048)", "end 3 0"]),
    "chap": (USER, ["OutOfDisk of Some(2048)", "end 3 0"]),
    "both": (BOTH, ["OutOfDisk of Some(2048)", "end 3 0"]),
    "wrong": (WRONG, ["end 1 513"]),
    "ping": (NOBODY, []),
    # a ready-to-transfer, for a write that the client didn't ask for
    "write": (NOBODY, ["end 3 0"]),
    # a check condition for a block that can't be read
    "sense": (NOBODY, ["end 1 2"]),
    "istgt-plain": (NOBODY, ["end 3 0"]),
    "istgt-chap": (USER, []),
    "istgt-both": (BOTH, []),
    "istgt-wrong": (WRONG, ["end 1 513"]),
}
BLOCK, BLOCKS = 512, 2048
READ, WRITE = 0x28, 0x2A
UNREAD = ("sense", 2000)


def said(name: str, who: str) -> list[str]:
    """What one of both sent, a PDU each."""
    lines = (CAPTURED / f"{name}.txt").read_text().splitlines()
    return [line[2:] for line in lines if line.startswith(who)]


def spelled(raw: bytes) -> str:
    return 'b"' + "".join(f"\\x{byte:02x}" for byte in raw) + '"'


def answers(name: str) -> bytes:
    return b"".join(bytes.fromhex(pdu) for pdu in said(name, "<"))


def reads(name: str) -> list[tuple[int, int]]:
    """The place and number of the blocks of each read that comes before a write."""
    commands = [bytes.fromhex(pdu)[32:48] for pdu in said(name, ">") if pdu.startswith("01")]
    codes = [command[0] for command in commands]
    before = commands[: codes.index(WRITE)] if WRITE in codes else commands
    return [
        (int.from_bytes(one[2:6], "big"), int.from_bytes(one[7:9], "big"))
        for one in before
        if one[0] == READ
    ]


def program(folder: Path) -> Bench:
    """The program's text with the sessions in it."""
    rows = [
        f"Session {{ names: [{', '.join(spelled(one.encode()) for one in names)}],"
        f" reads: &{[*map(tuple, reads(name))]}, stream: {spelled(answers(name))} }},"
        for name, (names, _end) in SESSIONS.items()
    ]
    text = (TOP / "tests" / "session.rt.txt").read_text()
    text = text.replace("COUNT", str(len(rows))).replace("// SESSIONS", "\n".join(rows))
    made = folder / "session.rt.txt"
    made.write_text(text)
    return Bench(made, USES)


def asked(name: str) -> list[str]:
    """What the client asks too: all before the first write, and no read past the disk's end."""
    asked: list[str] = []
    for pdu in said(name, ">"):
        command = bytes.fromhex(pdu)[32:33]
        if pdu.startswith("01") and command == bytes([WRITE]):
            break
        asked.append(f"> {pdu}")
    return asked[:-1] if past_the_end(name) else asked


def past_the_end(name: str) -> bool:
    return any(place + count > BLOCKS for place, count in reads(name))


def content(name: str, number: int) -> bytes:
    """A block as it comes: its own number over and over, and zeros where it can't be read."""
    return bytes(BLOCK) if (name, number) == UNREAD else number.to_bytes(2, "big") * (BLOCK // 2)


def handed(name: str) -> bytes:
    """The blocks of all reads."""
    within = [(place, count) for place, count in reads(name) if place + count <= BLOCKS]
    numbers = [place + one for place, count in within for one in range(count)]
    return b"".join(content(name, number) for number in numbers)


@unittest.skipUnless(shutil.which("rt"), "the toolchain's rt is missing")
class Sessions(Case):
    def test_a_session_is_what_another_initiator_says(self) -> None:
        crate = lay_out(program(self.folder), self.folder)
        ran = subprocess.run(["rt", "try"], cwd=crate, capture_output=True, text=True, check=False)
        said_by_ours = ran.stdout.split("begin ")[1:]
        self.assertEqual(len(said_by_ours), len(SESSIONS), ran.stdout[-2000:] + ran.stderr[-2000:])
        for (name, (_names, end)), text in zip(SESSIONS.items(), said_by_ours, strict=True):
            with self.subTest(name):
                self.compare(name, end, text.splitlines())

    def compare(self, name: str, end: list[str], lines: list[str]) -> None:
        self.assertEqual([line for line in lines if line.startswith("> ")], asked(name))
        data = "".join(line[5:] for line in lines if line.startswith("data "))
        self.assertEqual(data, handed(name).hex())
        others = [line for line in lines if not line.startswith(("> ", "data ", "run="))]
        opened = [] if end == ["end 1 513"] else ["end 0 0", self.opened(name)]
        self.assertEqual(others[1:], opened + end)

    def opened(self, name: str) -> str:
        """The first CmdSN, and its ExpStatSN: one more than StatSN of the last login answer."""
        last = bytes.fromhex([pdu for pdu in said(name, "<") if pdu.startswith("23")][-1])
        return f"session 1 {int.from_bytes(last[24:28], 'big') + 1}"


if __name__ == "__main__":
    unittest.main()
