"""Causes: why a command, a script or an open ended as it did (docs/RECORDS.md, "Causes")."""

from __future__ import annotations

from dataclasses import dataclass
from enum import IntEnum


class Code(IntEnum):
    """The code number of a cause; 22 is not used."""

    OK = 0
    REFUSED = 1
    TIMED_OUT = 2
    BROKEN = 3
    DEADLINE = 4
    TOO_LONG = 5
    TOO_LARGE = 6
    TOO_MANY = 7
    FULL = 8
    NO_ROUTE = 9
    NO_SERVER = 10
    NO_SECRET = 11
    NO_IMAGE = 12
    NO_LABEL = 13
    NOT_SCRIPT = 14
    BAD_URI = 15
    NO_SCHEME = 16
    BAD_NAME = 17
    BAD_VALUE = 18
    UNKNOWN = 19
    USAGE = 20
    FALSE = 21
    NO_MEMORY = 23
    EXIT = 24
    DOWN = 25
    STOPPED = 26
    NOT_BOOTABLE = 27
    NO_DRIVE = 28


# What the numbers a and b of a cause say; a code that is not listed has neither.
FIELDS: dict[Code, tuple[str, ...]] = {
    Code.REFUSED: ("record", "code"),
    Code.TIMED_OUT: ("tries",),
    Code.BROKEN: ("record",),
    Code.DEADLINE: ("ms",),
    Code.TOO_LONG: ("what",),
    Code.TOO_LARGE: ("what",),
    Code.TOO_MANY: ("what",),
    Code.FULL: ("what",),
    Code.NO_ROUTE: ("address",),
    Code.EXIT: ("n",),
}

WHAT: dict[Code, dict[int, str]] = {
    Code.TOO_LONG: {
        1: "line or expanded words",
        2: "value",
        3: "stream",
        4: "TFTP blocks",
        5: "script",
        6: "HTTP head or trailer",
        7: "path, image name or URI",
    },
    Code.TOO_LARGE: {1: "one image", 2: "all images"},
    Code.TOO_MANY: {
        1: "words or joins",
        2: "moves",
        3: "images",
        4: "nested scripts",
        5: "settings",
        7: "HTTP fields",
    },
    Code.FULL: {1: "objects", 2: "opens", 3: "drives"},
}

MEANING: dict[Code, str] = {
    Code.OK: "it went well",
    Code.REFUSED: "the server's message in that record refuses",
    Code.TIMED_OUT: "the tries of the timer's plan ran out without an answer",
    Code.BROKEN: "the message in that record is not allowed in its place",
    Code.DEADLINE: "the time given with --timeout ran out",
    Code.TOO_LONG: "a text is longer than its limit",
    Code.TOO_LARGE: "images are larger than their limit",
    Code.TOO_MANY: "there are more of these than their limit",
    Code.FULL: "no place is left for another",
    Code.NO_ROUTE: "the client has no address, or no route to that address",
    Code.NO_SERVER: "a name is to be looked up, and no name server is set",
    Code.NO_SECRET: "the target asks for CHAP, and username or password is not set",
    Code.NO_IMAGE: "there is no image of that name, or none is selected",
    Code.NO_LABEL: "the script has no line that is this label",
    Code.NOT_SCRIPT: "the text does not begin with the line #!ipxe",
    Code.BAD_URI: "the word is no URI that is read here",
    Code.NO_SCHEME: "the URI's scheme is not one of this command's",
    Code.BAD_NAME: "a setting, device or host has no such name",
    Code.BAD_VALUE: "the value does not fit the setting's kind",
    Code.UNKNOWN: "it is no command that is built",
    Code.USAGE: "the words do not fit the command",
    Code.FALSE: "isset or iseq is not true",
    Code.NO_MEMORY: "the program found no memory",
    Code.EXIT: "the script left by exit with a number that is not 0",
    Code.DOWN: "the device was closed by ifclose",
    Code.STOPPED: "it was closed from above: power-off, end of the run, hand-off or unhook",
    Code.NOT_BOOTABLE: "the image is of no kind that can be executed",
    Code.NO_DRIVE: "no such drive is hooked",
}


@dataclass(frozen=True, slots=True)
class Cause:
    """A code with its two numbers, as they stand in RESULT, SCRIPT, ENDED and GRAPH."""

    code: Code
    a: int = 0
    b: int = 0

    def fault(self) -> str | None:
        """What is wrong with the numbers, if anything: those without a meaning are 0."""
        names = FIELDS.get(self.code, ())
        if len(names) < 2 and self.b:
            return f"cause {self.code.name} has no second number, and it is {self.b}"
        if not names and self.a:
            return f"cause {self.code.name} has no number, and it is {self.a}"
        if self.code in WHAT and self.a not in WHAT[self.code]:
            return f"cause {self.code.name} has no {self.a}"
        if self.code is Code.EXIT and not 1 <= self.a <= 255:
            return f"cause EXIT has a number 1 to 255, and it is {self.a}"
        return None

    def __str__(self) -> str:
        title = "".join(part.capitalize() for part in self.code.name.split("_"))
        names = FIELDS.get(self.code, ())
        if not names:
            return title
        numbers = zip(names, (self.a, self.b))
        return f"{title}({', '.join(self._number(name, n) for name, n in numbers)})"

    def _number(self, name: str, number: int) -> str:
        if name == "what":
            return f"{number}: {WHAT[self.code].get(number, 'not known')}"
        if name == "address":
            return ".".join(str(byte) for byte in number.to_bytes(4, "big"))
        return f"{name} {number}"


OK = Cause(Code.OK)
