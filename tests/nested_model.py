"""A second reading of the rules of scripts within scripts and of images (docs/SCRIPTS.md), on a server that answers at once.

It makes the input as it goes: where a script asks for a file, the server's answers come next.
"""

from __future__ import annotations

from dataclasses import dataclass
from typing import NamedTuple

from shared.causes import OK, Cause, Code
from shared.kinds import Status
from shared.records import Done, Result, Text, Tick
from tests import made
from tests.graph_records import shut
from tests.nested_rows import FALSE, MANY_IMAGES, MANY_SCRIPTS, NO_IMAGE, NOT_BOOTABLE, UNKNOWN, USAGE
from tests.nested_rows import BAD_URI, NO_SCHEME, Run
from tests.script_model import MOST_COMMANDS, TOO_MANY_WORDS, is_list, items, label_of, numbered, refusal
from tests.script_rows import FIRST, Row

DEEPEST, MOST_IMAGES = 8, 32
LONG_NAME = Cause(Code.TOO_LONG, 7)
FETCHES = (b"imgfetch", b"initrd", b"module")
SELECTS = (b"imgselect", b"kernel", b"imgload")
EXECUTES = (b"imgexec", b"chain", b"boot")


@dataclass
class Image:
    """An image of the list, and the path of its file."""

    name: bytes
    body: bytes
    args: bytes
    path: bytes

    def is_script(self) -> bool:
        return self.body[:6] == b"#!ipxe" and not self.body[6:].split(b"\n")[0].removesuffix(b"\r").strip(b" \t")

    def is_bootable(self) -> bool:
        return self.body[514:518] == b"HdrS" or self.body[:4] == b"\x7fELF" or self.body[:2] == b"MZ"


class Failed(Exception):
    """A command fails with a cause."""


class Over(Exception):
    """The run is over."""


class HandsOff(Exception):
    """The selected image is booted."""


class Runs(Exception):
    """A script runs within the one that runs, or in its place."""


class Words(NamedTuple):
    """The words of a command on images, its options apart."""

    name: bytes | None
    replaces: bool
    rest: tuple[bytes, ...]


def options(words: tuple[bytes, ...], *may: bytes) -> Words:
    """Options stand before the other words, each once."""
    name, seen = None, set()
    while words and words[0][:2] == b"--":
        option, words = words[0], words[1:]
        if option not in may or option in seen:
            raise Failed(USAGE)
        seen.add(option)
        if option == b"--name":
            if not words:
                raise Failed(USAGE)
            name, words = words[0], words[1:]
    return Words(name, b"--replace" in seen, words)


def joined(base: bytes | None, uri: bytes) -> bytes:
    """The path of the file at 10.0.0.1 that a URI names; the base is a path there."""
    scheme, mark, rest = uri.partition(b"://")
    if mark:
        if scheme != b"tftp":
            raise Failed(NO_SCHEME)
        path = rest.partition(b"/")[2]
    elif base is None:
        raise Failed(BAD_URI)
    else:
        path = uri[1:] if uri[:1] == b"/" else base.rpartition(b"/")[0] + b"/" + uri
    found: list[bytes] = []
    for part in path.lstrip(b"/").split(b"/"):
        if part == b"..":
            found = found[:-1]
        elif part != b".":
            found.append(part)
    return b"/".join(found)


class Nested:
    """Runs a script of START over a server's files."""

    def __init__(self, script: bytes, files: dict[bytes, bytes], most_opens: int = 12, most_steps: int = 2) -> None:
        self.run_ = Run(script.removeprefix(FIRST))
        self.text = script
        self.files = files
        self.images: list[Image] = []
        self.selected: Image | None = None
        self.most_opens, self.most_steps = most_opens, most_steps
        self.begun = 0

    def run(self) -> Row:
        try:
            return self.run_.ends(self.script(self.text, None, 1))
        except Over:
            return self.run_.row()
        except HandsOff:
            return self.hand_off()

    def hand_off(self) -> Row:
        assert self.selected
        kernel = self.selected
        others = [(image.name, image.body) for image in self.images if image is not kernel]
        return self.run_.boots((kernel.name, kernel.body, kernel.args), *others)

    def script(self, text: bytes, path: bytes | None, depth: int) -> Cause:
        """What a script ends with that was entered."""
        while True:
            cause = refusal(text)
            if cause:
                return cause
            try:
                return Level(self, text, path, depth).run()
            except Runs as replaced:
                text, path = replaced.args
                self.run_.replaced(depth)

    def begins(self) -> None:
        """At most 4,096 commands begin in a step."""
        if self.begun == MOST_COMMANDS:
            if self.most_steps == 0:
                self.over()
            self.most_steps -= 1
            self.run_.uses(Tick(1))
            self.begun = 0
        self.begun += 1

    def over(self) -> None:
        """The input ends."""
        self.run_.put(Done(Status.UNFINISHED))
        raise Over

    def fetch(self, path: bytes) -> bytes:
        """The bytes of a file, or why it doesn't come."""
        if self.run_.opens == self.most_opens:
            # nothing more comes, and it is closed
            self.run_.asks(path).put(*shut(self.run_.pair))
            self.over()
        if path not in self.files:
            cause = self.run_.refused(path)
            self.begun = 0
            raise Failed(cause)
        self.run_.gets(path, self.files[path])
        self.begun = 0
        return self.files[path]

    def found(self, name: bytes) -> Image | None:
        return next((image for image in self.images if image.name == name), None)

    def add(self, image: Image) -> None:
        """An image of a name that is there takes its place, and the selection stays at the place."""
        there = self.found(image.name)
        if there is None:
            self.images.append(image)
            return
        self.images[self.images.index(there)] = image
        if self.selected is there:
            self.selected = image

    def drop(self, image: Image) -> None:
        self.images.remove(image)
        if self.selected is image:
            self.selected = None


class Level:
    """One script that runs."""

    def __init__(self, all_: Nested, text: bytes, path: bytes | None, depth: int) -> None:
        self.all, self.base, self.depth = all_, path, depth
        self.lines = numbered(text)
        self.last = OK

    def run(self) -> Cause:
        number, end = 1, max(self.lines)
        while number < end:
            number += 1
            line = self.lines.get(number, b"")
            if not is_list(line):
                continue
            found = items(line)
            if found is None:
                return TOO_MANY_WORDS
            target = None
            for item in found:
                runs = {b"&&": self.last == OK, b"||": self.last != OK}.get(item.join, True)
                if not runs:
                    continue
                if not item.words:
                    self.last = OK
                    continue
                target = self.command(item.words, number, item.place)
                if target == -1:
                    return self.last
                if target is not None:
                    break
            number = target or number
            if self.last != OK:
                return self.last
        return OK

    def command(self, words: tuple[bytes, ...], line: int, place: int) -> int | None:
        """Carries a command out; a line to go to, or -1 where the script is left."""
        self.all.begins()
        run = self.all.run_.begins(b" ".join(words), line, place, self.depth)
        target = None
        self.last = OK
        try:
            target = self.does(words[0], words[1:])
        except Failed as failed:
            [self.last] = failed.args
        except Runs as runs:
            image, replaces = runs.args
            if replaces:
                raise Runs(image.body, image.path) from None
            run.enters(self.depth + 1)
            self.last = self.all.script(image.body, image.path, self.depth + 1)
            run.put(made.leave(self.last, self.depth + 1))
        if words[0] == b"exit" and self.last != USAGE:
            target = -1
        run.put(Result(self.last))
        return target

    def does(self, name: bytes, words: tuple[bytes, ...]) -> int | None:
        match name:
            case b"echo":
                self.all.run_.put(Text(b" ".join(words) + b"\n"))
            case b"exit":
                number = int(words[0]) if words else 0
                if number:
                    raise Failed(Cause(Code.EXIT, number))
            case b"goto":
                found = [number for number, line in sorted(self.lines.items()) if label_of(line) == words[0]]
                if not found:
                    raise Failed(Cause(Code.NO_LABEL))
                return found[0]
            case b"iseq":
                if words[0] != words[1]:
                    raise Failed(FALSE)
            case b"imgargs" | b"imgfree" | b"imgstat":
                self.changes(name, words)
            case _ if name in (*FETCHES, *SELECTS, *EXECUTES):
                self.takes(name, words)
            case _:
                raise Failed(UNKNOWN)
        return None

    def changes(self, name: bytes, words: tuple[bytes, ...]) -> None:
        """`imgargs`, `imgfree` and `imgstat`."""
        all_ = self.all
        if name == b"imgstat":
            if words:
                raise Failed(USAGE)
            for image in all_.images:
                mark = b" [SELECTED]" if image is all_.selected else b""
                all_.run_.put(Text(b"%s : %d bytes%s\n" % (image.name, len(image.body), mark)))
            return
        if words[:1] and words[0][:2] == b"--" or name == b"imgargs" and not words:
            raise Failed(USAGE)
        named = words[:1] if name == b"imgargs" else words
        if any(all_.found(one) is None for one in named):
            raise Failed(NO_IMAGE)
        if name == b"imgargs":
            all_.found(words[0]).args = b" ".join(words[1:])
            return
        for image in list(all_.images):
            if image.name in words or not words:
                all_.drop(image)

    def takes(self, name: bytes, words: tuple[bytes, ...]) -> None:
        """A command that takes an image from the list, or fetches its file."""
        all_ = self.all
        executes = name in EXECUTES
        may = (b"--name", b"--autofree", b"--replace") if executes else (b"--name",)
        given, replaces, rest = options(words, *may)
        if not rest:
            if not executes:
                raise Failed(USAGE)
            self.execute(all_.selected, replaces, None)
            return
        uri, args = rest[0], b" ".join(rest[1:])
        there = None if name in FETCHES else all_.found(uri)
        if there:
            if executes:
                self.execute(there, replaces, args)
            there.args, all_.selected = args, there
            return
        path = joined(self.base, uri)
        title = given if given is not None else path.rpartition(b"/")[2] or b"10.0.0.1"
        if len(title) > 255:
            raise Failed(LONG_NAME)
        image = Image(title, all_.fetch(path), args, path)
        if all_.found(title) is None and len(all_.images) == MOST_IMAGES:
            raise Failed(MANY_IMAGES)
        if executes:
            self.fits(image, replaces)
        all_.add(image)
        if executes:
            self.execute(image, replaces, args)
        if name in SELECTS:
            all_.selected = image

    def fits(self, image: Image, replaces: bool) -> None:
        """An image can be executed here."""
        if image.is_script():
            if self.depth == DEEPEST and not replaces:
                raise Failed(MANY_SCRIPTS)
        elif not image.is_bootable():
            raise Failed(NOT_BOOTABLE)

    def execute(self, image: Image | None, replaces: bool, args: bytes | None) -> None:
        if image is None:
            raise Failed(NO_IMAGE)
        self.fits(image, replaces)
        self.all.selected = image
        if not image.is_script():
            image.args = image.args if args is None else args
            raise HandsOff
        self.all.drop(image)
        self.all.selected = None
        raise Runs(image, replaces)
