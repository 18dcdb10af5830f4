"""Fields of a record's body: each reads itself from bytes and writes itself to bytes.

All numbers are big-endian. A value out of its range is refused both ways: in reading by
`Damaged`, which names the place in the file, and in writing by `ValueError`.
"""

from __future__ import annotations

from enum import IntEnum
from ipaddress import IPv4Address
from typing import Any
from uuid import UUID

from shared.causes import Cause, Code


class Damaged(Exception):
    """Bytes that do not stand in any file of the format, with their offset in the file."""

    def __init__(self, offset: int, why: str) -> None:
        super().__init__(f"at byte {offset}: {why}")
        self.offset = offset
        self.why = why


class CutOff(Damaged):
    """The file ends inside something; what stands before that is complete."""


class Body:
    """The bytes of a record after its type, read from their beginning; `start` is their offset."""

    __slots__ = ("data", "at", "start")

    def __init__(self, data: bytes, start: int) -> None:
        self.data = data
        self.at = 0
        self.start = start

    @property
    def offset(self) -> int:
        return self.start + self.at

    @property
    def left(self) -> int:
        return len(self.data) - self.at

    def take(self, count: int, what: str) -> bytes:
        if self.left < count:
            raise Damaged(self.offset, f"{what} needs {count} bytes, the record has {self.left}")
        self.at += count
        return self.data[self.at - count : self.at]

    def number(self, width: int, what: str) -> int:
        return int.from_bytes(self.take(width, what), "big")


class Field:
    """A part of a body, with the name that messages use."""

    def __init__(self, name: str) -> None:
        self.name = name

    def read(self, body: Body) -> Any:
        raise NotImplementedError

    def write(self, value: Any) -> bytes:
        raise NotImplementedError


class Number(Field):
    """A number of `width` bytes within a range."""

    def __init__(self, name: str, width: int, low: int = 0, high: int | None = None) -> None:
        super().__init__(name)
        self.width = width
        self.low = low
        self.high = 256**width - 1 if high is None else high

    def fault(self, value: int) -> str | None:
        if self.low <= value <= self.high:
            return None
        return f"{self.name} is {value}, not {self.low} to {self.high}"

    def read(self, body: Body) -> int:
        offset = body.offset
        value = body.number(self.width, self.name)
        fault = self.fault(value)
        if fault:
            raise Damaged(offset, fault)
        return value

    def write(self, value: int) -> bytes:
        fault = self.fault(value)
        if fault:
            raise ValueError(fault)
        return value.to_bytes(self.width, "big")


class Flag(Number):
    """One byte, 1 for true and 0 for false."""

    def __init__(self, name: str) -> None:
        super().__init__(name, 1, 0, 1)

    def read(self, body: Body) -> bool:
        return super().read(body) == 1

    def write(self, value: bool) -> bytes:
        return super().write(1 if value else 0)


class Choice(Field):
    """One byte that is a number of an enum."""

    def __init__(self, name: str, numbers: type[IntEnum]) -> None:
        super().__init__(name)
        self.numbers = {number.value: number for number in numbers}

    def read(self, body: Body) -> IntEnum:
        offset = body.offset
        value = body.number(1, self.name)
        if value not in self.numbers:
            raise Damaged(offset, f"{self.name} {value} is not known")
        return self.numbers[value]

    def write(self, value: IntEnum) -> bytes:
        if value not in self.numbers:
            raise ValueError(f"{self.name} {value} is not known")
        return bytes([value])


class Fixed(Field):
    """A text of exactly `count` bytes."""

    def __init__(self, name: str, count: int) -> None:
        super().__init__(name)
        self.count = count

    def read(self, body: Body) -> bytes:
        return body.take(self.count, self.name)

    def write(self, value: bytes) -> bytes:
        if len(value) != self.count:
            raise ValueError(f"{self.name} has {len(value)} bytes, not {self.count}")
        return value


class Rest(Field):
    """All bytes to the record's end, within a range of length."""

    def __init__(self, name: str, low: int, high: int) -> None:
        super().__init__(name)
        self.low = low
        self.high = high

    def fault(self, length: int) -> str | None:
        if self.low <= length <= self.high:
            return None
        return f"{self.name} has {length} bytes, not {self.low} to {self.high}"

    def read(self, body: Body) -> bytes:
        fault = self.fault(body.left)
        if fault:
            raise Damaged(body.offset, fault)
        return body.take(body.left, self.name)

    def write(self, value: bytes) -> bytes:
        fault = self.fault(len(value))
        if fault:
            raise ValueError(fault)
        return value


class Counted(Field):
    """A length of two bytes and that many bytes."""

    def __init__(self, name: str, high: int = 65_535) -> None:
        super().__init__(name)
        self.length = Number(f"the length of {name}", 2, 0, high)

    def read(self, body: Body) -> bytes:
        return body.take(self.length.read(body), self.name)

    def write(self, value: bytes) -> bytes:
        return self.length.write(len(value)) + value


class Words(Field):
    """A count of one byte and that many words, each with its length before it."""

    def __init__(self, name: str) -> None:
        super().__init__(name)
        self.count = Number(f"the count of {name}", 1, 1, 64)
        self.word = Counted("a word", 4_096)

    def read(self, body: Body) -> tuple[bytes, ...]:
        return tuple(self.word.read(body) for _ in range(self.count.read(body)))

    def write(self, value: tuple[bytes, ...]) -> bytes:
        return self.count.write(len(value)) + b"".join(self.word.write(word) for word in value)


class Address(Field):
    """An IPv4 address."""

    def read(self, body: Body) -> IPv4Address:
        return IPv4Address(body.take(4, self.name))

    def write(self, value: IPv4Address) -> bytes:
        return value.packed


class Identifier(Field):
    """A UUID of 16 bytes."""

    def read(self, body: Body) -> UUID:
        return UUID(bytes=body.take(16, self.name))

    def write(self, value: UUID) -> bytes:
        return value.bytes


class CauseField(Field):
    """A cause: its code and its two numbers, nine bytes."""

    code = Choice("the cause's code", Code)
    number = Number("a number of the cause", 4)

    def read(self, body: Body) -> Cause:
        offset = body.offset
        cause = Cause(self.code.read(body), self.number.read(body), self.number.read(body))
        fault = cause.fault()
        if fault:
            raise Damaged(offset, fault)
        return cause

    def write(self, value: Cause) -> bytes:
        fault = value.fault()
        if fault:
            raise ValueError(fault)
        return self.code.write(value.code) + self.number.write(value.a) + self.number.write(value.b)
