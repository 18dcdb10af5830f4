"""The numbers of a record's fields that stand for a choice (docs/RECORDS.md)."""

from __future__ import annotations

from enum import IntEnum


class ScriptMove(IntEnum):
    """What a SCRIPT record says of a script."""

    ENTER = 0
    LEAVE = 1
    REPLACED = 2


class OpenKind(IntEnum):
    """The protocol of an open."""

    TFTP = 1
    HTTP = 2
    ISCSI = 3
    DNS = 4
    DHCP = 5
    PING = 6


class GraphEvent(IntEnum):
    """What happened to an object or a link between two."""

    MADE = 1
    HELD = 2
    LET_GO = 3
    PLUGGED = 4
    ENTERED = 5
    LEFT = 6
    DROPPED = 7
    CLOSED = 8
    UNPLUGGED = 9
    FREED = 10


class Way(IntEnum):
    """How an object was entered."""

    UP = 0
    DOWN = 1
    CLOSE = 2
    TIME = 3


class ObjectKind(IntEnum):
    """The kinds of object that the client makes."""

    FETCH = 1
    HTTP = 2
    TCP = 3
    TFTP = 4
    RESOLVER = 5
    DHCP = 6
    PING = 7
    ISCSI = 8
    DISK = 9


class PartKind(IntEnum):
    """The parts of a hand-off."""

    KERNEL = 0
    INITRD = 1
    COMMAND_LINE = 2
    TABLE = 3
    SECTOR = 4
    KERNEL_NAME = 5
    INITRD_NAME = 6


class Status(IntEnum):
    """The statuses that a DONE record carries."""

    HANDED_OFF = 0
    ENDED = 3
    SCRIPT_FAILED = 4
    UNFINISHED = 5
    BAD_RECORD = 6
    TOO_MANY_RECORDS = 11
