"""Which steps of a run ended since no more commands may begin in one."""

from __future__ import annotations

from shared.kinds import ScriptMove, Status
from shared.records import Command, Done, Record, Result, Script, Step

MOST_COMMANDS = 4_096
OUTSIDE_ENDS = (Status.UNFINISHED, Status.BAD_RECORD, Status.TOO_MANY_RECORDS)


class FullSteps:
    """Goes over an output recording and counts the commands that begin in each step."""

    def __init__(self) -> None:
        self.step = 0
        self.begun = 0
        self.goes_on = False
        # the step before, where it was full
        self.before: int | None = None

    def take(self, record: Record) -> None:
        match record:
            case Step():
                self.before = self.step if self._is_full() else None
                self.step, self.begun = record.number, 0
            case Command():
                self.begun += 1
                self.goes_on = False
            case Result():
                self.goes_on = True
            case Script():
                self.goes_on = record.move is not ScriptMove.LEAVE
            case Done() if record.status not in OUTSIDE_ENDS:
                self.goes_on = False

    def _is_full(self) -> bool:
        return self.begun == MOST_COMMANDS and self.goes_on

    def last(self) -> int | None:
        """The full step after which no command has begun: the last one, or that before a power-off."""
        if self._is_full():
            return self.step
        return None if self.begun else self.before
