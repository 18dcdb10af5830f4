"""The rows of fetches by HTTP, by their names: each has its input and its whole output, GRAPH records with it."""

from __future__ import annotations

from tests.script_rows import Row
from tests.web_command_rows import COMMAND_ROWS
from tests.web_move_rows import MOVE_ROWS
from tests.web_response_rows import RESPONSE_ROWS
from tests.web_stream_rows import STREAM_ROWS

ROWS: dict[str, Row] = {**RESPONSE_ROWS, **MOVE_ROWS, **STREAM_ROWS, **COMMAND_ROWS}
