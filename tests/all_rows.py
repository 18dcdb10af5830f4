"""All recordings that the tests replay, and the rows among them, whose outputs are written by hand."""

from __future__ import annotations

from tests import test_device, test_drives, test_lease, test_lookup, test_names, test_nested, test_ping, test_replay
from tests import test_scripts, test_settings, test_sleep, test_uris, test_web
from tests.script_rows import Row
from tests.test_program import INPUTS

WITH_ROWS = (
    test_device, test_drives, test_lease, test_lookup, test_names, test_nested, test_ping, test_replay, test_scripts, test_sleep,
    test_uris, test_web,
)  # fmt: skip


def expected() -> dict[str, Row]:
    """The rows, by their modules and names."""
    return {
        f"{module.__name__}.{name}": row for module in WITH_ROWS for name, row in module.ROWS.items()
    }


def all_inputs() -> dict[str, bytes]:
    """What is replayed, by the names of the cases."""
    found: dict[str, bytes] = {}
    for module in (*WITH_ROWS, test_settings):
        found |= module.all_inputs()
    return {**found, **INPUTS}
