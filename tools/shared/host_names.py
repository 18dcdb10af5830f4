"""Names of hosts, as docs/SCRIPTS.md has them: what is wrong with one, in words (RFC 1035, section 2.3.4)."""

from __future__ import annotations

MOST_LABEL, MOST_NAME = 63, 253


def host_fault(name: bytes) -> str | None:
    """Why a text is no name that a name server can be asked for, if it is none; a dot may stand at its end."""
    whole = name.removesuffix(b".")
    labels = whole.split(b".")
    if not all(labels):
        return "a part between its dots is empty" if b"." in name else "it is empty"
    if any(len(label) > MOST_LABEL for label in labels):
        return f"a part between its dots has more than {MOST_LABEL} bytes"
    if len(whole) > MOST_NAME:
        return f"it has more than {MOST_NAME} bytes"
    return None
