"""A real iSCSI target in a small network of two namespaces: tgtd, which serves one disk."""

from __future__ import annotations

import subprocess
import time
from contextlib import contextmanager
from dataclasses import dataclass
from pathlib import Path
from typing import Iterator

from shared.namespaces import SERVER_ADDRESS, Network

NAME, UNIT, PORT = "iqn.2026-11.lan.boot:disk", 1, 3_260
# the channel by which this tgtd is spoken to, so that another of the machine's isn't
CHANNEL = "7"
PROGRAMS = ("tgtd", "tgtadm")
MOST_SECONDS, SECONDS_BETWEEN = 20.0, 0.1
BLOCKS = 2_048
# each block is its own number over and over, but for the first, which says whose it is
IMAGE = b"the first block of a disk, which a target of the tests serves".ljust(512, b".") + b"".join(
    number.to_bytes(4, "big") * 128 for number in range(1, BLOCKS)
)


@dataclass(frozen=True)
class Secrets:
    """Who may log in, and who the target says it is."""

    user: str = ""
    secret: str = ""
    own_user: str = ""
    own_secret: str = ""
    # after so many seconds of silence it asks whether the client lives; 0 is never, or late
    pings: int = 0


def admin(line: str) -> subprocess.CompletedProcess[str]:
    words = ["tgtadm", "-C", CHANNEL, "--lld", "iscsi", *line.split()]
    return subprocess.run(words, capture_output=True, text=True, check=False)


def configure(disk: Path, secrets: Secrets) -> None:
    """The target, its unit, who may log in, and by which secrets."""
    lines = [
        f"--op new --mode target --tid 1 -T {NAME}",
        f"--op new --mode logicalunit --tid 1 --lun {UNIT} -b {disk}",
        "--op bind --mode target --tid 1 -I ALL",
    ]
    for user, secret, way in (
        (secrets.user, secrets.secret, ""), (secrets.own_user, secrets.own_secret, " --outgoing"),
    ):  # fmt: skip
        if user:
            lines.append(f"--op new --mode account --user {user} --password {secret}")
            lines.append(f"--op bind --mode account --tid 1 --user {user}{way}")
    if secrets.pings:
        lines += [f"--op update --mode target --tid 1 --name nop_{name} --value {secrets.pings}" for name in ("interval", "count")]
    for line in lines:
        done = admin(line)
        assert done.returncode == 0, f"tgtadm {line}: {done.stderr}"


@contextmanager
def disk_target(joined: Network, folder: Path, secrets: Secrets = Secrets()) -> Iterator[None]:
    """Serves a disk of 2,048 blocks while it is entered."""
    disk = folder / "disk"
    disk.write_bytes(IMAGE)
    words = ["tgtd", "-f", "-C", CHANNEL, "--iscsi", f"portal={SERVER_ADDRESS}:{PORT}"]
    with open(folder / "tgtd.log", "wb") as log:
        process = subprocess.Popen(joined.in_server(*words), stdout=log, stderr=log)
    try:
        end = time.monotonic() + MOST_SECONDS
        while admin("--op show --mode system").returncode:
            assert process.poll() is None and time.monotonic() < end, (folder / "tgtd.log").read_text()
            time.sleep(SECONDS_BETWEEN)
        configure(disk, secrets)
        yield
    finally:
        process.kill()
        process.wait()
