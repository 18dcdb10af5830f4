"""Another real iSCSI target in the small network: istgt, which shares no code with tgtd; it wants a unit 0 beside the disk."""

from __future__ import annotations

import subprocess
import time
from contextlib import contextmanager
from pathlib import Path
from typing import Iterator

from shared.namespaces import PREFIX, SERVER_ADDRESS, Network
from tests.disk_target import IMAGE, MOST_SECONDS, NAME, PORT, SECONDS_BETWEEN, UNIT, Secrets

PROGRAMS = ("istgt", "ss")
USUAL_PINGS = 20
CONFIGURATION = """\
[Global]
  NodeBase "{base}"
  PidFile {folder}/istgt.pid
  AuthFile {folder}/auth.conf
  LogFacility "local7"
  NopInInterval {pings}
  DiscoveryAuthMethod Auto
  MaxSessions 16
  MaxConnections 4
  MaxR2T 32
  MaxOutstandingR2T 16
  DefaultTime2Wait 2
  DefaultTime2Retain 60
  FirstBurstLength 262144
  MaxBurstLength 1048576
  MaxRecvDataSegmentLength 262144
  InitialR2T Yes
  ImmediateData Yes
  DataPDUInOrder Yes
  DataSequenceInOrder Yes
  ErrorRecoveryLevel 0
[UnitControl]
  AuthMethod None
  AuthGroup None
  Portal UC1 127.0.0.1:3261
  Netmask 127.0.0.1
[PortalGroup1]
  Portal DA1 {address}:{port}
[InitiatorGroup1]
  InitiatorName "ALL"
  Netmask {address}/{prefix}
[LogicalUnit1]
  TargetName {name}
  Mapping PortalGroup1 InitiatorGroup1
  AuthMethod {method}
  AuthGroup AuthGroup1
  UseDigest Auto
  UnitType Disk
  LUN0 Storage {folder}/other Auto
  LUN{unit} Storage {folder}/disk Auto
"""


def authorised(secrets: Secrets) -> str:
    """Who may log in, and who the target says it is."""
    if not secrets.user:
        return "[AuthGroup1]\n"
    own = f' "{secrets.own_user}" "{secrets.own_secret}"' if secrets.own_user else ""
    return f'[AuthGroup1]\n  Auth "{secrets.user}" "{secrets.secret}"{own}\n'


@contextmanager
def istgt_target(joined: Network, folder: Path, secrets: Secrets = Secrets()) -> Iterator[None]:
    """Serves a disk of 2,048 blocks while it is entered."""
    (folder / "disk").write_bytes(IMAGE)
    (folder / "other").write_bytes(bytes(len(IMAGE)))
    (folder / "auth.conf").write_text(authorised(secrets))
    (folder / "auth.conf").chmod(0o600)
    base, name = NAME.split(":")
    method = ("CHAP Mutual" if secrets.own_user else "CHAP") if secrets.user else "None"
    text = CONFIGURATION.format(
        base=base, folder=folder, address=SERVER_ADDRESS, port=PORT, prefix=PREFIX, name=name, method=method, unit=UNIT,
        pings=secrets.pings or USUAL_PINGS,
    )
    (folder / "istgt.conf").write_text(text)
    with open(folder / "istgt.log", "wb") as log:
        process = subprocess.Popen(joined.in_server("istgt", "-D", "-c", str(folder / "istgt.conf")), stdout=log, stderr=log)
    try:
        end = time.monotonic() + MOST_SECONDS
        while f":{PORT}" not in listening(joined):
            assert process.poll() is None and time.monotonic() < end, (folder / "istgt.log").read_text()
            time.sleep(SECONDS_BETWEEN)
        yield
    finally:
        process.kill()
        process.wait()


def listening(joined: Network) -> str:
    return subprocess.run(joined.in_server("ss", "-Htln"), capture_output=True, text=True, check=False).stdout
