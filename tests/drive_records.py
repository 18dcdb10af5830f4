"""The records of a drive's open, built from docs/RECORDS.md: its connection, and what happens to its three objects.

The disk stands where an open by HTTP has its fetch, and the iSCSI where that has its HTTP.
"""

from __future__ import annotations

from dataclasses import dataclass

from shared.causes import Cause
from shared.kinds import GraphEvent, OpenKind, Way
from shared.records import Graph, Open, Record
from tests import graph_records
from tests.graph_records import ABOVE, BELOW, Trio, entered, left
from tests.web_records import Connection

ISCSI_PORT = 3_260


def uri(target: bytes, server: bytes = b"10.0.0.1", port: bytes = b"", lun: bytes = b"") -> bytes:
    """The URI of a target's unit (RFC 4173)."""
    return b":".join((b"iscsi", server, b"", port, lun, target))


@dataclass(frozen=True, slots=True)
class Drive(Connection):
    """Open `number` of a drive: `url` is the target's name, a zero byte, and the unit."""

    port: int = ISCSI_PORT

    @property
    def trio(self) -> Trio:
        return Trio(self.number, self.fetch, self.lower, True)

    @property
    def opened(self) -> Open:
        return Open(self.number, OpenKind.ISCSI, self.server.ip, self.port, self.own, self.url)

    # what goes down

    def sends(self, *put: Record) -> list[Record]:
        """The iSCSI has a text for the connection, which sends it now, or later."""
        return [entered(self.trio.tcp, ABOVE, Way.DOWN), *put, left(self.trio.tcp, ABOVE)]

    def asks(self, *put: Record) -> list[Record]:
        """The disk has one for the iSCSI, which passes it on."""
        iscsi = self.trio.http
        return [entered(iscsi, ABOVE, Way.DOWN), *self.sends(*put), left(iscsi, ABOVE)]

    def reads(self, *put: Record) -> list[Record]:
        """The user asks the disk for blocks, and that for them."""
        disk = self.trio.fetch
        return [entered(disk, ABOVE, Way.DOWN), *self.asks(*put), left(disk, ABOVE)]

    # what goes up

    def rises(self, *within: Record) -> list[Record]:
        """A PDU, that the session is open, or its end goes up to the disk."""
        disk = self.trio.fetch
        return [entered(disk, BELOW, Way.UP), *within, left(disk, BELOW)]

    def unit_ends(self, cause: Cause, closing: Record | None) -> list[Record]:
        """The disk closes both its ports, and the others pass that on."""
        put = [closing] if closing else []
        return self.trio.closed_above(cause, *put, has_ended=closing is None)

    def let_go(self, cause: Cause, *put: Record) -> list[Record]:
        """The user closes the open."""
        return graph_records.ended_above(self.trio, cause, *put)

    def left_over(self) -> list[Record]:
        """Bytes that come after the end aren't given to the iSCSI."""
        return [Graph(GraphEvent.DROPPED, self.trio.http, BELOW)]
