"""Files by URIs of each kind, at any port, and joined to `next-server`: the program's whole output, record by record.

What is expected is written by hand from docs/RECORDS.md, docs/SCRIPTS.md, RFC 3986 and the URL Standard.
"""

from __future__ import annotations

import unittest
from dataclasses import replace
from ipaddress import IPv4Address

from shared.causes import OK, Cause, Code
from shared.kinds import PartKind, Status
from shared.records import Advance, Done, Off, Part, Record, Result, Sent, Step, Tick, Try
from shared.wire import arp_request, tftp_ack, tftp_data, tftp_request
from tests import made
from tests.graph_records import asked, came, passed, shut
from tests.replays import can_run
from tests.script_rows import FIRST, UNFINISHED, Row, RowCase, ran, row, steps

BAD_URI, NO_SCHEME, BAD_NAME = Cause(Code.BAD_URI), Cause(Code.NO_SCHEME), Cause(Code.BAD_NAME)
TOO_LONG = Cause(Code.TOO_LONG, 7)
BASE = b"set net0/next-server 10.0.0.1"
KERNEL = b"\x7fELF a kernel"
SERVER = made.SERVER.ip


def sets(commands: tuple[bytes, ...]) -> list[Record]:
    """Commands on lines of their own, each of them Ok."""
    return [record for line, words in enumerate(commands, 2) for record in ran(words, line=line)]


def begins(uri: bytes, path: bytes, port: int, commands: tuple[bytes, ...], server: IPv4Address) -> list[Record]:
    """The first step: after these commands a file is asked for, by this path, at this port of the server."""
    opened = replace(made.tftp_open(path), server=server, port=port)
    request = Sent(arp_request(made.CLIENT, server))
    command = made.command(b"imgexec " + uri, len(commands) + 2)
    return [Step(1), made.enter(), *sets(commands), command, *asked(opened, Try(0, 1), request)]


def start(uri: bytes, commands: tuple[bytes, ...]) -> Record:
    return made.start(FIRST + b"\n".join((*commands, b"imgexec " + uri)))


def boots(uri: bytes, path: bytes, name: bytes, *commands: bytes, port: int = 69) -> Row:
    """After these commands the file of this path is fetched, and handed off as an image of this name."""
    block = made.from_server(tftp_data(1, KERNEL))
    taken = came(0, Advance(0, 1), made.to_server(tftp_ack(1)), gives=True, over=OK)
    parts = [
        Part(PartKind.KERNEL_NAME, 0, 0, name),
        Part(PartKind.KERNEL, 0, 0, KERNEL),
        Part(PartKind.COMMAND_LINE, 0, 0, b""),
    ]
    request = passed(0, Try(0, 2), made.to_server(tftp_request(path), port))
    later = steps(2, [], request, [*taken, Result(OK), *parts, Done(Status.HANDED_OFF)])
    inputs = [start(uri, commands), made.found(), Tick(250), block]
    return Row(inputs, [*begins(uri, path, port, commands, SERVER), *later])


def asks(uri: bytes, path: bytes, server: str, *commands: bytes, port: int = 69) -> Row:
    """After these commands the file is asked for at this server, and the power is switched off."""
    outputs = begins(uri, path, port, commands, IPv4Address(server))
    return Row([start(uri, commands), Off()], [*outputs, *steps(2, shut(0)), UNFINISHED])


def refused(uri: bytes, cause: Cause, *commands: bytes) -> Row:
    """After these commands nothing is asked for."""
    words = b"imgfetch " + uri
    over = ran(words, cause, line=len(commands) + 2)
    return row(b"\n".join((*commands, words)), sets(commands), over, cause=cause)


def joined() -> dict[str, Row]:
    """URIs that `next-server` completes."""
    other = b"set net0/next-server 10.0.0.3"
    return {
        "a_path": boots(b"x/vmlinuz", b"x/vmlinuz", b"vmlinuz", BASE),
        "a_path_from_the_root": boots(b"/x/vmlinuz", b"x/vmlinuz", b"vmlinuz", BASE),
        "a_path_with_dots": boots(b"x/../y/./k", b"y/k", b"k", BASE),
        "a_path_that_leaves_the_root": boots(b"../../k", b"k", b"k", BASE),
        "a_server": boots(b"//10.0.0.1:70/k", b"k", b"k", other, port=70),
        "no_path": boots(b"?k", b"", b"10.0.0.1", BASE),
        "a_scheme_of_its_own": boots(b"tftp://10.0.0.1/k", b"k", b"k", other),
        "a_base_of_the_root": boots(b"k", b"k", b"k", b"set next-server 10.0.0.1"),
        "a_base_of_the_root_first": boots(b"k", b"k", b"k", other, b"set next-server 10.0.0.1"),
        "a_base_of_then": asks(b"k", b"k", "10.0.0.3", BASE, other),
        "more_bytes_than_an_address": boots(b"k", b"k", b"k", b"set next-server:hexraw 0a00000105"),
        "no_base": refused(b"vmlinuz", BAD_URI),
        "a_base_of_zero": refused(b"vmlinuz", BAD_URI, b"set net0/next-server 0.0.0.0"),
        "fewer_bytes_than_an_address": refused(b"vmlinuz", BAD_URI, b"set next-server:hexraw 0a0000"),
        "a_base_that_is_cleared": refused(b"vmlinuz", BAD_URI, BASE, b"clear net0/next-server"),
    }  # fmt: skip


def whole() -> dict[str, Row]:
    """URIs that say all by themselves."""
    folders, name = b"a/" * 384, b"b" * 255
    return {
        "a_port": boots(b"tftp://10.0.0.1:6969/f", b"f", b"f", port=6_969),
        "port_69": boots(b"tftp://10.0.0.1:69/f", b"f", b"f"),
        "the_last_port": boots(b"tftp://10.0.0.1:65535/f", b"f", b"f", port=65_535),
        "a_user": boots(b"tftp://u:p@10.0.0.1/f", b"f", b"f"),
        "a_scheme_in_capitals": boots(b"TFTP://10.0.0.1/f", b"f", b"f"),
        "a_query_and_a_fragment": boots(b"tftp://10.0.0.1/f?a/b#c/d", b"f", b"f"),
        "an_escaped_slash": boots(b"tftp://10.0.0.1/a%2fb", b"a/b", b"a/b"),
        "an_escaped_question_mark": boots(b"tftp://10.0.0.1/a%3fb", b"a?b", b"a?b"),
        "an_escaped_percent_sign": boots(b"tftp://10.0.0.1/%2541", b"%41", b"%41"),
        "escaped_dots": boots(b"tftp://10.0.0.1/a/%2e%2E/f", b"f", b"f"),
        "an_empty_last_segment": boots(b"tftp://10.0.0.1/d/", b"d/", b"10.0.0.1"),
        "an_empty_first_segment": boots(b"tftp://10.0.0.1//f", b"/f", b"f"),
        "no_path_of_its_own": boots(b"tftp://10.0.0.1", b"", b"10.0.0.1"),
        "another_server": asks(b"tftp://10.0.0.3:1/f", b"f", "10.0.0.3", port=1),
        "the_longest_path_and_name": boots(
            b"tftp://10.0.0.1/" + folders + b"/" + name, folders + b"/" + name, name
        ),
        "the_longest_name_is_decoded": boots(
            b"tftp://10.0.0.1/" + folders + b"%62" * 255, folders + name, name
        ),
    }  # fmt: skip


def refusals() -> dict[str, Row]:
    longest = b"a/" * 512 + b"f"
    return {
        "ftp": refused(b"ftp://h/f", NO_SCHEME),
        "https": refused(b"https://10.0.0.1/f", NO_SCHEME),
        "iscsi": refused(b"iscsi:10.0.0.1::::iqn.x:t", NO_SCHEME),
        "a_base_serves_no_other_scheme": refused(b"ftp://h/f", NO_SCHEME, BASE),
        "iscsi_of_another_form": refused(b"iscsi:x", BAD_URI),
        "no_host": refused(b"tftp:///f", BAD_URI),
        "no_host_of_another_scheme": refused(b"x:///f", BAD_URI),
        "a_zero_byte": refused(b"tftp://10.0.0.1/a%00b", BAD_URI),
        "a_port_that_is_none": refused(b"tftp://10.0.0.1:65536/f", BAD_URI),
        "no_text": refused(b"tftp://10.0.0.1/\xff", BAD_URI),
        "a_path_of_1025": refused(b"tftp://10.0.0.1/" + longest, TOO_LONG),
        "a_name_of_256": refused(b"tftp://10.0.0.1/" + b"a" * 256, TOO_LONG),
        "a_long_path_of_no_host": refused(b"tftp://a..b/" + longest, TOO_LONG),
        "no_name_of_a_host": refused(b"tftp://a..b/f", BAD_NAME),
    }  # fmt: skip


ROWS = {**joined(), **whole(), **refusals()}


def all_inputs() -> dict[str, bytes]:
    return {f"uri_{name}": made.spelled(row.inputs) for name, row in ROWS.items()}


@unittest.skipUnless(can_run(), "the program isn't built, and the toolchain's rt is missing")
class Uris(RowCase):
    def test_rows(self) -> None:
        for name, row in ROWS.items():
            with self.subTest(name):
                self.same(f"uri_{name}", row)


if __name__ == "__main__":
    unittest.main()
