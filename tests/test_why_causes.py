"""The first sentence of `--why`: the first failure that a script passed over, what came and didn't count, what to do."""

from __future__ import annotations

import io
import tempfile
import unittest
from ipaddress import IPv4Address
from pathlib import Path

from shared.causes import OK, Cause, Code
from shared.kinds import OpenKind, PartKind, Status
from shared.records import Command, Done, Ended, Open, Part, Received, Record, Result, Sent, Step, Tick, Try
from shared.success import size
from shared.why import reasons
from shared.wire import PROTOCOL_ICMP, checksum, packet_frame, tftp_error, tftp_oack, tftp_request, udp_frame
from shared.wire_dhcp import Asker, Kind, Option, Tag, answer, discover, request, to_client, to_servers
from tests import made

UNKNOWN, FALSE, TIMED_OUT = Cause(Code.UNKNOWN), Cause(Code.FALSE), Cause(Code.TIMED_OUT, 6)
OTHER = made.Station(bytes.fromhex("525400000009"), IPv4Address("10.0.0.9"))
MASK: Option = (Tag.NETMASK, bytes((255, 255, 255, 0)))
# the number of the first open by the zero key, as ChaCha8's test vectors have it
ASKER = Asker(made.CLIENT.mac, 0x2FEF003E)
GIVEN = IPv4Address("10.0.0.50")
FETCH = b"imgfetch tftp://10.0.0.1/f"


def first_line(outputs: list[Record], inputs: list[Record] | None = None) -> str:
    with tempfile.TemporaryDirectory() as folder:
        path = Path(folder) / "in.rec"
        path.write_bytes(made.spelled(inputs or []))
        given = path if inputs else None
        return next(reasons(Path("out.rec"), io.BytesIO(made.spelled(outputs)), given))


def ran(words: bytes, cause: Cause, line: int, place: int = 0) -> list[Record]:
    return [Command(1, line, place, True, tuple(words.split(b" "))), Result(cause)]


def failed(*commands: list[Record], end: Cause) -> list[Record]:
    records = [record for command in commands for record in command]
    return [Step(1), made.enter(), *records, made.leave(end), Done(Status.SCRIPT_FAILED)]


def asked(number: int = 0) -> list[Record]:
    """A fetch that asks once, its first step and the fetch's own records alone."""
    opened = Open(number, OpenKind.TFTP, made.SERVER.ip, 69, made.OWN_PORT + number, b"f")
    return [Command(1, 2, 0, True, tuple(FETCH.split(b" "))), opened, Try(number, 1),
            made.to_server(tftp_request(b"f"), 69)]


def silent(received: list[bytes]) -> str:
    """On a fetch that gives up, with these frames before."""
    inputs = [made.start(b"#!ipxe\n" + FETCH + b"\n"), *map(Received, received), Tick(15_750)]
    steps = [Step(number) for number in range(2, len(inputs) + 1)]
    end = [Ended(0, TIMED_OUT), Result(TIMED_OUT), made.leave(TIMED_OUT), Done(Status.SCRIPT_FAILED)]
    return first_line([Step(1), made.enter(), *asked(), *steps, *end], inputs)


class PassedOver(unittest.TestCase):
    """The cause isn't lost where a list goes on after a failure."""

    def test_the_first_failure_is_named_and_then_the_end(self) -> None:
        exits = Cause(Code.EXIT, 1)
        said = first_line(failed(ran(b"menu", UNKNOWN, 2), ran(b"echo no", OK, 2, 1), ran(b"exit 1", exits, 3), end=exits))
        self.assertEqual(said, "line 2: the command `menu` isn't built yet; the script went on, and failed: line 3: the "
                         'script itself ended in failure, by `exit 1`. To do: leave it out (docs/SCRIPTS.md, "Commands")')

    def test_a_script_that_ended_well_and_booted_nothing(self) -> None:
        records = [*ran(b"imgmem", UNKNOWN, 2), *ran(b"echo no", OK, 2, 1), made.leave(OK), Done(Status.ENDED)]
        said = first_line([Step(1), made.enter(), *records])
        self.assertTrue(said.startswith("line 2: the command `imgmem` isn't built yet; the script went on, and ended well"))

    def test_a_test_that_is_false_is_no_failure(self) -> None:
        exits = Cause(Code.EXIT, 1)
        said = first_line(failed(ran(b"isset a", FALSE, 2), ran(b"exit 1", exits, 2, 1), end=exits))
        self.assertEqual(said, "command 2 of line 2: the script itself ended in failure, by `exit 1`")

    def test_a_failure_that_ends_the_script_is_named_alone(self) -> None:
        said = first_line(failed(ran(b"menu", UNKNOWN, 2), end=UNKNOWN))
        self.assertTrue(said.startswith("line 2: the command `menu` isn't built yet. To do: "))

    def test_the_first_of_more_than_are_kept(self) -> None:
        others = [ran(b"shell", UNKNOWN, number) for number in range(3, 203)]
        said = first_line(failed(ran(b"menu", UNKNOWN, 2), *others, end=UNKNOWN))
        self.assertTrue(said.startswith("line 2: the command `menu` isn't built yet; the script went on"))

    def test_a_run_that_waits_after_it(self) -> None:
        inputs = [made.start(b"#!ipxe\nmenu ||\n" + FETCH + b"\n"), Tick(9)]
        outputs = [Step(1), made.enter(), *ran(b"menu", UNKNOWN, 2), *asked(), Step(2), Done(Status.UNFINISHED)]
        self.assertIn("isn't built yet; the script went on, and didn't end: the recording ends after 0.009 s, while line 2 "
                      "waited for", first_line(outputs, inputs))


class NotBuilt(unittest.TestCase):
    def test_commands_of_ipxe(self) -> None:
        for name in (b"cpuid", b"prompt", b"menu", b"certstat", b"md5sum", b"imgset"):
            said = first_line(failed(ran(name + b" --x", UNKNOWN, 2), end=UNKNOWN))
            self.assertTrue(said.startswith(f"line 2: the command `{name.decode()}` isn't built yet"), said)

    def test_options_of_ipxe(self) -> None:
        for words, cause, option, name in (
            (b"imgfetch -n k tftp://10.0.0.1/k", Code.USAGE, "-n", "imgfetch"),
            (b"kernel --name k --autofree tftp://10.0.0.1/k", Code.USAGE, "--autofree", "kernel"),
            (b"imgfetch --timeout=5 tftp://10.0.0.1/k", Code.USAGE, "--timeout", "imgfetch"),
            (b"imgexec -n k tftp://10.0.0.1/k", Code.USAGE, "-n", "imgexec"),
            (b"imgexec -a", Code.BAD_URI, "-a", "imgexec"),
            (b"ping -c 3 10.0.0.1", Code.USAGE, "-c", "ping"),
            (b"ping -c3", Code.BAD_NAME, "-c", "ping"),
            (b"dhcp -c", Code.BAD_NAME, "-c", "dhcp"),
            (b"sleep --help", Code.USAGE, "--help", "sleep"),
        ):
            with self.subTest(words):
                said = first_line(failed(ran(words, Cause(cause), 2), end=Cause(cause)))
                wanted = f"line 2: the option `{option}` of `{name}` isn't built yet. To do: leave it out ("
                self.assertTrue(said.startswith(wanted), said)

    def test_words_that_are_no_option(self) -> None:
        for words in (b"imgfetch --nonsense a", b"exit -1", b"inc x -n"):
            said = first_line(failed(ran(words, Cause(Code.USAGE), 2), end=Cause(Code.USAGE)))
            self.assertIn("the words don't fit the command", said)

    def test_a_command_of_nobody(self) -> None:
        said = first_line(failed(ran(b"imgftech", UNKNOWN, 2), end=UNKNOWN))
        self.assertEqual(said, "line 2: imgftech is no command, of iPXE neither. To do: mend the name "
                         '(docs/SCRIPTS.md, "Commands")')


class Answered(unittest.TestCase):
    """A server that answered is never said to have been silent."""

    def icmp(self, kind: int, code: int, source: made.Station = made.SERVER) -> bytes:
        """A message about the request, with its header and eight bytes of it (RFC 792)."""
        asked = made.to_server(tftp_request(b"f"), 69).frame[14:42]
        head, rest = bytes((kind, code)), bytes(4) + asked
        body = head + checksum(head + b"\0\0" + rest).to_bytes(2, "big") + rest
        return packet_frame(source, made.CLIENT, PROTOCOL_ICMP, body)

    def test_nobody_listens(self) -> None:
        self.assertEqual(silent([self.icmp(3, 3)]),
                         "nobody listens at port 69 of 10.0.0.1, as it answered by ICMP (port unreachable); f was asked for "
                         "once in 15.75 s. To do: start a server for TFTP there")

    def test_a_host_that_can_not_be_reached(self) -> None:
        said = silent([self.icmp(3, 1, OTHER)])
        wanted = "10.0.0.9 answered by ICMP on 10.0.0.1: host unreachable; f was asked for once"
        self.assertTrue(said.startswith(wanted), said)

    def test_of_a_failure_that_was_passed_over(self) -> None:
        exits = Cause(Code.EXIT, 1)
        inputs = [made.start(b"#!ipxe\n" + FETCH + b" || exit 1\n"), Received(self.icmp(3, 3)), Tick(15_750)]
        end = [Ended(0, TIMED_OUT), Result(TIMED_OUT), *ran(b"exit 1", exits, 2, 1), made.leave(exits)]
        outputs = [Step(1), made.enter(), *asked(), Step(2), Step(3), *end, Done(Status.SCRIPT_FAILED)]
        said = first_line(outputs, inputs)
        self.assertTrue(said.startswith("line 2: nobody listens at port 69 of 10.0.0.1, as it answered by ICMP"), said)

    def test_other_icmp_says_nothing(self) -> None:
        self.assertTrue(silent([self.icmp(11, 0, OTHER)]).startswith("10.0.0.1 never answered: "))

    def test_an_error_by_tftp_that_does_not_count(self) -> None:
        frame = udp_frame(made.SERVER, made.CLIENT, (40_000, 1), tftp_error(1, b"no"))
        said = "10.0.0.1 answered: file not found (f), which the client didn't take: to port 1, and the transfer's port is"
        self.assertTrue(silent([frame]).startswith(f"{said} 49152; f was asked for once in 15.75 s"))

    def test_answers_that_do_not_count(self) -> None:
        good = udp_frame(made.SERVER, made.CLIENT, (40_000, made.OWN_PORT), b"\0\3\0\1abc")
        wrong = good[:40] + bytes((good[40] ^ 1,)) + good[41:]
        for frame, said, todo in (
            (wrong, "UDP from 10.0.0.1 with a wrong checksum or length", "--fix-checksums"),
            (OTHER.mac + good[6:], "the hardware address 52:54:00:00:00:09 isn't the client's", "--mac"),
            (udp_frame(made.SERVER, made.CLIENT, (40_000, 7), b"\0\3\0\1abc"), "to port 7, and", "--map-ports"),
        ):
            line = silent([frame, frame])
            self.assertTrue(line.startswith(f"10.0.0.1 answered, and the client didn't take it: 2 frames, {said}"), line)
            self.assertIn(todo, line.split(". To do: ")[1])

    def test_silence(self) -> None:
        others = udp_frame(OTHER, made.CLIENT, (1, 2), b"")
        self.assertEqual(silent([made.found().frame, others]),
                         "10.0.0.1 never answered: f was asked for once in 15.75 s. To do: see that a TFTP server runs "
                         "there, and that no firewall stops it")

    def test_while_it_waits(self) -> None:
        inputs = [made.start(b"#!ipxe\n" + FETCH + b"\n"), Received(self.icmp(3, 3))]
        said = first_line([Step(1), made.enter(), *asked(), Step(2), Done(Status.UNFINISHED)], inputs)
        self.assertIn("; nobody listens at port 69 of 10.0.0.1, as it answered by ICMP", said)

    def test_blocks_that_are_too_large(self) -> None:
        cause = Cause(Code.BROKEN, 2)
        inputs = [made.start(b"#!ipxe\n" + FETCH + b"\n"), made.from_server(tftp_oack(blksize=1_468, tsize=9))]
        end = [Ended(0, cause), Result(cause), made.leave(cause), Done(Status.SCRIPT_FAILED)]
        said = first_line([Step(1), made.enter(), *asked(), Step(2), *end], inputs)
        self.assertTrue(said.startswith("10.0.0.1 grants blocks of 1468 bytes of f, and at most 1432 are asked for"), said)

    def test_without_the_input_nobody_is_called_silent(self) -> None:
        end = [Step(2), Ended(0, TIMED_OUT), Result(TIMED_OUT), made.leave(TIMED_OUT), Done(Status.SCRIPT_FAILED)]
        said = first_line([Step(1), made.enter(), *asked(), *end])
        self.assertTrue(said.startswith("10.0.0.1 gave no answer that counted: f was asked for once. To do: "), said)


class FileNames(unittest.TestCase):
    """A lease that names no file."""

    SCRIPT = b"#!ipxe\ndhcp\nimgexec tftp://${next-server}/${filename} || exit 1\n"

    def said(self, script: bytes, named: bytes, offered: bytes = b"") -> str:
        offer = answer(ASKER, Kind.OFFER, made.SERVER.ip, MASK, given=GIVEN)
        other = answer(ASKER, Kind.OFFER, OTHER.ip, (Tag.FILENAME, offered), given=GIVEN + 1)
        ack = answer(ASKER, Kind.ACK, made.SERVER.ip, MASK, given=GIVEN, next_server=made.SERVER.ip, file=named)
        inputs = [made.start(script), *(Received(to_client(made.SERVER, body)) for body in (offer, other, ack))]
        opened = Open(0, OpenKind.DHCP, IPv4Address("255.255.255.255"), 67, 68, b"")
        begins = [Command(1, 2, 0, True, (b"dhcp",)), opened, Try(0, 1), Sent(to_servers(ASKER, discover(ASKER)))]
        asks = [Try(0, 1), Sent(to_servers(ASKER, request(ASKER, made.SERVER.ip, GIVEN)))]
        bad, exits = Cause(Code.BAD_URI), Cause(Code.EXIT, 1)
        ends = [Ended(0, OK), Result(OK), *ran(b"imgexec tftp:///", bad, 3), *ran(b"exit 1", exits, 3, 1)]
        over = [made.leave(exits), Done(Status.SCRIPT_FAILED)]
        return first_line([Step(1), made.enter(), *begins, Step(2), *asks, Step(3), Step(4), *ends, *over], inputs)

    def test_it_is_said(self) -> None:
        said = self.said(self.SCRIPT, b"")
        self.assertIn("; the lease from 10.0.0.1 names no file to boot. To do: ", said)

    def test_the_offer_of_another_server_is_said(self) -> None:
        said = self.said(self.SCRIPT, b"", b"pxelinux.0")
        wanted = "; the lease from 10.0.0.1 names no file to boot, and 10.0.0.9 offered pxelinux.0, which wasn't taken. To"
        self.assertIn(wanted, said)

    def test_where_it_names_one_or_nobody_asks(self) -> None:
        self.assertNotIn("names no file", self.said(self.SCRIPT, b"k", b"pxelinux.0"))
        self.assertNotIn("names no file", self.said(b"#!ipxe\ndhcp\nimgexec tftp:///\n", b""))


class Success(unittest.TestCase):
    def test_one_line(self) -> None:
        images = [Part(PartKind.INITRD, number, 0, b"i") for number in (0, 1)]
        outputs = [*made.BOOT_OUTPUT[:-1], *images, made.BOOT_OUTPUT[-1]]
        said = "The boot succeeded: kernel k (516 bytes) and 2 more images from 10.0.0.1"
        self.assertEqual(first_line(outputs), said)
        self.assertEqual(first_line(outputs, made.BOOT_INPUT), f"{said}, in 0.3 s of its time")

    def test_sizes(self) -> None:
        for number, said in ((1, "1 byte"), (999, "999 bytes"), (1_000, "1.0 kB"), (8_123_456, "8.1 MB"),
                             (999_950, "1.0 MB"), (4_000_000_000, "4.0 GB")):
            self.assertEqual(size(number), said)


if __name__ == "__main__":
    unittest.main()
