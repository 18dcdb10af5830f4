"""Scripts with lists, labels, `goto` and joined lines: the program's whole output, record by record.

What is expected is written by hand from docs/SCRIPTS.md and docs/RECORDS.md. The built program is run, or,
where it isn't fresh, what the toolchain's `rt try` compiles once for all recordings.
"""

from __future__ import annotations

import unittest
from dataclasses import replace
from ipaddress import IPv4Address

from shared.causes import OK, Cause, Code
from shared.kinds import OpenKind, PartKind, Status
from shared.recordings import read_input
from shared.records import Advance, Command, Done, Off, Open, Part, Received, Record, Result
from shared.records import Sent, Start, Step, Text, Tick, Try
from shared.wire import arp_reply, arp_request, tftp_ack, tftp_data, tftp_request, udp_frame
from tests import made
from tests.case import TOP
from tests.graph_records import asked, came, passed, shut, turned_back
from tests.replays import can_run
from tests.script_model import FILE, Model
from tests.script_rows import FIRST, MOST, UNFINISHED, Row, RowCase, ran, row, same_lines, text

UNKNOWN, USAGE, NO_LABEL = Cause(Code.UNKNOWN), Cause(Code.USAGE), Cause(Code.NO_LABEL)
NOT_SCRIPT, LONG_LINE = Cause(Code.NOT_SCRIPT), Cause(Code.TOO_LONG, 1)
TOO_MANY = Cause(Code.TOO_MANY, 1)
NO_ROUTE = Cause(Code.NO_ROUTE, 0x0A000001)


def joins() -> dict[str, Row]:
    foo = ran(b"foo", UNKNOWN)
    return {
        "and_is_skipped": row(b"foo && echo x || echo y\n", foo, ran(b"echo y", place=2)),
        "or_is_skipped": row(b"echo x || foo && echo y\n", ran(b"echo x"), ran(b"echo y", place=2)),
        "a_skipped_one_keeps_the_result": row(
            b"foo && echo x && echo y || echo z\n", foo, ran(b"echo z", place=3)
        ),
        "then_runs_always": row(b"foo ; echo x\n", foo, ran(b"echo x", place=1)),
        "a_list_that_fails": row(b"echo x && foo\necho y\n", ran(b"echo x"),
                                 ran(b"foo", UNKNOWN, place=1), cause=UNKNOWN),
        "what_fails_after_an_or": row(b"foo || goto\necho y\n", foo,
                                      ran(b"goto", USAGE, place=1), cause=USAGE),
        "a_list_that_mends": row(b"foo || echo x\n\techo  y \n", foo, ran(b"echo x", place=1),
                                 ran(b"echo y", line=3)),
        "an_empty_end": row(b"foo ;\necho x\n", foo, ran(b"echo x", line=3)),
        "an_empty_or": row(b"foo || && echo x\n", foo, ran(b"echo x", place=2)),
        "an_empty_and": row(b"foo && ; echo x\n", foo, ran(b"echo x", place=2)),
        "an_empty_and_at_the_end": row(b"foo &&\necho x\n", foo, cause=UNKNOWN),
        "an_empty_beginning": row(b"|| foo ; && echo x\n", ran(b"echo x", place=3)),
        "joins_alone": row(b"; && || ;\n"),
        "no_join_within_a_word": row(b"echo a;echo &&&\n", ran(b"echo a;echo &&&")),
        "exit_in_a_list": row(b"exit || echo x\necho y\n", ran(b"exit")),
        "a_failed_exit": row(b"exit 3 || echo x\n", ran(b"exit 3", Cause(Code.EXIT, 3)),
                             cause=Cause(Code.EXIT, 3)),
        "an_exit_that_is_none": row(b"exit 256 || echo x\n", ran(b"exit 256", USAGE),
                                    ran(b"echo x", place=1)),
        "a_comment_in_a_list": row(b"echo a #&& foo # || x\necho b #\n",
                                   ran(b"echo a"), ran(b"echo b", line=3)),
        "no_comment_within_a_word": row(b"echo a#b ; echo c\n", ran(b"echo a#b"),
                                        ran(b"echo c", place=1)),
    }


def labels() -> dict[str, Row]:
    def goes(name: bytes, line: int = 2, place: int = 0) -> list[Record]:
        return ran(b"goto " + name, line=line, place=place)

    return {
        "forth": row(b"goto b ; foo\necho x\n \t:b \t\necho y\n", goes(b"b"), ran(b"echo y", line=5)),
        "back_to_the_first": row(b"goto b ; foo\n:a\nexit\n:b\ngoto a\n:a\nfoo\n", goes(b"b"),
                                 goes(b"a", 6), ran(b"exit", line=4)),
        "after_a_failure": row(b"foo || goto b\n:b\necho x\n", ran(b"foo", UNKNOWN),
                               goes(b"b", place=1), ran(b"echo x", line=4)),
        "to_the_end": row(b"goto b\nfoo\n:b", goes(b"b")),
        "no_label": row(b"goto c\n:b\n", ran(b"goto c", NO_LABEL), cause=NO_LABEL),
        "no_label_but_more": row(b"goto c || echo x\n", ran(b"goto c", NO_LABEL),
                                 ran(b"echo x", place=1)),
        "labels_are_exact": row(b"goto B ;\ngoto :b\n:b\n", ran(b"goto B", NO_LABEL),
                                ran(b"goto :b", NO_LABEL, line=3), cause=NO_LABEL),
        "words_of_goto": row(b"goto ; goto b b ; goto --b ; goto -n\nfoo\n:-n\n",
                             ran(b"goto", USAGE), ran(b"goto b b", USAGE, place=1),
                             ran(b"goto --b", USAGE, place=2), goes(b"-n", place=3)),
        "a_name_of_any_bytes": row(b"goto a#;\xff\n:a#;\xff\n", goes(b"a#;\xff")),
        "a_name_with_dollar": row(b":${a}\necho x\n", ran(b"echo x", line=3)),
        "not_alone": row(b"goto b || :b #\n:b c ; :\n", ran(b"goto b", NO_LABEL),
                         ran(b":b", UNKNOWN, place=1), cause=UNKNOWN),
        "a_colon_alone": row(b":\n", ran(b":", UNKNOWN), cause=UNKNOWN),
        "a_joined_label": row(b"goto ab\nfoo\n:a\\\nb\necho x\n", goes(b"ab"),
                              ran(b"echo x", line=6)),
    }


def lines() -> dict[str, Row]:
    return {
        "joined": row(b"echo a \\\n b ; \\\r\necho c\necho d\n", ran(b"echo a b"),
                      ran(b"echo c", place=1), ran(b"echo d", line=5)),
        "joined_in_a_word": row(b"ec\\\nho a\n", ran(b"echo a")),
        "joined_to_a_comment": row(b"# a \\\nfoo\necho b # c \\\n; foo\n", ran(b"echo b", line=4)),
        "joined_to_nothing": row(b"echo a\\\n", ran(b"echo a")),
        "an_empty_front": row(b"\\\n\\\necho a\n", ran(b"echo a")),
        "two_backslashes": row(b"echo a\\\\\nb\n", ran(b"echo a\\b")),
        "a_blank_after_the_backslash": row(b"echo a\\ \necho b\n", ran(b"echo a\\"),
                                           ran(b"echo b", line=3)),
        "a_last_backslash": row(b"echo a\\", ran(b"echo a\\")),
        "line_ends": text(b"#!ipxe\r\necho a\r\necho b\r\r\n\r\n", ran(b"echo a"),
                          ran(b"echo b\r", line=3)),
        "a_last_carriage_return": row(b"exit\r", ran(b"exit\r", UNKNOWN), cause=UNKNOWN),
        "first_line_and_blanks": text(b"#!ipxe \t\r\nexit", ran(b"exit")),
        "first_line_alone": text(b"#!ipxe"),
        "first_line_and_comment": text(b"#!ipxe # a\nexit", cause=NOT_SCRIPT),
        "first_line_and_two_returns": text(b"#!ipxe\r\r\nexit", cause=NOT_SCRIPT),
        "first_line_and_a_late_blank": text(b"#!ipxe\r \nexit", cause=NOT_SCRIPT),
        "first_line_joined": text(b"#!ipxe\\\n\nexit", cause=NOT_SCRIPT),
        "first_line_late": text(b"\n#!ipxe\nexit", cause=NOT_SCRIPT),
        "dollar_in_a_list": row(b"echo a\n; echo ${b}\n", ran(b"echo a"), ran(b"echo ", line=3, place=1)),
        "dollar_joined": row(b"echo a$\\\n{b}c\n", ran(b"echo ac")),
        "dollar_in_a_comment": row(b"# ${a}\necho $ {a} $\n", ran(b"echo $ {a} $", line=3)),
        "many_lines": row(b"\n" * 4_997 + b"echo a\n", ran(b"echo a", line=4_999)),
    }


def limits() -> dict[str, Row]:
    words, most_words = b"echo" + b" x" * 64, b"echo" + b" x" * 63
    long = b"x" * 4_091
    return {
        "64_words": row(most_words + b"\n", ran(most_words)),
        "65_words": row(b"foo ;\n" + words + b"\nfoo\n", ran(b"foo", UNKNOWN), cause=TOO_MANY),
        "65_words_after_a_failure": row(b"foo\n" + words, ran(b"foo", UNKNOWN), cause=UNKNOWN),
        "65_words_of_two_commands": row(b"foo ; " + most_words, cause=TOO_MANY),
        "65_words_passed_over": row(b"goto a\n" + words + b"\n:a\n", ran(b"goto a")),
        "65_words_in_a_comment": row(b"echo # " + words + b"\n", ran(b"echo")),
        "64_joins": row(b"foo" + b" ;" * 64 + b" echo x\n", ran(b"foo", UNKNOWN),
                        ran(b"echo x", place=64)),
        "65_joins": row(b"foo" + b" ;" * 65, cause=TOO_MANY),
        "64_words_and_64_joins": row(b"echo ; " * 63 + b"echo ;\n",
                                     *[ran(b"echo", place=place) for place in range(64)]),
        "a_line_of_4096": row(b"echo " + long + b"\r\n", ran(b"echo " + long)),
        "a_line_of_4097": row(b"echo a\necho x" + long + b"\n", cause=LONG_LINE),
        "a_joined_line_of_4096": row(b"echo \\\n" + long, ran(b"echo " + long)),
        "a_joined_line_of_4097": row(b"echo \\\nx\\\n" + long, cause=LONG_LINE),
        "a_comment_of_4097": row(b"#" + b" " * 4_096 + b"\n", cause=LONG_LINE),
        "blanks_of_4097": row(b" " * 4_097 + b"\n", cause=LONG_LINE),
        "a_first_line_of_4096": text(b"#!ipxe" + b" " * 4_090 + b"\r\n"),
        "a_first_line_of_4097": text(b"#!ipxe" + b"\t" * 4_091, cause=LONG_LINE),
        "a_long_line_before_dollar": row(b"echo ${a}\n#" + long * 2, cause=LONG_LINE),
        "no_script_before_a_long_line": text(b"#!ipx\n" + long * 2, cause=NOT_SCRIPT),
    }


LOOP = made.start(FIRST + b":a\ngoto a\n")
GOES = ran(b"goto a", line=3) * MOST


def steps() -> dict[str, Row]:
    begins = [Step(1), made.enter(), *GOES]
    wanted = Received(arp_request(made.SERVER, made.CLIENT.ip))
    replied = Sent(arp_reply(made.CLIENT, made.SERVER))
    quiet = b"echo -n\n" * (MOST - 1) + b"echo -n || foo\n:a\n; ; #\n\n"
    prints = [Command(1, 2, 0, True, (b"echo", b"-n")), Text(b""), Result(OK)]
    most = [replace(prints[0], line=line) if record is prints[0] else record
            for line in range(2, MOST + 2) for record in prints]
    ended = [made.leave(OK), Done(Status.ENDED)]
    return {
        "input_ends": Row([LOOP], [*begins, UNFINISHED]),
        "time_passes": Row([LOOP, Tick(1)], [*begins, Step(2), *GOES, UNFINISHED]),
        "a_frame_comes": Row([LOOP, wanted], [*begins, Step(2), replied, *GOES, UNFINISHED]),
        "power_off": Row([LOOP, Off(), Tick(1)], [*begins, Step(2), UNFINISHED]),
        "power_off_later": Row([LOOP, Tick(9), Off()],
                               [*begins, Step(2), *GOES, Step(3), UNFINISHED]),
        "a_second_start": Row([LOOP, LOOP], [*begins, Done(Status.BAD_RECORD)]),
        "4096_and_no_more": Row([made.start(FIRST + quiet)], [Step(1), made.enter(), *most, *ended]),
        "4096_and_exit": Row(
            [made.start(FIRST + quiet + b"exit\n"), Tick(1)],
            [Step(1), made.enter(), *most, Step(2), *ran(b"exit", line=MOST + 5), *ended],
        ),
        "4096_and_too_many": Row(
            [made.start(FIRST + quiet + b";" + b" ;" * 64)],
            [Step(1), made.enter(), *most, made.leave(TOO_MANY), Done(Status.SCRIPT_FAILED)],
        ),
        "after_a_command_that_waited": after_a_fetch(),
        "all_opens": all_opens(),
    }


def after_a_fetch() -> Row:
    """In the step in which a fetch ends, 4,096 more commands may begin."""
    fetch = b"imgfetch tftp://10.0.0.1/f"
    script = FIRST + fetch + b"\n:a\ngoto a\n"
    inputs = [made.start(script), made.found(), Tick(250), made.from_server(tftp_data(1, b"a"))]
    outputs = [
        *made.fetch_begins(fetch, b"f"),
        Step(2),
        Step(3),
        *passed(0, Try(0, 2), made.to_server(tftp_request(b"f"), 69)),
        Step(4),
        *came(0, Advance(0, 1), made.to_server(tftp_ack(1)), gives=True, over=OK),
        Result(OK),
        *ran(b"goto a", line=4) * MOST,
        UNFINISHED,
    ]
    return Row(inputs, outputs)


def without_address(script: bytes) -> Start:
    return replace(made.start(script), ip=IPv4Address(0))


def all_opens() -> Row:
    """16,384 opens, none of which has a route; from then on it is Full."""
    script = FIRST + b":a\nimgfetch " + FILE + b" || goto a\n"
    outputs: list[Record] = [made.enter()]
    for number in range(MOST // 2 * 9):
        if number % (MOST // 2) == 0:
            outputs.insert(0 if number == 0 else len(outputs), Step(number // (MOST // 2) + 1))
        begins, *_ = ran(b"imgfetch " + FILE, NO_ROUTE, line=3)
        own = 49_152 + number
        opened = Open(number, OpenKind.TFTP, made.SERVER.ip, 69, own, b"f")
        is_open = number < 16_384
        outputs += [begins, *(turned_back(opened, NO_ROUTE) if is_open else [])]
        outputs += [Result(NO_ROUTE if is_open else Cause(Code.FULL, 2))]
        outputs += ran(b"goto a", line=3, place=1)
    return Row([without_address(script), *[Tick(1)] * 8], [*outputs, UNFINISHED])


def fallback() -> Row:
    """examples/fallback.rec: two files are refused, and the third is booted."""
    refused = [Cause(Code.REFUSED, number, 1) for number in (4, 6)]
    kernel = b"\x7fELF\x02\x01\x01a kernel that is shorter than a block"

    def sends(number: int, port: int, body: bytes) -> Record:
        ends = (made.OWN_PORT + number, port)
        return Sent(udp_frame(made.CLIENT, made.SERVER, ends, body))

    def opens(number: int, path: bytes) -> list[Record]:
        """Only of the first the hardware address isn't known."""
        opened = replace(made.tftp_open(path), number=number, own=made.OWN_PORT + number)
        request = sends(number, 69, tftp_request(path)) if number else made.asked()
        return asked(opened, Try(number, 1), request)

    outputs: list[Record] = [
        Step(1),
        made.enter(),
        made.command(b"imgfetch tftp://10.0.0.1/initrd", 4),
        *opens(0, b"initrd"),
        Step(2),
        Step(3),
        *passed(0, Try(0, 2), sends(0, 69, tftp_request(b"initrd"))),
        Step(4),
        *came(0, over=refused[0]),
        Result(refused[0]),
        *ran(b"echo no initrd: going on without one", line=4, place=2),
        made.command(b"imgexec tftp://10.0.0.1/mine", 6),
        *opens(1, b"mine"),
        Step(5),
        *passed(1),
        Step(6),
        *came(1, over=refused[1]),
        Result(refused[1]),
        *ran(b"goto all", line=6, place=1),
        *ran(b"echo no kernel of its own", line=12),
        made.command(b"imgexec tftp://10.0.0.1/k", 13),
        *opens(2, b"k"),
        Step(7),
        *passed(2),
        Step(8),
        *came(2, Advance(2, 1), sends(2, 40_002, tftp_ack(1)), gives=True, over=OK),
        Result(OK),
        Part(PartKind.KERNEL_NAME, 0, 0, b"k"),
        Part(PartKind.KERNEL, 0, 0, kernel),
        Part(PartKind.COMMAND_LINE, 0, 0, b""),
        Done(Status.HANDED_OFF),
    ]
    with (TOP / "examples" / "fallback.rec").open("rb") as stream:
        return Row([timed.record for timed in read_input(stream)], outputs)


def opens_next(number: int, words: bytes, line: int, place: int, sent: Record) -> list[Record]:
    """A fetch begins, by the own port of its number, and this is sent as its first try."""
    opened = replace(made.tftp_open(words[-1:]), number=number, own=made.OWN_PORT + number)
    begins = Command(1, line, place, True, tuple(words.split(b" ")))
    return [begins, *asked(opened, Try(number, 1), sent)]


def block(number: int, body: bytes) -> Record:
    ends = (made.SERVER_PORT, made.OWN_PORT + number)
    return Received(udp_frame(made.SERVER, made.CLIENT, ends, body))


def took(number: int) -> list[Record]:
    """The one block of an open is taken, and acknowledged."""
    ends = (made.OWN_PORT + number, made.SERVER_PORT)
    acknowledged = Sent(udp_frame(made.CLIENT, made.SERVER, ends, tftp_ack(1)))
    return came(number, Advance(number, 1), acknowledged, gives=True, over=OK)


def transfers() -> dict[str, Row]:
    first, second = b"imgfetch tftp://10.0.0.1/f", b"imgfetch tftp://10.0.0.1/g"
    boots = b"imgexec tftp://10.0.0.1/k"
    stopped = [*shut(1), UNFINISHED]
    inputs, silent = made.silent_run()
    silent[2] = replace(silent[2], line=3)
    script = made.start(FIRST + b":a\n" + first + b" || goto a\n")
    timed_out = Cause(Code.TIMED_OUT, 6)
    again = [
        *silent[:-3],
        Result(timed_out),
        *ran(b"goto a", line=3, place=1),
        *opens_next(1, first, 3, 0, made.asked()),
        *[Step(65), *passed(1, Try(1, 2), made.asked()), Step(66), *stopped],
    ]

    def asks(number: int, path: bytes) -> Record:
        ends = (made.OWN_PORT + number, 69)
        return Sent(udp_frame(made.CLIENT, made.SERVER, ends, tftp_request(path)))

    def begins(words: bytes) -> list[Record]:
        path = words[-1:]
        tried = passed(0, Try(0, 2), asks(0, path))
        return [*made.fetch_begins(words, path), Step(2), Step(3), *tried, Step(4)]

    answered = [made.found(), Tick(250), block(0, tftp_data(1, b"a"))]
    other = Cause(Code.NOT_BOOTABLE)
    chain = [made.start(FIRST + first + b" && " + second + b" ; " + boots), *answered]
    chained = [
        *[*begins(first), *took(0), Result(OK)],
        *[*opens_next(1, second, 2, 1, asks(1, b"g")), Step(5), *took(1), Result(OK)],
        *[*opens_next(2, boots, 2, 2, asks(2, b"k")), Step(6), *took(2), Result(OK)],
        *[Part(PartKind.KERNEL_NAME, 0, 0, b"k"), Part(PartKind.KERNEL, 0, 0, b"\x7fELF")],
        Part(PartKind.COMMAND_LINE, 0, 0, b""),
        *[Part(PartKind.INITRD_NAME, 0, 0, b"f"), Part(PartKind.INITRD, 0, 0, b"a")],
        *[Part(PartKind.INITRD_NAME, 1, 0, b"g"), Part(PartKind.INITRD, 1, 0, b"b")],
        Done(Status.HANDED_OFF),
    ]
    return {
        "again_after_silence": Row([script, *inputs[1:], Tick(250), Off()], again),
        "not_bootable": Row(
            [made.start(FIRST + boots + b" || echo no"), *answered],
            [*begins(boots), *took(0), Result(other), *ran(b"echo no", place=1),
             made.leave(OK), Done(Status.ENDED)],
        ),
        "skipped_after_a_fetch": Row(
            [made.start(FIRST + first + b" || goto a ; && exit 7"), *answered],
            [*begins(first), *took(0), Result(OK), *ran(b"exit 7", Cause(Code.EXIT, 7), 2, 3),
             made.leave(Cause(Code.EXIT, 7)), Done(Status.SCRIPT_FAILED)],
        ),
        "a_chain_of_fetches": Row(
            [*chain, block(1, tftp_data(1, b"b")), block(2, tftp_data(1, b"\x7fELF"))], chained
        ),
    }


ROWS = {**joins(), **labels(), **lines(), **limits(), **steps(), **transfers()}
ROWS["fallback"] = fallback()


def all_inputs() -> dict[str, bytes]:
    return {f"script_{name}": made.spelled(row.inputs) for name, row in ROWS.items()}


@unittest.skipUnless(can_run(), "the program isn't built, and the toolchain's rt is missing")
class Scripts(RowCase):
    def test_rows(self) -> None:
        for name, row in ROWS.items():
            with self.subTest(name):
                self.same(f"script_{name}", row)


class Readings(unittest.TestCase):
    """What is written by hand, the second reading of the rules, and that of `show.py --why` are one."""

    def test_the_tools_read_the_same_lines(self) -> None:
        for name, row in ROWS.items():
            with self.subTest(name):
                same_lines(self, row.inputs[0].script)

    def test_the_model_answers_the_rows(self) -> None:
        for name, row in {**joins(), **labels(), **lines(), **limits()}.items():
            with self.subTest(name):
                self.assertEqual(Model(row.inputs[0]).run(row.inputs[1:]), row.outputs)


if __name__ == "__main__":
    unittest.main()
