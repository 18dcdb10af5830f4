"""`show.py --why`: how a run without opens ended, on runs built by hand."""

from __future__ import annotations

import io
import tempfile
import unittest
from pathlib import Path

from shared.advice import TO_DO
from shared.causes import OK, Cause, Code
from shared.kinds import Status
from shared.records import Command, Done, Off, Record, Result, Step, Tick
from shared.why import reasons
from tests import made
from tests.graph_records import came


def why(
    outputs: list[Record] | bytes, inputs: list[Record] | bytes | None = None
) -> list[str]:
    """The lines of --why for a run; the first without what is to be done."""
    output = outputs if isinstance(outputs, bytes) else made.spelled(outputs)
    with tempfile.TemporaryDirectory() as folder:
        path = Path(folder) / "in.rec"
        if inputs is not None:
            path.write_bytes(inputs if isinstance(inputs, bytes) else made.spelled(inputs))
        given = None if inputs is None else path
        first, *others = reasons(Path("out.rec"), io.BytesIO(output), given)
        return [first.split(TO_DO)[0], *others]


def sentence(outputs: list[Record] | bytes, inputs: list[Record] | bytes | None = None) -> str:
    return why(outputs, inputs)[0]


def local_failure(words: bytes, cause: Cause) -> list[Record]:
    """A run whose one command fails at once."""
    return [
        Step(1),
        made.enter(),
        made.command(words),
        Result(cause),
        made.leave(cause),
        Done(Status.SCRIPT_FAILED),
    ]


class LocalCommands(unittest.TestCase):
    def test_unknown_with_the_script_line(self) -> None:
        outputs = local_failure(b"foo", Cause(Code.UNKNOWN))
        self.assertEqual(
            why(outputs, [made.start(b"#!ipxe\nfoo # what\n")]),
            [
                "line 2: foo is no command, of iPXE neither",
                "line 2 failed in step 1 at 0 ms: Unknown",
                "  meaning: it is no command that is built",
                "  step 1 at 0 ms: line 2 begins: foo",
                '  script line 2: "foo # what"',
            ],
        )

    def test_without_the_input(self) -> None:
        for words, cause, title in (
            (b"exit 3", Cause(Code.EXIT, 3), "Exit(n 3)"),
            (b"isset a", Cause(Code.FALSE), "False"),
            (b"echo --n", Cause(Code.USAGE), "Usage"),
            (b"iseq a b", Cause(Code.FALSE), "False"),
        ):
            lines = why(local_failure(words, cause))
            self.assertEqual(lines[1], f"line 2 failed in step 1: {title}")
            self.assertEqual(lines[3:], [f"  step 1: line 2 begins: {words.decode()}"])

    def test_nothing_failed(self) -> None:
        said = "The boot succeeded: kernel k (516 bytes) from 10.0.0.1"
        self.assertEqual(why(made.BOOT_OUTPUT), [said])
        self.assertEqual(why(made.BOOT_OUTPUT, made.BOOT_INPUT), [f"{said}, in 0.3 s of its time"])
        self.assertEqual(why(made.HELLO_OUTPUT), ["the script ended well"])

    def test_a_text_that_is_no_script(self) -> None:
        cause = Cause(Code.NOT_SCRIPT)
        outputs = [Step(1), made.enter(), made.leave(cause), Done(Status.SCRIPT_FAILED)]
        self.assertEqual(why(outputs)[1], "the script failed in step 1: NotScript")
        for script, said, line in (
            (b"echo hi\n", 'line 1 is "echo hi", and a script begins with the line `#!ipxe`', 1),
            (b"#!ipxe\\\n", 'line 1 is "#!ipxe\\\\", and a script begins with the line `#!ipxe`', 1),
        ):
            with self.subTest(script=script):
                lines = why(outputs, [made.start(script)])
                self.assertEqual(lines[0], said)
                shown = [line for line in lines if "script line" in line]
                self.assertTrue(shown[0].startswith(f"  script line {line}: "), shown)

    def test_a_text_that_is_too_long(self) -> None:
        cause = Cause(Code.TOO_LONG, 1)
        outputs = [Step(1), made.enter(), made.leave(cause), Done(Status.SCRIPT_FAILED)]
        said = "a text is longer than its limit: TooLong(1: line or expanded words)"
        self.assertEqual(sentence(outputs), said)
        for script, said in (
            (b"#!ipxe\n" + b"x" * 4_097, "line 2 has 4097 bytes, more than 4096"),
            (b"#!ipxe" + b" " * 4_091, "line 1 has 4097 bytes, more than 4096"),
            (b"#!ipxe\n\n" + b"x" * 4_000 + b"\\\n" + b"y" * 97 + b"\r\n",
             "lines 3 to 4, joined, have 4097 bytes, more than 4096"),
            # judged before `${`
            (b"#!ipxe\necho ${ip}\n#" + b" " * 4_096, "line 3 has 4097 bytes, more than 4096"),
        ):
            self.assertEqual(sentence(outputs, [made.start(script)]), said)

    def test_a_list_of_too_many_words_or_joins(self) -> None:
        cause = Cause(Code.TOO_MANY, 1)
        end = [made.leave(cause), Done(Status.SCRIPT_FAILED)]
        words, joins = b"echo" + b" x" * 64, b"; " * 65
        outputs = [Step(1), made.enter(), *end]
        said = "there are more of these than their limit: TooMany(1: words or joins)"
        self.assertEqual(sentence(outputs), said)
        for script, said in (
            (b"#!ipxe\n\n" + words + b"\n", "line 3 has 65 words, more than 64"),
            (b"#!ipxe\n" + joins, "line 2 has 65 joins (`&&`, `||` and `;`), more than 64"),
            # 64 of each are few enough, and a comment's words don't count
            (b"#!ipxe\n" + b"; " * 64 + b"# " + joins + b"\n" + b"foo\\\n" + words + b"\n",
             "lines 3 to 4, joined, have 65 words, more than 64"),
        ):
            lines = why(outputs, [made.start(script)])
            self.assertEqual(lines[0], said)
            self.assertEqual(lines[1], "the script failed in step 1 at 0 ms: TooMany(1: words or joins)")

    def test_the_list_of_too_many_words_that_was_met(self) -> None:
        """The first after the command that ended last, or after the label that it went to."""
        cause, words = Cause(Code.TOO_MANY, 1), b"echo" + b" x" * 64 + b"\n"
        script = b"#!ipxe\ngoto b ;\n" + words + b":b\n" + words
        for result, line in ((OK, 5), (Cause(Code.NO_LABEL), 3)):
            outputs = [Step(1), made.enter(), made.command(b"goto b"), Result(result)]
            outputs += [made.leave(cause), Done(Status.SCRIPT_FAILED)]
            said = f"line {line} has 65 words, more than 64"
            self.assertTrue(sentence(outputs, [made.start(script)]).endswith(said))

    def test_a_label_that_is_not_there(self) -> None:
        outputs = local_failure(b"goto again", Cause(Code.NO_LABEL))
        said = "line 2: the script has no line `:again` to go to"
        self.assertEqual(sentence(outputs), said)
        for lines, hint in (
            (b":agains\n", ""),
            (b":again # and again\n", "; line 3 has more than the label, and so is none"),
            (b"\n :Again\t\n", "; line 4 is :Again"),
        ):
            script = b"#!ipxe\ngoto again\n" + lines
            self.assertEqual(sentence(outputs, [made.start(script)]), said + hint)
        outputs = local_failure(b":again", Cause(Code.UNKNOWN))
        said = "line 2: :again is a label only where nothing else stands on its line"
        self.assertEqual(sentence(outputs), said)

    def test_a_command_later_in_its_list(self) -> None:
        """Its place counts what was skipped, and what has no words."""
        cause = Cause(Code.UNKNOWN)
        outputs = [
            Step(1),
            made.enter(),
            made.command(b"echo a"),
            Result(OK),
            Command(1, 2, 3, True, (b"foo",)),
            Result(cause),
            made.leave(cause),
            Done(Status.SCRIPT_FAILED),
        ]
        script = b"#!ipxe\necho a || echo \\\n  b ; ; foo\n"
        self.assertEqual(
            why(outputs, [made.start(script)]),
            [
                "command 4 of line 2: foo is no command, of iPXE neither",
                "command 4 of line 2 failed in step 1 at 0 ms: Unknown",
                "  meaning: it is no command that is built",
                "  step 1 at 0 ms: command 4 of line 2 begins: foo",
                '  script lines 2 to 3: "echo a || echo   b ; ; foo"',
            ],
        )

    def test_a_step_of_4096_commands(self) -> None:
        goes = [made.command(b"goto a", 3), Result(OK)]
        outputs = [Step(1), made.enter(), *goes * 4_096, Done(Status.UNFINISHED)]
        inputs = [made.start(b"#!ipxe\n:a\ngoto a\n"), Tick(20), Off()]
        said = [
            "  step 1 at 0 ms: 4096 commands began, and no more may begin in one step",
            "  the script goes on with the next frame or time; the last was line 3: goto a",
            '  script line 3: "goto a"',
        ]
        ends = "the recording ends after 0 s, and the script had more to do"
        self.assertEqual(why(outputs, inputs[:1]), [ends, *said])
        off = [*outputs[:-1], Step(2), *goes * 4_096, Step(3), outputs[-1]]
        lines = why(off, inputs)
        said[0] = said[0].replace("step 1 at 0 ms", "step 2 at 20 ms")
        ends = "the power was switched off after 0.02 s, and the script had more to do"
        self.assertEqual(lines, [ends, *said])
        for number, end in ((4_096, [made.leave(OK), Done(Status.ENDED)]), (4_095, [outputs[-1]])):
            lines = why([Step(1), made.enter(), *goes * number, *end], inputs[:1])
            self.assertEqual(len(lines), 1, lines)

    def test_sentences_on_commands(self) -> None:
        for words, cause, said in (
            (b"imgmem", Cause(Code.UNKNOWN), "the command `imgmem` isn't built yet"),
            (b"imgfetch https://10.0.0.1/f", Cause(Code.NO_SCHEME),
             "https://10.0.0.1/f isn't fetched: only `http://HOST/PATH` and `tftp://HOST/PATH` are"),
            (b"imgexec iscsi:10.0.0.1::::iqn.x:t", Cause(Code.NO_SCHEME),
             "iscsi:10.0.0.1::::iqn.x:t isn't fetched: only `http://HOST/PATH` and `tftp://HOST/PATH` are"),
            (b"imgfetch tftp://a..b:70/f", Cause(Code.BAD_NAME),
             "a..b is no name of a host: a part between its dots is empty"),
            (b"imgexec tftp://u@srv/f", Cause(Code.BAD_NAME), "srv is no name of a host with `domain` after it"),
            (b"imgexec tftp://srv.lan/f", Cause(Code.NO_SERVER), "srv.lan is a name, and no name server is set that "
             "can be asked for its address: `dns` comes by `dhcp`, by `set dns ADDRESS` or by --dns"),
            (b"imgexec tftp:///f", Cause(Code.BAD_URI),
             "tftp:///f is no URI that names a server, as `tftp://HOST/PATH` does"),
            (b"imgexec tftp://u:p@a.b:65536", Cause(Code.BAD_URI),
             "the port in tftp://u:p@a.b:65536 is no number from 0 to 65535"),
            (b"imgexec tftp://a.b:tftp/f", Cause(Code.BAD_URI),
             "the port in tftp://a.b:tftp/f is no number from 0 to 65535"),
            (b"imgexec tftp://a|b:69/f:70", Cause(Code.BAD_URI),
             "tftp://a|b:69/f:70 is no URI that names a server, as `tftp://HOST/PATH` does"),
            (b"imgexec x/f", Cause(Code.BAD_URI),
             "x/f is only the end of a URI, and it doesn't go with `next-server`; `http://HOST/PATH` is a whole "
             "one"),
            (b"imgfetch tftp://10.0.0.1/" + b"a" * 256, Cause(Code.TOO_LONG, 7), "the path of tftp://10.0.0.1/"
             + "a" * 256 + " has more than 1024 bytes, or its image's name more than 255"),
            (b"imgexec", Cause(Code.USAGE), "the words don't fit the command: `imgexec [--name NAME] [--autofree] [--replace] [URI] [ARGUMENTS]`"),
            (b"exit 3", Cause(Code.EXIT, 3), "the script itself ended in failure, by `exit 3`"),
            (b"set y:int8 200", Cause(Code.BAD_VALUE), "200 is no value for `y:int8` of the kind int8, which "
             "takes a number from -128 to 127"),
            (b"set dns a b", Cause(Code.BAD_VALUE), '"a b" is no value for `dns` of the kind ipv4, which takes '
             "an address of four decimals"),
            (b"inc n", Cause(Code.BAD_VALUE), "`n` can't grow by 1: it is no number, or the sum is out of its "
             "kind's range"),
            (b"set net9/a b", Cause(Code.BAD_NAME), "the block net9 isn't there, so nothing is set in it: there is "
             "the root, without a name, and `net0`"),
            (b"clear x:y", Cause(Code.BAD_NAME), "x:y has a kind that there isn't: y"),
            (b"show 255", Cause(Code.BAD_NAME), "255 is no name of a setting: `[block/]name[:kind]`, the name of "
             "letters, digits, `-` and `_`, or a tag as `67` and `175.190`"),
            (b"iseq a b", Cause(Code.FALSE), "a and b aren't equal"),
            (b"isset", Cause(Code.FALSE), "nothing is set there: the word of `isset` is empty"),
            (b"set x y", Cause(Code.TOO_LONG, 2), "the value for `x` has more than 1024 bytes"),
            (b"set x y", Cause(Code.TOO_MANY, 5), "the root has 128 settings, the most, and `x` is another"),
            (b"set net0/x y", Cause(Code.TOO_MANY, 5),
             "the block net0 has 128 settings, the most, and `net0/x` is another"),
            (b"ifclose net1", Cause(Code.BAD_NAME), "there is no device net1, only `net0`"),
            (b"dhcp eth1", Cause(Code.BAD_NAME), "there is no device eth1, only `net0`"),
            (b"dhcp a b", Cause(Code.USAGE), "the words don't fit the command: `dhcp [net0]`"),
            (b"set net0.dhcp/a b", Cause(Code.BAD_NAME), "the block net0.dhcp isn't there, so nothing is set in it: "
             "the client holds no lease"),
            (b"ping", Cause(Code.USAGE), "the words don't fit the command: `ping HOST`"),
            (b"ping a..b", Cause(Code.BAD_NAME), "a..b is no name of a host: a part between its dots is empty"),
            (b"ping a", Cause(Code.BAD_NAME), "a is no name of a host with `domain` after it"),
            (b"ping a.b", Cause(Code.NO_SERVER), "a.b is a name, and no name server is set that can be asked for its "
             "address: `dns` comes by `dhcp`, by `set dns ADDRESS` or by --dns"),
            (b"nslookup x", Cause(Code.USAGE), "the words don't fit the command: `nslookup NAME HOST`"),
            (b"nslookup x a.b", Cause(Code.NO_SERVER), "a.b is a name, and no name server is set that can be asked for "
             "its address: `dns` comes by `dhcp`, by `set dns ADDRESS` or by --dns"),
            (b"nslookup net9/x a.b", Cause(Code.BAD_NAME), "the block net9 isn't there, so nothing is set in it: there "
             "is the root, without a name, and `net0`"),
            (b"nslookup net9/x a..b", Cause(Code.BAD_NAME), "the block net9 isn't there, so nothing is set in it: "
             "there is the root, without a name, and `net0`"),
            (b"nslookup net0.dhcp/x a.b", Cause(Code.BAD_NAME), "the block net0.dhcp isn't there, so nothing is set in "
             "it: the client holds no lease"),
            (b"nslookup x:y a.b", Cause(Code.BAD_NAME), "x:y has a kind that there isn't: y"),
            (b"nslookup x .a", Cause(Code.BAD_NAME), ".a is no name of a host: a part between its dots is empty"),
            (b"nslookup x " + b"a" * 64, Cause(Code.BAD_NAME), f"{'a' * 64} is no name of a host: a part between its "
             "dots has more than 63 bytes"),
            (b"nslookup x y", Cause(Code.BAD_NAME), "y is no name of a host with `domain` after it"),
            (b"nslookup x " + b"a." * 127 + b"b", Cause(Code.BAD_NAME), f"{'a.' * 127}b is no name of a host: it has "
             "more than 253 bytes"),
            (b"nslookup x y", Cause(Code.TOO_MANY, 5), "the root has 128 settings, the most, and `x` is another"),
            (b"set", Cause(Code.USAGE), "the words don't fit the command: `set NAME [VALUE]`"),
            (b" a", Cause(Code.UNKNOWN), "the command has no name: its first word is empty, as expanded"),
            (b"imgexec tftp://10.0.0.1/k", Cause(Code.NOT_BOOTABLE), "tftp://10.0.0.1/k can't be "
             "booted: it isn't a script, a kernel for x86, an ELF file or an EFI program"),
            (b"boot", Cause(Code.NOT_BOOTABLE), "the selected image can't be booted: it isn't a script, a kernel for x86, "
             "an ELF file or an EFI program"),
            (b"boot", Cause(Code.NO_IMAGE), "no image is selected"),
            (b"imgargs k a", Cause(Code.NO_IMAGE), "there is no image k"),
            (b"imgfree k i", Cause(Code.NO_IMAGE), "one of k, i is no image, and none is freed"),
            (b"initrd --name i i.img a", Cause(Code.BAD_URI), "i.img is only the end of a URI, and it doesn't go with "
             "`next-server`; `http://HOST/PATH` is a whole one"),
            (b"imgfetch i", Cause(Code.TOO_MANY, 3), "there are 32 images, the most, and this is another"),
            (b"chain a", Cause(Code.TOO_MANY, 4), "eight scripts are within one another, the most, and this would be "
             "another"),
            (b"chain a", Cause(Code.TOO_LONG, 1), "a line of the script that it runs has more than 4096 bytes"),
            (b"imgstat a", Cause(Code.USAGE), "the words don't fit the command: `imgstat`"),
        ):
            self.assertEqual(sentence(local_failure(words, cause)), f"line 2: {said}")

    def test_words_that_can_not_be_expanded(self) -> None:
        for words, cause, said in (
            (b"echo ${x} ${a+}", Cause(Code.BAD_NAME), "a+ is no name of a setting: `[block/]name[:kind]`, the "
             "name of letters, digits, `-` and `_`, or a tag as `67` and `175.190`"),
            (b"set x ${${x}+}", Cause(Code.BAD_NAME), "a part `${..}` comes to no name of a setting"),
            (b"echo ${x}", Cause(Code.TOO_LONG, 1), "as expanded they have more than 4096 bytes"),
        ):
            outputs = local_failure(words, cause)
            outputs[2] = Command(1, 2, 0, False, tuple(words.split(b" ")))
            lines = why(outputs, [made.start(b"#!ipxe\n" + words)])
            self.assertEqual(lines[0], f"line 2: the words can't be expanded: {said}")
            begins = f"line 2 begins: {words.decode()} (as written, since they can't be expanded)"
            self.assertEqual(lines[3], f"  step 1 at 0 ms: {begins}")

    def test_settings_that_ipxe_alone_has(self) -> None:
        """A test that isn't true names the setting that is asked for there; one that a script may set isn't named."""
        alone = "the word of `isset` is empty; `platform` is a setting of iPXE that isn't built yet"
        for line, said in (
            (b"isset ${platform}", f"nothing is set there: {alone}"),
            (b"isset ${net0/platform:string}", f"nothing is set there: {alone}"),
            (b"isset ${platforms}", "nothing is set there: the word of `isset` is empty"),
        ):
            lines = why(local_failure(b"isset ", Cause(Code.FALSE)), [made.start(b"#!ipxe\n" + line)])
            self.assertEqual(lines[0].split(". To do")[0], f"line 2: {said}")

    def test_words_as_they_are_written(self) -> None:
        """They are shown where they are others, and the list has more than them."""
        outputs = local_failure(b"iseq a b", Cause(Code.FALSE))
        for line, written in ((b"iseq ${x} b", []), (b"iseq ${x} b # c", []), (b"iseq a b && foo", []),
                              (b"iseq ${x} b && foo", ["  written there: iseq ${x} b"])):
            lines = why(outputs, [made.start(b"#!ipxe\n" + line)])
            self.assertEqual(lines[5:], written)

    def test_the_built_in_script(self) -> None:
        cause = Cause(Code.EXIT, 1)
        outputs = [*local_failure(b"dhcp", Cause(Code.FULL, 2))[:4], Command(1, 2, 1, True, (b"exit", b"1"))]
        outputs += [Result(cause), made.leave(cause), Done(Status.SCRIPT_FAILED)]
        lines = why(outputs, [made.start(b"")])
        first = "line 2: 16384 opens were made, the most of a run, and dhcp needs another; the script went on, and failed: "
        self.assertEqual(lines[0], f"{first}command 2 of line 2: the built-in script ended in failure, by `exit 1`")
        self.assertEqual(lines[-1], '  built-in script line 2: "dhcp || exit 1"')

    def test_a_command_that_sleeps(self) -> None:
        begins = [Step(1), made.enter(), Command(1, 2, 0, True, (b"sleep", b"0x2")), Step(2)]
        inputs = [made.start(b"#!ipxe\nsleep ${n}\n"), Tick(500), Off()]
        lines = why([*begins, Done(Status.UNFINISHED)], inputs)
        self.assertEqual(
            lines,
            [
                "the recording ends after 0.5 s, while line 2 slept: 0.5 s of 2 s had passed",
                "  step 1 at 0 ms: line 2 begins: sleep 0x2",
                '  script line 2: "sleep ${n}"',
                "  it goes on at 2 s: record.py --until 2",
            ],
        )
        off = [*begins, Step(3), Done(Status.UNFINISHED)]
        said = "the power was switched off after 0.5 s, while line 2 slept: 0.5 s of 2 s had passed"
        self.assertEqual(sentence(off, inputs), said)
        outside = "the input ended, or the power was switched off, while line 2 was in a sleep of 2 s"
        self.assertEqual(sentence(off), outside)

    def test_a_list_that_goes_on_after_a_failure(self) -> None:
        cause = Cause(Code.FALSE)
        outputs = [
            *local_failure(b"iseq a b", cause)[:4],
            made.command(b"echo y"),
            Result(OK),
            made.leave(OK),
            Done(Status.ENDED),
        ]
        lines = why(outputs)
        self.assertEqual(lines[0], "the script ended well")
        self.assertEqual(len([line for line in lines if "failed in" in line]), 1)
        boot = [Result(cause), made.command(b"imgexec tftp://10.0.0.1/k"), *made.BOOT_OUTPUT[3:]]
        lines = why([Step(1), made.enter(), made.command(b"iseq a b"), *boot])
        said = "The boot succeeded: kernel k (516 bytes) from 10.0.0.1"
        self.assertEqual(lines[0], said)

    def test_a_script_that_a_command_ran(self) -> None:
        cause = Cause(Code.EXIT, 2)
        inner = [made.enter(2), made.command(b"exit 2", 5, 2), Result(cause), made.leave(cause, 2)]
        outputs = [
            *made.fetch_begins(b"chain tftp://10.0.0.1/f", b"f"),
            Step(2),
            *came(0, gives=True, over=OK),
            *inner,
            Result(cause),
            made.leave(cause),
            Done(Status.SCRIPT_FAILED),
        ]
        lines = why(outputs)
        said = "line 5 of an inner script: the script itself ended in failure, by `exit 2`"
        self.assertEqual(lines[0], said)
        self.assertIn("  step 2: line 5 of the script that line runs, 1 deep begins: exit 2", lines)
        self.assertEqual(
            lines[-2:],
            [
                "  step 1: line 2 begins: chain tftp://10.0.0.1/f",
                "  step 2: its script ends: Exit(n 2)",
            ],
        )


if __name__ == "__main__":
    unittest.main()
