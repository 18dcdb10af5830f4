"""Settings and expansion: the program's whole output, record by record.

What is expected is written by hand from docs/SCRIPTS.md and docs/RECORDS.md. Scripts made by chance, and all
kinds with all values, are compared with a second reading of those rules.
"""

from __future__ import annotations

import random
import unittest
from dataclasses import replace
from ipaddress import IPv4Address
from uuid import UUID

from shared.causes import OK, Cause, Code
from shared.records import Command, Record, Result, Start, Step, Text, Tick
from tests import made
from tests.asking_records import Lease
from tests.replays import can_run
from tests.script_chance import ABSENT, KINDS, LOOPS, NAMES, NUMBERS, VALUES, WRONG_NAMES
from tests.script_chance import random_inputs
from tests.script_model import UNLEASED, Model
from tests.script_rows import FIRST, UNFINISHED, Row, RowCase, left, printed, ran, row, same_lines, steps
from tests.script_rows import unexpanded

UNKNOWN, USAGE, FALSE = Cause(Code.UNKNOWN), Cause(Code.USAGE), Cause(Code.FALSE)
BAD_NAME, BAD_VALUE, NO_LABEL = Cause(Code.BAD_NAME), Cause(Code.BAD_VALUE), Cause(Code.NO_LABEL)
LONG_WORDS, LONG_VALUE = Cause(Code.TOO_LONG, 1), Cause(Code.TOO_LONG, 2)
MANY_SETTINGS, BAD_URI = Cause(Code.TOO_MANY, 5), Cause(Code.BAD_URI)
MAC = b"52:54:00:00:00:01"
BIG = b"b" * 1_024
FOUR = b"${b}" * 4
BY_CHANCE = 300
SEED = 17


def echoes(sets: list[bytes], *words: tuple[bytes, bytes]) -> Row:
    """Settings are set, and then words are printed: each as it is written, and as expanded."""
    shown = [
        [Command(1, line, 0, True, (b"echo", word)), Text(word + b"\n"), Result(OK)]
        for line, (_, word) in enumerate(words, 2 + len(sets))
    ]
    script = b"\n".join([*sets, *[b"echo " + written for written, _ in words]])
    return row(script, *[ran(words, line=line) for line, words in enumerate(sets, 2)], *shown)


def refusals(sets: list[bytes], *commands: tuple[bytes, Cause]) -> Row:
    """Settings are set, and then commands are refused; those that can't be expanded have `${`."""
    refused = [
        (unexpanded if b"${" in words else ran)(words, cause, line)
        for line, (words, cause) in enumerate(commands, 2 + len(sets))
    ]
    script = b"\n".join([*sets, *[words + b" ||" for words, _ in commands]])
    return row(script, *[ran(words, line=line) for line, words in enumerate(sets, 2)], *refused)


def expansion() -> dict[str, Row]:
    sets = [b"set x a", b"set y x", b"set n 1", b"set n1 b", b"set d ${x", b"set e:uristring %24%7Bx%7d"]
    return {
        "parts": echoes(
            sets, (b"<${x}>", b"<a>"), (b"a${x}b${x}", b"aaba"), (b"${x}${x}", b"aa"), (b"${${y}}", b"a"),
            (b"n${n${n}}", b"nb"), (b"${n}${none}", b"1"), (b"${none}", b""), (b"}", b"}"), (b"a}b", b"a}b"),
            (b"${x}}", b"a}"), (b"{x}", b"{x}"), (b"$x}", b"$x}"), (b"$${x}", b"$a"), (b"${x:string}", b"a"),
        ),
        "parts_that_are_open": echoes(
            sets, (b"${x", b"${x"), (b"${", b"${"), (b"a${x${n}", b"a${x1"), (b"${${x}", b"${a"), (b"${${", b"${${"),
            (b"$", b"$"), (b"${n}${x", b"1${x"),
        ),
        "a_value_is_not_scanned": echoes(
            sets, (b"${d}", b"${x"), (b"${d}}", b"${x}"), (b"${e:string}", b"${x}"), (b"${e}", b"%24%7Bx%7D")
        ),
        "a_value_ends_no_part": refusals(sets, (b"echo ${${d}}", BAD_NAME), (b"echo ${${e:string}}", BAD_NAME)),
        "a_value_of_words": row(
            b"set x a   b && echo ${x} c ; iseq ${x} a", ran(b"set x a b"),
            [Command(1, 2, 1, True, (b"echo", b"a b", b"c")), Text(b"a b c\n"), Result(OK)],
            [Command(1, 2, 2, True, (b"iseq", b"a b", b"a")), Result(FALSE)], cause=FALSE,
        ),
        "a_name_of_a_command": row(b"set c echo ; ${c} a ; ${none} a\n", ran(b"set c echo"),
                                   ran(b"echo a", place=1), ran(b" a", UNKNOWN, place=2), cause=UNKNOWN),
        "a_value_is_no_join": row(b"set j:uristring %26%26 ; echo a ${j:string} exit\n",
                                  ran(b"set j:uristring %26%26"), ran(b"echo a && exit", place=1)),
        "a_value_is_no_comment": row(b"set h:uristring %23a ; echo ${h:string} b #${x+}\n",
                                     ran(b"set h:uristring %23a"), ran(b"echo #a b", place=1)),
        "blanks_cut_a_part": row(b"echo ${x y}\n", ran(b"echo ${x y}")),
        "a_skipped_command_is_not_expanded": row(
            b"foo && echo ${x+} || echo a\n", ran(b"foo", UNKNOWN), ran(b"echo a", place=2)
        ),
        "what_is_refused_is_a_failure": row(
            b"echo ${x+} || echo a\necho ${} b\necho c", unexpanded(b"echo ${x+}", BAD_NAME),
            ran(b"echo a", place=1), unexpanded(b"echo ${} b", BAD_NAME, 3), cause=BAD_NAME,
        ),
        "names_that_are_none": refusals(
            [b"set x a"],
            *[(b"echo ${%b}" % name, BAD_NAME) for name in WRONG_NAMES if b" " not in name],
            (b"echo ${%b/%b}" % (b"n" * 64, b"x"), BAD_NAME), (b"echo ${x} ${x+}", BAD_NAME),
        ),
        "names": echoes(
            [b"set net0/%b a" % (b"n" * 63), b"set 1a b"], (b"${%b}" % (b"n" * 63), b"a"), (b"${1a}", b"b"),
            (b"${%b.%b/%b:uristring}" % (b"n" * 63, b"n" * 63, b"n" * 63), b""), (b"${_}${-}", b""),
        ),
        "a_label_by_expansion": row(b"set l b ; goto ${l}\nfoo\n:${l}\nfoo\n:b\n", ran(b"set l b"),
                                    ran(b"goto b", place=1)),
    }  # fmt: skip


def lengths() -> dict[str, Row]:
    """4,096 bytes in a word, and in a command's words; and what is refused before that."""
    most = b"echo ${b}${b}${b} " + b"c" * 1_020
    whole = (b"echo", BIG * 3, b"c" * 1_020)
    return {
        "words_of_4096": row(b"set b " + BIG + b"\n" + most, ran(b"set b " + BIG),
                             [Command(1, 3, 0, True, whole), Text(b" ".join(whole[1:]) + b"\n"), Result(OK)]),
        "words_of_4097": refusals([b"set b " + BIG], (most + b"c", LONG_WORDS), (b"echo " + FOUR, LONG_WORDS)),
        "a_word_of_4096": row(b"set b " + BIG + b"\n" + FOUR + b" ||\n", ran(b"set b " + BIG),
                              [Command(1, 3, 0, True, (BIG * 4,)), Result(UNKNOWN)]),
        "a_word_of_4097": refusals([b"set b " + BIG], (FOUR + b"c", LONG_WORDS)),
        "an_open_part_of_4097": refusals(
            [b"set b " + BIG], (b"${" + FOUR, LONG_WORDS), (b"a${b}${b}${b}${b} ${", LONG_WORDS)
        ),
        "a_part_of_4096_is_no_name": refusals([b"set b " + BIG], (b"echo ${" + FOUR + b"}", BAD_NAME)),
        "a_bad_name_in_a_long_word": refusals(
            [b"set b " + BIG], (b"echo " + FOUR * 2 + b"${x+}", BAD_NAME), (b"echo ${" + FOUR * 2 + b"${x+}", BAD_NAME)
        ),
        "a_long_word_before_a_bad_name": refusals(
            [b"set b " + BIG], (b"echo " + FOUR * 2 + b" ${x+}", LONG_WORDS),
            (b"echo ${x+} " + FOUR * 2, BAD_NAME), (b"echo " + FOUR + b" ${x+}", BAD_NAME),
        ),
        "hexadecimal_pairs_are_long": refusals([b"set b " + BIG], (b"echo ${b:hex}${b:hex}", LONG_WORDS)),
    }  # fmt: skip


def kinds() -> dict[str, Row]:
    uuid = b"01234567-89ab-cdef-0123-456789abcdef"
    return {
        "an_uint16": echoes(
            [b"set x:uint16 255"], (b"${x}", b"0xff"), (b"${x:int16}", b"255"), (b"${x:hex}", b"00:ff"),
            (b"${x:hexhyp}", b"00-ff"), (b"${x:hexraw}", b"00ff"), (b"${x:base64}", b"AP8="), (b"${x:uint8}", b"0xff"),
            (b"${x:int8}", b"-1"), (b"${x:int32}", b"255"), (b"${x:uint32}", b"0xff"), (b"${x:string}", b"\0\xff"),
            (b"${x:ipv4}", b""), (b"${x:uuid}", b""), (b"${x:uristring}", b"%00%FF"), (b"${x:uint16}", b"0xff"),
        ),
        "an_int8": echoes(
            [b"set y:int8 -1", b"set z:int8 -0x80"], (b"${y}", b"-1"), (b"${y:uint8}", b"0xff"),
            (b"${y:uint16}", b"0xff"),
            (b"${y:int32}", b"-1"), (b"${y:hex}", b"ff"), (b"${z}", b"-128"), (b"${z:int16}", b"-128"),
            (b"${z:uint32}", b"0x80"),
        ),
        "numbers": echoes(
            [b"set a:uint8 0", b"set b:int16 -0", b"set c:uint32 0xFFFFffff", b"set d:int32 0x000000000007",
             b"set e:int32 -2147483648"],
            (b"${a}", b"0x0"), (b"${b}", b"0"), (b"${c}", b"0xffffffff"), (b"${c:int32}", b"-1"), (b"${d}", b"7"),
            (b"${e}", b"-2147483648"), (b"${e:hexraw}", b"80000000"),
        ),
        "no_numbers": refusals(
            [b"set y:int8 5"],
            *[(b"set y:int8 " + number, BAD_VALUE)
              for number in (b"200", b"128", b"-129", b"0x80", b"07", b"+1", b"0X1", b"0x", b"-", b"1.", b"1 2",
              b"1" * 40)],
            *[(b"set y:uint8 " + number, BAD_VALUE) for number in (b"256", b"-1", b"-0", b"0x100", b"00")],
            (b"set y:uint16 65536", BAD_VALUE), (b"set y:int16 32768", BAD_VALUE),
            (b"set y:uint32 4294967296", BAD_VALUE),
            (b"set y:int32 2147483648", BAD_VALUE),
        ),
        "bytes": echoes(
            [b"set a:hex 0a:0B:ff", b"set b:hexhyp 0A-0b", b"set c:hexraw 0102030405", b"set d:base64 YWI=",
             b"set e:uristring a%2fb%zz%2", b"set f -._~aZ0/%"],
            (b"${a}", b"0a:0b:ff"), (b"${b}", b"0a-0b"), (b"${c}", b"0102030405"), (b"${c:int16}", b"1029"),
            (b"${c:uint32}", b"0x2030405"), (b"${c:int8}", b"5"), (b"${c:ipv4}", b"1.2.3.4"), (b"${d}", b"YWI="),
            (b"${d:string}", b"ab"), (b"${e}", b"a%2Fb%25zz%252"), (b"${e:string}", b"a/b%zz%2"),
            (b"${f:uristring}", b"-._~aZ0%2F%25"), (b"${f:base64}", b"LS5ffmFaMC8l"),
        ),
        "zeros_at_a_text_s_end": echoes(
            [b"set a:hex 00:61:00:62:00:00", b"set b:uristring c%00", b"set c:uristring %00%00", b"set d:uint16 0x6100"],
            (b"<${a:string}>", b"<\0a\0b>"), (b"${a:uristring}", b"%00a%00b"), (b"${a}", b"00:61:00:62:00:00"),
            (b"${a:hexraw}/${a:base64}", b"006100620000/AGEAYgAA"), (b"<${b}${b:string}>", b"<cc>"),
            (b"${b:hex}", b"63:00"), (b"<${c}${c:string}>", b"<>"), (b"${c:hex}/${c:uint8}", b"00:00/0x0"),
            (b"${d:string}/${d}", b"a/0x6100"),
        ),
        "no_bytes": refusals(
            [b"set x a"],
            *[(b"set x:" + words, BAD_VALUE) for words in (
                b"hex 0a0b", b"hex 0a-0b", b"hex a:b", b"hex 0a:", b"hexhyp 0a:0b", b"hexraw 0a:0b", b"hexraw abc",
                b"hex 0g", b"base64 YWI", b"base64 YR==", b"base64 YWI==", b"base64 =", b"base64 YW I=",
                b"base64 -_==",
                b"uuid " + uuid.replace(b"-", b""), b"uuid " + uuid[:-1], b"uuid " + uuid.replace(b"ab-", b"-ab"),
                b"ipv4 1.2.3", b"ipv4 1.2.3.4.5", b"ipv4 256.0.0.0", b"ipv4 01.2.3.4", b"ipv4 0x1.2.3.4",
                b"ipv4 1.2.3.",
                b"ipv4 a",
            )],
        ),
        "addresses_and_uuids": echoes(
            [b"set a:ipv4 10.0.0.1", b"set u:uuid " + uuid.upper()], (b"${a}", b"10.0.0.1"),
            (b"${a:hex}", b"0a:00:00:01"),
            (b"${a:int32}", b"167772161"), (b"${a:uint8}", b"0x1"), (b"${u}", uuid),
            (b"${u:hexraw}", uuid.replace(b"-", b"")),
            (b"${u:ipv4}", b"1.35.69.103"), (b"${u:int32}", b"-1985229329"),
        ),
    }  # fmt: skip


def names() -> dict[str, Row]:
    return {
        "a_name_and_its_tag": echoes(
            [b"set filename a", b"set 175.190 u", b"set 12 h", b"set 1 255.0.0.0", b"set san-drive 128", b"set 254 5",
             b"set 12.34 z", b"set priority -1"],
            (b"${67}", b"a"), (b"${username}", b"u"), (b"${hostname}", b"h"), (b"${netmask:hex}", b"ff:00:00:00"),
            (b"${175.189}", b"0x80"), (b"${254}", b"5"), (b"${254:hex}", b"35"), (b"${12.34}", b"z"), (b"${12}", b"h"),
            (b"${175.1}", b"-1"), (b"${FILENAME}", b""),
        ),
        "listed_kinds": refusals(
            [], (b"set dns x", BAD_VALUE), (b"set 175.1 200", BAD_VALUE), (b"set san-drive -1", BAD_VALUE),
            (b"set busid 0", BAD_VALUE), (b"set mac x", BAD_VALUE), (b"set net0/uuid 1", BAD_VALUE),
            (b"set next-server 1", BAD_VALUE),
        ),
        "the_root_goes_first": echoes(
            [b"set net0/x b", b"set mac:string m", b"set x a", b"set net0/y c"], (b"${x}", b"a"), (b"${net0/x}", b"b"),
            (b"${y}", b"c"), (b"${mac}", b"m"), (b"${net0/mac}", MAC), (b"${net0.dhcp/x}${net/x}${NET0/x}${x/x}", b""),
        ),
        "start_s_block": echoes([], (b"${mac}", MAC), (b"${net0/mac:hexhyp}", MAC.replace(b":", b"-")),
                                (b"${uuid}", b"00000000-0000-0000-0000-000000000000"), (b"${ip}", b"10.0.0.2"),
                                (b"${net0/netmask}", b"255.255.255.0"), (b"${1}", b"255.255.255.0"),
                                (b"${gateway}${dns}${next-server}", b"")),
        "start_s_addresses": started(
            b"echo ${net0/3} ${6} ${netmask} ${uuid}\n", b"echo 10.0.0.254 0.0.0.9  " + str(UUID(int=7)).encode(),
            gateway=IPv4Address("10.0.0.254"), dns=IPv4Address(9), mask=IPv4Address(0), uuid=UUID(int=7),
        ),
        "no_address_and_no_others": started(
            b"echo ${ip} ${netmask} ${gateway} ${dns} ${mac}\n", b"echo     " + MAC, ip=IPv4Address(0),
            mask=IPv4Address("255.255.255.0"), gateway=IPv4Address("10.0.0.254"), dns=IPv4Address(9),
        ),
    }  # fmt: skip


def started(script: bytes, words: bytes, **fields: IPv4Address | UUID) -> Row:
    """A script of one command, of a START with these fields."""
    made_row = row(script, ran(words))
    return Row([replace(made_row.inputs[0], **fields)], made_row.outputs)


def commands() -> dict[str, Row]:
    counted = b"set idx:int32 0\n:loop\nisset ${net${idx}/mac} || goto done\necho ${net${idx}/mac}\n"
    return {
        "set_and_show": row(b"set a one two\nshow a", ran(b"set a one two"), printed(b"show a", b"a = one two\n", 3)),
        "show": row(
            b"set x:int8 7 ; show x ; show x:hex ; show none ; show net9/x:uuid ; show net0/x ; show net0/mac ; show 67\n",
            ran(b"set x:int8 7"), printed(b"show x", b"x = 7\n", place=1),
            printed(b"show x:hex", b"x:hex = 07\n", place=2),
            printed(b"show none", b"none = \n", place=3), printed(b"show net9/x:uuid", b"net9/x:uuid = \n", place=4),
            printed(b"show net0/x", b"net0/x = \n", place=5),
            printed(b"show net0/mac", b"net0/mac = " + MAC + b"\n", place=6), printed(b"show 67", b"67 = \n", place=7),
        ),
        "iseq_in_a_list": row(b"iseq a b && echo x || echo y\n", ran(b"iseq a b", FALSE), ran(b"echo y", place=2)),
        "iseq": row(b"iseq a a ; iseq ${x} ${y} ; iseq a A ||\n", ran(b"iseq a a"),
                    [Command(1, 2, 1, True, (b"iseq", b"", b"")), Result(OK)], ran(b"iseq a A", FALSE, place=2)),
        "isset": row(b"isset ; isset a ; isset ${x} ; isset ${x}- ; isset ${ip} ; isset ||\n", ran(b"isset", FALSE),
                     ran(b"isset a", place=1), ran(b"isset ", FALSE, place=2), ran(b"isset -", place=3),
                     ran(b"isset 10.0.0.2", place=4), ran(b"isset", FALSE, place=5)),
        "set_clears": row(
            b"set x a ; set x ; show x ; set x a ; set x ${y} ; show x ; set x:int8 ; set net0/mac:ipv4 ; show mac\n",
            ran(b"set x a"), ran(b"set x", place=1), printed(b"show x", b"x = \n", place=2), ran(b"set x a", place=3),
            ran(b"set x ", place=4), printed(b"show x", b"x = \n", place=5), ran(b"set x:int8", place=6),
            ran(b"set net0/mac:ipv4", place=7), printed(b"show mac", b"mac = \n", place=8),
        ),
        "two_empty_words_are_a_space": row(
            b"set x ${y} ${y} ; show x ; show x:hex\n", ran(b"set x  "), printed(b"show x", b"x =  \n", place=1),
            printed(b"show x:hex", b"x:hex = 20\n", place=2),
        ),
        "set_takes_the_usual_kind": row(
            b"set x:int8 5 ; set x 5 ; show x:hex ; set busid:string 5 ; set busid 05 ; show busid:hex ; inc x\n",
            ran(b"set x:int8 5"), ran(b"set x 5", place=1), printed(b"show x:hex", b"x:hex = 35\n", place=2),
            ran(b"set busid:string 5", place=3), ran(b"set busid 05", place=4),
            printed(b"show busid:hex", b"busid:hex = 05\n", place=5), ran(b"inc x", BAD_VALUE, place=6),
            cause=BAD_VALUE,
        ),
        "a_failed_set_changes_nothing": row(
            b"set x:int8 5 ; set x:int8 200 ; show x ; set x:uuid y ; show x\n", ran(b"set x:int8 5"),
            ran(b"set x:int8 200", BAD_VALUE, place=1), printed(b"show x", b"x = 5\n", place=2),
            ran(b"set x:uuid y", BAD_VALUE, place=3), printed(b"show x", b"x = 5\n", place=4),
        ),
        "clear": row(
            b"set x a ; set net0/x b ; clear x:int8 ; show x ; clear x ; clear net0/x ; show x ; clear mac ; show mac\n",
            ran(b"set x a"), ran(b"set net0/x b", place=1), ran(b"clear x:int8", place=2),
            printed(b"show x", b"x = b\n", place=3), ran(b"clear x", place=4), ran(b"clear net0/x", place=5),
            printed(b"show x", b"x = \n", place=6), ran(b"clear mac", place=7),
            printed(b"show mac", b"mac = " + MAC + b"\n", place=8),
        ),
        "inc": row(
            b"inc x ; inc x 5 ; inc x -0x7 ; show x:hex ; inc net0/x:string 0x10 ; show net0/x ; inc mac ; show mac\n",
            ran(b"inc x"), ran(b"inc x 5", place=1), ran(b"inc x -0x7", place=2),
            printed(b"show x:hex", b"x:hex = ff:ff:ff:ff\n", place=3), ran(b"inc net0/x:string 0x10", place=4),
            printed(b"show net0/x", b"net0/x = 16\n", place=5), ran(b"inc mac", place=6),
            printed(b"show mac", b"mac = 1\n", place=7),
        ),
        "inc_to_the_end": row(b"set n:int8 127\ninc n || echo ${n}\n", ran(b"set n:int8 127"),
                              ran(b"inc n", BAD_VALUE, 3), ran(b"echo 127", line=3, place=1)),
        "inc_keeps_the_kind": row(
            b"set n:uint8 254 ; inc n ; show n ; inc n ; inc n -255 ; show n ; inc n -1 ; show n:hex\n",
            ran(b"set n:uint8 254"), ran(b"inc n", place=1), printed(b"show n", b"n = 0xff\n", place=2),
            ran(b"inc n", BAD_VALUE, place=3), ran(b"inc n -255", place=4), printed(b"show n", b"n = 0x0\n", place=5),
            ran(b"inc n -1", BAD_VALUE, place=6), printed(b"show n:hex", b"n:hex = 00\n", place=7),
        ),
        "inc_to_the_limits": row(
            b"inc x 2147483647 ; inc x ; show x ; inc y -2147483648 ; inc y -1 ; show y ; inc san-drive ; show san-drive\n",
            ran(b"inc x 2147483647"), ran(b"inc x", BAD_VALUE, place=1),
            printed(b"show x", b"x = 2147483647\n", place=2),
            ran(b"inc y -2147483648", place=3), ran(b"inc y -1", BAD_VALUE, place=4),
            printed(b"show y", b"y = -2147483648\n", place=5), ran(b"inc san-drive", place=6),
            printed(b"show san-drive", b"san-drive = 1\n", place=7),
        ),
        "a_loop_over_devices": row(
            counted + b"inc idx && goto loop\n:done\necho ${idx}\n", ran(b"set idx:int32 0"),
            ran(b"isset " + MAC, line=4), ran(b"echo " + MAC, line=5), ran(b"inc idx", line=6),
            ran(b"goto loop", line=6, place=1), ran(b"isset ", FALSE, 4), ran(b"goto done", line=4, place=1),
            ran(b"echo 1", line=8),
        ),
        "settings_as_in_the_table": row(
            b"set x:uint16 255 ; echo ${x} ${x:int16} ${x:hex} ; set y:int8 -1 ; echo ${y:uint8} ; set z ${x\n"
            b"show z ; set net9/a b ; clear net9/a ; set y:int8 200\n",
            ran(b"set x:uint16 255"), ran(b"echo 0xff 255 00:ff", place=1), ran(b"set y:int8 -1", place=2),
            ran(b"echo 0xff", place=3), ran(b"set z ${x", place=4), printed(b"show z", b"z = ${x\n", 3),
            ran(b"set net9/a b", BAD_NAME, 3, 1), ran(b"clear net9/a", BAD_NAME, 3, 2),
            ran(b"set y:int8 200", BAD_VALUE, 3, 3), cause=BAD_VALUE,
        ),
        "a_comment_and_a_join": row(b"echo a # b && c\n", ran(b"echo a")),
        "exit_of_a_number": row(b"set n:uint8 31 ; exit ${n}", ran(b"set n:uint8 31"),
                                ran(b"exit 0x1f", Cause(Code.EXIT, 31), place=1), cause=Cause(Code.EXIT, 31)),
        **built_in(),
    }  # fmt: skip


def built_in() -> dict[str, Row]:
    """The built-in script, an empty one, asks for a lease: four times, where nobody answers."""
    lease, cause = Lease(), Cause(Code.EXIT, 1)
    begins = [Step(1), made.enter(), made.command(b"dhcp"), *lease.begins(*lease.discovers())]
    tries = {2: 2, 4: 3, 8: 4}
    waits = [lease.passed(*(lease.discovers(tries[step]) if step in tries else [])) for step in range(2, 16)]
    gives_up = [*lease.passed(over=UNLEASED), Result(UNLEASED), *ran(b"exit 1", cause, place=1)]
    started = made.start(b"")
    return {
        "the_built_in_script": Row(
            [started, *[Tick(1_000)] * 15], [*begins, *steps(2, *waits, gives_up), *left(cause)]
        ),
        "the_built_in_script_waits": Row([started], [*begins, *lease.shut(), UNFINISHED]),
    }


def order() -> dict[str, Row]:
    """Of several refusals the first is given: expansion's, Unknown, Usage, BadName, BadValue, and those of a value."""
    long = b"c" * 1_025
    fill = b"set i:int32 0\n:a\nset ${i}a ${i} && inc i && goto a ||\n"
    filled: list[Record] = [*ran(b"set i:int32 0")]
    for number in range(127):
        filled += ran(b"set %da %d" % (number, number), line=4)
        filled += [*ran(b"inc i", line=4, place=1), *ran(b"goto a", line=4, place=2)]
    filled += ran(b"set 127a 127", MANY_SETTINGS, 4)
    return {
        "refusals_in_their_order": refusals(
            [b"set x:int8 5"], (b"foo ${x+}", BAD_NAME), (b"${} --x", BAD_NAME), (b"foo --x", UNKNOWN),
            (b"set", USAGE),
            (b"set --x", USAGE), (b"clear", USAGE), (b"clear x+ y", USAGE), (b"show", USAGE), (b"show a b", USAGE),
            (b"show --x", USAGE), (b"inc", USAGE), (b"inc x 1 2", USAGE), (b"inc net9/x 2147483648", USAGE),
            (b"inc x+ 1.5", USAGE), (b"inc x -2147483649", USAGE), (b"inc x 01", USAGE), (b"isset a b", USAGE),
            (b"isset --a", USAGE), (b"iseq", USAGE), (b"iseq a", USAGE), (b"iseq a b c", USAGE),
            (b"iseq --a --a", USAGE),
            (b"iseq a --a", FALSE), (b"sleep", USAGE), (b"sleep 1 1", USAGE), (b"sleep -1", USAGE),
            (b"sleep 4000001", USAGE),
            (b"sleep 01", USAGE), (b"sleep 0.5", USAGE), (b"sleep --1", USAGE), (b"set x+:int8 300", BAD_NAME),
            (b"set net9/x:int8 300", BAD_NAME), (b"set x:int64 5", BAD_NAME), (b"set x:int8 300", BAD_VALUE),
            (b"set net9/x", BAD_NAME), (b"set a.b", BAD_NAME), (b"clear x:y", BAD_NAME), (b"clear net9/x", BAD_NAME),
            (b"show x/", BAD_NAME), (b"show x:y", BAD_NAME), (b"inc net9/x", BAD_NAME), (b"inc 0", BAD_NAME),
            (b"set x:hex " + long, BAD_VALUE), (b"set net9/x " + long, BAD_NAME), (b"set x " + long, LONG_VALUE),
            (b"set y:hexraw " + b"0a" * 1_025, LONG_VALUE), (b"goto x+ y", USAGE), (b"goto x+", NO_LABEL),
            (b"imgfetch", USAGE), (b"imgfetch foo", BAD_URI), (b"exit 256", USAGE),
        ),
        "values_of_1024": row(
            b"set x " + BIG + b" ; set x:hexraw " + b"0a" * 1_024 + b" ; iseq ${x:string} a ||\n",
            ran(b"set x " + BIG),
            ran(b"set x:hexraw " + b"0a" * 1_024, place=1),
            [Command(1, 2, 2, True, (b"iseq", b"\n" * 1_024, b"a")), Result(FALSE)],
        ),
        "128_settings": row(
            fill + b"set 127a ; set net0/127a b ; show 127a ; set i:int8 0 ; inc j ; set j:int8 300\n"
            b"set k " + long + b" ; clear 5a ; inc j && show j ; set 5a x\n",
            filled, ran(b"set 127a", line=5), ran(b"set net0/127a b", line=5, place=1),
            printed(b"show 127a", b"127a = b\n", 5, 2), ran(b"set i:int8 0", line=5, place=3),
            ran(b"inc j", MANY_SETTINGS, 5, 4), ran(b"set j:int8 300", BAD_VALUE, 5, 5), cause=BAD_VALUE,
        ),
        "a_long_value_before_too_many": row(
            fill + b"set k " + long + b" || set k a ||\nclear 5a ; inc j && show j ; set 5a x\n",
            filled, ran(b"set k " + long, LONG_VALUE, 5), ran(b"set k a", MANY_SETTINGS, 5, 1),
            ran(b"clear 5a", line=6),
            ran(b"inc j", line=6, place=1), printed(b"show j", b"j = 1\n", 6, 2),
            ran(b"set 5a x", MANY_SETTINGS, 6, 3),
            cause=MANY_SETTINGS,
        ),
    }  # fmt: skip


def all_kinds() -> dict[str, Row]:
    """Each kind reads all values and prints them by all kinds; each name is used by each command."""
    values = [*NUMBERS, *[value for value in VALUES if value]]
    shown = b" ".join(b"${x:%b}" % kind for kind in KINDS)
    scripts = {}
    for kind in KINDS:
        lines = [b"set x:%b %b && echo ${x} %b || show x" % (kind, value, shown) for value in values]
        scripts[f"kind_{kind.decode()}"] = b"\n".join(lines)
    for number, name in enumerate([*NAMES, *ABSENT, *WRONG_NAMES]):
        uses = [b"show %b", b"echo ${%b} ${%b:hex}", b"set %b 10.0.0.9", b"set %b 3", b"set %b a b", b"show %b",
                b"inc %b",
                b"show %b:uint8", b"isset ${%b}", b"clear %b", b"show %b"]
        lines = [use.replace(b"%b", name) + b" ||" for use in uses]
        scripts[f"name_{number}"] = b"\n".join(lines)
    scripts |= {f"loop_{number}": loop for number, loop in enumerate(LOOPS)}
    later: list[Record] = [Tick(1_000)] * 8
    return {
        name: modelled([made.start(FIRST + script), *later]) for name, script in scripts.items()
    }


def modelled(inputs: list[Record]) -> Row:
    """An input, and what the second reading says of it."""
    start, *later = inputs
    assert isinstance(start, Start)
    return Row(inputs, Model(start).run(later))


def by_chance() -> dict[str, Row]:
    chance = random.Random(SEED)
    return {f"chance_{number}": modelled(random_inputs(chance)) for number in range(BY_CHANCE)}


ROWS = {**expansion(), **lengths(), **kinds(), **names(), **commands(), **order()}
READ_TWICE = {**all_kinds(), **by_chance()}


def all_inputs() -> dict[str, bytes]:
    rows = {**ROWS, **READ_TWICE}
    return {f"setting_{name}": made.spelled(row.inputs) for name, row in rows.items()}


@unittest.skipUnless(can_run(), "the program isn't built, and the toolchain's rt is missing")
class Settings(RowCase):
    def test_rows(self) -> None:
        for name, row in ROWS.items():
            with self.subTest(name):
                self.same(f"setting_{name}", row)

    def test_all_kinds_and_scripts_by_chance(self) -> None:
        for name, row in READ_TWICE.items():
            with self.subTest(name, script=row.inputs[0].script):
                self.same(f"setting_{name}", row)


class Readings(unittest.TestCase):
    def test_the_tools_read_the_same_lines(self) -> None:
        for name, row in {**ROWS, **READ_TWICE}.items():
            with self.subTest(name):
                same_lines(self, row.inputs[0].script)

    def test_the_model_answers_the_rows(self) -> None:
        for name, row in ROWS.items():
            with self.subTest(name):
                self.assertEqual(modelled(row.inputs).outputs, row.outputs)


if __name__ == "__main__":
    unittest.main()
