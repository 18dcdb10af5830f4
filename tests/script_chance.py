"""Scripts made by chance, with the records after them: most of what the rules of scripts say is met by some."""

from __future__ import annotations

import random
from dataclasses import replace
from ipaddress import IPv4Address
from uuid import UUID

from shared.records import Off, Received, Record, Start, Tick
from shared.wire import arp_request
from tests import made
from tests.script_model import FILE

COMMANDS = (
    b"echo", b"echo x", b"echo -n y", b"echo -n -n", b"foo", b"x", b"a;b", b"&&&", b"\\", b"exit", b"exit 0",
    b"exit 3", b"exit 00", b"exit 256", b"exit 0x1f", b"exit -0", b"goto a", b"goto b", b"goto none", b"goto",
    b"goto --a", b"goto -n", b"goto a b", b":a", b"#", b"#c",
)  # fmt: skip
DEVICES = (b"ifclose", b"ifclose net0", b"ifclose net1", b"ifopen net1", b"ifopen --x", b"ifclose a b")
OPENS = (b"ifopen", b"ifopen net0", b"ifopen ${x}", b"dhcp", b"dhcp net0", b"dhcp net1", b"dhcp a b")
FETCHES = (b"imgfetch", b"imgfetch " + FILE, b"imgfetch ${f}", b"imgfetch ${f:uristring}")
OTHER_LINES = (b":a", b":b", b" :a\t", b":", b":a b", b":-n", b":a # c", b"", b"  ", b"# c", b" # x ; y",
               b":${x}", b"# ${x")  # fmt: skip
LONG_LISTS = (
    b"echo" + b" x" * 63, b"echo" + b" x" * 64, b"; " * 64, b"; " * 65, b"foo" + b" ;" * 64 + b" echo z"
)  # fmt: skip

NAMES = (
    b"x", b"y", b"x1", b"idx", b"net0/x", b"net0/y", b"net0/ip", b"ip", b"mac", b"net0/mac", b"uuid", b"netmask",
    b"gateway", b"dns", b"6", b"net0/3", b"filename", b"67", b"net0/67", b"175.190", b"username", b"san-drive",
    b"175.189", b"priority", b"175.1", b"busid", b"254", b"12.34", b"a_-", b"1a", b"-", b"n" * 63, b"X",
)  # fmt: skip
ABSENT = (b"net9/x", b"net0.dhcp/filename", b"net/x", b"a.b/ip", b"NET0/x", b"none")
WRONG_NAMES = (
    b"", b"a.b", b"0", b"255", b"01", b"1.255", b"1.0", b"1.2.3", b"x/", b"/x", b"a/b/c", b"x:", b":int8",
    b"x:int64", b"x:INT8", b"x:int8:hex", b"n" * 64, b"123456", b"9/x", b"a.b.c/x", b"a./x", b"\xe9", b"x+", b"x.",
    b"net0/0", b"x:string ", b"$", b"1.x",
)  # fmt: skip
KINDS = (
    b"string", b"ipv4", b"int8", b"int16", b"int32", b"uint8", b"uint16", b"uint32", b"hex", b"hexhyp",
    b"hexraw", b"base64", b"uuid", b"uristring",
)  # fmt: skip
NUMBERS = (
    b"0", b"1", b"-1", b"7", b"127", b"128", b"-128", b"-129", b"255", b"256", b"0xff", b"0x0fF", b"0XFF",
    b"-0x80", b"-0", b"00", b"007", b"+1", b"0x", b"-", b"--1", b"32767", b"32768", b"-32768", b"-32769", b"65535",
    b"65536", b"2147483647", b"2147483648", b"-2147483648", b"-2147483649", b"4294967295", b"4294967296",
    b"0x100000000", b"0x00000000000000001", b"1" * 40, b"0x7fffffff", b"1 2", b"1.5", b"-0x0",
)  # fmt: skip
VALUES = (
    b"a", b"v w", b"10.0.0.1", b"255.255.255.255", b"256.0.0.1", b"01.2.3.4", b"1.2.3", b"1.2.3.4.5", b"0x1.2.3.4",
    b"00:ff", b"00:fF:1a", b"0:ff", b"00-ff", b"00-FF", b"00ff", b"00:", b"a", b"aB", b"ab:cd-ef", b"YQ==", b"YWI=",
    b"YWJj", b"YQ=", b"YR==", b"YQ", b"====", b"YW\xff", b"+/+/", b"01234567-89ab-cdef-0123-456789abcDEF",
    b"0123456789abcdef0123456789abcdef", b"01234567-89ab-cdef-0123-456789abcde", b"%41%zz%", b"a%20b%2", b"%26%26",
    b"%00%fF", b"-._~/?", b"\xff\xfe", FILE, b"set", b"--x", b"x", b"net0", b"/", b":int16", b"a}b", b"${", b"$", b"}",
    b"%24%7bx}", b"%20", b"%0a",
)  # fmt: skip
TEXTS = (b"", b"a", b"$", b"{", b"}", b"x", b"net", b":hex", b"#", b"-", b"--", b"/", b"${x", b"${", b"$$", b"{}")
SEEDS = (
    b"set x:int8 127", b"set x:uint8 255", b"set y:int16 -1", b"set idx:int32 0", b"set net0/x a b", b"set x filename",
    b"set filename pxe/kernel", b"set x ${y", b"set x:uristring %24%7By%7d", b"set x:uristring %26%26",
    b"set f " + FILE, b"set x:hex 00:01:02:03:04:05:06:07:08:09:0a:0b:0c:0d:0e:0f", b"set san-drive 128",
    b"set x:uristring a%20b ; set y net0/ip", b"set big " + b"b" * 1_024, b"set big ${big}${big}",
    b"set y:base64 /w==",
    b"set big " + b"c" * 1_025, b"set big:hexraw " + b"0a" * 1_024, b"echo ${big}${big}${big}${big}",
    b"echo ${big}${big}${big} ${big}", b"echo ${big} ${big} ${big} ${big:uristring}", b"show big", b"show big:base64",
    b"echo ${big}${big}${big}${big}${big} ${x:}", b"echo ${x:} ${big:hex}${big:hex}", b"${x}", b"set e ${none}",
    b"echo ${${big}${big}${big}${big}${big}}", b"echo ${${big}${big}${big}${big}${big}", b"${none}",
    b"echo a ${none} b",
    b"echo ${${big:hex}${big:hex}${x:}", b"echo ${${big:hex}${big:hex}${y}",
)  # fmt: skip
# whole scripts after their first line, each of which takes a rule to its limit
LOOPS = (
    b"set i:int32 0\n:a\nset net0/n${i} v && inc i && goto a || show net0/n${i} ; show i ; set net0/n0 w ; show n0\n",
    b"set i:uint8 250\n:a\nset x${i} ${i:uint16} && inc i && goto a || show i\n",
    b"set i:int32 1\n:a\nset ${i}:string ${i} && inc i && goto a || show i ; show 127 ; show 128\n",
    b"set i:int32 0\n:a\nset s${i}\ninc i && isset ${s${i}} || iseq ${i} 100 && echo done ${i} || goto a\n",
    b"set x a\n:a\nset x ${x}${x} && goto a || echo ${x}${x}${x}${x} ; show x\n",
    b"set x x\n:a\nset x ${x${none}}x ; iseq ${x} xxxxxxxx || goto a\nshow x\n",
    b":a\nsleep 1 ; inc x ; iseq ${x} 7 || goto a\necho ${x:uint8}\n",
    b":a\ninc x ; iseq ${x} 1400 || goto a\nsleep 2\n:b\ninc x ; iseq ${x} 1500 || goto b\n",
)


def random_name(chance: random.Random) -> bytes:
    """A name that may be a name's, with or without a block and a kind."""
    kind = chance.random()
    if kind < 0.08:
        return chance.choice(WRONG_NAMES)
    name = chance.choice(ABSENT if kind < 0.18 else NAMES[:8] if kind < 0.6 else NAMES)
    return name + b":" + chance.choice(KINDS) if chance.random() < 0.35 else name


def random_word(chance: random.Random, depth: int = 0) -> bytes:
    """A word with parts to expand, closed or not, one in the other."""
    word = chance.choice(TEXTS)
    for _ in range(chance.choice((0, 1, 1, 2))):
        inner = random_name(chance)
        if depth < 3 and chance.random() < 0.3:
            inner = random_word(chance, depth + 1)
        if chance.random() < 0.2:
            inner = chance.choice((b"x", b"id", b"net0/")) + inner
        word += b"${" + inner + chance.choice((*[b"}"] * 9, b"", b"}}")) + chance.choice((b"", b"", *TEXTS))
    return word or b"w"


def random_value(chance: random.Random) -> bytes:
    kind = chance.random()
    if kind < 0.35:
        return chance.choice(NUMBERS)
    return chance.choice(VALUES) if kind < 0.7 else random_word(chance)


def random_command(chance: random.Random, fetches: bool) -> bytes:
    """A command of settings, or another."""
    name, value = random_name(chance), random_value(chance)
    if chance.random() < 0.05:
        name = random_word(chance)
    kind = chance.random()
    if kind < 0.3:
        return b" ".join((b"set", name, *[value] * chance.choice((0, 1, 1, 1, 1, 2))))
    if kind < 0.65:
        name = b" " + name
        return chance.choice(
            (b"show" + name, b"show" + name, b"clear" + name, b"inc" + name, b"inc" + name + b" " + value,
             b"isset" + name, b"isset ${" + name[1:] + b"}", b"isset " + value, b"iseq " + value + name,
             b"iseq ${" + name[1:] + b"} " + value, b"show", b"clear", b"inc", b"isset", b"iseq" + name, b"set",
             b"show --x", b"inc x 1 2", b"isset a b", b"set --x y", b"clear x y", b"iseq a --a", b"show x y")
        )  # fmt: skip
    if kind < 0.72:
        return b"sleep " + chance.choice((b"0", b"1", b"3", b"0x2", b"4000000", b"4000001", b"-1", b"", b"1 1", value))
    if kind < 0.85:
        return b" ".join((b"echo", *(random_word(chance) for _ in range(chance.randint(1, 3)))))
    if kind < 0.9:
        return random_word(chance)
    if kind < 0.93 and fetches:
        return chance.choice(FETCHES)
    if kind < 0.95:
        return chance.choice(DEVICES if fetches else DEVICES + OPENS)
    return chance.choice(COMMANDS)


def random_line(chance: random.Random, fetches: bool) -> bytes:
    kind = chance.random()
    if kind < 0.15:
        return chance.choice(OTHER_LINES)
    if kind < 0.17:
        return chance.choice(LONG_LISTS)
    if kind < 0.45:
        return chance.choice(SEEDS) + b" ;"
    line = b""
    for _ in range(chance.randint(1, 5)):
        join = chance.choice((b"&&", b"||", *[b";"] * 5))
        blank = chance.choice((b" ", b"\t", b"  "))
        line += random_command(chance, fetches) + blank + join + blank
    return line + chance.choice((b"", b";", b";", b"; echo", b"|| echo end", b"show x ;"))


def random_script(chance: random.Random, fetches: bool = True) -> bytes:
    """A script of a few lines, most of which run into each other in some way."""
    script = b"#!ipxe" + chance.choice((b"", b" \t", b"\r")) + b"\n"
    ends = (*[b"\n"] * 12, b"\r\n", b"\\\n", b"\\\r\n", b"\\\\\n")
    for _ in range(chance.randint(1, 20)):
        script += random_line(chance, fetches) + chance.choice(ends)
    return script[:-1] if chance.random() < 0.3 else script


def random_start(chance: random.Random) -> Start:
    """A client with an address, whose script fetches nothing, or one without."""
    has_address = chance.random() < 0.5
    script = b"" if chance.random() < 0.02 else random_script(chance, not has_address)
    addresses = [IPv4Address(chance.choice((0, 1, 0x0A0000FE, 0xFFFFFF00))) for _ in range(3)]
    uuid = UUID(int=chance.choice((0, 1 << 127 | 0xABCDEF, (1 << 128) - 1)))
    ip = made.CLIENT.ip if has_address else IPv4Address(0)
    mask, gateway, dns = addresses if has_address else [IPv4Address(0)] * 3
    return replace(made.start(script), ip=ip, uuid=uuid, mask=mask, gateway=gateway, dns=dns)


def random_inputs(chance: random.Random) -> list[Record]:
    """A START, and the times and frames that come after it."""
    start = random_start(chance)
    asked = Received(arp_request(made.SERVER, start.ip))
    times = (Tick(1), Tick(250), Tick(999), Tick(1_000), Tick(1_001), Tick(60_000), asked, asked)
    later: list[Record] = [chance.choice(times) for _ in range(chance.choice((0, 1, 2, 4, 8)))]
    end: list[Record] = chance.choice(([], [], [Off()], [start], [Off(), Tick(1)]))
    return [start, *later, *end]
