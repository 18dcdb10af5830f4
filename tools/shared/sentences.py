"""The one sentence on how a run ended, for somebody who runs the network and not the program."""

from __future__ import annotations

import re
from ipaddress import IPv4Address
from typing import NamedTuple

from shared.causes import MEANING, WHAT, Cause, Code
from shared.drive_words import Lost, of_drive_words
from shared.drives import host_in, is_about_drives
from shared.host_names import host_fault
from shared.ipxe import EXECUTES, FETCHES, is_ipxe, option_of, target_of, unset_in
from shared.leases import Lease
from shared.links import Link, no_name_server, no_route
from shared.records import Command, Start
from shared.script_text import command_of, lines_of, script_of
from shared.setting_names import BLOCKS, LEASED, MOST_SETTINGS, MOST_VALUE, READS, block_of, kind_of
from shared.setting_names import name_fault, part_fault, place_of
from shared.texts import word

NUMBERS = ("no", "one", "two", "three", "four", "five", "six", "seven", "eight", "nine", "ten")
TIMES = ("never", "once", "twice")
MOST_WORDS_BYTES = 4_096
MOST_OPENS = 16_384
# the numbers of TooLong and TooMany for a setting, of TooLong for a URI, and of Full for opens
LONG_VALUE, MANY_SETTINGS, LONG_URI, NO_OPEN = 2, 5, 7, 2
# of TooMany for images and scripts, and of TooLong for a script's line and text
MANY_IMAGES, MANY_SCRIPTS, LONG_LINE, LONG_TEXT = 3, 4, 1, 5
MOST_IMAGES, MOST_BODIES, MOST_LINE, MOST_SCRIPT = 32, 536_870_912, 4_096, 1_048_576
OF_SETTINGS = (b"set", b"clear", b"show", b"inc")
OF_DEVICES = (b"ifopen", b"ifclose", b"dhcp")
OF_FILES = (*FETCHES, *EXECUTES)
# the URIs that are fetched
BUILT_URI = "`http://HOST/PATH`"
# the host of a URI, after a user's name if there is one
HOST_OF = re.compile(rb"//(?:[^/?#@]*@)?([^/:?#]*)")
# the port of a URI, as it is written
PORT_OF = re.compile(rb"//[^/?#]*:([^]/:?#]*)(?:[/?#]|$)")
MOST_PORT = 65_535

USAGES = {
    b"echo": "echo [-n] [text]",
    b"exit": "exit [n], n from 0 to 255",
    b"goto": "goto LABEL",
    **{name: f"{name.decode()} [--name NAME] URI [ARGUMENTS]" for name in FETCHES},
    **{name: f"{name.decode()} [--name NAME] [--autofree] [--replace] [URI] [ARGUMENTS]" for name in EXECUTES},
    b"imgargs": "imgargs NAME [ARGUMENTS]",
    b"imgfree": "imgfree [NAMES]",
    b"imgstat": "imgstat",
    b"isset": "isset [WORD]",
    b"iseq": "iseq A B",
    b"set": "set NAME [VALUE]",
    b"clear": "clear NAME",
    b"show": "show NAME",
    b"inc": "inc NAME [n], n from -2147483648 to 2147483647",
    b"ifopen": "ifopen [net0]",
    b"ifclose": "ifclose [net0]",
    b"dhcp": "dhcp [net0]",
    b"ping": "ping HOST",
    b"nslookup": "nslookup NAME HOST",
    b"sleep": "sleep SECONDS, from 0 to 4000000",
    b"sanhook": "sanhook [--drive N] [--no-describe] URI, N from 128 to 255",
    b"sanboot": "sanboot [--drive N] [--no-describe] [--keep] [URI], N from 128 to 255",
    b"sanunhook": "sanunhook [--drive N], N from 128 to 255",
}

# causes by which words are refused that may be options of iPXE
BY_OPTION = (Code.USAGE, Code.BAD_NAME, Code.BAD_URI, Code.NO_SCHEME)


def shown(name: bytes) -> str:
    """A name within a sentence."""
    return name.decode("utf-8", "backslashreplace")


def times(number: int) -> str:
    if number < len(TIMES):
        return TIMES[number]
    return f"{NUMBERS[number] if number < len(NUMBERS) else number} times"


def seconds(milliseconds: int) -> str:
    return f"{milliseconds / 1000:g} s"


class Met(NamedTuple):
    """What a command met that failed: the server of its last open, the name that one looked up, and the link that
    it had, with the lease that this has where it is known."""

    server: str | None = None
    looked_up: bytes | None = None
    link: Link = Link()
    lease: Lease | None = None
    # the drive's open that ended last by itself
    lost: Lost | None = None


def of_local(cause: Cause, command: Command | None, start: Start | None, met: Met = Met()) -> str:
    """On a failure that no server took part in, of a command."""
    if cause.code is Code.NO_ROUTE:
        return no_route(met.server or str(IPv4Address(cause.a)), start, met.link, met.lease)
    if command is None:
        return f"{MEANING[cause.code]}: {cause}" if cause.code in WHAT else MEANING[cause.code]
    if not command.expanded:
        return _unexpanded(cause, command)
    name, option = command.words[0], option_of(command)
    if option and cause.code in BY_OPTION:
        return f"the option `{shown(option)}` of `{shown(name)}` isn't built yet"
    said = of_drive_words(cause, command, met.lost) or _of_file(cause, command) or _of_images(cause, command) or _of_setting(cause, command, start)
    said = said or _of_name(cause, command, met)
    return said or _of_command(cause, command, start) or f"{word(name)}: {MEANING[cause.code]}"


def _of_file(cause: Cause, command: Command) -> str:
    """On a file's URI, or on what the file is; empty if it isn't about these."""
    name, uri = command.words[0], target_of(command) if command.words[0] in OF_FILES else command.words[-1]
    match cause.code:
        case Code.BAD_URI:
            return _bad_uri(uri)
        case Code.NO_SCHEME:
            return f"{word(uri)} isn't fetched: only {BUILT_URI} and `tftp://HOST/PATH` are"
        case Code.BAD_NAME if name in OF_FILES:
            return _bad_name_of(_host_in(command))
        case Code.TOO_LONG if name in OF_FILES and cause.a == LONG_URI:
            return f"the path of {word(uri)} has more than 1024 bytes, or its image's name more than 255"
        case Code.NOT_BOOTABLE:
            which = word(uri) if uri else "the selected image"
            return f"{which} can't be booted: it isn't a script, a kernel for x86, an ELF file or an EFI program"
    return ""


def _of_images(cause: Cause, command: Command) -> str:
    """On the list of images, or on a script that runs from it; empty if it isn't about these."""
    name, words = command.words[0], command.words
    match cause.code:
        case Code.NO_IMAGE if name in EXECUTES:
            return "no image is selected"
        case Code.NO_IMAGE if len(words) > 2 and name == b"imgfree":
            return f"one of {', '.join(word(text) for text in words[1:])} is no image, and none is freed"
        case Code.NO_IMAGE if len(words) > 1:
            return f"there is no image {word(words[1])}"
        case Code.TOO_MANY if cause.a == MANY_IMAGES:
            return f"there are {MOST_IMAGES} images, the most, and this is another"
        case Code.TOO_MANY if cause.a == MANY_SCRIPTS:
            return "eight scripts are within one another, the most, and this would be another"
        case Code.TOO_LARGE if name in OF_FILES and cause.a == 2:
            return f"all images together would have more than {MOST_BODIES} bytes"
        case Code.TOO_LONG if name in EXECUTES and cause.a == LONG_LINE:
            return f"a line of the script that it runs has more than {MOST_LINE} bytes"
        case Code.TOO_LONG if name in EXECUTES and cause.a == LONG_TEXT:
            return f"the script that it runs has more than {MOST_SCRIPT} bytes"
    return ""


def _of_setting(cause: Cause, command: Command, start: Start | None) -> str:
    """On a setting; empty if it isn't about one."""
    name, words = command.words[0], command.words
    match cause.code:
        case Code.BAD_NAME if name in OF_SETTINGS and len(words) > 1:
            return _bad_name(words[1])
        case Code.BAD_VALUE if name in OF_SETTINGS and len(words) > 1:
            return _bad_value(words)
        case Code.FALSE:
            return _false(words) + _of_unset(command, start)
        case Code.TOO_LONG if cause.a == LONG_VALUE and len(words) > 1:
            return f"the value for `{shown(words[1])}` has more than {MOST_VALUE} bytes"
        case Code.TOO_MANY if cause.a == MANY_SETTINGS and name == b"dhcp":
            return f"the lease has more than {MOST_SETTINGS} settings, the most of a block, and none of it is kept"
        case Code.TOO_MANY if cause.a == MANY_SETTINGS and len(words) > 1:
            return f"{place_of(words[1])} has {MOST_SETTINGS} settings, the most, and `{shown(words[1])}` is another"
    return ""


def _of_name(cause: Cause, command: Command, met: Met) -> str:
    """On a device, a host or an open; empty if it isn't about these."""
    name, words = command.words[0], command.words
    match cause.code:
        case Code.BAD_NAME if name in OF_DEVICES:
            return f"there is no device {word(words[-1])}, only `net0`"
        case Code.BAD_NAME if name == b"ping" and len(words) > 1:
            return _bad_name_of(_host_in(command))
        case Code.BAD_NAME if name == b"nslookup" and len(words) > 2:
            return _bad_look_up(words[1], words[2])
        case Code.NO_SERVER:
            return no_name_server(_host_in(command), met.lease)
        case Code.FULL if cause.a == NO_OPEN:
            return _no_open(word(name), met.looked_up)
    return ""


def _of_command(cause: Cause, command: Command, start: Start | None) -> str:
    """On the command itself, its words or its label; empty if it isn't about these."""
    name = command.words[0]
    match cause.code:
        case Code.NO_LABEL:
            return _no_label(command, start)
        case Code.UNKNOWN:
            return _unknown(name)
        case Code.USAGE if name in USAGES:
            return f"the words don't fit the command: `{USAGES[name]}`"
        case Code.EXIT:
            is_built_in = command.depth == 1 and start is not None and not start.script
            which = "built-in script" if is_built_in else "script itself"
            return f"the {which} ended in failure, by `exit {cause.a}`"
    return ""


def _unknown(name: bytes) -> str:
    """On a first word that is the name of no command."""
    if not name:
        return "the command has no name: its first word is empty, as expanded"
    if name.startswith(b":"):
        return f"{word(name)} is a label only where nothing else stands on its line"
    if is_ipxe(name):
        return f"the command `{name.decode()}` isn't built yet"
    return f"{word(name)} is no command, of iPXE neither"


def _unexpanded(cause: Cause, command: Command) -> str:
    """On a command whose words stand as they are written."""
    if cause.code is Code.BAD_NAME:
        why = part_fault(command.words) or "a part `${..}` comes to no name of a setting"
    else:
        why = f"as expanded they have more than {MOST_WORDS_BYTES} bytes"
    return f"the words can't be expanded: {why}"


def _bad_name(name: bytes) -> str:
    """On a command of settings whose name is none, or whose block isn't there."""
    fault = name_fault(name)
    if fault:
        return fault
    if block_of(name) == LEASED:
        return f"{place_of(name)} isn't there, so nothing is set in it: the client holds no lease"
    blocks = " and ".join(f"`{shown(block)}`" for block in BLOCKS)
    return f"{place_of(name)} isn't there, so nothing is set in it: there is the root, without a name, and {blocks}"


def _bad_host(host: bytes) -> str | None:
    """On a host that is no address, and no name either."""
    fault = host_fault(host)
    return f"{word(host)} is no name of a host: {fault}" if fault else None


def _bad_name_of(host: bytes) -> str:
    """On a host that is no address, and no name either, at least with `domain` after it."""
    return _bad_host(host) or f"{word(host)} is no name of a host with `domain` after it"


def _host_in(command: Command) -> bytes:
    """The host that a command names: in its URI, or as its last word."""
    if is_about_drives(command):
        return host_in(command.words[-1])
    found = HOST_OF.search(target_of(command)) if command.words[0] in OF_FILES else None
    return found.group(1) if found else command.words[-1]


def _bad_look_up(name: bytes, host: bytes) -> str:
    """On a look-up whose setting is none or can't be there, or whose host is none."""
    block = block_of(name)
    if name_fault(name) or block not in (None, *BLOCKS, LEASED):
        return _bad_name(name)
    if block == LEASED and not _bad_host(host):
        return _bad_name(name)
    return _bad_name_of(host)


def _no_open(name: str, looked_up: bytes | None) -> str:
    """On a command that needs an open, where it has looked its server up or not."""
    if looked_up is None:
        return f"{MOST_OPENS} opens were made, the most of a run, and {name} needs another"
    host = word(looked_up)
    return f"the look-up of {host} was the last of {MOST_OPENS} opens, the most of a run, and {name} needs another"


def _bad_value(words: tuple[bytes, ...]) -> str:
    name = shown(words[1])
    if words[0] == b"inc":
        by = shown(words[2]) if len(words) > 2 else "1"
        return f"`{name}` can't grow by {by}: it is no number, or the sum is out of its kind's range"
    kind = kind_of(words[1])
    what = f"which takes {READS[kind]}" if kind in READS else "which there isn't"
    return f"{word(b' '.join(words[2:]))} is no value for `{name}` of the kind {shown(kind)}, {what}"


def _false(words: tuple[bytes, ...]) -> str:
    """On a test that isn't true; it is no fault where its list goes on."""
    if words[0] == b"iseq" and len(words) > 2:
        return f"{word(words[1])} and {word(words[2])} aren't equal"
    return "nothing is set there: the word of `isset` is empty"


def _of_unset(command: Command, start: Start | None) -> str:
    """What a test ends with where the first script asks there for a setting that iPXE alone has; else nothing."""
    line = script_of(start.script).get(command.line) if start and command.depth == 1 else None
    name = unset_in(command_of(line.text, command.place)) if line else None
    return f"; `{shown(name)}` is a setting of iPXE that isn't built yet" if name else ""


def seconds_of_sleep(command: Command) -> int | None:
    """How long a command sleeps, where it is one that does."""
    if command.words[0] != b"sleep" or len(command.words) != 2 or not command.expanded:
        return None
    found = re.fullmatch(rb"0x[0-9A-Fa-f]+|0|[1-9][0-9]*", command.words[1])
    return int(found[0], 0) if found else None


def of_sleep(command: Command, passed: int | None) -> str | None:
    """On a command that sleeps: how much of its time has passed, where that is known."""
    total = seconds_of_sleep(command)
    if total is None:
        return None
    return f"was in a sleep of {total} s" if passed is None else f"slept: {seconds(passed)} of {total} s had passed"


def _no_label(command: Command, start: Start | None) -> str:
    """On a `goto` whose label isn't there, with a line that is nearly it."""
    name = command.words[-1]
    said = f"the script has no line `:{name.decode('utf-8', 'backslashreplace')}` to go to"
    if start is None or command.depth != 1:
        return said
    for line in lines_of(start.script):
        label = line.label()
        if label and label.lower() == name.lower():
            return f"{said}; line {line.first} is {word(b':' + label)}"
        if label is None and line.content().startswith((b":" + name + b" ", b":" + name + b"\t")):
            return f"{said}; line {line.first} has more than the label, and so is none"
    return said


def _bad_uri(uri: bytes) -> str:
    port = PORT_OF.search(uri)
    if port and port[1] and not (re.fullmatch(rb"[0-9]+", port[1]) and int(port[1]) <= MOST_PORT):
        return f"the port in {word(uri)} is no number from 0 to {MOST_PORT}"
    if re.match(rb"[A-Za-z][A-Za-z0-9+.-]*:", uri):
        whole = "`tftp://HOST/PATH`" if uri[:5].lower() == b"tftp:" else BUILT_URI
        return f"{word(uri)} is no URI that names a server, as {whole} does"
    return f"{word(uri)} is only the end of a URI, and it doesn't go with `next-server`; {BUILT_URI} is a whole one"
