"""The commands of iPXE and their options, so that what isn't built yet is known from what is misspelled."""

from __future__ import annotations

import re

from shared.records import Command

# a part of a word that stands for a setting in no block, or in that of the device, of whatever kind
PART = re.compile(rb"\$\{(?:net0/)?([A-Za-z0-9_-]+)(?::[a-z0-9]+)?\}")
# Commands of iPXE that aren't run here.
NOT_BUILT = frozenset(
    b"autoboot cert certfree certstat certstore choose colour config console cpair cpuid digest fcels fcstat "
    b"fdt form gdbstub help ibstat ifconf iflinkwait ifstat image imgdecrypt imgextract imgmem "
    b"imgset imgtrust imgverify ipstat iwlist iwstat login lotest md4sum md5sum menu "
    b"neighbour netboot nstat ntp param params pciscan poweroff present profstat prompt pxebs pxeboot read reboot "
    b"route sha1sum sha224sum sha256sum sha384sum sha512_224sum sha512_256sum sha512sum shell "
    b"shim startpxe stoppxe sync time usbscan vcreate vdestroy".split()
)
# Settings that iPXE has of itself and that are never set here, unless a script sets them.
NOT_SET = frozenset(
    b"asset board-serial buildarch busloc bustype chip cwduri cwuri errno linktype loglevel manufacturer memsize netX "
    b"platform product scriptlet serial ssid sysmac syslog unixtime vendor-class vlan".split()
)
# Options of the commands that are run here, by which iPXE knows them; all commands have --help.
OF_ALL = (b"--help", b"-h")
OF_FETCHES = (b"-n", b"--timeout", b"-t", b"--autofree", b"-a")
OF_EXECUTES = (b"-n", b"--timeout", b"-t", b"-a", b"-r")
FETCHES = (b"imgfetch", b"initrd", b"module", b"imgselect", b"kernel", b"imgload")
EXECUTES = (b"imgexec", b"chain", b"boot")
OPTIONS: dict[bytes, tuple[bytes, ...]] = {
    **dict.fromkeys(FETCHES, OF_FETCHES),
    **dict.fromkeys(EXECUTES, OF_EXECUTES),
    b"dhcp": (b"--configurator", b"-c", b"--timeout", b"-t"),
    b"sanhook": (b"-d", b"-n"),
    b"sanboot": (b"-d", b"-n", b"-k", b"--filename", b"-f", b"--extra", b"-e", b"--label", b"-l", b"--uuid", b"-u"),
    b"sanunhook": (b"-d",),
    b"ping": (b"--size", b"-s", b"--count", b"-c", b"--timeout", b"-t", b"--quiet", b"-q"),
}


def before_target(words: tuple[bytes, ...]) -> tuple[bytes, ...]:
    """The words of a command on images up to its URI or name: its options, and the value of `--name`."""
    place = 0
    while place < len(words) and words[place].startswith(b"-"):
        place += 2 if words[place] == b"--name" else 1
    return words[:place]


def target_of(command: Command) -> bytes:
    """The URI or the name of an image that a command on images has, empty where it has none."""
    words = command.words[1:]
    return b"".join(words[len(before_target(words)) :][:1])


def is_ipxe(name: bytes) -> bool:
    """Whether this is a command of iPXE that isn't run here."""
    return name in NOT_BUILT


def unset_in(words: tuple[bytes, ...]) -> bytes | None:
    """The first setting of iPXE in words as they are written that is never set here."""
    named = (found for text in words for found in PART.findall(text))
    return next((name for name in named if name in NOT_SET), None)


def option_of(command: Command) -> bytes | None:
    """The first word of a command that is an option of iPXE for it, and that isn't run here."""
    name, words = command.words[0], command.words[1:]
    known = OPTIONS.get(name, ()) + OF_ALL
    # what follows the name of an image or its URI is for that
    for text in before_target(words) if name in (*FETCHES, *EXECUTES) else words:
        if text == b"--" or not text.startswith(b"-"):
            continue
        option = text.split(b"=", 1)[0] if text.startswith(b"--") else text[:2]
        if option in known:
            return option
    return None
