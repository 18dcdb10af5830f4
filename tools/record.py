#!/usr/bin/env python3
"""Makes an input recording for netboot from a script, addresses and a capture."""

from __future__ import annotations

import argparse
import re
import sys
from contextlib import ExitStack
from dataclasses import dataclass
from ipaddress import IPv4Address
from pathlib import Path
from typing import BinaryIO, Callable, Iterator
from uuid import UUID

from shared import addresses
from shared.apart import check_apart
from shared.boot_capture import (
    FIRST_OWN_PORT,
    OWN_PORTS,
    Conversion,
    Reader,
    Request,
    Taken,
    first_request,
    reopenable,
    warnings,
)
from shared.capture import NANOSECONDS
from shared.command_line import STANDARD, Refused, opened, run
from shared.output import report, writing
from shared.random_words import words_of
from shared.replay_plan import Addresses, Plan
from shared.records import MAX_TICK, Start, Tick, spell
from shared.texts import count, mac

DEFAULT_MAC = "52:54:00:00:00:01"
# a recording has at most a day, and may begin anywhere in a capture of up to a year
DAY = 86_400
YEAR = 366 * DAY
# what START can hold, and one byte more, so that a longer script is seen to be one
READ_AT_MOST = 130_997

DESCRIPTION = """\
Makes an input recording for netboot: a START record with the script and the addresses and,
with --capture, the frames that a device received, as FRAME and TICK records.
docs/RECORDS.md describes the format."""

EPILOG = """\
An empty script file asks for the built-in boot script. `-` is standard input or output.

Of a capture (pcap or pcapng; Ethernet, or Linux cooked as of `tcpdump -i any`) the frames are
taken that go to the address --mac or to a group address and do not come from --mac. Time is
counted in whole milliseconds from the capture's first packet to its last, or as --from, --trim
and --until say; a frame stamped earlier than one before it comes right after that one. A pause
longer than --tick becomes several TICKs, because a timer fires once in a TICK.

--mac, --ip and --w that are not given are taken from the capture's first request by TFTP or HTTP,
and said. Frames that a card has joined are cut into segments.

examples:
  tools/record.py examples/hello.ipxe hello.rec
  tools/record.py examples/captured.ipxe boot.rec --ip 10.0.0.2/24 --capture examples/captured-boot.pcap
  tools/record.py examples/captured.ipxe silence.rec --ip 10.0.0.2/24 --until 16"""


def key(text: str) -> bytes:
    if not re.fullmatch("[0-9a-fA-F]{64}", text):
        raise ValueError(text)
    return bytes.fromhex(text)


def ranged(low: int, high: int) -> Callable[[str], int]:
    """A reader of decimal numbers within a range."""

    def number(text: str) -> int:
        value = int(text)
        if not low <= value <= high:
            raise argparse.ArgumentTypeError(f"{text} is not {low} to {high}")
        return value

    return number


def seconds(most: int) -> Callable[[str], float]:
    """A reader of seconds, with a fraction or without."""

    def number(text: str) -> float:
        if not re.fullmatch(r"[0-9]{1,8}(\.[0-9]+)?", text) or float(text) > most:
            raise argparse.ArgumentTypeError(f"{text} is no number of seconds, 0 to {most}")
        return float(text)

    return number


@dataclass(frozen=True, slots=True)
class Client:
    """The client's addresses and its first own port's number, given or found."""

    mac: bytes
    ip: IPv4Address
    mask: IPv4Address
    w: int


def client_of(
    arguments: argparse.Namespace, request: Request | None, is_leased: bool = False
) -> Client:
    """What was given; what wasn't is the request's, if there is one and the run takes no lease."""
    ip, mask = addresses.UNSET, addresses.UNSET
    if request and not is_leased:
        ip = addresses.UNSET if arguments.ip else IPv4Address(request.ip)
    if arguments.ip:
        ip, mask = arguments.ip.ip, arguments.ip.mask or addresses.UNSET
    if arguments.mask is not None:
        if mask not in (addresses.UNSET, arguments.mask):
            raise Refused(f"--mask {arguments.mask} and --ip .../{mask} differ")
        mask = arguments.mask
    device = arguments.mac or (request.mac if request else addresses.mac(DEFAULT_MAC))
    return Client(device, ip, mask, own_port_number(arguments, request))


def own_port_number(arguments: argparse.Namespace, request: Request | None) -> int:
    if arguments.w is not None:
        return arguments.w
    if arguments.port is not None:
        return arguments.port - FIRST_OWN_PORT
    if request and request.port >= FIRST_OWN_PORT and not arguments.map_ports:
        return request.port - FIRST_OWN_PORT
    return 0


def found(arguments: argparse.Namespace, request: Request, client: Client) -> str:
    """What the capture's request showed that wasn't given."""
    parts = []
    if arguments.mac is None and request.mac != addresses.mac(DEFAULT_MAC):
        parts.append(f"--mac {mac(request.mac)}")
    if arguments.ip is None:
        parts.append(f"--ip {client.ip}")
    if arguments.w is None and arguments.port is None and client.w:
        parts.append(f"--w {client.w} (port {request.port})")
    return f"taken from the capture's first {request.protocol} request: {', '.join(parts)}" if parts else ""


def given_addresses(arguments: argparse.Namespace) -> Addresses | None:
    """START's addresses, where that of the client was given."""
    if arguments.ip is None:
        return None
    mask = arguments.ip.mask or arguments.mask or addresses.UNSET
    return Addresses(arguments.ip.ip, mask, arguments.gateway, arguments.dns)


def take_addresses(arguments: argparse.Namespace, plan: Plan) -> None:
    """What a plan says of START's addresses, where nothing else was given."""
    found = plan.addresses()
    if arguments.mac is None:
        arguments.mac = plan.request.mac
    if found.ip == addresses.UNSET:
        return
    arguments.ip = addresses.HostInNet(found.ip, arguments.mask or found.mask or None)
    for name, value in (("gateway", found.gateway), ("dns", found.dns)):
        if getattr(arguments, name) == addresses.UNSET:
            setattr(arguments, name, value)


def check_addresses(arguments: argparse.Namespace, client: Client) -> None:
    if client.ip == addresses.UNSET:
        for name in ("mask", "gateway", "dns"):
            if getattr(arguments, name) not in (None, addresses.UNSET):
                raise Refused(f"--{name} needs --ip: without an address the client ignores it")
    fault = addresses.fault(client.ip, client.mask, arguments.gateway)
    if fault:
        raise Refused(fault)


def start_of(arguments: argparse.Namespace, client: Client, script: bytes) -> bytes:
    start = Start(
        version=1,
        mac=client.mac,
        uuid=arguments.uuid,
        key=arguments.key,
        arch=arguments.arch,
        w=client.w,
        ip=client.ip,
        mask=client.mask,
        gateway=arguments.gateway,
        dns=arguments.dns,
        script=script,
    )
    try:
        return spell(start)
    except ValueError as refusal:
        raise Refused(f"{arguments.script}: {refusal}") from refusal


def read_script(path: Path) -> bytes:
    with opened(path) as stream:
        script = stream.read(READ_AT_MOST)
    if len(script) == READ_AT_MOST:
        raise Refused(f"{path}: the script has more than {READ_AT_MOST - 1} bytes")
    return script


def add_addresses(parser: argparse.ArgumentParser) -> None:
    unset = addresses.UNSET
    parser.add_argument(
        "--mac", type=addresses.mac, help=f"the device's address (default {DEFAULT_MAC})"
    )
    parser.add_argument(
        "--ip",
        type=addresses.host_in_net,
        metavar="IP[/N]",
        help="the client's address, with its net's prefix, as 10.0.0.2/24",
    )
    parser.add_argument("--mask", type=addresses.mask, help="its network mask, if not by --ip")
    parser.add_argument("--gateway", type=addresses.host, default=unset, help="its gateway")
    parser.add_argument("--dns", type=addresses.host, default=unset, help="its name server")


def add_machine(parser: argparse.ArgumentParser) -> None:
    parser.add_argument("--uuid", type=UUID, default=UUID(int=0), help="the machine's UUID")
    parser.add_argument(
        "--key", type=key, default="0" * 64, help="64 hexadecimal digits, for starting numbers"
    )
    parser.add_argument("--arch", type=ranged(0, 65_535), default=0, help="DHCP's client type")
    port = parser.add_mutually_exclusive_group()
    port.add_argument("--w", type=ranged(0, OWN_PORTS - 1), help="own ports begin at 49152 + W")
    port.add_argument(
        "--port",
        type=ranged(FIRST_OWN_PORT, FIRST_OWN_PORT + OWN_PORTS - 1),
        metavar="P",
        help="own ports begin at P; another spelling of --w",
    )


def add_capture(parser: argparse.ArgumentParser) -> None:
    parser.add_argument("--capture", type=Path, metavar="FILE", help="a pcap or pcapng file")
    parser.add_argument(
        "--skip", action="store_true", help="leave out frames that are too long, short or cut"
    )
    parser.add_argument(
        "--fix-checksums",
        action="store_true",
        help="fill in the checksums that the capturing machine left to its network card",
    )
    parser.add_argument(
        "--map-ports",
        action="store_true",
        help="lead answers to the capture's n-th request, by TFTP or HTTP, to open n",
    )


def add_times(parser: argparse.ArgumentParser) -> None:
    begin = parser.add_mutually_exclusive_group()
    begin.add_argument(
        "--from",
        dest="begin",
        type=seconds(YEAR),
        metavar="S",
        help="time begins S seconds after the capture's first packet",
    )
    begin.add_argument(
        "--trim", action="store_true", help="time begins at the first frame from or to --mac"
    )
    until = "time runs to S seconds after its beginning"
    parser.add_argument("--until", type=seconds(DAY), metavar="S", help=until)
    longest = "the longest TICK, in milliseconds (default 250)"
    parser.add_argument(
        "--tick", type=ranged(1, MAX_TICK), default=250, metavar="MS", help=longest
    )


def add_options(parser: argparse.ArgumentParser) -> None:
    """The options beside the files; boot.py has them too."""
    add_addresses(parser)
    add_machine(parser)
    add_capture(parser)
    add_times(parser)


def parse(words: list[str]) -> argparse.Namespace:
    parser = argparse.ArgumentParser(
        description=DESCRIPTION,
        epilog=EPILOG,
        formatter_class=argparse.RawDescriptionHelpFormatter,
    )
    parser.add_argument("script", type=Path, help="the file with the first script")
    parser.add_argument("recording", type=Path, help="the input recording to be written")
    add_options(parser)
    return parser.parse_args(words)


def taken_of(arguments: argparse.Namespace, client: Client, plan: Plan | None, script: bytes) -> Taken:
    before = plan.opens_before() if plan else 0

    def own_port(number: int) -> int:
        return FIRST_OWN_PORT + (client.w + before + number) % OWN_PORTS

    def own_number(number: int) -> int:
        return words_of(arguments.key, before + number)[0]

    return Taken(
        device=client.mac,
        longest_tick=arguments.tick,
        begin=None if arguments.begin is None else int(arguments.begin * NANOSECONDS),
        is_trimmed=arguments.trim,
        until=None if arguments.until is None else int(arguments.until * 1000),
        skips=arguments.skip,
        fills=arguments.fix_checksums,
        own_port=own_port if arguments.map_ports else None,
        own_number=own_number,
        script=script,
        spans=plan.spans() if plan else (),
        first=plan.answer() if plan else None,
        lease=plan.replayed(arguments.key) if plan else None,
    )


def warn(line: str) -> None:
    print(f"record.py: warning: {line}", file=sys.stderr)


def silence(until: int, longest: int) -> Iterator[Tick]:
    """TICKs alone, for this time in milliseconds."""
    for now in range(0, until, longest):
        yield Tick(min(longest, until - now))


def write_without(arguments: argparse.Namespace, script: bytes) -> str:
    """The recording of a script without a capture: START, and silence as far as --until says."""
    client = client_of(arguments, None)
    check_addresses(arguments, client)
    start, number = start_of(arguments, client, script), 1
    until = int((arguments.until or 0) * 1000)
    with writing(arguments.recording) as stream:
        stream.write(start)
        for number, tick in enumerate(silence(until, arguments.tick), 2):
            stream.write(spell(tick))
    return count(number, "record")


def write_with(
    arguments: argparse.Namespace, script: bytes, reader: Reader, plan: Plan | None = None
) -> Conversion:
    """The recording of a script and a capture; what is to be known of it goes to warnings."""
    request = plan.request if plan else first_request(reader, arguments.mac)
    client = client_of(arguments, request, plan is not None and plan.is_leased)
    check_addresses(arguments, client)
    if request and plan is None and found(arguments, request, client):
        print(f"record.py: {found(arguments, request, client)}", file=sys.stderr)
    if client.ip != addresses.UNSET or request:
        reader.known[request.ip if plan and request else client.ip.packed] = client.mac
    start = start_of(arguments, client, script)
    conversion = Conversion(reader, taken_of(arguments, client, plan, script))
    with writing(arguments.recording) as stream:
        write_records(start, conversion, stream)
    for line in warnings(conversion, client.w):
        warn(line)
    return conversion


def write_records(start: bytes, conversion: Conversion, stream: BinaryIO) -> None:
    stream.write(start)
    for record_ in conversion.records():
        conversion.met.records += 1
        stream.write(spell(record_))


def size_of(conversion: Conversion) -> str:
    """What was written, in numbers: START counts too."""
    met = conversion.met
    records = count(met.records + 1, "record")
    return f"{records}; {met.taken} of {count(met.packets, 'packet')}, {conversion.now / 1000:.3f} s"


def summary(conversion: Conversion) -> str:
    """What was written, and what was changed."""
    met = conversion.met
    parts = [size_of(conversion)]
    if conversion.taken.fills and met.unfilled:
        parts.append(f"checksums of {count(met.unfilled, 'frame')} filled in")
    if conversion.taken.own_port and met.readdressed:
        parts.append(f"ports of {count(met.readdressed, 'frame')} changed")
    if conversion.taken.own_port and met.acknowledged:
        parts.append(f"ports and numbers of {count(met.acknowledged, 'segment')} changed")
    if met.joined:
        parts.append(f"{count(met.joined, 'joined frame')} cut into {met.cut_into}")
    return ", ".join(parts)


def make(arguments: argparse.Namespace) -> str:
    """Writes the recording, and returns what was written."""
    given = {"the script": arguments.script, "--capture": arguments.capture}
    check_apart({"the recording": arguments.recording}, given)
    if arguments.script == arguments.capture == STANDARD:
        raise Refused("script and capture can't both be standard input")
    script = read_script(arguments.script)
    if not arguments.capture:
        return write_without(arguments, script)
    with ExitStack() as stack:
        path = stack.enter_context(reopenable(arguments.capture))
        return summary(write_with(arguments, script, Reader(path, arguments.capture, {})))


def record(words: list[str]) -> None:
    arguments = parse(words)
    said = make(arguments)
    report(arguments.recording, f"{arguments.recording}: {said}")


if __name__ == "__main__":
    raise SystemExit(run(record, sys.argv))
