#!/usr/bin/env python3
"""Leads a client that runs `netboot live` to a network interface, or to a tap."""

from __future__ import annotations

import argparse
import random
import secrets
import sys
import tempfile
import uuid
from contextlib import ExitStack
from pathlib import Path
from typing import Iterator

import boot
import record
from shared import why
from shared.apart import check_apart
from shared.boot_capture import FIRST_OWN_PORT, OWN_PORTS
from shared.capture import PcapWriter
from shared.command_line import give_up_output, run
from shared.devices import Device, HostAddress, Interface, Tap, host_address
from shared.kinds import Status
from shared.live_client import OwnClient, client_of, listen, listening_place
from shared.live_session import ClientFault, Counts, Kept, Overdue, Session
from shared.output import NamedFile, writing
from shared.power import power_switch
from shared.program import program
from shared.progress import Progress
from shared.texts import count, mac

DEFAULT_LISTEN = "127.0.0.1:0"
NO_DONE = 1

DESCRIPTION = """\
Leads a client, `netboot live HOST:PORT`, to a real network: it listens, takes one client, and
gives it START for a script, a FRAME for each frame that comes for the client or for all, and a
TICK for the time that passes. The client's frames go onto the wire. What commands print goes to
standard output, a line for each command, failure and fetch to standard error.

Without --ip the client has no address, and the script begins with `dhcp`. --key, --w and --uuid
are drawn anew for each run and printed, so that no stranger knows a run's ports and numbers
before, and no two machines have the same; a run with the printed ones begins alike.

Ctrl-C or SIGTERM switches the client's power off, which ends the run within two seconds by status
5. The bridge needs root, or CAP_NET_RAW (to make a tap CAP_NET_ADMIN). It ends with the run's
status; with 1 where it couldn't begin or the client failed, 130 where it is interrupted before a
client has come."""

EPILOG = """\
The host should leave the interface alone: where it has an address there, it answers for itself
too, and may refuse what comes for the client. A separate interface, or a tap in a host's bridge,
is better.

examples:
  tools/bridge.py examples/dhcp.ipxe --device eth1 --run
  tools/bridge.py examples/captured.ipxe --device eth1 --ip 10.0.0.2/24 --run --record boot.rec
  tools/bridge.py examples/dhcp.ipxe --device eth1 --listen 127.0.0.1:7000
  tools/bridge.py examples/dhcp.ipxe --tap tap0 --run --output boot.out --pcap boot.pcap"""


def parse(words: list[str]) -> argparse.Namespace:
    parser = argparse.ArgumentParser(
        description=DESCRIPTION,
        epilog=EPILOG,
        formatter_class=argparse.RawDescriptionHelpFormatter,
    )
    parser.add_argument("script", type=Path, help="the file with the first script")
    wire = parser.add_mutually_exclusive_group(required=True)
    wire.add_argument("--device", metavar="NAME", help="an interface of this machine, as eth1")
    wire.add_argument("--tap", metavar="NAME", help="a tap as tap0, which is made where none is there")
    where = "where the client connects (default 127.0.0.1, any port; it is said)"
    parser.add_argument(
        "--listen", type=listening_place, default=DEFAULT_LISTEN, metavar="HOST:PORT", help=where
    )
    parser.add_argument("--run", action="store_true", help="start the built program as the client")
    parser.add_argument("--record", type=Path, metavar="FILE", help="keep the input recording")
    parser.add_argument("--output", type=Path, metavar="FILE", help="keep the output recording")
    parser.add_argument("--pcap", type=Path, metavar="FILE", help="keep the frames of the wire")
    parser.add_argument("--quiet", action="store_true", help="no line for each command and fetch")
    parser.add_argument(
        "--lose", type=percent, default=0.0, metavar="PERCENT", help="lose so many frames by chance, each way"
    )
    record.add_addresses(parser)
    record.add_machine(parser)
    parser.set_defaults(key=None, uuid=None)
    return parser.parse_args(words)


def percent(text: str) -> float:
    value = float(text)
    if not 0 <= value <= 100:
        raise argparse.ArgumentTypeError(f"{text} is not 0 to 100")
    return value


def draw(arguments: argparse.Namespace) -> None:
    """Draws what no two runs have alike, where it isn't given, and says it, so that it can be given again."""
    if arguments.key is None:
        arguments.key = secrets.token_bytes(32)
    if arguments.w is None:
        first = arguments.port
        arguments.w = secrets.randbelow(OWN_PORTS) if first is None else first - FIRST_OWN_PORT
    if arguments.uuid is None:
        arguments.uuid = uuid.uuid4()
    say(f"this run: --w {arguments.w} --uuid {arguments.uuid} --key {arguments.key.hex()}")


def say(line: str) -> None:
    print(f"bridge.py: {line}", file=sys.stderr, flush=True)


def open_device(arguments: argparse.Namespace) -> Device:
    if arguments.tap:
        return Tap(arguments.tap)
    return Interface(arguments.device)


def warn_of_host(device: Device, host: HostAddress | None, client: record.Client) -> None:
    """This machine answers for its own address, and refuses what comes for a port of its own."""
    if host is None:
        return
    if host.ip == client.ip:
        say(f"{device.name} has the client's address, {host.ip}, and this machine answers for it too")
    else:
        say(f"{device.name} has an address of this machine, {host.ip}: an interface that the "
            "machine leaves alone is better")


def addresses_of(arguments: argparse.Namespace, device: Device) -> record.Client:
    """The client's addresses: those given, and the interface's own hardware address."""
    arguments.map_ports = False
    if arguments.mac is None and device.mac is not None:
        arguments.mac = device.mac
    client = record.client_of(arguments, None)
    record.check_addresses(arguments, client)
    return client


def kept_in(stack: ExitStack, arguments: argparse.Namespace, spare: Path) -> tuple[Kept, Path, Path]:
    """The files of a run; input and output are kept beside, where nobody asks, to say why it ended."""
    places = {}
    for name, wanted in (("input", arguments.record), ("output", arguments.output)):
        places[name] = NamedFile(spare / name)
        stack.callback(close, places[name], wanted)
    pcap = None
    if arguments.pcap:
        pcap = PcapWriter(stack.enter_context(writing(arguments.pcap)))
    kept = Kept(places["input"], places["output"], pcap)
    return kept, spare / "input", spare / "output"


def close(file: NamedFile, wanted: Path | None) -> None:
    """Ends a recording, and copies it to where it is wanted."""
    file.close()
    if wanted:
        boot.keep(wanted, file.path, file.path)


def lost(counts: Counts) -> Iterator[str]:
    if counts.joined:
        yield (f"{count(counts.joined, 'frame')} that the card or the other end had joined "
               f"{'was' if counts.joined == 1 else 'were'} cut into {counts.cut_into}")
    if counts.too_long:
        yield f"{count(counts.too_long, 'frame')} longer than 1,522 bytes, and no joined segments, were left out"
    if counts.lost:
        yield f"{count(counts.lost, 'frame')} {'was' if counts.lost == 1 else 'were'} lost by chance, as --lose asks"
    if counts.not_taken:
        yield f"{count(counts.not_taken, 'frame')} came faster than the client took them, and were lost"
    if counts.not_sent:
        yield f"{count(counts.not_sent, 'frame')} of the client could not be sent"


def say_end(session: Session, input_path: Path, output_path: Path) -> int:
    """How the run ended and why, to standard error; the run's status."""
    for line in lost(session.counts):
        say(line)
    counts = session.counts
    say(f"{count(counts.received, 'frame')} received, {counts.sent} sent, {session.now / 1000:.1f} s")
    if session.status is None and session.wants_off:
        say("the power was switched off; the client didn't end in time, and was ended")
        return int(Status.UNFINISHED)
    if session.status is None:
        say("the client ended the connection before the run was over")
        return NO_DONE
    with output_path.open("rb") as output:
        lines = list(why.reasons(output_path, output, input_path))
    is_well = session.status in (Status.HANDED_OFF, Status.ENDED)
    for line in lines[:1] if is_well else lines:
        say(line)
    return int(session.status)


def play(session: Session, start: bytes, script: Path, own: OwnClient | None) -> None:
    """The session until it ends, or the client fails, which is said."""
    try:
        with power_switch(session):
            say(f"a client runs {script} on {session.device.name}, as {mac(session.mac)}")
            session.run(start)
    except Overdue:
        # nobody reads what is printed
        give_up_output()
    except ClientFault as fault:
        say(str(fault))
    if own is not None and session.status is None:
        own.kill()


def open_all(stack: ExitStack, arguments: argparse.Namespace) -> tuple[Device, record.Client]:
    """The device, and the client's addresses on it."""
    device = open_device(arguments)
    stack.callback(device.close)
    draw(arguments)
    client = addresses_of(arguments, device)
    warn_of_host(device, host_address(device.name), client)
    return device, client


def check_files(arguments: argparse.Namespace) -> None:
    outputs = {"--record": arguments.record, "--output": arguments.output, "--pcap": arguments.pcap}
    check_apart(outputs, {"the script": arguments.script})


def bridge(words: list[str]) -> int:
    arguments = parse(words)
    check_files(arguments)
    script = record.read_script(arguments.script)
    with ExitStack() as stack:
        device, client = open_all(stack, arguments)
        found = program() if arguments.run else None
        start = record.start_of(arguments, client, script)
        listener = stack.enter_context(listen(arguments.listen))
        spare = Path(stack.enter_context(tempfile.TemporaryDirectory(prefix="netboot-")))
        kept, input_path, output_path = kept_in(stack, arguments, spare)
        connection, own = stack.enter_context(client_of(listener, found, say))
        progress = Progress(is_quiet=arguments.quiet)
        share, chance = arguments.lose / 100, random.Random()
        loses = (lambda: chance.random() < share) if share else (lambda: False)
        session = Session(connection, device, client.mac, kept, progress.take, progress.note, loses)
        play(session, start, arguments.script, own)
        progress.end()
        kept.input.flush()
        kept.output.flush()
        return say_end(session, input_path, output_path)


if __name__ == "__main__":
    raise SystemExit(run(bridge, sys.argv))
