#!/usr/bin/env python3
"""Writes the frames of netboot recordings as a pcap file."""

from __future__ import annotations

import argparse
import sys
from dataclasses import dataclass
from pathlib import Path
from typing import Iterable, Iterator

from shared.apart import check_apart
from shared.capture import PcapWriter
from shared.command_line import Refused, run
from shared.output import report, writing
from shared.pairing import paired
from shared.recordings import Timed, input_of, output_of
from shared.records import Received, Record, Sent, Step
from shared.texts import count

DESCRIPTION = """\
Writes the frames of a run as a pcap file that Wireshark and tcpdump open: those that the
client received, from its input recording, and those that it sent, from its output recording.
Time is the sum of the TICKs, from 0. Without an output recording the received frames alone are
written. With one, input records after the run's end are left out: the run did not use them."""

EPILOG = """\
examples:
  tools/boot.py examples/tftp-boot.rec --output boot.out   makes boot.out
  tools/pcap.py examples/tftp-boot.rec boot.out --to boot.pcap
  tools/pcap.py examples/tftp-boot.rec --to received.pcap"""


@dataclass(frozen=True, slots=True)
class TimedFrame:
    """A frame, when it passed in milliseconds, and which way."""

    time: int
    frame: bytes
    is_received: bool


def received_in(timed: Timed) -> Iterator[TimedFrame]:
    if isinstance(timed.record, Received):
        yield TimedFrame(timed.time, timed.record.frame, True)


def frames_of_pair(inputs: Iterator[Timed], records: Iterable[Record]) -> Iterator[TimedFrame]:
    """What was received in each step, and then what was sent in it."""
    time = 0
    for record in records:
        if isinstance(record, Step):
            timed = next(inputs, None)
            if timed is None:
                why = f"the input recording has no record {record.number}: it is another run's"
                raise Refused(why)
            time = timed.time
            yield from received_in(timed)
        elif isinstance(record, Sent):
            yield TimedFrame(time, record.frame, False)


def frames_of(arguments: argparse.Namespace) -> Iterator[TimedFrame]:
    inputs = input_of(arguments.input)
    if arguments.output:
        return frames_of_pair(inputs, paired(output_of(arguments.output), arguments.input))
    return (frame for timed in inputs for frame in received_in(timed))


def parse(words: list[str]) -> argparse.Namespace:
    parser = argparse.ArgumentParser(
        description=DESCRIPTION,
        epilog=EPILOG,
        formatter_class=argparse.RawDescriptionHelpFormatter,
    )
    parser.add_argument("input", type=Path, help="the run's input recording")
    parser.add_argument("output", type=Path, nargs="?", help="the run's output recording")
    parser.add_argument(
        "--to", type=Path, required=True, metavar="FILE", help="the pcap file to be written"
    )
    return parser.parse_args(words)


def pcap(words: list[str]) -> None:
    arguments = parse(words)
    received = sent = 0
    given = {"the input recording": arguments.input, "the output recording": arguments.output}
    check_apart({"--to": arguments.to}, given)
    with writing(arguments.to) as stream:
        writer = PcapWriter(stream)
        for timed in frames_of(arguments):
            writer.put(timed.time, timed.frame)
            received += timed.is_received
            sent += not timed.is_received
    if arguments.output:
        report(arguments.to, f"{arguments.to}: {received} frames received, {sent} sent")
    else:
        report(arguments.to, f"{arguments.to}: {count(received, 'frame')} of the input recording")


if __name__ == "__main__":
    raise SystemExit(run(pcap, sys.argv))
