#!/usr/bin/env python3
"""Runs a script, a recording or a capture from end to end, and shows what came of it."""

from __future__ import annotations

import argparse
import shutil
import signal
import subprocess
import sys
import tempfile
from pathlib import Path

import record
import show
from shared import why
from shared.apart import check_apart
from shared.boot_capture import Reader, reopenable
from shared.command_line import Refused, run
from shared.output import writing
from shared.processes import end_group
from shared.program import BUILT, CRATE, is_built, program
from shared.recordings import CAPTURE_MAGICS, OUTPUT_BIT, TYPE_OFFSET, output_of
from shared.records import Text
from shared.replay_plan import Plan, Wishes, plan_of

__all__ = ["BUILT", "CRATE", "is_built"]

NO_REQUEST = "it has no request by TFTP or HTTP, so --script must say what to run"
ENDED_WELL = (0, 3)
STATUSES = {
    0: "an image or a disk was handed off",
    3: "the script ended in Ok",
    4: "the script ended in a failure",
    5: "the input ended, or the power was switched off, before the script had ended",
    6: "the next bytes of the input are no record that may come",
    7: "a read failed",
    8: "a write failed",
    9: "memory ran out",
    10: "the files can't be opened",
    11: "there are too many records",
}

DESCRIPTION = """\
Runs netboot over a script, an input recording or a capture, and shows what the commands printed,
then one line where the run ended well, and else why it didn't. Ends with the run's status.

The built program, crates/netboot/out/netboot, is used where it is newer than its sources. Else
the toolchain's `rt try` compiles them once, unproved; what it makes is kept in the user's cache,
XDG_CACHE_HOME/netboot or ~/.cache/netboot, until a source changes."""

EPILOG = """\
Of a capture the first file is fetched that a client asked for (by TFTP or HTTP), and the lease taken that it
took before: what came before and between is left out, and the answers get the numbers, ports and
checksums that this run needs, each of which is said. --static gives the client the lease's address
without a lease, --script runs another script, and --from, --trim, --w or --port choose by hand.

examples:
  tools/boot.py examples/hello.ipxe
  tools/boot.py examples/captured.ipxe --ip 10.0.0.2/24 --until 17
  tools/boot.py examples/captured-lease.pcap
  tools/boot.py examples/tftp-boot.rec --output boot.out"""


def parser() -> argparse.ArgumentParser:
    made = argparse.ArgumentParser(
        description=DESCRIPTION,
        epilog=EPILOG,
        formatter_class=argparse.RawDescriptionHelpFormatter,
    )
    made.add_argument("file", type=Path, help="a script, an input recording or a capture")
    made.add_argument("--output", type=Path, metavar="FILE", help="keep the output recording")
    made.add_argument("--program", type=Path, help="the program to run, in place of the built one")
    made.add_argument("--trace", action="store_true", help="show the trace, a line for each record")
    made.add_argument("--script", type=Path, help="the script to run over a capture")
    made.add_argument(
        "--static", action="store_true", help="a capture's lease gives START's address, and isn't replayed"
    )
    made.add_argument("--input", type=Path, metavar="FILE", help="keep the input recording")
    record.add_options(made.add_argument_group("options of record.py, for a script or a capture"))
    return made


def refuse_for_recording(arguments: argparse.Namespace) -> None:
    """A recording has its script, its addresses and its frames: options for them do nothing."""
    usual = parser().parse_args([str(arguments.file)])
    for name in vars(arguments).keys() - {"file", "output", "program", "trace"}:
        if getattr(arguments, name) != getattr(usual, name):
            option = "from" if name == "begin" else name.replace("_", "-")
            raise Refused(f"{arguments.file} is a recording already, so --{option} can't change it")


def kind_of(path: Path) -> str:
    """Whether a file is a recording, a capture or else a script, by its first bytes."""
    with path.open("rb") as stream:
        head = stream.read(TYPE_OFFSET + 1)
    if head[:TYPE_OFFSET] in CAPTURE_MAGICS:
        return "capture"
    if head[:1] != b"\0":
        return "script"
    if head[TYPE_OFFSET:] and head[TYPE_OFFSET] & OUTPUT_BIT:
        raise Refused(f"{path} is an output recording: show.py shows what it has")
    return "recording"


def progress(line: str) -> None:
    print(f"boot.py: {line}", file=sys.stderr, flush=True)


def plan_for(arguments: argparse.Namespace, reader: Reader, script: bytes | None) -> Plan | None:
    """How a capture becomes a run, where nobody says what to take of its time and ports."""
    chosen = (arguments.begin, arguments.w, arguments.port)
    if arguments.trim or any(one is not None for one in chosen):
        return None
    return plan_of(reader, Wishes(arguments.mac, record.given_addresses(arguments), arguments.static, script))


def from_capture(arguments: argparse.Namespace) -> None:
    """Makes the input recording of a capture, and says in lines what was taken and changed."""
    with reopenable(arguments.capture) as path:
        reader = Reader(path, arguments.capture, {})
        script = record.read_script(arguments.script) if arguments.script else None
        plan = plan_for(arguments, reader, script)
        if script is None and plan is None:
            raise Refused(f"{arguments.capture}: {NO_REQUEST}")
        arguments.fix_checksums = True
        arguments.map_ports = arguments.w is None and arguments.port is None
        for line in plan.lines() if plan else ():
            progress(line)
        if plan:
            record.take_addresses(arguments, plan)
        made = plan.script() if plan and script is None else script or b""
        conversion = record.write_with(arguments, made, reader, plan)
    for line in plan.done(conversion.met, arguments.key) if plan else ():
        progress(line)
    size = record.size_of(conversion) if plan else record.summary(conversion)
    progress(f"the input recording has {size}")


def input_recording(arguments: argparse.Namespace, folder: Path) -> Path:
    """The recording to run: the file itself, or what record.py makes of it."""
    if arguments.file.exists() and not arguments.file.is_file():
        raise Refused(f"{arguments.file} is no regular file")
    kind = kind_of(arguments.file)
    if kind == "recording":
        refuse_for_recording(arguments)
        return arguments.file
    arguments.recording = arguments.input or folder / "in.rec"
    if kind == "script":
        arguments.script = arguments.file
    else:
        arguments.capture = arguments.file
    if arguments.capture:
        from_capture(arguments)
    else:
        record.make(arguments)
    return arguments.recording


def start(words: list[str]) -> subprocess.Popen[str]:
    """Starts a program in a group of its own; a file's limit is an error to it, and no signal."""
    return subprocess.Popen(
        words,
        cwd=CRATE,
        stdin=subprocess.DEVNULL,
        stdout=subprocess.PIPE,
        stderr=subprocess.STDOUT,
        text=True,
        errors="backslashreplace",
        start_new_session=True,
        preexec_fn=lambda: signal.signal(signal.SIGXFSZ, signal.SIG_IGN),
    )


def finish(process: subprocess.Popen[str]) -> str:
    """What a program says until it ends; where we are ended, so is its whole group."""
    try:
        said, _ = process.communicate()
        return said
    except BaseException:
        end_group(process)
        raise


def execute(arguments: argparse.Namespace, recording: Path, output: Path) -> int:
    """Runs the program over a recording, and returns its status."""
    # The program takes names that are UTF-8 alone, and a recording may have any.
    link = output.with_name("given.rec")
    link.symlink_to(recording.resolve())
    words = [str(arguments.program.resolve() if arguments.program else program())]
    try:
        process = start([*words, "replay", str(link), str(output)])
    except OSError as error:
        raise Refused(f"{words[0]}: {error.strerror}") from error
    print(finish(process), end="", file=sys.stderr)
    if process.returncode < 0:
        raise Refused(f"the program was ended by {signal.Signals(-process.returncode).name}")
    return process.returncode


def section(title: str, words: list[str]) -> None:
    """A part of what came of the run; an output that is cut off is shown as far as it goes."""
    print(f"-- {title}")
    try:
        show.show(words)
    except Refused as refusal:
        sys.stdout.flush()
        progress(str(refusal))


def has_text(output: Path) -> bool:
    """Whether a run's commands printed anything, as far as its output can be read."""
    try:
        return any(isinstance(one, Text) and one.text for one in output_of(output))
    except Refused:
        return True


def first_reason(recording: Path, output: Path) -> str:
    with output.open("rb") as stream:
        return next(why.reasons(output, stream, recording))


def print_run(arguments: argparse.Namespace, recording: Path, output: Path, status: int) -> None:
    """The text, and one line where the run ended well; else why it ended as it did."""
    is_there = output.exists() and output.stat().st_size > 0
    if is_there and has_text(output):
        section("text", [str(output), "--text"])
    if is_there and status not in ENDED_WELL:
        section("why", [str(output), "--input", str(recording), "--why"])
    if is_there and arguments.trace:
        section("trace", [str(output), "--input", str(recording)])
    if is_there and status in ENDED_WELL:
        print(first_reason(recording, output))
    else:
        print(f"-- status {status}: {STATUSES.get(status, 'not known')}")


def keep(path: Path, output: Path, recording: Path) -> None:
    with output.open("rb") as stream, writing(path) as kept:
        shutil.copyfileobj(stream, kept)


def boot(words: list[str]) -> int:
    arguments = parser().parse_args(words)
    check_apart(
        {"--input": arguments.input, "--output": arguments.output},
        {
            "the file": arguments.file,
            "--script": arguments.script,
            "--capture": arguments.capture,
            "--program": arguments.program,
        },
    )
    with tempfile.TemporaryDirectory(prefix="netboot-") as name:
        output = Path(name) / "out.rec"
        recording = input_recording(arguments, Path(name))
        status = execute(arguments, recording, output)
        if arguments.output and output.exists():
            keep(arguments.output, output, recording)
        print_run(arguments, recording, output, status)
    return status


if __name__ == "__main__":
    raise SystemExit(run(boot, sys.argv))
