"""How `sanboot` of a URI fails, and how its session ends while the block is read: whole outputs, as drive_boot_rows.py."""

from __future__ import annotations

from shared.causes import Cause, Code
from shared.kinds import Status
from shared.records import Done, Result
from tests.drive_boot_rows import BLOCK_OF_DISK, BOOT, KEEP, READ_TAG, UNHOOK, begun, table
from tests.drive_life_rows import drive, run_of
from tests.drive_model import DISK, OTHER, UUID_NAME, DriveRun, Hooked
from tests.drive_pdus import BLOCK, BUSY, CHECK_CONDITION, DATA_IN, FINAL, GOOD, NO_TAG, RESPONSE, STATUS, Pdu, head, word
from tests.drive_rows import NO_DRIVE, ONE_WAY
from tests.drive_session import NO_SECRET, Names
from tests.drive_target import Target
from tests.script_rows import Row
from tests.web_records import ACK, FIN, RST, Segment


def reading(words: bytes = BOOT, *rest: bytes, target: Target | None = None) -> tuple[DriveRun, Hooked]:
    """The disk is asked for its first block, and after that the script goes on whatever comes of it."""
    run = run_of(words + b" ;", *(rest or (UNHOOK,)))
    run.begins(words)
    return run, run.asks_and_reads(target or Target(DISK))


def failed(target: Target, wanted: Cause | Code, words: bytes = BOOT, **sets: bytes) -> Row:
    """It fails before the disk is hooked, by what the target says; no drive is left."""
    run, line = begun(words + b" ;", UNHOOK, **sets)
    cause = run.fails_by(words, target, Names(UUID_NAME, target.name, **sets), line)
    assert wanted in (cause, cause.code), cause
    return run.ran(UNHOOK, NO_DRIVE, line=line + 1).left(NO_DRIVE)


def lost(run: DriveRun, hook: Hooked, code: Code, b: int = 0) -> Row:
    """The session has ended by that, and the command has its cause; no drive is left."""
    cause = hook.talk.over
    assert cause is not None and (cause.code, cause.b) == (code, b), cause
    return run.put(Result(cause)).ran(UNHOOK, NO_DRIVE, line=3).left(NO_DRIVE)


def reads_badly(stream: bytes, code: Code = Code.BROKEN, b: int = 0, words: bytes = BOOT, flags: int = ACK) -> Row:
    """The target answers the read by this."""
    run, hook = reading(words)
    return lost(run.receives(hook, hook.brings(stream, flags)), hook, code, b)


def response(tag: bytes = READ_TAG, status: int = GOOD, response_code: int = 0) -> bytes:
    whole = head(RESPONSE, FINAL, bytes(8), tag, bytes(4), word(0x1004), word(4), word(12))
    return Pdu(whole[:2] + bytes([response_code, status]) + whole[4:]).spelled()


def data(body: bytes, place: int = 0, status: int | None = GOOD, tag: bytes = READ_TAG) -> bytes:
    flags = 0 if status is None else FINAL | STATUS
    whole = head(DATA_IN, flags, bytes(8), tag, NO_TAG, word(0x1004), word(4), word(12), bytes(4), word(place))
    return Pdu(whole[:3] + bytes([status or 0]) + whole[4:], body).spelled()


def before_it_reads() -> dict[str, Row]:
    """What fails as of `sanhook`."""
    rows = {
        "refused": failed(Target(DISK, refuses=(2, 1)), Cause(Code.REFUSED, 5, 513)),
        "refused_and_kept": failed(Target(DISK, refuses=(2, 1)), Cause(Code.REFUSED, 5, 513), KEEP),
        "wrong_secret": failed(Target(DISK, user=b"u", secret=b"x"), Cause(Code.REFUSED, 7, 513), **ONE_WAY),
        "no_secret": failed(Target(DISK, **ONE_WAY), NO_SECRET),
        "never_ready": failed(Target(DISK, checks=4), Cause(Code.REFUSED, 10, CHECK_CONDITION)),
        "blocks_of_4096": failed(Target(DISK, block=4_096), Cause(Code.BROKEN, 8)),
        "more_blocks_than_can_be_read": failed(Target(DISK, blocks=1 << 32), Cause(Code.BROKEN, 8)),
    }
    ends = {"closed": (b"", ACK | FIN), "broken": (b"\x3f" + bytes(47), ACK), "early": (data(BLOCK_OF_DISK), ACK)}
    for name, (more, flags) in ends.items():
        # with the very segment by which its size is whole the session ends, so that nothing can be read
        run = run_of(BOOT + b" ;", UNHOOK)
        run.begins(BOOT)
        hook = run.asks_target(Target(DISK))
        run.logs_in(hook).serves(hook, more, flags)
        rows[f"{name}_with_its_size"] = lost(run, hook, Code.BROKEN)
    return rows


BAD_READS: dict[str, tuple[bytes, Code, int]] = {
    "refused": (response(status=CHECK_CONDITION), Code.REFUSED, CHECK_CONDITION),
    "busy": (data(b"", status=BUSY), Code.REFUSED, BUSY),
    "refused_with_data": (data(bytes(512), status=CHECK_CONDITION), Code.REFUSED, CHECK_CONDITION),
    "refused_after_a_part": (data(bytes(100), status=None) + response(status=CHECK_CONDITION), Code.REFUSED, CHECK_CONDITION),
    "a_byte_short": (data(bytes(BLOCK - 1)), Code.BROKEN, 0),
    "a_byte_short_and_a_response": (data(bytes(BLOCK - 1), status=None) + response(), Code.BROKEN, 0),
    "without_data": (response(), Code.BROKEN, 0),
    "a_byte_more": (data(bytes(BLOCK + 1)), Code.BROKEN, 0),
    "a_byte_more_and_refused": (data(bytes(BLOCK + 1), status=BUSY), Code.BROKEN, 0),
    "more_after_all": (data(bytes(BLOCK), status=None) + data(b"x", BLOCK), Code.BROKEN, 0),
    "with_a_gap": (data(bytes(100), status=None) + data(bytes(BLOCK - 101), 101), Code.BROKEN, 0),
    "twice": (data(bytes(100), status=None) + data(bytes(BLOCK), 0), Code.BROKEN, 0),
    "from_another_place": (data(bytes(BLOCK), BLOCK), Code.BROKEN, 0),
    "nothing_at_another_place": (data(b"", BLOCK, None), Code.BROKEN, 0),
    "for_another_task": (data(bytes(BLOCK), tag=word(3)), Code.BROKEN, 0),
    "a_response_for_another_task": (response(word(5)), Code.BROKEN, 0),
    "a_response_that_failed": (response(response_code=1), Code.BROKEN, 0),
    "a_reject": (b"\x3f" + bytes(47), Code.BROKEN, 0),
    "ready_to_transfer": (Pdu(head(0x31, FINAL, bytes(8), READ_TAG)).spelled(), Code.BROKEN, 0),
    "a_login_s_answer": (Pdu(head(0x23, 0x87)).spelled(), Code.BROKEN, 0),
    "further_headers": (b"\x25\x81\0\0\1\0\0\0", Code.BROKEN, 0),
    "too_long_a_segment": (bytes([DATA_IN, 0x81, 0, 0, 0]) + (8_193).to_bytes(3, "big"), Code.BROKEN, 0),
    "with_bytes_left_over": (response(status=BUSY) + data(bytes(BLOCK)), Code.REFUSED, BUSY),
}


def while_it_reads() -> dict[str, Row]:
    rows = {f"read_{name}": reads_badly(*said) for name, said in BAD_READS.items()}
    rows["read_refused_and_kept"] = reads_badly(*BAD_READS["refused"], KEEP)
    rows["read_short_and_kept"] = reads_badly(*BAD_READS["a_byte_short"], KEEP)
    rows["read_closed"] = reads_badly(b"", flags=ACK | FIN)
    rows["read_closed_in_a_part"] = reads_badly(data(bytes(100), status=None)[:99], flags=ACK | FIN)
    rows["read_closed_after_a_part"] = reads_badly(data(bytes(100), status=None), flags=ACK | FIN)
    run, hook = reading()
    wire = hook.talk.wire
    run.receives(hook, wire.received(Segment(wire.theirs + 1 + hook.given, 0, RST)))
    rows["read_reset"] = lost(run, hook, Code.REFUSED, 65_535)
    return {**rows, **silences(), **with_its_end(), **ends_of_the_run()}


def silences() -> dict[str, Row]:
    """The read isn't acknowledged, or it is and nothing comes."""
    run, hook = reading()
    for wait in (250, 500, 1_000, 2_000, 4_000, 8_000):
        run.passes(wait)
    silent = lost(run, hook, Code.TIMED_OUT)
    run, hook = reading(KEEP)
    run.passes(100).receives(hook, hook.brings(b""))
    for _ in range(5):
        run.passes(15_000)
    assert hook.talk.over == Cause(Code.TIMED_OUT, 4)
    return {"read_unanswered": silent, "read_acknowledged_alone": lost(run, hook, Code.TIMED_OUT)}


def with_its_end() -> dict[str, Row]:
    """With the very segment by which the block is whole the session ends: it is handed off, and its drive is in no table."""
    rows = {}
    for name, more, flags in (("closed", b"", ACK | FIN), ("broken", b"\x3f" + bytes(47), ACK), ("more", data(b""), ACK)):
        run, hook = reading()
        rows[f"{name}_with_its_block"] = run.serves(hook, more, flags).hands_off(BLOCK_OF_DISK)
        run = run_of(drive(200), BOOT)
        run.hooks(drive(200), Target(OTHER))
        run.begins(BOOT, 3)
        hook = run.asks_and_reads(Target(DISK))
        rows[f"{name}_with_its_block_beside_another"] = run.serves(hook, more, flags).hands_off(BLOCK_OF_DISK, table(OTHER))
    # the end comes before the bytes do
    run, hook = reading()
    answer, place, wire, sent = hook.answers(), hook.given, hook.talk.wire, hook.talk.sent
    run.receives(hook, wire.brings(place + len(answer), b"", ACK | FIN, sent))
    run.receives(hook, wire.brings(place, answer, ACK, sent))
    rows["closed_before_its_block"] = run.hands_off(BLOCK_OF_DISK)
    # two ends: the second one breaks the connection, once its bytes were taken
    run, hook = reading()
    answer, place, wire, sent = hook.answers(), hook.given, hook.talk.wire, hook.talk.sent
    run.receives(hook, wire.brings(place + len(answer) + 9, b"", ACK | FIN, sent))
    run.receives(hook, wire.brings(place, answer, ACK | FIN, sent))
    rows["two_ends_with_its_block"] = run.hands_off(BLOCK_OF_DISK)
    return rows


def ends_of_the_run() -> dict[str, Row]:
    off, hook = reading()
    stopped, _ = reading()
    again, _ = reading()
    again.inputs.append(again.inputs[0])
    early = run_of(BOOT)
    early.begins(BOOT)
    early.connects(early.asks_target(Target(DISK)))
    both = run_of(drive(200), BOOT)
    both.hooks(drive(200), Target(OTHER))
    both.begins(BOOT, 3)
    both.asks_and_reads(Target(DISK))
    off.receives(hook, hook.brings(data(bytes(100), status=None)))
    return {
        "off_while_it_reads": off.off(),
        "the_input_ends_while_it_reads": stopped.stops(),
        "a_second_start_while_it_reads": again.shuts().put(Done(Status.BAD_RECORD)).row(),
        "off_in_its_login": early.off(),
        "off_while_it_reads_beside_another": both.off(),
    }


ROWS: dict[str, Row] = {f"boot_{name}": row for rows in (before_it_reads(), while_it_reads()) for name, row in rows.items()}
