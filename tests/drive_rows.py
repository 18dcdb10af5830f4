"""Drives that are hooked, and how a hooking fails: whole outputs, by the second reading of drive_model.py."""

from __future__ import annotations

from shared.causes import OK, Cause, Code
from shared.records import Result
from tests.drive_model import DISK, UUID_NAME, DriveRun
from tests.drive_pdus import (
    CHECK_CONDITION, DATA_IN, FINAL, LOGIN_RESPONSE, NO_TAG, REJECT, RESPONSE, STATUS, Pdu, head, texts, word,
)  # fmt: skip
from tests.drive_records import uri
from tests.drive_session import NO_SECRET, Names
from tests.drive_target import Target
from tests.script_rows import Row
from tests.web_records import ACK, FIN, RST, Segment

HOOK = b"sanhook " + uri(DISK)
USAGE, BAD_URI, NO_SCHEME = Cause(Code.USAGE), Cause(Code.BAD_URI), Cause(Code.NO_SCHEME)
NO_DRIVE = Cause(Code.NO_DRIVE)
# the answer that RFC 1321 has for `abc`: the identifier 97, the secret `b`, the challenge `c`
MD5_OF_ABC = b"CHAP_R=0x900150983cd24fb0d6963f7d28e17f72"
ONE_WAY = {"user": b"u", "secret": b"b"}
BOTH_WAYS = {**ONE_WAY, "reverse_user": b"r", "reverse_secret": b"d"}
ANSWERS = {**ONE_WAY, "own_user": b"r", "own_secret": b"d"}
SETTINGS = {"user": b"username", "secret": b"password", "reverse_user": b"reverse-username",
            "reverse_secret": b"reverse-password"}  # fmt: skip
MOST_PDU = 8_192
UUID = b"01020304-0506-0708-090a-0b0c0d0e0f10"


def begun(words: bytes = HOOK, **sets: bytes) -> tuple[DriveRun, int]:
    """A run that sets these settings, and then has these words; and the line of them."""
    lines = [b"set " + SETTINGS[name] + b" " + value for name, value in sets.items()]
    run = DriveRun(b"\n".join([*lines, words]) + b"\n")
    for line, sets_it in enumerate(lines, 2):
        run.ran(sets_it, line=line)
    return run, len(lines) + 2


def names(**given: bytes) -> Names:
    return Names(UUID_NAME, DISK, **given)


def hooked(target: Target, words: bytes = HOOK, **sets: bytes) -> Row:
    """The disk is hooked, and closed as the script ends."""
    run, line = begun(words, **sets)
    run.hooks(words, target, Names(UUID_NAME, target.name, target.lun, **sets), line)
    return run.left()


def failed(target: Target, wanted: Cause | Code, **sets: bytes) -> Row:
    """It isn't, for a cause that the target's last answer gives."""
    run, line = begun(**sets)
    cause = run.fails_by(HOOK, target, names(**sets), line)
    assert wanted in (cause, cause.code), cause
    return run.left(cause)


def logins() -> dict[str, Row]:
    far = Target(b"iqn.x:t", bytes.fromhex("0001ff0200000000"), blocks=1)
    return {
        "plain": hooked(Target(DISK)),
        "a_unit": hooked(far, b"sanhook iscsi:10.0.0.1:6::1-FF02:iqn.x:t"),
        "chap": hooked(Target(DISK, **ONE_WAY), **ONE_WAY),
        "chap_both_ways": hooked(Target(DISK, **ANSWERS), **BOTH_WAYS),
        "chap_that_isn_t_asked_for": hooked(Target(DISK), **ONE_WAY),
        "a_user_without_a_password": hooked(Target(DISK), user=b"u"),
        "wrong_secret": failed(Target(DISK, user=b"u", secret=b"x"), Cause(Code.REFUSED, 7, 513), **ONE_WAY),
        "wrong_answer_of_the_target_s": failed(Target(DISK, **ANSWERS, is_wrong=True), Cause(Code.BROKEN, 7), **BOTH_WAYS),
        "no_answer_of_the_target_s": failed(Target(DISK), Cause(Code.BROKEN, 5), **BOTH_WAYS),
        "refused": failed(Target(DISK, refuses=(2, 1)), Cause(Code.REFUSED, 5, 513)),
        "refused_after_a_move": failed(Target(DISK, refuses=(1, 1)), Cause(Code.REFUSED, 5, 257)),
        "no_secret": failed(Target(DISK, **ONE_WAY), NO_SECRET),
        "no_password": failed(Target(DISK, **ONE_WAY), NO_SECRET, user=b"u"),
        "small_segments": small_segments(),
        "four_answers_that_go_on": goes_on(4),
        "five_answers_that_go_on": goes_on(5),
        "a_name_of_its_own": named_initiator(b"initiator-iqn", b"iqn.me", b"iqn.me"),
        "by_the_host_s_name": named_initiator(b"hostname", b"h", b"iqn.2010-04.org.ipxe:h"),
        "by_another_uuid": named_initiator(b"uuid", UUID, b"iqn.2010-04.org.ipxe:" + UUID),
        "by_a_uuid_of_another_kind": named_initiator(b"uuid:hexraw", UUID.replace(b"-", b""), b"iqn.2010-04.org.ipxe:" + UUID),
        "by_what_is_no_uuid": named_initiator(b"uuid:hex", b"01:02", b"iqn.2010-04.org.ipxe:"),
    }


def chap_spelled(*keys: bytes, leaves: bool = False) -> Row:
    """The target's challenge is spelled otherwise; or its answer that asks for CHAP says that the stage is left."""
    run, line = begun(**ONE_WAY)
    run.begins(HOOK, line)
    target = Target(DISK, **ONE_WAY)
    hook = run.asks_target(target, names(**ONE_WAY))
    run.connects(hook)
    tag = Pdu(head(0, 0, bytes(8), word(1)))
    if leaves:
        hook.received = hook.talk.sent
        run.receives(hook, hook.brings(target.says(tag, 0x81, texts(b"AuthMethod=CHAP"))))
    else:
        run.serves(hook)
        hook.received = hook.talk.sent
        run.receives(hook, hook.brings(target.says(tag, 0, texts(*keys))))
    while hook.talk.over is None and hook.talk.session.stage != "idle":
        run.serves(hook)
    cause = hook.talk.over or OK
    return run.put(Result(cause)).left(cause)


def long_names() -> Row:
    """Names as long as settings may be: a request goes in several segments."""
    user, secret, initiator = b"u" * 1_024, b"s" * 1_000, b"i" * 1_024
    run = DriveRun(b"\n".join((b"set username " + user, b"set password " + secret, b"set initiator-iqn " + initiator, HOOK)))
    run.ran(b"set username " + user).ran(b"set password " + secret, line=3).ran(b"set initiator-iqn " + initiator, line=4)
    target = Target(DISK, user=user, secret=secret)
    run.begins(HOOK, 5)
    hook = run.asks_target(target, Names(initiator, DISK, user=user, secret=secret))
    run.connects(hook)
    while hook.talk.session.stage != "idle":
        run.serves(hook)
    return run.put(Result(OK)).left()


def in_parts() -> dict[str, Row]:
    """The capacity comes in two pieces, or with its status in a message of its own; and a ping between them."""
    rows = {}
    for name, parts in (
        ("two_pieces", (data_in(word(3), CAPACITY[:4], flags=0), data_in(word(3), CAPACITY[4:], 4))),
        ("a_status_of_its_own", (data_in(word(3), CAPACITY, flags=FINAL), answer(word(3)))),
        ("an_empty_piece", (data_in(word(3), b"", flags=0), data_in(word(3), CAPACITY))),
    ):
        for is_pinged in (False, True):
            run, _ = begun()
            run.begins(HOOK)
            hook = run.asks_target(Target(DISK))
            run.logs_in(hook)
            ping = hook.target.pings(word(9)) if is_pinged else b""
            run.receives(hook, hook.brings(parts[0] + ping)).receives(hook, hook.brings(parts[1]))
            rows[f"capacity_in_{name}{'_and_a_ping' * is_pinged}"] = run.put(Result(OK)).left()
    return rows


def small_segments() -> Row:
    """The target takes 100 bytes at a time."""
    run, line = begun()
    run.begins(HOOK)
    hook = run.asks_target(Target(DISK))
    run.finds(hook.talk.wire.server)
    run.receives(hook, hook.talk.wire.answers(bytes.fromhex("02040064")))
    while hook.talk.over is None and hook.talk.session.stage != "idle":
        run.serves(hook)
    run.put(Result(OK))
    return run.left()


def goes_on(count: int) -> Row:
    """The target answers so often that the login goes on, and says nothing."""
    run, _ = begun()
    run.begins(HOOK)
    target = Target(DISK)
    hook = run.asks_target(target)
    run.connects(hook)
    for _ in range(count):
        hook.received = hook.talk.sent
        tag = Pdu(head(0, 0, bytes(8), word(1)))
        run.receives(hook, hook.brings(target.says(tag, 0, b"")))
    if hook.talk.over is None:
        hook.received = hook.talk.sent
        run.receives(hook, hook.brings(target.says(tag, 0x81, texts(b"AuthMethod=None"))))
        while hook.talk.session.stage != "idle":
            run.serves(hook)
        run.put(Result(OK))
        return run.left()
    run.put(Result(hook.talk.over))
    return run.left(hook.talk.over)


def named_initiator(setting: bytes, value: bytes, name: bytes) -> Row:
    first = b"set " + setting + b" " + value
    run = DriveRun(first + b"\n" + HOOK)
    run.ran(first)
    run.hooks(HOOK, Target(DISK), Names(name, DISK), 3)
    return run.left()


def units() -> dict[str, Row]:
    return {
        "of_one_block": hooked(Target(DISK, blocks=1)),
        "ready_at_last": hooked(Target(DISK, checks=3)),
        "never_ready": failed(Target(DISK, checks=4), Cause(Code.REFUSED, 10, CHECK_CONDITION)),
        "blocks_of_4096": failed(Target(DISK, block=4_096), Cause(Code.BROKEN, 8)),
        "more_blocks_than_can_be_read": failed(Target(DISK, blocks=1 << 32), Cause(Code.BROKEN, 8)),
    }


def answer(hook_tag: bytes, status: int = 0, response: int = 0) -> bytes:
    """A SCSI Response of a target that counts on from a number."""
    whole = head(RESPONSE, FINAL, bytes(8), hook_tag, bytes(4), word(0x1002), word(2), word(10))
    return Pdu(whole[:2] + bytes([response, status]) + whole[4:]).spelled()


def data_in(tag: bytes, data: bytes, place: int = 0, flags: int = FINAL | STATUS) -> bytes:
    whole = head(DATA_IN, flags, bytes(8), tag, NO_TAG, word(0x1003), word(3), word(11))
    return Pdu(whole[:40] + word(place) + whole[44:], data).spelled()


# what breaks a session that waits for TEST UNIT READY's answer, and one that waits for READ CAPACITY's
BREAK_THE_FIRST: dict[str, bytes] = {
    "reject": Pdu(head(REJECT, FINAL), bytes(48)).spelled(),
    "ready_to_transfer": Pdu(head(0x31, FINAL, bytes(8), word(2))).spelled(),
    "an_asynchronous_message": Pdu(head(0x32, FINAL)).spelled(),
    "another_tag": answer(word(3)),
    "a_response_that_failed": answer(word(2), response=1),
    "data_that_weren_t_asked_for": data_in(word(2), bytes(8)),
    "further_headers": b"\x21\x80\0\0\1\0\0\0",
    "too_much_data": bytes([RESPONSE, FINAL, 0, 0, 0]) + (MOST_PDU + 1).to_bytes(3, "big"),
    "a_login_s_answer": Pdu(head(LOGIN_RESPONSE, 0x87)).spelled(),
}
CAPACITY = word(9) + word(512)
BREAK_THE_SECOND: dict[str, bytes] = {
    "data_elsewhere": data_in(word(3), CAPACITY, 4),
    "data_past_what_is_asked": data_in(word(3), CAPACITY + bytes(4)),
    "too_few_data": data_in(word(3), CAPACITY[:4]),
    "no_data": answer(word(3)),
}


def broken() -> dict[str, Row]:
    return {
        **{f"breaks_by_{name}": breaks(stream, "ready") for name, stream in BREAK_THE_FIRST.items()},
        **{f"breaks_by_{name}": breaks(stream, "size") for name, stream in BREAK_THE_SECOND.items()},
        **{f"breaks_a_login_by_{name}": breaks(stream, "names") for name, stream in BREAK_A_LOGIN.items()},
        "breaks_with_bytes_left_over": breaks(BREAK_THE_FIRST["reject"] + b"more", "ready"),
        "refused_with_a_status": breaks(answer(word(2), 8), "ready", Code.REFUSED),
        "refused_with_its_capacity": breaks(answer(word(3), 2), "size", Code.REFUSED),
        "refused_in_data_in": breaks(refusing_data(), "size", Code.REFUSED),
    }


def refusing_data() -> bytes:
    whole = bytearray(data_in(word(3), b""))
    whole[3] = 2
    return bytes(whole)


def login_answer(flags: int, *keys: bytes) -> bytes:
    return Pdu(head(LOGIN_RESPONSE, flags, bytes(8), word(1), bytes(4), word(7), word(1), word(9)), texts(*keys)).spelled()


BREAK_A_LOGIN: dict[str, bytes] = {
    "a_ping": Pdu(head(0x20, FINAL, bytes(8), NO_TAG, word(5))).spelled(),
    "another_stage": login_answer(0x87, b"AuthMethod=None"),
    "a_digest": login_answer(0x81, b"AuthMethod=None", b"HeaderDigest=CRC32C"),
    "further_headers": b"\x23\x81\0\0\1\0\0\0",
}


def breaks(stream: bytes, stage: str, code: Code = Code.BROKEN) -> Row:
    """At this stage the target sends this, and the session ends."""
    run, _ = begun()
    run.begins(HOOK)
    hook = run.asks_target(Target(DISK))
    run.connects(hook)
    while hook.talk.session.stage != stage:
        run.serves(hook)
    run.receives(hook, hook.brings(stream))
    cause = hook.talk.over
    assert cause is not None and cause.code == code, (stage, cause)
    run.put(Result(cause))
    return run.left(cause)


def by_the_connection() -> dict[str, Row]:
    """A hooking that ends by its connection."""
    rows = {}
    for name, stage, flags in (("its_login", "names", FIN), ("its_first_command", "ready", FIN), ("its_size", "size", FIN)):
        run, _ = begun()
        run.begins(HOOK)
        hook = run.asks_target(Target(DISK))
        run.connects(hook)
        while hook.talk.session.stage != stage:
            run.serves(hook)
        run.receives(hook, hook.brings(b"", ACK | flags))
        run.put(Result(hook.talk.over))
        rows[f"the_target_closes_before_{name}"] = run.left(hook.talk.over)
    run, _ = begun()
    run.begins(HOOK)
    hook = run.asks_target(Target(DISK))
    run.connects(hook)
    reset = hook.talk.wire.received(Segment(hook.talk.wire.theirs + 1, 0, RST))
    run.receives(hook, reset).put(Result(hook.talk.over))
    rows["the_target_resets"] = run.left(hook.talk.over)
    return {**rows, "silent": silent(), "off_while_it_asks": off_while_it_asks(), "off_in_its_login": off_in_its_login()}


def silent() -> Row:
    """Nobody answers: six tries."""
    run, _ = begun()
    run.begins(HOOK)
    hook = run.asks_target(Target(DISK))
    run.finds(hook.talk.wire.server)
    for wait in (500, 1_000, 2_000, 4_000, 8_000):
        run.passes(wait)
    run.put(Result(hook.talk.over))
    return run.left(hook.talk.over)


def off_while_it_asks() -> Row:
    run, _ = begun()
    run.begins(HOOK)
    hook = run.asks_target(Target(DISK))
    run.finds(hook.talk.wire.server)
    return run.off()


def off_in_its_login() -> Row:
    run, _ = begun()
    run.begins(HOOK)
    run.connects(run.asks_target(Target(DISK)))
    return run.off()


def spellings() -> dict[str, Row]:
    five = b"CHAP_A=5"
    return {
        "chap_in_base64": chap_spelled(five, b"CHAP_I=0x61", b"CHAP_C=0bYw=="),
        "chap_in_capitals": chap_spelled(b"X-other=y", five, b"CHAP_I=0X61", b"CHAP_C=0X63"),
        "chap_with_too_large_a_number": chap_spelled(five, b"CHAP_I=256", b"CHAP_C=0x63"),
        "chap_without_a_challenge": chap_spelled(five, b"CHAP_I=97"),
        "chap_with_half_a_byte": chap_spelled(five, b"CHAP_I=97", b"CHAP_C=0x633"),
        "chap_by_another_sum": chap_spelled(b"CHAP_A=7", b"CHAP_I=97", b"CHAP_C=0x63"),
        "chap_and_the_stage_is_left": chap_spelled(leaves=True),
        "long_names": long_names(),
    }


ROWS: dict[str, Row] = {**logins(), **units(), **broken(), **by_the_connection(), **spellings(), **in_parts()}
