"""Drives that outlive their commands: whole outputs, by the second reading of drive_model.py."""

from __future__ import annotations

from ipaddress import IPv4Address

from shared.causes import OK, Cause, Code
from shared.kinds import Status
from shared.records import Done, Result
from tests import made
from tests.drive_model import DISK, OTHER, UUID_NAME, DriveRun, Hooked
from tests.drive_pdus import NO_TAG
from tests.drive_records import uri
from tests.drive_rows import ANSWERS, BAD_URI, BOTH_WAYS, HOOK, NO_DRIVE, NO_SCHEME, SETTINGS
from tests.drive_session import Names
from tests.drive_target import Target
from tests.script_rows import Row
from tests.web_fetches import length_of
from tests.web_records import ACK, FIN, RST, Connection, Segment, request

BAD_NAME, NO_SERVER = Cause(Code.BAD_NAME), Cause(Code.NO_SERVER)
TWO_DRIVES, DOWN = Cause(Code.FULL, 3), Cause(Code.DOWN)
NO_ROUTE = Cause(Code.NO_ROUTE, int(IPv4Address("11.0.0.1")))
NOT_THERE = b"sanhook iscsi:11.0.0.1::::iqn.x"
SLEEP = b"sleep 60"
# the target's tag of a NOP-In that is to be answered
TAG = b"\0\0\0\x05"


def drive(number: int, rest: bytes = uri(OTHER)) -> bytes:
    return b"sanhook --drive %d " % number + rest


def run_of(*lines: bytes, **starts: object) -> DriveRun:
    return DriveRun(b"\n".join(lines) + b"\n", **starts)


# commands


def letting_go() -> dict[str, Row]:
    once = run_of(HOOK, b"sanunhook", b"sanunhook ;", b"sanunhook --drive 200")
    once.let_go_by(b"sanunhook", once.hooks(HOOK, Target(DISK)), 3)
    once.ran(b"sanunhook", NO_DRIVE, line=4).ran(b"sanunhook --drive 200", NO_DRIVE, line=5)
    by_number = run_of(drive(200) + b" ; sanunhook ; sanunhook --drive 0xc8")
    hook = by_number.hooks(drive(200), Target(OTHER))
    by_number.ran(b"sanunhook", NO_DRIVE, place=1).let_go_by(b"sanunhook --drive 0xc8", hook, 2, 2)
    by_setting = run_of(b"set san-drive 200", HOOK, b"sanunhook --drive 200")
    by_setting.ran(b"set san-drive 200")
    by_setting.let_go_by(b"sanunhook --drive 200", by_setting.hooks(HOOK, Target(DISK), line=3), 4)
    return {
        "let_go": once.left(NO_DRIVE),
        "let_go_by_its_number": by_number.left(),
        "let_go_by_the_setting_s_number": by_setting.left(),
        "let_go_after_its_target_s_end": after_its_end(),
    }


def after_its_end() -> Row:
    """The target closes while the script sleeps: the drive is no longer there."""
    run = run_of(HOOK, b"sleep 2", b"sanunhook ;", b"sanhook " + uri(OTHER))
    hook = run.hooks(HOOK, Target(DISK))
    run.begins(b"sleep 2", 3)
    run.passes(1_000)
    run.receives(hook, hook.brings(b"", ACK | FIN))
    run.passes(1_000, Result(OK))
    run.ran(b"sanunhook", NO_DRIVE, line=4)
    run.hooks(b"sanhook " + uri(OTHER), Target(OTHER), line=5)
    return run.left()


def anew() -> dict[str, Row]:
    """A number that is hooked is hooked anew: the old drive is closed first, whatever comes of that."""
    second = b"sanhook " + uri(OTHER)
    run = run_of(HOOK, second)
    old = run.hooks(HOOK, Target(DISK))
    run.begins(second, 3).let_go(old)
    new = run.asks_target(Target(OTHER))
    run.logs_in(new).serves(new).put(Result(OK))
    rows = {"anew": run.left()}
    for name, words, cause, closes in (
        ("no_uri", b"sanhook iscsi:10.0.0.1::::", BAD_URI, False),
        ("another_scheme", b"sanhook tftp://10.0.0.1/f", NO_SCHEME, False),
        ("no_name", b"sanhook iscsi:a..b::::x", BAD_NAME, True),
        ("no_name_server", b"sanhook iscsi:a.b::::x", NO_SERVER, True),
    ):
        run = run_of(HOOK, words)
        old = run.hooks(HOOK, Target(DISK))
        run.begins(words, 3)
        if closes:
            run.let_go(old)
        rows[f"anew_by_{name}"] = run.put(Result(cause)).left(cause)
    run = run_of(HOOK, NOT_THERE)
    old = run.hooks(HOOK, Target(DISK))
    run.begins(NOT_THERE, 3).let_go(old).has_no_way(Target(b"iqn.x"), NO_ROUTE)
    return {**rows, "anew_without_a_way": run.left(NO_ROUTE), "anew_and_refused": anew_and_refused()}


def anew_and_refused() -> Row:
    """The new login is refused: no drive of that number is left."""
    run = run_of(HOOK, HOOK + b" ;", b"sanunhook")
    old = run.hooks(HOOK, Target(DISK))
    run.begins(HOOK, 3).let_go(old)
    new = run.asks_target(Target(DISK, refuses=(2, 2)))
    run.connects(new).serves(new).put(Result(new.talk.over))
    return run.ran(b"sanunhook", NO_DRIVE, line=4).left(NO_DRIVE)


def several() -> dict[str, Row]:
    run = run_of(drive(128), drive(129), drive(130) + b" ;", drive(129), drive(131, uri(DISK, b"a..b")))
    run.hooks(drive(128), Target(OTHER))
    second = run.hooks(drive(129), Target(OTHER), line=3)
    run.ran(drive(130), TWO_DRIVES, line=4)
    run.begins(drive(129), 5).let_go(second)
    third = run.asks_target(Target(OTHER))
    run.logs_in(third).serves(third).put(Result(OK))
    run.ran(drive(131, uri(DISK, b"a..b")), BAD_NAME, line=6)
    return {
        "a_third": run.left(BAD_NAME),
        "two_and_off": two_and_off(),
        "times_of_both": times_of_both(),
        "a_third_after_an_end": third_after_an_end(),
        "within_a_script": within_a_script(),
        "a_second_start": second_start(),
        "a_fetch_between": fetch_between(),
        "http_between": http_between(),
        "both_are_closed": both_are_closed(),
        "closed_and_opened_again": closed_and_opened_again(),
    }


def two(*rest: bytes) -> tuple[DriveRun, Hooked, Hooked]:
    """The drives 200 and 128, in that order, and then these lines from the fourth on."""
    run = run_of(drive(200), HOOK, *rest)
    return run, run.hooks(drive(200), Target(OTHER)), run.hooks(HOOK, Target(DISK), line=3)


def two_and_off() -> Row:
    run, _, _ = two(SLEEP)
    run.begins(SLEEP, 4).passes(1_000)
    return run.off()


def times_of_both() -> Row:
    """Each connection has a timer of its own: the first is silent and ends, the second's target answers each probe."""
    sleep = b"sleep 80"
    run = run_of(drive(200), b"sleep 1", HOOK, sleep)
    first = run.hooks(drive(200), Target(OTHER))
    run.begins(b"sleep 1", 3).passes(1_000, Result(OK))
    second = run.hooks(HOOK, Target(DISK), line=4)
    run.begins(sleep, 5).passes(14_000)
    for _ in range(4):
        run.passes(15_000)
        run.receives(second, second.brings(b""))
    assert first.number not in run.living and second.number in run.living
    return run.passes(6_000, Result(OK)).left()


def third_after_an_end() -> Row:
    """While a second disk is hooked the first's target closes: a third finds a place, and a fourth doesn't."""
    run = run_of(drive(128), drive(129), drive(130), drive(131))
    first = run.hooks(drive(128), Target(OTHER))
    run.begins(drive(129), 3)
    second = run.asks_target(Target(OTHER))
    run.connects(second).serves(second)
    run.receives(first, first.brings(b"", ACK | FIN))
    while second.talk.session.stage != "idle":
        run.serves(second)
    run.put(Result(OK)).hooks(drive(130), Target(OTHER), line=4)
    return run.ran(drive(131), TWO_DRIVES, line=5).left(TWO_DRIVES)


def within_a_script() -> Row:
    """A drive that a script within another has hooked lives on after it, and the outer one lets it go."""
    chain, inner = b"chain tftp://10.0.0.1/a", b"#!ipxe\n" + HOOK + b"\n"
    run = run_of(chain, b"sanunhook")
    run.fetched(chain, b"a", inner).enters(2)
    run.known.add(made.SERVER.ip)
    run.begins(HOOK, depth=2)
    hook = run.asks_target(Target(DISK))
    run.logs_in(hook).serves(hook).put(Result(OK)).leaves(2)
    return run.let_go_by(b"sanunhook", hook, 3).left()


def second_start() -> Row:
    """A bad record comes while a drive is hooked."""
    run, _ = asleep()
    run.inputs.append(run.inputs[0])
    return run.shuts().put(Done(Status.BAD_RECORD)).row()


def fetch_between() -> Row:
    """A file by TFTP comes between two drives."""
    fetch = b"imgfetch tftp://10.0.0.1/f"
    run = run_of(drive(200), fetch, HOOK, b"imgstat")
    run.hooks(drive(200), Target(OTHER))
    run.keeps(fetch, b"f", b"hello", line=3)
    run.hooks(HOOK, Target(DISK), line=4)
    return run.ran(b"imgstat", line=5, prints=[b"f : 5 bytes\n"]).left()


def http_between() -> Row:
    """One by HTTP, in whose midst the first drive's target asks whether the client lives."""
    fetch = b"imgfetch http://10.0.0.1/a"
    run = run_of(drive(200), fetch, HOOK)
    first = run.hooks(drive(200), Target(OTHER))
    wire, text, stream = Connection(b"http://10.0.0.1/a", 1, 4), request(b"/a"), length_of(b"hello") + b"hello"
    run.begins(fetch, 3).put(*wire.asked(*wire.syn(1)))
    run.uses(wire.answers(), *wire.came([wire.acks(0), *wire.text(text)]))
    run.receives(first, first.brings(first.target.pings(TAG)))
    decided = wire.decides(OK, wire.resets(len(stream), len(text)), gives=True)
    run.uses(wire.brings(0, stream, ACK, len(text)), *wire.came(wire.advances(len(stream), place=len(text)), decided, ended=OK))
    run.opens, run.objects = 2, 6
    run.put(Result(OK)).hooks(HOOK, Target(DISK), line=4)
    return run.left()


def both_are_closed() -> Row:
    """The device is set down: both end with Down, the lower number first, and say nothing."""
    run, first, second = two(b"ifclose", b"sanunhook ;", b"sanunhook --drive 200")
    run.begins(b"ifclose", 4).let_go(second, DOWN, is_down=True).let_go(first, DOWN, is_down=True).put(Result(OK))
    return run.ran(b"sanunhook", NO_DRIVE, line=5).ran(b"sanunhook --drive 200", NO_DRIVE, line=6).left(NO_DRIVE)


def closed_and_opened_again() -> Row:
    """Then a disk is hooked again."""
    run = run_of(HOOK, b"ifclose net0", NOT_THERE + b" ;", b"ifopen", HOOK)
    old = run.hooks(HOOK, Target(DISK))
    run.begins(b"ifclose net0", 3).let_go(old, DOWN, is_down=True).put(Result(OK))
    run.begins(NOT_THERE, 4).has_no_way(Target(b"iqn.x"), NO_ROUTE)
    run.ran(b"ifopen", line=5)
    run.hooks(HOOK, Target(DISK), line=6)
    return run.left()


# while something else goes on


def asleep(*rest: bytes, **starts: object) -> tuple[DriveRun, Hooked]:
    """A drive is hooked, and the script sleeps."""
    run = run_of(HOOK, SLEEP, *rest, **starts)
    hook = run.hooks(HOOK, Target(DISK))
    run.begins(SLEEP, 3)
    return run, hook


def pinged() -> Row:
    """A NOP-In with a tag is answered, one without isn't, and the answer is acknowledged."""
    run, hook = asleep()
    run.receives(hook, hook.brings(hook.target.pings(TAG) + hook.target.pings(NO_TAG)))
    run.receives(hook, hook.brings(b""))
    run.receives(hook, hook.brings(hook.target.pings(TAG)))
    return run.passes(60_000, Result(OK)).left()


def ends_asleep(name: str) -> Row:
    """Its session ends while the script sleeps, and the command goes on."""
    run, hook = asleep()
    if name == "fin":
        run.receives(hook, hook.brings(b"", ACK | FIN))
    elif name == "reject":
        run.receives(hook, hook.brings(b"\x3f" + bytes(47)))
    elif name == "data":
        run.receives(hook, hook.brings(hook.target.gives(b"\0\0\0\3", bytes(8))))
    else:
        run.receives(hook, hook.talk.wire.received(Segment(hook.talk.wire.theirs + 1 + hook.given, 0, RST)))
    assert not run.living
    return run.passes(60_000, Result(OK)).left()


def silent_asleep() -> Row:
    """Nothing more comes: four probes, and the drive's end."""
    run = run_of(HOOK, b"sleep 80", b"sanunhook")
    run.hooks(HOOK, Target(DISK))
    run.begins(b"sleep 80", 3)
    for _ in range(5):
        run.passes(15_000)
    assert not run.living
    return run.passes(5_000, Result(OK)).ran(b"sanunhook", NO_DRIVE, line=4).left(NO_DRIVE)


def yielded() -> Row:
    """The script has had all its commands of a step, and the drive's target asks whether the client lives."""
    run = run_of(HOOK, b":a", b"inc n ; iseq ${n} 5000 || goto a")
    hook = run.hooks(HOOK, Target(DISK))
    count, commands = 0, 0
    while count < 5_000:
        count += 1
        for place, words, cause in (
            (0, b"inc n", OK),
            (1, b"iseq %d 5000" % count, OK if count == 5_000 else Cause(Code.FALSE)),
            (2, b"goto a", OK),
        ):
            if place == 2 and count == 5_000:
                continue
            if commands == 4_096:
                run.receives(hook, hook.brings(hook.target.pings(TAG)))
                commands = 0
            run.ran(words, cause, line=4, place=place)
            commands += 1
    return run.left()


def with_its_size(stage_flags: int = FIN) -> Row:
    """The answer to READ CAPACITY and the stream's end come in one segment: the command is Ok, and there is no drive."""
    run = run_of(HOOK, b"sanunhook")
    run.begins(HOOK)
    hook = run.asks_target(Target(DISK))
    run.logs_in(hook).serves(hook, flags=ACK | stage_flags).put(Result(OK))
    return run.ran(b"sanunhook", NO_DRIVE, line=3).left(NO_DRIVE)


def with_its_size_and_a_reject() -> Row:
    """The same with what breaks the session."""
    run = run_of(HOOK, b"sanunhook")
    run.begins(HOOK)
    hook = run.asks_target(Target(DISK))
    run.logs_in(hook).serves(hook, b"\x3f" + bytes(47)).put(Result(OK))
    return run.ran(b"sanunhook", NO_DRIVE, line=3).left(NO_DRIVE)


def in_pieces(size: int) -> Row:
    """What the target says comes in pieces of so many bytes, and a ping with its last answer."""
    run = run_of(*(b"set " + SETTINGS[name] + b" " + value for name, value in BOTH_WAYS.items()), HOOK)
    for line, (name, value) in enumerate(BOTH_WAYS.items(), 2):
        run.ran(b"set " + SETTINGS[name] + b" " + value, line=line)
    run.begins(HOOK, 6)
    hook = run.asks_target(Target(DISK, **ANSWERS, checks=1), Names(UUID_NAME, DISK, **BOTH_WAYS))
    run.connects(hook)
    while hook.talk.session.stage != "idle":
        is_last = hook.talk.session.stage == "size"
        answer = hook.answers() + (hook.target.pings(TAG) if is_last else b"")
        for at in range(0, len(answer), size):
            was = hook.talk.session.stage
            run.receives(hook, hook.brings(answer[at : at + size]))
            if was == "size" and hook.talk.session.stage == "idle":
                run.put(Result(OK), made.leave(OK))
                run.shuts()
                return run.put(Done(Status.ENDED)).row()
    raise AssertionError


def late_pieces() -> Row:
    """The second piece of an answer comes first, and then twice."""
    run = run_of(HOOK)
    run.begins(HOOK)
    hook = run.asks_target(Target(DISK))
    run.connects(hook)
    while hook.talk.session.stage != "idle":
        answer, wire, place = hook.answers(), hook.talk.wire, hook.given
        sent = hook.talk.sent
        late = wire.brings(place + 20, answer[20:], ACK, sent)
        hook.given += len(answer)
        run.receives(hook, late).receives(hook, wire.brings(place, answer[:30], ACK, sent))
        if hook.talk.session.stage != "idle":
            run.receives(hook, late)
    return run.put(Result(OK)).left()


ROWS: dict[str, Row] = {
    **letting_go(), **anew(), **several(),
    "pinged": pinged(),
    "the_input_ends": asleep()[0].stops(),
    **{f"ends_asleep_by_{name}": ends_asleep(name) for name in ("fin", "reject", "data", "reset")},
    "silent_asleep": silent_asleep(),
    "yielded": yielded(),
    "ends_with_its_size": with_its_size(),
    "breaks_with_its_size": with_its_size_and_a_reject(),
    "late_pieces": late_pieces(),
    **{f"in_pieces_of_{size}": in_pieces(size) for size in (1, 7, 47, 48, 100)},
}
