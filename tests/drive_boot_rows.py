"""`sanboot` of a URI: whole outputs, by the second reading of drive_model.py."""

from __future__ import annotations

from dataclasses import replace
from ipaddress import IPv4Address

from shared.causes import Cause, Code
from shared.kinds import ObjectKind
from shared.records import Off, Record, Result
from tests import graph_records, made
from tests.boot_table import BootTarget
from tests.drive_life_rows import BAD_NAME, NO_ROUTE, NO_SERVER, TAG, TWO_DRIVES, drive, run_of, two
from tests.drive_model import DISK, OTHER, UUID_NAME, DriveRun
from tests.drive_pdus import CHECK_CONDITION, NO_TAG, word
from tests.drive_records import uri
from tests.drive_rows import ANSWERS, BOTH_WAYS, HOOK, NO_DRIVE, ONE_WAY, SETTINGS
from tests.drive_session import Names
from tests.drive_state_rows import CLIENT, NAME_SERVER, described, found, looks_up
from tests.drive_target import Target, block_of
from tests.graph_records import Waiter
from tests.nested_rows import CHAIN_A, FIRST
from tests.script_rows import UNFINISHED, Row
from tests.web_fetches import HOST
from tests.web_records import ACK, FIN

BOOT = b"sanboot " + uri(DISK)
KEEP = b"sanboot --keep " + uri(DISK)
HIDDEN = b"sanboot --no-describe " + uri(DISK)
NAMED = b"sanboot iscsi:a.b::::" + DISK
UNHOOK = b"sanunhook"
# the read's task tag, where the unit is ready at once: TEST UNIT READY and READ CAPACITY have those before it
READ_TAG = word(4)
NO_UNIT = bytes(8)
BLOCK_OF_DISK = block_of(DISK, NO_UNIT, 0)


def first(target: Target) -> bytes:
    """What is handed off of a target."""
    return block_of(target.name, target.lun, 0)


def table(*names: bytes) -> Record:
    """The boot table of these targets at the server."""
    return described(*(BootTarget(made.SERVER.ip, name) for name in names))


def begun(words: bytes, *rest: bytes, **sets: bytes) -> tuple[DriveRun, int]:
    """A run that gives settings these values, and then has these words; and the line of the first of them."""
    lines = [b"set " + SETTINGS[name] + b" " + value for name, value in sets.items()]
    run = run_of(*lines, words, *rest)
    for line, sets_it in enumerate(lines, 2):
        run.ran(sets_it, line=line)
    return run, len(lines) + 2


def boots(target: Target, *parts: Record, words: bytes = BOOT, port: int = 3_260, **sets: bytes) -> Row:
    """The disk is booted."""
    run, line = begun(words, **sets)
    run.begins(words, line)
    hook = run.asks_and_reads(target, Names(UUID_NAME, target.name, target.lun, **sets), port)
    return run.serves(hook).hands_off(first(target), *parts)


def logins() -> dict[str, Row]:
    chap, both = Target(DISK, **ONE_WAY), Target(DISK, **ANSWERS)
    of_abc = Target(b"iqn.x:t", challenge=b"c", **ONE_WAY)
    one = BootTarget(made.SERVER.ip, b"iqn.x:t", chap=1, user=b"u", secret=b"b")
    far = Target(b"iqn.x:t", bytes.fromhex("0001ff0200000000"), blocks=1)
    words = b"sanboot --drive 0xfe iscsi:10.0.0.1:6:860:1-FF02:iqn.x:t"
    return {
        "plain": boots(Target(DISK), table(DISK)),
        "kept": boots(Target(DISK), table(DISK), words=KEEP),
        "chap": boots(chap, described(BootTarget(made.SERVER.ip, DISK, chap=1, user=b"u", secret=b"b")), **ONE_WAY),
        "the_usual_answer": boots(of_abc, described(one), words=b"sanboot iscsi:10.0.0.1::::iqn.x:t", **ONE_WAY),
        "chap_both_ways": boots(
            both, described(BootTarget(made.SERVER.ip, DISK, 3_260, NO_UNIT, 2, b"u", b"b", b"r", b"d")), **BOTH_WAYS
        ),
        "chap_that_isn_t_asked_for": boots(Target(DISK), table(DISK), **ONE_WAY),
        "a_unit": boots(far, described(BootTarget(made.SERVER.ip, b"iqn.x:t", 860, far.lun)), words=words, port=860),
        "ready_at_last": boots(Target(DISK, checks=3), table(DISK)),
        "of_one_block": boots(Target(DISK, blocks=1), table(DISK)),
        "not_described": boots(Target(DISK), words=HIDDEN),
        "another_name_in_the_answer": another_name(),
        "in_small_segments": in_small_segments(),
        "by_the_setting_s_number": by_setting(),
    }


def another_name() -> Row:
    """The target is to be `r`, and says that it is `q`."""
    run, line = begun(b"sanboot iscsi:10.0.0.1::::iqn.x:t", **BOTH_WAYS)
    target = Target(b"iqn.x:t", **ONE_WAY, own_user=b"q", own_secret=b"d")
    cause = run.fails_by(b"sanboot iscsi:10.0.0.1::::iqn.x:t", target, Names(UUID_NAME, b"iqn.x:t", **BOTH_WAYS), line)
    assert cause == Cause(Code.BROKEN, 7)
    return run.left(cause)


def in_small_segments() -> Row:
    """The target takes 20 bytes at a time, so that the read goes in three segments."""
    run = run_of(BOOT)
    run.begins(BOOT)
    hook = run.asks_target(Target(DISK))
    run.finds(hook.talk.wire.server)
    run.receives(hook, hook.talk.wire.answers(bytes.fromhex("02040014")))
    while hook.talk.session.stage != "idle":
        run.serves(hook)
    run.reads(hook)
    while hook.talk.session.stage != "idle":
        run.serves(hook)
    return run.hands_off(first(hook.target), table(DISK))


def by_setting() -> Row:
    """The number is that of `san-drive`: a drive of the number 128 stays hooked beside it."""
    sets = b"set san-drive 200"
    other = drive(128)
    run = run_of(sets, other, BOOT)
    run.ran(sets).hooks(other, Target(OTHER), line=3)
    run.begins(BOOT, 4)
    hook = run.asks_and_reads(Target(DISK))
    return run.serves(hook).hands_off(first(hook.target), table(OTHER, DISK))


# how the block comes


def answered(name: str, *cuts: int, is_apart: bool = False) -> Row:
    target = Target(DISK, cuts=cuts, is_apart=is_apart)
    if name == "in_one_segment":
        return boots(target, table(DISK))
    run = run_of(BOOT)
    run.begins(BOOT)
    hook = run.asks_and_reads(target)
    answer = hook.answers()
    size = {"in_two": -(-len(answer) // 2), "in_pieces_of_47": 47, "byte_by_byte": 1}[name]
    for at in range(0, len(answer), size):
        run.receives(hook, hook.brings(answer[at : at + size]))
    return run.hands_off(first(target), table(DISK))


def answers() -> dict[str, Row]:
    rows = {
        f"block_{cut}_{name}{'_and_a_response' * is_apart}": answered(name, *cuts, is_apart=is_apart)
        for cut, cuts in (("whole", ()), ("in_three", (100, 300)), ("with_none_at_first", (0,)), ("with_none_at_last", (1, 512)))
        for name in ("in_one_segment", "in_two")
        for is_apart in (False, True)
    }
    rows |= {f"block_{name}": answered(name, 48, 300) for name in ("in_pieces_of_47", "byte_by_byte")}
    return {**rows, "block_out_of_order": out_of_order(), "pinged_while_it_reads": pinged(), "read_again": read_again()}


def out_of_order() -> Row:
    """The answer's end comes first, and then its beginning with other bytes after that."""
    run = run_of(BOOT)
    run.begins(BOOT)
    hook = run.asks_and_reads(Target(DISK, cuts=(200,)))
    answer, place, wire, sent = hook.answers(), hook.given, hook.talk.wire, hook.talk.sent
    run.receives(hook, wire.brings(place + 300, answer[300:], ACK, sent))
    run.receives(hook, wire.brings(place, answer[:250], ACK, sent))
    run.receives(hook, wire.brings(place + 200, answer[200:300] + bytes(200), ACK, sent))
    return run.hands_off(first(hook.target), table(DISK))


def pinged() -> Row:
    """The target asks whether the client lives: before the block, between its pieces, and with the last of them."""
    run = run_of(BOOT)
    run.begins(BOOT)
    hook = run.asks_and_reads(Target(DISK))
    target = hook.target
    run.receives(hook, hook.brings(target.pings(NO_TAG) + target.pings(TAG)))
    hook.answers()
    run.receives(hook, hook.brings(target.pings(TAG) + target.piece(READ_TAG, BLOCK_OF_DISK[:99], 0, 0, None)))
    hook.received = hook.talk.sent
    run.receives(hook, hook.brings(target.pings(NO_TAG) + target.piece(READ_TAG, BLOCK_OF_DISK[99:], 99, 1) + target.pings(TAG)))
    return run.hands_off(BLOCK_OF_DISK, table(DISK))


def read_again() -> Row:
    """The read is tried again, and its answer comes twice."""
    run = run_of(BOOT)
    run.begins(BOOT)
    hook = run.asks_and_reads(Target(DISK))
    run.passes(100).passes(150).passes(500)
    answer, place = hook.answers(), hook.given
    run.receives(hook, hook.brings(answer[:300]))
    run.receives(hook, hook.talk.wire.brings(place, answer[:300], ACK, hook.talk.sent))
    return run.receives(hook, hook.brings(answer[300:])).hands_off(BLOCK_OF_DISK, table(DISK))


# beside other things


def beside() -> dict[str, Row]:
    server = made.SERVER.ip
    other = run_of(drive(200), BOOT)
    other.hooks(drive(200), Target(OTHER))
    other.begins(BOOT, 3)
    hook = other.asks_and_reads(Target(DISK))
    hidden = run_of(drive(200), HIDDEN)
    hidden.hooks(drive(200), Target(OTHER))
    hidden.begins(HIDDEN, 3)
    unseen = hidden.asks_and_reads(Target(DISK))
    anew = run_of(drive(128), BOOT)
    old = anew.hooks(drive(128), Target(OTHER))
    anew.begins(BOOT, 3).let_go(old)
    new = anew.asks_and_reads(Target(DISK))
    port = Target(OTHER, bytes.fromhex("0005000000000000"))
    words = b"sanboot --drive 129 " + uri(OTHER, port=b"3261", lun=b"5")
    below, _ = begun(HOOK, words)
    below.hooks(HOOK, Target(DISK))
    below.begins(words, 3)
    second = below.asks_and_reads(port, port=3_261)
    return {
        "beside_another": other.serves(hook).hands_off(first(hook.target), table(DISK, OTHER)),
        "not_described_beside_another": hidden.serves(unseen).hands_off(first(unseen.target), table(OTHER)),
        "in_the_place_of_another": anew.serves(new).hands_off(first(new.target), table(DISK)),
        "after_another": below.serves(second).hands_off(
            first(port), described(BootTarget(server, DISK), BootTarget(server, OTHER, 3_261, port.lun))
        ),
        "another_that_is_busy": another_speaks(),
        "with_images": with_images(),
        "within_a_script": within_a_script(),
        "nothing_runs_after_it": nothing_after(),
        "after_one_that_failed": after_one_that_failed(),
        "a_third": a_third(),
    }


def another_speaks() -> Row:
    """Another drive's target pings, and its session ends, while the block is waited for."""
    run = run_of(drive(200), BOOT)
    other = run.hooks(drive(200), Target(OTHER))
    run.begins(BOOT, 3)
    hook = run.asks_and_reads(Target(DISK))
    run.receives(other, other.brings(other.target.pings(TAG)))
    run.passes(200)
    run.receives(other, other.brings(b"", ACK | FIN))
    return run.serves(hook).hands_off(BLOCK_OF_DISK, table(DISK))


def with_images() -> Row:
    """Images of the list aren't handed off with a disk."""
    fetch = b"kernel tftp://10.0.0.1/k"
    run = run_of(fetch, BOOT)
    run.keeps(fetch, b"k", b"\x7fELF")
    run.known.add(made.SERVER.ip)
    run.begins(BOOT, 3)
    hook = run.asks_and_reads(Target(DISK))
    return run.serves(hook).hands_off(BLOCK_OF_DISK, table(DISK))


def within_a_script() -> Row:
    """A script within another boots: neither is left."""
    run = run_of(CHAIN_A, b"echo no")
    run.fetched(CHAIN_A, b"a", FIRST + BOOT + b"\n").enters(2)
    run.known.add(made.SERVER.ip)
    run.begins(BOOT, depth=2)
    hook = run.asks_and_reads(Target(DISK))
    return run.serves(hook).hands_off(BLOCK_OF_DISK, table(DISK))


def nothing_after() -> Row:
    run = run_of(BOOT + b" && echo yes || echo no ; echo more")
    run.begins(BOOT)
    hook = run.asks_and_reads(Target(DISK))
    return run.serves(hook).hands_off(BLOCK_OF_DISK, table(DISK))


def after_one_that_failed() -> Row:
    """The first target refuses the read, and the second's block is handed off."""
    second = b"sanboot " + uri(OTHER)
    run = run_of(BOOT + b" || " + second)
    run.begins(BOOT)
    hook = run.asks_and_reads(Target(DISK, reads_with=CHECK_CONDITION))
    run.serves(hook).put(Result(hook.talk.over)).begins(second, place=1)
    other = run.asks_and_reads(Target(OTHER))
    return run.serves(other).hands_off(first(other.target), table(OTHER))


def a_third() -> Row:
    """Two other drives are hooked: they stay so."""
    words = b"sanboot --drive 129 " + uri(DISK)
    run, one, two_ = two(words + b" ;", UNHOOK)
    run.ran(words, TWO_DRIVES, line=4).let_go_by(UNHOOK, two_, 5)
    assert one.number in run.living
    return run.left()


# its server


def servers() -> dict[str, Row]:
    run = run_of(NAMED, **NAME_SERVER)
    look_up = looks_up(run, words=NAMED)
    found(run, look_up)
    hook = run.asks_target(Target(DISK), server=HOST, waited=1)
    run.logs_in(hook).serves(hook).reads(hook).serves(hook)
    client = replace(CLIENT, first_dns=NAME_SERVER["dns"])
    rows = {"named": run.hands_off(BLOCK_OF_DISK, described(BootTarget(HOST.ip, DISK), client=client))}
    run = run_of(HOOK, NAMED + b" ;", UNHOOK, **NAME_SERVER)
    old = run.hooks(HOOK, Target(DISK))
    look_up = looks_up(run, 3, old, NAMED)
    found(run, look_up, rcode=3)
    run.put(Result(Cause(Code.REFUSED, len(run.inputs), 3)))
    rows["named_and_not_found"] = run.ran(UNHOOK, NO_DRIVE, line=4).left(NO_DRIVE)
    run = run_of(NAMED, **NAME_SERVER)
    look_up = looks_up(run, words=NAMED)
    found(run, look_up, address=IPv4Address("11.0.0.1"))
    run.has_no_way(Target(DISK), NO_ROUTE, waited=1)
    rows["named_without_a_way"] = run.left(NO_ROUTE)
    run = run_of(NAMED, **NAME_SERVER)
    look_up = looks_up(run, words=NAMED)
    run.uses(Off()).put(*graph_records.shut_both(Waiter(1, ObjectKind.DISK), look_up.cast), UNFINISHED)
    return {**rows, "named_and_off": run.row(), **closes_the_old()}


def closes_the_old() -> dict[str, Row]:
    """A drive of its number is closed where the host is none, isn't known or can't be reached, with `--keep` too."""
    rows = {}
    for option in (b"", b"--keep "):
        for name, rest, cause in (
            ("no_name", b"iscsi:a..b::::x", BAD_NAME), ("no_name_server", b"iscsi:a.b::::x", NO_SERVER),
            ("no_way", b"iscsi:11.0.0.1::::iqn.x", NO_ROUTE),
        ):  # fmt: skip
            words = b"sanboot " + option + rest
            run = run_of(HOOK, words + b" ;", UNHOOK)
            old = run.hooks(HOOK, Target(DISK))
            run.begins(words, 3).let_go(old)
            if cause == NO_ROUTE:
                run.has_no_way(Target(b"iqn.x"), NO_ROUTE)
            else:
                run.put(Result(cause))
            row = run.ran(UNHOOK, NO_DRIVE, line=4).left(NO_DRIVE)
            rows[f"closes_the_old_by_{name}{'_and_keeps_none' * (option != b'')}"] = row
    run = run_of(HOOK, BOOT + b" ;", UNHOOK)
    old = run.hooks(HOOK, Target(DISK))
    run.begins(BOOT, 3).let_go(old)
    new = run.asks_target(Target(DISK, refuses=(2, 2)))
    run.connects(new).serves(new).put(Result(new.talk.over))
    return {**rows, "closes_the_old_and_is_refused": run.ran(UNHOOK, NO_DRIVE, line=4).left(NO_DRIVE)}


ROWS: dict[str, Row] = {
    f"boot_{name}": row
    for rows in (logins(), answers(), beside(), servers())
    for name, row in rows.items()
}
