"""`sanboot` of drives that are hooked, its words, and the built-in script: whole outputs, as drive_boot_rows.py."""

from __future__ import annotations

from dataclasses import replace
from ipaddress import IPv4Address

from shared.causes import OK, Cause, Code
from shared.records import Command, Record, Result
from shared.wire_dhcp import Kind, Option
from tests import made
from tests.asking_records import LEASED_CLIENT, NETMASK, Lease
from tests.boot_table import BootClient, BootTarget
from tests.drive_boot_rows import BLOCK_OF_DISK, UNHOOK, first, table
from tests.drive_life_rows import BAD_NAME, DOWN, SLEEP, TAG, drive, run_of, two
from tests.drive_model import DISK, OTHER, UUID_NAME, DriveRun, Hooked
from tests.drive_pdus import CHECK_CONDITION
from tests.drive_read_rows import BAD_READS
from tests.drive_records import uri
from tests.drive_rows import BAD_URI, HOOK, NO_DRIVE, NO_SCHEME, USAGE
from tests.drive_session import Names
from tests.drive_state_rows import described
from tests.drive_target import Target
from tests.nested_rows import FALSE, FIRST, exits
from tests.nested_rows import uri as file_at
from tests.script_rows import MOST, Row
from tests.web_records import ACK, FIN

BOOT, KEEP, OF_200 = b"sanboot", b"sanboot --keep", b"sanboot --drive 200"
# to the server that is lost with the client's address
NO_WAY = Cause(Code.NO_ROUTE, int(made.SERVER.ip))


def hooked(*lines: bytes, target: Target | None = None) -> tuple[DriveRun, Hooked]:
    """The disk is the drive 128, and then the script has these lines, from the third on."""
    run = run_of(HOOK, *lines)
    return run, run.hooks(HOOK, target or Target(DISK))


def booted(words: bytes = BOOT) -> Row:
    run, hook = hooked(words)
    return run.begins(words, 3).reads(hook).serves(hook).hands_off(BLOCK_OF_DISK, table(DISK))


def boots() -> dict[str, Row]:
    rows = {
        "plain": booted(),
        "and_kept": booted(KEEP),
        "by_its_number": booted(b"sanboot --drive 0x80"),
        "with_no_describe": booted(b"sanboot --no-describe"),
        "not_described": not_described(),
        "by_the_setting_s_number": by_setting(),
        "busy_with_an_answer": busy(),
        "read_once_more": read_once_more(),
        "by_the_next_step_s_first_command": yielded(),
        "in_several_pieces": in_pieces(),
        "after_settings": after_settings(),
        "while_another_ends": while_another_ends(),
    }
    for name, number in (("the_lower", 128), ("the_higher", 200)):
        words = b"sanboot --drive %d" % number
        run, high, low = two(words)
        hook = low if number == 128 else high
        run.begins(words, 4).reads(hook).serves(hook)
        rows[f"of_two_{name}"] = run.hands_off(first(hook.target), table(DISK, OTHER))
    return rows


def not_described() -> Row:
    """No table speaks of the drive, but one does of another."""
    words = b"sanhook --no-describe " + uri(DISK)
    run = run_of(words, drive(200), BOOT)
    hook = run.hooks(words, Target(DISK))
    run.hooks(drive(200), Target(OTHER), line=3)
    return run.begins(BOOT, 4).reads(hook).serves(hook).hands_off(BLOCK_OF_DISK, table(OTHER))


def by_setting() -> Row:
    sets = b"set san-drive 200"
    run, high, _ = two(sets, BOOT)
    run.ran(sets, line=4).begins(BOOT, 5).reads(high).serves(high)
    return run.hands_off(first(high.target), table(DISK, OTHER))


def busy() -> Row:
    """The answer to a ping isn't acknowledged yet: the read goes once it is."""
    sleep = b"sleep 1"
    run, hook = hooked(sleep, BOOT)
    run.begins(sleep, 3).receives(hook, hook.brings(hook.target.pings(TAG)))
    run.passes(1_000, Result(OK)).begins(BOOT, 4).reads(hook)
    run.receives(hook, hook.brings(b""))
    return run.serves(hook).hands_off(BLOCK_OF_DISK, table(DISK))


def read_once_more() -> Row:
    """The read's segment is lost: it is tried again, and the target pings before it answers."""
    run, hook = hooked(BOOT)
    run.begins(BOOT, 3).reads(hook).passes(250).passes(499).passes(1)
    answer = hook.answers()
    run.receives(hook, hook.brings(hook.target.pings(TAG)))
    return run.receives(hook, hook.brings(answer)).hands_off(BLOCK_OF_DISK, table(DISK))


def yielded() -> Row:
    """The script has had all its commands of two steps before it boots: three in each round, and two in the last."""
    rounds = 2_731
    run, hook = hooked(b":a", b"inc n ; iseq ${n} %d || goto a" % rounds, BOOT)
    commands = 0
    for count in range(1, rounds + 1):
        is_last = count == rounds
        ways = [(b"inc n", OK), (b"iseq %d %d" % (count, rounds), OK if is_last else FALSE), (b"goto a", OK)]
        for place, (words, cause) in enumerate(ways[: 2 if is_last else 3]):
            if commands == MOST:
                run.passes(250)
                commands = 0
            run.ran(words, cause, line=4, place=place)
            commands += 1
    assert commands == MOST
    run.passes(250)
    return run.begins(BOOT, 5).reads(hook).serves(hook).hands_off(BLOCK_OF_DISK, table(DISK))


def in_pieces() -> Row:
    run, hook = hooked(BOOT, target=Target(DISK, cuts=(1, 2, 300), is_apart=True))
    run.begins(BOOT, 3).reads(hook)
    answer = hook.answers()
    for at in range(0, len(answer), 100):
        run.receives(hook, hook.brings(answer[at : at + 100]))
    return run.hands_off(BLOCK_OF_DISK, table(DISK))


def after_settings() -> Row:
    """The table has the settings as they are at the boot, and the login's names as they were."""
    before, after = (b"initiator-iqn iqn.me",), (b"initiator-iqn iqn.later", b"hostname box", b"dhcp-server 10.0.0.7")
    run = run_of(*(b"set " + one for one in before), HOOK, *(b"set " + one for one in after), BOOT)
    run.ran(b"set " + before[0])
    hook = run.hooks(HOOK, Target(DISK), Names(b"iqn.me", DISK), 3)
    for line, one in enumerate(after, 4):
        run.ran(b"set " + one, line=line)
    client = BootClient(b"iqn.me", made.CLIENT.mac, made.CLIENT.ip, host=b"box", dhcp=IPv4Address("10.0.0.7"))
    run.begins(BOOT, 7).reads(hook).serves(hook)
    return run.hands_off(BLOCK_OF_DISK, described(BootTarget(made.SERVER.ip, DISK), client=client))


def while_another_ends() -> Row:
    """The lower drive's session ends while the higher one's block comes: the table has that alone."""
    run, high, low = two(OF_200)
    run.begins(OF_200, 4).reads(high)
    run.receives(low, low.brings(b"", ACK | FIN))
    return run.serves(high).hands_off(first(high.target), table(OTHER))


# what fails


def fails() -> dict[str, Row]:
    return {
        **no_drive(), **lost_while_read(), **with_its_end(),
        "without_a_way": without_a_way(), "without_a_way_later": without_a_way_later(), "and_off": off(),
        "the_input_ends": stops(), "unanswered": unanswered(), "acknowledged_alone": acknowledged_alone(),
    }  # fmt: skip


def no_drive() -> dict[str, Row]:
    rows = {}
    for name, words in (("", BOOT), ("_of_200", OF_200), ("_kept", KEEP), ("_of_200_kept", b"sanboot --keep --drive 200")):
        rows[f"none{name}"] = run_of(words).ran(words, NO_DRIVE).left(NO_DRIVE)
    # another drive stays, as its number isn't the one that is asked for
    run, hook = hooked(OF_200 + b" ;", UNHOOK)
    rows["none_beside_another"] = run.ran(OF_200, NO_DRIVE, line=3).let_go_by(UNHOOK, hook, 4).left()
    # the target has closed before
    sleep = b"sleep 1"
    run, hook = hooked(sleep, BOOT)
    run.begins(sleep, 3).receives(hook, hook.brings(b"", ACK | FIN)).passes(1_000, Result(OK))
    rows["none_after_its_end"] = run.ran(BOOT, NO_DRIVE, line=4).left(NO_DRIVE)
    run, hook = hooked(b"ifclose", BOOT)
    run.begins(b"ifclose", 3).let_go(hook, DOWN, is_down=True).put(Result(OK))
    rows["none_after_ifclose"] = run.ran(BOOT, NO_DRIVE, line=4).left(NO_DRIVE)
    run, hook = hooked(UNHOOK, BOOT)
    rows["none_after_it_was_let_go"] = run.let_go_by(UNHOOK, hook, 3).ran(BOOT, NO_DRIVE, line=4).left(NO_DRIVE)
    return rows


def lost_while_read() -> dict[str, Row]:
    """The read fails, and the drive with it, `--keep` or not; another one stays, and is booted in its place."""
    rows = {}
    for name, words, number in (("", BOOT, 128), ("_and_kept", KEEP, 128), ("_beside_another", OF_200, 200)):
        for fault in ("refused", "a_byte_short", "a_reject"):
            run, high, low = two(words + b" ;", UNHOOK + b" --drive %d ;" % number, b"sanboot --drive %d" % (328 - number))
            hook, other = (low, high) if number == 128 else (high, low)
            stream, code, _ = BAD_READS[fault]
            run.begins(words, 4).reads(hook)
            run.receives(hook, hook.brings(stream)).put(Result(hook.talk.over))
            assert hook.talk.over.code == code
            run.ran(UNHOOK + b" --drive %d" % number, NO_DRIVE, line=5)
            run.begins(b"sanboot --drive %d" % (328 - number), 6).reads(other).serves(other)
            rows[f"{fault}{name}"] = run.hands_off(first(other.target), table(other.target.name))
    run, hook = hooked(BOOT + b" || " + BOOT)
    run.begins(BOOT, 3).reads(hook).receives(hook, hook.brings(b"", ACK | FIN)).put(Result(hook.talk.over))
    rows["closed_while_read"] = run.ran(BOOT, NO_DRIVE, line=3, place=1).left(NO_DRIVE)
    return rows


def with_its_end() -> dict[str, Row]:
    rows = {}
    for name, more, flags in (("closed", b"", ACK | FIN), ("broken", b"\x3f" + bytes(47), ACK)):
        run, hook = hooked(BOOT)
        run.begins(BOOT, 3).reads(hook).serves(hook, more, flags)
        rows[f"{name}_with_its_block"] = run.hands_off(BLOCK_OF_DISK)
        run, high, low = two(OF_200)
        run.begins(OF_200, 4).reads(high).serves(high, more, flags)
        rows[f"{name}_with_its_block_beside_another"] = run.hands_off(first(high.target), table(DISK))
    return rows


def without_a_way() -> Row:
    """The client has lost its address: the read can't be sent, and the drive ends by that; a second one stays."""
    clears, sets = b"clear net0/ip", b"set net0/ip 10.0.0.2"
    run, high, low = two(clears, OF_200 + b" ;", sets, UNHOOK + b" --drive 200 ;", BOOT)
    run.ran(clears, line=4).begins(OF_200, 5).put(*high.talk.wire.reads())
    run.let_go(high, NO_WAY, is_down=True).put(Result(NO_WAY))
    run.ran(sets, line=6).ran(UNHOOK + b" --drive 200", NO_DRIVE, line=7)
    return run.begins(BOOT, 8).reads(low).serves(low).hands_off(BLOCK_OF_DISK, table(DISK))


def without_a_way_later() -> Row:
    """A ping's answer is still unacknowledged: the read isn't sent, and what is lost is the try of that answer."""
    clears = b"clear net0/ip"
    run, hook = hooked(SLEEP, clears, BOOT)
    run.begins(SLEEP, 3).passes(59_900).receives(hook, hook.brings(hook.target.pings(TAG)))
    run.passes(100, Result(OK)).ran(clears, line=4).begins(BOOT, 5).reads(hook)
    return run.loses_its_way(hook, 150).put(Result(NO_WAY)).left(NO_WAY)


def off() -> Row:
    run, _, low = two(BOOT)
    run.begins(BOOT, 4).reads(low).passes(100)
    return run.off()


def stops() -> Row:
    run, hook = hooked(BOOT)
    return run.begins(BOOT, 3).reads(hook).stops()


def unanswered() -> Row:
    """Six tries of the read; another drive's target is silent too, and lives on."""
    run, high, low = two(BOOT + b" ;", OF_200)
    run.begins(BOOT, 4).reads(low)
    for wait in (250, 500, 1_000, 2_000, 4_000, 8_000):
        run.passes(wait)
    assert low.talk.over == Cause(Code.TIMED_OUT, 6) and high.number in run.living
    run.put(Result(low.talk.over)).begins(OF_200, 5).reads(high)
    return run.serves(high).hands_off(first(high.target), table(OTHER))


def acknowledged_alone() -> Row:
    """The read is acknowledged, and nothing comes: four probes."""
    run, hook = hooked(BOOT)
    run.begins(BOOT, 3).reads(hook).passes(20).receives(hook, hook.brings(b""))
    for _ in range(5):
        run.passes(15_000)
    assert hook.talk.over == Cause(Code.TIMED_OUT, 4)
    return run.put(Result(hook.talk.over)).left(hook.talk.over)


# words


def words() -> dict[str, Row]:
    lines = (
        (b"sanboot a b", USAGE), (b"sanboot a --keep", USAGE), (b"sanboot --keep --keep", USAGE), (b"sanboot --", USAGE),
        (b"sanboot --drive", USAGE), (b"sanboot --drive 127", USAGE), (b"sanboot --drive 256 x", USAGE),
        (b"sanboot --drive 0128", USAGE), (b"sanboot --drive 128 --drive 128", USAGE), (b"sanboot --keep=1", USAGE),
        (b"sanboot -k", BAD_URI), (b"sanboot --no-describe --no-describe x", USAGE), (b"sanboot --replace x", USAGE),
        (b"sanboot x", BAD_URI), (b"sanboot http://10.0.0.1/", NO_SCHEME), (b"sanboot tftp://10.0.0.1/x", NO_SCHEME),
        (b"sanboot iscsi:10.0.0.1:7:::x", BAD_URI), (b"sanboot iscsi:10.0.0.1", BAD_URI), (b"sanboot ", BAD_URI),
    )  # fmt: skip
    run = run_of(*((b"sanboot ${x}" if line == b"sanboot " else line) + b" ;" for line, _ in lines))
    for number, (line, cause) in enumerate(lines, 2):
        run.ran(line, cause, line=number)
    return {"words": run.left(), **refusals(), **unfit()}


def refusals() -> dict[str, Row]:
    """A refusal lets go the drive of its number, and no other, unless it is to be kept; none does by words that don't fit."""
    rows = {}
    for name, rest, cause in (("bad_uri", b"x", BAD_URI), ("no_scheme", b"http://10.0.0.1/", NO_SCHEME)):
        boot = b"sanboot " + rest
        run, hook = hooked(boot + b" ;", UNHOOK)
        run.begins(boot, 3).let_go(hook).put(Result(cause))
        rows[f"lets_go_by_{name}"] = run.ran(UNHOOK, NO_DRIVE, line=4).left(NO_DRIVE)
        kept = b"sanboot --keep " + rest
        run, hook = hooked(kept + b" ;", UNHOOK)
        rows[f"keeps_by_{name}"] = run.ran(kept, cause, line=3).let_go_by(UNHOOK, hook, 4).left()
        of_200 = b"sanboot --drive 200 " + rest
        run, hook = hooked(of_200 + b" ;", BOOT)
        run.ran(of_200, cause, line=3).begins(BOOT, 4).reads(hook).serves(hook)
        rows[f"lets_no_other_go_by_{name}"] = run.hands_off(BLOCK_OF_DISK, table(DISK))
        run, high, low = two(of_200 + b" ;", OF_200 + b" ;", BOOT)
        run.begins(of_200, 4).let_go(high).put(Result(cause)).ran(OF_200, NO_DRIVE, line=5)
        rows[f"lets_one_of_two_go_by_{name}"] = (
            run.begins(BOOT, 6).reads(low).serves(low).hands_off(BLOCK_OF_DISK, table(DISK))
        )
    rows |= {"lets_go_by_the_setting_s_number": by_setting_refused(), "with_a_base": with_a_base(), "at_the_end": at_the_end()}
    return rows


def by_setting_refused() -> Row:
    sets, boot = b"set san-drive 200", b"sanboot x"
    run, high, low = two(sets, boot + b" ;", BOOT + b" --drive 128")
    run.ran(sets, line=4).begins(boot, 5).let_go(high).put(Result(BAD_URI))
    run.begins(BOOT + b" --drive 128", 6).reads(low).serves(low)
    return run.hands_off(BLOCK_OF_DISK, table(DISK))


def with_a_base() -> Row:
    """With a base an empty URI is that of a directory by TFTP."""
    sets = b"set next-server 10.0.0.1"
    run, hook = hooked(sets, b"sanboot ${x} ;", BOOT)
    run.ran(sets, line=3).begins(b"sanboot ", 4).let_go(hook).put(Result(NO_SCHEME))
    return run.ran(BOOT, NO_DRIVE, line=5).left(NO_DRIVE)


def at_the_end() -> Row:
    """The refusal ends the script."""
    run, hook = hooked(b"sanboot x")
    return run.begins(b"sanboot x", 3).let_go(hook).put(Result(BAD_URI)).left(BAD_URI)


def unfit() -> dict[str, Row]:
    """Words that don't fit, or can't be expanded, let no drive go."""
    run, hook = hooked(b"sanboot a b ;", b"sanboot --drive 1 ;", b"sanboot ${a+} ;", b"sanboots ;", UNHOOK)
    run.ran(b"sanboot a b", USAGE, line=3).ran(b"sanboot --drive 1", USAGE, line=4)
    run.put(Command(1, 5, 0, False, (b"sanboot", b"${a+}")), Result(BAD_NAME))
    run.ran(b"sanboots", Cause(Code.UNKNOWN), line=6)
    return {"words_that_don_t_fit_keep_it": run.let_go_by(UNHOOK, hook, 7).left()}


# the built-in script


ROOT = uri(DISK)


def leased(*options: Option, file: bytes = b"", root: bytes = ROOT) -> DriveRun:
    """The built-in script has its lease, with the disk as root path."""
    run = DriveRun(b"")
    zero = IPv4Address(0)
    run.inputs[0] = run.start = replace(run.inputs[0], script=b"", ip=zero, mask=zero)
    run.client = replace(made.CLIENT, ip=zero)
    lease = Lease(0, 1, run.client)
    run.begins(b"dhcp").put(*lease.begins(*lease.discovers()))
    run.uses(lease.offer(), *lease.came(*lease.requests()))
    paths = ((17, root),) if root else ()
    run.uses(lease.answer(Kind.ACK, NETMASK, *paths, *options, file=file), *lease.came(over=OK)).put(Result(OK))
    run.opens, run.objects, run.client = 1, 1, LEASED_CLIENT
    return run


def to_san(run: DriveRun, root: bytes = ROOT) -> DriveRun:
    """No file is named: the script goes to the disk."""
    run.ran(b"isset ", FALSE, line=3).ran(b"goto san", line=3, place=1)
    return run.ran(b"isset " + root, OK if root else FALSE, line=6)


def of_lease(*targets: BootTarget, initiator: bytes = UUID_NAME) -> Record:
    """The boot table of a client by its lease, whose server it names."""
    client = BootClient(initiator, made.CLIENT.mac, LEASED_CLIENT.ip, dhcp=made.SERVER.ip)
    return described(*targets, client=client)


def built_in() -> dict[str, Row]:
    boot = b"sanboot " + ROOT
    run = to_san(leased())
    hook = run.begins(boot, 7).asks_and_reads(Target(DISK))
    run.serves(hook)
    rows = {"a_root_path": run.hands_off(BLOCK_OF_DISK, of_lease(BootTarget(made.SERVER.ip, DISK)))}
    inner = bytes((190, 2)) + b"u\0" + bytes((191, 1)) + b"b" + bytes((189, 1, 200))
    run = to_san(leased((203, b"iqn.me"), (175, inner), (12, b"box")))
    names = Names(b"iqn.me", DISK, user=b"u", secret=b"b")
    hook = run.begins(boot, 7).asks_and_reads(Target(DISK, user=b"u", secret=b"b"), names)
    client = BootClient(b"iqn.me", made.CLIENT.mac, LEASED_CLIENT.ip, host=b"box", dhcp=made.SERVER.ip)
    target = BootTarget(made.SERVER.ip, DISK, chap=1, user=b"u", secret=b"b")
    rows["a_root_path_and_secrets"] = run.serves(hook).hands_off(BLOCK_OF_DISK, described(target, client=client))
    run = to_san(leased(root=b""), b"").ran(b"exit 1", exits(1), line=6, place=1)
    rows["no_root_path"] = run.left(exits(1))
    for name, root, cause in (
        ("of_a_file_server", b"10.0.0.1:/root", BAD_URI), ("by_http", b"http://10.0.0.1/disk", NO_SCHEME)
    ):  # fmt: skip
        run = to_san(leased(root=root), root)
        rows[f"a_root_path_{name}"] = run.ran(b"sanboot " + root, cause, line=7).left(cause)
    run = to_san(leased())
    run.begins(boot, 7)
    hook = run.asks_and_reads(Target(DISK, reads_with=CHECK_CONDITION))
    cause = run.serves(hook).put(Result(hook.talk.over)) and hook.talk.over
    return {**rows, "a_root_path_that_can_t_be_read": run.left(cause), **by_file_name()}


def by_file_name() -> dict[str, Row]:
    """A file that is named goes first, and the disk where that fails."""
    name, boot = file_at(b"a"), b"sanboot " + ROOT
    chain = b"chain " + name
    run = leased(file=name).ran(b"isset " + name, line=3).begins(chain, 4)
    cause = run.refused(b"a")
    run.known.add(made.SERVER.ip)
    run.put(Result(cause)).ran(b"goto san", line=4, place=2).ran(b"isset " + ROOT, line=6).begins(boot, 7)
    hook = run.asks_and_reads(Target(DISK))
    rows = {"a_file_that_isn_t_there": run.serves(hook).hands_off(BLOCK_OF_DISK, of_lease(BootTarget(made.SERVER.ip, DISK)))}
    run = leased(file=name).ran(b"isset " + name, line=3).fetched(chain, b"a", FIRST + HOOK + b"\n", line=4).enters(2)
    run.known.add(made.SERVER.ip)
    hook = run.hooks_within(HOOK, Target(DISK))
    run.leaves(2).ran(b"exit 0", line=4, place=1)
    assert hook.number in run.living
    rows["a_file_that_is_there"] = run.left()
    # a script that hooks the disk and fails: it is hooked anew
    run = leased(file=name).ran(b"isset " + name, line=3)
    run.fetched(chain, b"a", FIRST + HOOK + b"\nexit 3\n", line=4).enters(2)
    run.known.add(made.SERVER.ip)
    old = run.hooks_within(HOOK, Target(DISK))
    run.ran(b"exit 3", exits(3), line=3, depth=2).leaves(2, exits(3)).ran(b"goto san", line=4, place=2)
    run.ran(b"isset " + ROOT, line=6).begins(boot, 7).let_go(old)
    hook = run.asks_and_reads(Target(DISK))
    rows["a_script_that_fails"] = run.serves(hook).hands_off(BLOCK_OF_DISK, of_lease(BootTarget(made.SERVER.ip, DISK)))
    return rows


ROWS: dict[str, Row] = {
    **{f"booted_{name}": row for rows in (boots(), fails(), words()) for name, row in rows.items()},
    **{f"built_in_with_{name}": row for name, row in built_in().items()},
}
