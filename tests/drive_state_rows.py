"""Drives whose servers are names, a client whose address changes, hand-offs and words: whole outputs, as drive_life_rows.py."""

from __future__ import annotations

from ipaddress import IPv4Address

from shared.causes import OK, Cause, Code
from shared.kinds import ObjectKind, PartKind, Status
from shared.records import Done, Off, Part, Record, Result, Tick
from shared.wire import Station
from shared.wire_dhcp import Kind
from tests import graph_records, made
from tests.asking_records import LEASED_CLIENT, NETMASK, Lease, LookUp
from tests.boot_table import BootClient, BootTarget, boot_table
from tests.drive_life_rows import NO_ROUTE, SLEEP, TAG, drive, run_of, two
from tests.drive_model import DISK, OTHER, UUID_NAME, DriveRun, Hooked
from tests.drive_records import uri
from tests.drive_rows import ANSWERS, BAD_URI, BOTH_WAYS, HOOK, NO_DRIVE, NO_SCHEME, USAGE
from tests.drive_session import Names
from tests.drive_target import Target
from tests.graph_records import Waiter
from tests.nested_rows import ELF
from tests.script_rows import UNFINISHED, Row
from tests.web_fetches import HOST
from tests.web_records import ACK, FIN

# its server by a name


NAMED = b"sanhook iscsi:a.b::::" + DISK
NAME_SERVER = {"dns": made.SERVER.ip}


def looks_up(run: DriveRun, line: int = 2, old: Hooked | None = None, words: bytes = NAMED) -> LookUp:
    """A hooking of a server that is known by its name: an old drive is closed, the disk waits, and its name server is asked."""
    waiter = Waiter(run.objects + 1, ObjectKind.DISK)
    look_up = LookUp(run.opens, waiter.object + 1)
    run.begins(words, line)
    if old:
        run.let_go(old)
    run.put(*graph_records.one_made(*waiter))
    run.put(*look_up.begins(*(look_up.queries() if run.is_known else look_up.asks_for())))
    run.objects, run.opens = run.objects + 2, run.opens + 1
    return look_up


def named() -> dict[str, Row]:
    run = run_of(NAMED, **NAME_SERVER)
    look_up = looks_up(run)
    found(run, look_up)
    hook = run.asks_target(Target(DISK), server=HOST, waited=1)
    run.logs_in(hook).serves(hook).put(Result(OK))
    rows = {"named": run.left()}
    run = run_of(NAMED, **NAME_SERVER)
    look_up = looks_up(run)
    found(run, look_up, rcode=3)
    cause = Cause(Code.REFUSED, len(run.inputs), 3)
    rows["named_and_not_found"] = run.put(Result(cause)).left(cause)
    run = run_of(NAMED, **NAME_SERVER)
    look_up = looks_up(run)
    found(run, look_up, address=IPv4Address("11.0.0.1"))
    run.has_no_way(Target(DISK), NO_ROUTE, waited=1)
    rows["named_without_a_way"] = run.left(NO_ROUTE)
    run = run_of(HOOK, NAMED, **NAME_SERVER)
    old = run.hooks(HOOK, Target(DISK))
    look_up = looks_up(run, 3, old)
    found(run, look_up)
    hook = run.asks_target(Target(DISK), server=HOST, waited=4)
    run.logs_in(hook).serves(hook).put(Result(OK))
    return {**rows, **named_beside(), "named_anew": run.left()}


def found(run: DriveRun, look_up: LookUp, rcode: int = 0, address: IPv4Address | None = None) -> None:
    """The name server answers."""
    if not run.is_known:
        run.uses(made.found()).uses(Tick(250), *look_up.passed(*look_up.queries(2)))
        run.known.add(made.SERVER.ip)
        run.is_known, run.now = True, run.now + 250
    if rcode:
        refused = Cause(Code.REFUSED, len(run.inputs) + 1, rcode)
        run.uses(look_up.answer(rcode=rcode), *look_up.came(over=refused), *graph_records.one_freed(look_up.object - 1))
    else:
        run.uses(look_up.found(*([address] if address else [])), *look_up.came(over=OK))


def named_beside() -> dict[str, Row]:
    """The same while another drive lives; and the power is switched off in the look-up."""
    rows = {}
    for name in ("found", "off"):
        run = run_of(drive(200), NAMED, **NAME_SERVER)
        first = run.hooks(drive(200), Target(OTHER))
        look_up = looks_up(run, 3)
        if name == "off":
            run.uses(Off())
            run.shuts().put(*graph_records.shut_both(Waiter(4, ObjectKind.DISK), look_up.cast), UNFINISHED)
            rows["named_beside_another_and_off"] = run.row()
            continue
        run.receives(first, first.brings(first.target.pings(TAG)))
        found(run, look_up)
        hook = run.asks_target(Target(DISK), server=HOST, waited=4)
        run.logs_in(hook).serves(hook).put(Result(OK))
        rows["named_beside_another"] = run.left()
    return rows


# the client's address


def moved() -> dict[str, Row]:
    """The client has another address while a drive is hooked: its segments go to and from that."""
    sets = b"set net0/ip 10.0.0.3"
    run = run_of(HOOK, sets, SLEEP)
    hook = run.hooks(HOOK, Target(DISK))
    run.ran(sets, line=3).begins(SLEEP, 4)
    # to the old address, which isn't the client's any more
    ping, given = hook.target.pings(TAG), hook.given
    run.uses(hook.brings(ping))
    hook.given = given
    run.moves_to(Station(made.CLIENT.mac, IPv4Address("10.0.0.3")))
    run.receives(hook, hook.brings(ping))
    rows = {"the_client_s_address_is_set": run.off()}
    clears = b"clear net0/ip"
    run = run_of(HOOK, clears, SLEEP)
    hook = run.hooks(HOOK, Target(DISK))
    run.ran(clears, line=3).begins(SLEEP, 4).passes(14_000)
    run.loses_its_way(hook, 1_000)
    return {**rows, "without_an_address": run.off(), "a_lease_beside_a_drive": leased(), "by_a_lease": by_a_lease()}


def by_a_lease() -> Row:
    """The names of the login come by a lease: an initiator's name that is empty, and a user that a zero byte ends."""
    start = {"ip": IPv4Address(0), "mask": IPv4Address(0)}
    run = run_of(b"dhcp", HOOK, **start)
    run.client = Station(made.CLIENT.mac, IPv4Address(0))
    lease, inner = Lease(0, 1, run.client), bytes((190, 2)) + b"u\0" + bytes((191, 1)) + b"b"
    run.begins(b"dhcp").put(*lease.begins(*lease.discovers()))
    run.uses(lease.offer(), *lease.came(*lease.requests()))
    options = (NETMASK, (203, b""), (175, inner))
    run.uses(lease.answer(Kind.ACK, *options), *lease.came(over=OK)).put(Result(OK))
    run.opens, run.objects, run.client = 1, 1, LEASED_CLIENT
    run.hooks(HOOK, Target(DISK, user=b"u", secret=b"b"), Names(b"", DISK, user=b"u", secret=b"b"), 3)
    return run.left()


def leased() -> Row:
    """A lease is taken while a drive is hooked."""
    run = run_of(HOOK, b"dhcp", SLEEP)
    hook = run.hooks(HOOK, Target(DISK))
    lease = Lease(1, 4)
    run.begins(b"dhcp", 3).put(*lease.begins(*lease.discovers()))
    run.uses(lease.offer(), *lease.came(*lease.requests()))
    run.uses(lease.answer(Kind.ACK), *lease.came(over=OK)).put(Result(OK))
    run.opens, run.objects = 2, 4
    # START's address goes before the lease's
    run.begins(SLEEP, 4).receives(hook, hook.brings(hook.target.pings(TAG)))
    return run.off()


# hand-offs


BOOT = b"imgexec tftp://10.0.0.1/k"
CLIENT = BootClient(UUID_NAME, made.CLIENT.mac, made.CLIENT.ip)


def described(*targets: BootTarget, client: BootClient = CLIENT) -> Part:
    return Part(PartKind.TABLE, 0, 0, boot_table(client, *targets))


def boots(run: DriveRun, line: int, *parts: Record) -> Row:
    """A kernel is handed off, and these parts after it."""
    run.fetched(BOOT, b"k", ELF, line=line).put(Result(OK)).shuts()
    run.put(Part(PartKind.KERNEL_NAME, 0, 0, b"k"), Part(PartKind.KERNEL, 0, 0, ELF))
    return run.put(Part(PartKind.COMMAND_LINE, 0, 0, b""), *parts, Done(Status.HANDED_OFF)).row()


def hand_offs() -> dict[str, Row]:
    server = made.SERVER.ip
    one = run_of(HOOK, BOOT)
    one.hooks(HOOK, Target(DISK))
    hidden = b"sanhook --no-describe " + uri(DISK)
    none = run_of(hidden, BOOT)
    none.hooks(hidden, Target(DISK))
    mixed = run_of(hidden, drive(200), BOOT)
    mixed.hooks(hidden, Target(DISK))
    mixed.hooks(drive(200), Target(OTHER), line=3)
    both, _, _ = two(BOOT)
    return {
        "hand_off_with_a_drive": boots(one, 3, described(BootTarget(server, DISK))),
        "hand_off_of_one_that_isn_t_described": boots(none, 3),
        "hand_off_of_one_of_two": boots(mixed, 4, described(BootTarget(server, OTHER))),
        "hand_off_with_two": boots(both, 4, described(BootTarget(server, DISK), BootTarget(server, OTHER))),
        "hand_off_with_all_settings": with_all_settings(),
        "hand_off_after_its_end": after_the_end(),
    }


def after_the_end() -> Row:
    """The target has closed before: nothing is said of it."""
    run = run_of(HOOK, b"sleep 1", BOOT)
    hook = run.hooks(HOOK, Target(DISK))
    run.begins(b"sleep 1", 3).receives(hook, hook.brings(b"", ACK | FIN)).passes(1_000, Result(OK))
    return boots(run, 4)


def with_all_settings() -> Row:
    """A login with CHAP both ways, and all that the table says of the client; settings that change afterwards."""
    before = (b"initiator-iqn iqn.me", b"username u", b"password b", b"reverse-username r", b"reverse-password d",
              b"dhcp-server 10.0.0.7")  # fmt: skip
    after = (b"hostname box", b"initiator-iqn iqn.later", b"username other")
    start = {"gateway": IPv4Address("10.0.0.254"), "dns": IPv4Address("10.0.0.3"), "mask": IPv4Address("255.255.240.0")}
    words = b"sanhook iscsi:10.0.0.1:6:860:2-3:iqn.x:t"
    lun = bytes.fromhex("0002000300000000")
    run = run_of(*(b"set " + one for one in before), words, *(b"set " + one for one in after), BOOT, **start)
    for line, one in enumerate(before, 2):
        run.ran(b"set " + one, line=line)
    names = Names(b"iqn.me", b"iqn.x:t", lun, **BOTH_WAYS)
    run.begins(words, 8)
    hook = run.asks_target(Target(b"iqn.x:t", lun, **ANSWERS), names, port=860)
    run.logs_in(hook).serves(hook).put(Result(OK))
    for line, one in enumerate(after, 9):
        run.ran(b"set " + one, line=line)
    client = BootClient(
        b"iqn.me", made.CLIENT.mac, made.CLIENT.ip, 20, b"box", start["gateway"], start["dns"], dhcp=IPv4Address("10.0.0.7")
    )
    target = BootTarget(made.SERVER.ip, b"iqn.x:t", 860, lun, 2, b"u", b"b", b"r", b"d")
    return boots(run, 12, described(target, client=client))


# words


def words() -> dict[str, Row]:
    lines = (
        (b"sanhook", USAGE), (b"sanunhook x", USAGE), (b"sanhook --drive 127 x", USAGE), (b"sanhook --drive 256 x", USAGE),
        (b"sanhook --drive", USAGE), (b"sanhook --keep x", USAGE), (b"sanhook x y", USAGE),
        (b"sanhook --drive 128 --drive 128 x", USAGE), (b"sanunhook --no-describe", USAGE), (b"sanhook x", BAD_URI),
        (b"sanhook http://10.0.0.1/", NO_SCHEME), (b"sanhook iscsi:10.0.0.1:7:::x", BAD_URI),
        (b"sanhook iscsi:10.0.0.1::03260::x", BAD_URI), (b"sanhook iscsi:10.0.0.1:::00000:x", BAD_URI),
        (b"sanhook iscsi:10.0.0.1::0::x", BAD_URI), (b"sanhook iscsi:10.0.0.1::65536::x", BAD_URI),
        (b"sanhook iscsi:10.0.0.1:::1-2-3-4-5:x", BAD_URI), (b"sanhook iscsi:10.0.0.1:::1-:x", BAD_URI),
        (b"sanhook iscsi:10.0.0.1:::g:x", BAD_URI), (b"sanhook iscsi:10.0.0.1", BAD_URI),
        (b"sanhook iscsi:::::x", BAD_URI), (b"sanhook iscsi:10.0.0.1::::" + b"x" * 224, BAD_URI),
        (b"sanboot --drive 200", NO_DRIVE),
    )  # fmt: skip
    run = run_of(*(line + b" ;" for line, _ in lines))
    for number, (line, cause) in enumerate(lines, 2):
        run.ran(line, cause, line=number)
    return {"words": run.left(), "a_base": with_a_base(), **numbers()}


def with_a_base() -> Row:
    """With a base a relative URI is one of TFTP; a disk's is joined to none, however its scheme is spelled."""
    sets, shouted = b"set next-server 10.0.0.1", b"sanhook ISCSI:10.0.0.1::::" + DISK
    run = run_of(sets, b"sanhook x ;", shouted)
    run.ran(sets).ran(b"sanhook x", NO_SCHEME, line=3)
    run.hooks(shouted, Target(DISK), line=4)
    return run.left()


def numbers() -> dict[str, Row]:
    """What `san-drive` prints is the number, where it is one of a drive; else that is 128."""
    rows = {}
    for name, sets, number in (
        ("too_small", b"set san-drive 127", 128), ("no_number", b"set san-drive:string x", 128),
        ("a_decimal", b"set san-drive:string 144", 144), ("too_large", b"set san-drive:uint16 0x180", 128),
        ("hexadecimal", b"set san-drive:uint16 0x0ff", 255),
    ):  # fmt: skip
        lets_go = b"sanunhook --drive %d" % number
        run = run_of(sets, HOOK, lets_go)
        run.ran(sets)
        run.let_go_by(lets_go, run.hooks(HOOK, Target(DISK), line=3), 4)
        rows[f"the_setting_is_{name}"] = run.left()
    return rows


ROWS: dict[str, Row] = {**named(), **moved(), **hand_offs(), **words()}
