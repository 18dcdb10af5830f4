"""Names of a login that hold zero bytes: whole outputs, by the second reading of drive_model.py."""

from __future__ import annotations

from shared.causes import OK, Cause, Code
from shared.records import Result
from tests import made
from tests.boot_table import BootClient, BootTarget
from tests.drive_life_rows import run_of
from tests.drive_model import DISK, UUID_NAME, DriveRun
from tests.drive_rows import BAD_URI, HOOK, SETTINGS
from tests.drive_session import NO_SECRET, Names
from tests.drive_state_rows import BOOT, boots, described
from tests.drive_target import Target
from tests.script_rows import Row

# a key that nobody asked for, were all of the name sent
MORE = b"\0AuthMethod=CHAP"
HOST_NAME = b"iqn.2010-04.org.ipxe:"


def sets(name: bytes, value: bytes) -> bytes:
    """The line that gives a setting these bytes."""
    return b"set " + name + b":hexraw " + value.hex().encode()


def begun(values: dict[bytes, bytes], *words: bytes) -> tuple[DriveRun, int]:
    """A run that gives settings these values, and then has these words; and the line of the first of them."""
    lines = [sets(name, value) for name, value in values.items()]
    run = run_of(*lines, *words)
    for line, words_of_it in enumerate(lines, 2):
        run.ran(words_of_it, line=line)
    return run, len(lines) + 2


def initiator(setting: bytes, value: bytes, name: bytes) -> Row:
    """The initiator's name comes of this setting's value, and is sent so."""
    run, line = begun({setting: value}, HOOK)
    target = Target(DISK)
    before = HOST_NAME if setting == b"hostname" else b""
    run.hooks(HOOK, target, Names(before + value, DISK), line)
    assert target.initiator == name, target.initiator
    return run.left()


def by_settings(target: Target, wanted: Cause | Code = OK, **given: bytes) -> Row:
    """The login is begun with these settings, and ends so, by what the target says."""
    run, line = begun({SETTINGS[name]: value for name, value in given.items()}, HOOK)
    run.begins(HOOK, line)
    hook = run.asks_target(target, Names(UUID_NAME, DISK, **given))
    run.connects(hook)
    while hook.talk.over is None and hook.talk.session.stage != "idle":
        run.serves(hook)
    cause = hook.talk.over or OK
    assert wanted in (cause, cause.code), cause
    return run.put(Result(cause)).left(cause)


def in_the_boot_table() -> Row:
    """The table has the names as the login has sent them."""
    given = {b"initiator-iqn": b"iqn.me" + MORE, b"username": b"u" + MORE, b"password": b"b\0c"}
    run, line = begun(given, HOOK, BOOT)
    names = Names(b"iqn.me" + MORE, DISK, user=b"u" + MORE, secret=b"b\0c")
    run.hooks(HOOK, Target(DISK, user=b"u", secret=b"b\0c"), names, line)
    client = BootClient(b"iqn.me", made.CLIENT.mac, made.CLIENT.ip)
    target = BootTarget(made.SERVER.ip, DISK, chap=1, user=b"u", secret=b"b\0c")
    return boots(run, line + 1, described(target, client=client))


def of_a_target() -> dict[str, Row]:
    """The URI of such a target is none: the drive that is hooked by its number stays."""
    rows = {}
    for name, before, written, words in (
        ("in_the_script", (), b"sanhook iscsi:10.0.0.1::::x\0y", b"sanhook iscsi:10.0.0.1::::x\0y"),
        ("of_a_setting", (sets(b"x", b"x\0y"),), b"sanhook iscsi:10.0.0.1::::${x:string}", b"sanhook iscsi:10.0.0.1::::x\0y"),
        ("at_its_begin", (), b"sanhook iscsi:10.0.0.1::::\0", b"sanhook iscsi:10.0.0.1::::\0"),
    ):
        run = run_of(HOOK, *before, written + b" ;", b"sanunhook")
        hook = run.hooks(HOOK, Target(DISK))
        for line, words_of_it in enumerate(before, 3):
            run.ran(words_of_it, line=line)
        line = len(before) + 3
        run.ran(words, BAD_URI, line=line).let_go_by(b"sanunhook", hook, line + 1)
        rows[f"a_target_s_zero_{name}"] = run.left()
    return rows


def names() -> dict[str, Row]:
    secret = {"secret": b"b"}
    return {
        "a_zero_ends_the_initiator_s_name": initiator(b"initiator-iqn", b"iqn.me" + MORE, b"iqn.me"),
        "a_zero_begins_the_initiator_s_name": initiator(b"initiator-iqn", MORE, b""),
        "a_zero_ends_the_host_s_name": initiator(b"hostname", b"h" + MORE, HOST_NAME + b"h"),
        "a_zero_ends_the_user": by_settings(Target(DISK, user=b"u", **secret), user=b"u" + MORE, **secret),
        "a_zero_begins_the_user": by_settings(Target(DISK), user=MORE, **secret),
        "a_zero_begins_the_user_and_chap_is_asked_for": by_settings(Target(DISK, user=b"u", **secret), NO_SECRET, user=MORE, **secret),
        "a_zero_in_the_secret": by_settings(Target(DISK, user=b"u", secret=b"b\0c"), user=b"u", secret=b"b\0c"),
        "a_zero_in_the_secret_counts": by_settings(Target(DISK, user=b"u", secret=b"b"), Code.REFUSED, user=b"u", secret=b"b\0c"),
        "a_zero_in_the_target_s_user": by_settings(
            Target(DISK, user=b"u", secret=b"b", own_user=b"r", own_secret=b"d"), Code.BROKEN,
            user=b"u", secret=b"b", reverse_user=b"r\0s", reverse_secret=b"d",
        ),
        "a_zero_in_a_name_of_the_boot_table": in_the_boot_table(),
    }  # fmt: skip


ROWS: dict[str, Row] = {**names(), **of_a_target()}
