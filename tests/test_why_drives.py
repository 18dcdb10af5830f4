"""`show.py --why`: why a drive wasn't hooked, or is there no more, on the rows of drives."""

from __future__ import annotations

import io
import tempfile
import unittest
from pathlib import Path

from shared.describe import Lines
from shared.progress import Progress
from shared.records import Open, Received, Sent
from shared.why import reasons
from tests import made, test_drives
from tests.drive_life_rows import run_of
from tests.drive_rows import BAD_URI, USAGE
from tests.script_rows import Row
from tests.test_why import why

ROWS: dict[str, Row] = test_drives.ROWS
DISK = "iqn.2026-11.lan.boot:disk"
FAILURES = 'docs/SAN.md, "What failures mean"'
FIRST, AT = "The boot succeeded: the first sector of", f"unit 0 of {DISK} at 10.0.0.1"
WITH = ", with the boot table of its drives"
READ = f"10.0.0.1 didn't send the first block of unit 0 of {DISK} whole and in order"
NO_128 = "no drive is hooked by the number 128, or by `san-drive`"
CLOSED = "the target closed the session, or sent what isn't allowed in it"
# of `sanboot`
BOOTS = {
    "boot_plain": f"{FIRST} drive 128, {AT}{WITH}, in 0.2 s of its time",
    "boot_a_unit": f"{FIRST} drive 254, unit 1-ff02 of iqn.x:t at 10.0.0.1{WITH}, in 0.2 s of its time",
    "boot_not_described": f"{FIRST} drive 128, {AT}, in 0.2 s of its time",
    "boot_by_the_setting_s_number": f"{FIRST} the drive, {AT}{WITH}, in 0.2 s of its time",
    "built_in_with_a_root_path": f"{FIRST} the drive, {AT}{WITH}, in 0.2 s of its time",
    "boot_closed_with_its_block": f"{FIRST} drive 128, {AT}, in 0.2 s of its time; the session with {DISK} had ended in step "
    f"9: {CLOSED}",
    "boot_no_secret": f"line 2: {DISK} of 10.0.0.1 asks for CHAP, and `username` or `password` isn't set; the script went on, "
    f"and failed: line 3: {NO_128}. To do: set both before `sanboot` (docs/SAN.md, \"CHAP\")",
    "boot_closed_with_its_size": f"line 2: 10.0.0.1 closed the connection of the session with {DISK}, after 308 bytes; the "
    f"script went on, and failed: line 3: {NO_128}. To do: see the target's log ({FAILURES})",
    "boot_read_a_byte_short": f"line 2: {READ}: Data-In, status 0; the script went on, and failed: line 3: {NO_128}. To do: see "
    f"the target's log ({FAILURES})",
    "boot_read_a_reject": f"line 2: 10.0.0.1 sent what isn't allowed in the session with {DISK}: reject; the script went on, and "
    f"failed: line 3: {NO_128}. To do: see the target's log ({FAILURES})",
    "boot_off_while_it_reads": "the power was switched off after 0.25 s, while line 2 waited for the first block of unit 0 of "
    f"{DISK} from 10.0.0.1",
    "booted_by_its_number": f"{FIRST} drive 128, {AT}{WITH}, in 0.2 s of its time",
    "booted_none": f"line 2: {NO_128}",
    "booted_none_beside_another": "line 3: no drive 200 is hooked; the script went on, and ended well",
    "booted_closed_while_read": f"line 3: 10.0.0.1 closed the connection of the session with {DISK}, after 308 bytes; the script "
    f"went on, and failed: command 2 of line 3: {NO_128}; the session with {DISK} ended in step 9: {CLOSED}. To do: see the "
    f"target's log ({FAILURES})",
    "booted_acknowledged_alone": f"10.0.0.1 stopped answering in the session with {DISK}, unit 0 four times in 60 s. To do: see "
    "that a target listens there, and that no firewall stops it",
    "booted_lets_go_by_bad_uri": "line 3: x is no URI of a disk, as `iscsi:SERVER:::LUN:TARGET` is; the script went on, and "
    f"failed: line 4: {NO_128}. To do: write it so (docs/SAN.md, \"The URI\")",
    "built_in_with_a_root_path_that_can_t_be_read": f"10.0.0.1 answered a command for unit 0 of {DISK}: check condition (SCSI "
    f"status 2). To do: see that the target has that unit, and that it is ready ({FAILURES})",
}  # fmt: skip
# the first line of what is said of a row
SENTENCES = {
    "refused": f"10.0.0.1 refused the login to {DISK}: the user or the secret is wrong, or CHAP is wanted and wasn't "
    "offered (class 2, detail 1). To do: let `username` and `password` be what the target wants "
    f"({FAILURES})",
    "refused_after_a_move": f"10.0.0.1 refused the login to {DISK}: the target has moved for some time, and such moves "
    "aren't followed (class 1, detail 1). To do: name the server in the URI to which it has moved "
    f"({FAILURES})",
    "no_secret": f"{DISK} of 10.0.0.1 asks for CHAP, and `username` or `password` isn't set. To do: set both before "
    '`sanhook` (docs/SAN.md, "CHAP")',
    "wrong_answer_of_the_target_s": f"{DISK} of 10.0.0.1 didn't prove itself: its answer isn't by `reverse-username` and "
    f"`reverse-password`. To do: see the target's log ({FAILURES})",
    "no_answer_of_the_target_s": f"10.0.0.1 let the client in to {DISK} without CHAP, and `reverse-username` is set; or it "
    f"broke off the login. To do: see the target's log ({FAILURES})",
    "never_ready": f"10.0.0.1 answered a command for unit 0 of {DISK}: check condition (SCSI status 2). To do: see that the "
    f"target has that unit, and that it is ready ({FAILURES})",
    "blocks_of_4096": f"unit 0 of {DISK} at 10.0.0.1 has blocks of 4096 bytes, and only 512 are read. To do: see the "
    f"target's log ({FAILURES})",
    "more_blocks_than_can_be_read": f"unit 0 of {DISK} at 10.0.0.1 has more blocks than READ CAPACITY(10) can say: 2 TiB "
    f"and more aren't read. To do: see the target's log ({FAILURES})",
    "breaks_a_login_by_a_digest": f"{DISK} of 10.0.0.1 wants a digest, and none is built. To do: see the target's log "
    f"({FAILURES})",
    "breaks_by_reject": f"10.0.0.1 sent what isn't allowed in the session with {DISK}: reject. To do: see the target's "
    f"log ({FAILURES})",
    "the_target_closes_before_its_login": f"10.0.0.1 closed the connection of the session with {DISK}, after 0 bytes. To "
    f"do: see the target's log ({FAILURES})",
    "the_target_resets": f"10.0.0.1 reset the connection to its port 3260, as where no target listens there: {DISK}. To do: "
    f"see that a target listens there ({FAILURES})",
    "silent": "10.0.0.1 never answered: a connection to its port 3260 was asked for five times in 15.5 s. To do: see that a "
    "target listens there, and that no firewall stops it",
    "off_while_it_asks": "the power was switched off after 0.25 s, while line 2 waited for the connection to port 3260 of "
    "10.0.0.1",
    "off_in_its_login": "the power was switched off after 0.25 s, while line 2 waited for what 10.0.0.1 says next in the "
    f"session with {DISK}, unit 0",
    "anew_by_no_uri": "line 3: iscsi:10.0.0.1:::: is no URI of a disk, as `iscsi:SERVER:::LUN:TARGET` is. To do: write it so "
    '(docs/SAN.md, "The URI")',
    "anew_by_another_scheme": "line 3: tftp://10.0.0.1/f is no disk that can be hooked: only `iscsi:SERVER:::LUN:TARGET` is. "
    'To do: write it so (docs/SAN.md, "The URI")',
    "anew_by_no_name": "line 3: a..b is no name of a host: a part between its dots is empty",
    "anew_by_no_name_server": "line 3: a.b is a name, and no name server is set that can be asked for its address: `dns` comes "
    "by `dhcp`, by `set dns ADDRESS` or by --dns",
    "anew_without_a_way": "line 3: 11.0.0.1 is outside the client's net 10.0.0.0/24, and no gateway is set",
    "named_and_not_found": "the name server 10.0.0.1 answered, when asked for a.b: there is no such name (NXDOMAIN). To do: mend "
    "the name, or add it at the name server",
    "let_go": "line 4: no drive is hooked by the number 128, or by `san-drive`; the script went on, and failed: line 5: no "
    "drive 200 is hooked",
    "ends_with_its_size": "line 3: no drive is hooked by the number 128, or by `san-drive`; the session with "
    f"{DISK} ended in step 8: the target closed the session, or sent what isn't allowed in it",
    "hand_off_with_a_drive": "The boot succeeded: kernel k (13 bytes) from 10.0.0.1, with the boot table of its drives, in "
    "0.2 s of its time",
    "hand_off_after_its_end": "The boot succeeded: kernel k (13 bytes) from 10.0.0.1, in 1.2 s of its time; the session with "
    f"{DISK} had ended in step 9: the target closed the session, or sent what isn't allowed in it",
    "ends_asleep_by_reset": f"the script ended well; the session with {DISK} had ended in step 9: the server reset the "
    "connection",
    "two_and_off": "the power was switched off after 1.25 s, while line 4 slept: 1 s of 60 s had passed",
    **BOOTS,
}  # fmt: skip


def said_of(name: str) -> str:
    """The first line of --why, with what is to be done."""
    row = ROWS[name]
    with tempfile.TemporaryDirectory() as folder:
        path = Path(folder) / "in.rec"
        path.write_bytes(made.spelled(row.inputs))
        return next(reasons(Path("out.rec"), io.BytesIO(made.spelled(row.outputs)), path))


class Drives(unittest.TestCase):
    maxDiff = None

    def test_the_sentence_on_each(self) -> None:
        for name, wanted in SENTENCES.items():
            with self.subTest(name):
                self.assertEqual(said_of(name), wanted)

    def test_a_third_drive(self) -> None:
        """The two that are hooked are shown."""
        row = ROWS["a_third"]
        lines = why(row.outputs, row.inputs)
        self.assertIn("line 4: two other drives are hooked, the most; the script went on, and failed: ", lines[0])
        self.assertIn("To do: let one go by `sanunhook`, or hook in its place by its number", said_of("a_third"))
        self.assertEqual(sum("is asked for: ISCSI with 10.0.0.1 port 3260" in line for line in lines), 2)

    def test_words_that_don_t_fit(self) -> None:
        row = ROWS["words"]
        self.assertIn(
            "the words don't fit the command: `sanhook [--drive N] [--no-describe] URI, N from 128 to 255`",
            why(row.outputs, row.inputs)[0],
        )

    def test_options_of_ipxe(self) -> None:
        """They are known by name."""
        for option, cause in ((b"-k", BAD_URI), (b"--filename", USAGE)):
            row = run_of(b"sanboot " + option).ran(b"sanboot " + option, cause).left(cause)
            said = f"the option `{option.decode()}` of `sanboot` isn't built yet"
            self.assertIn(said, why(row.outputs, row.inputs)[0])

    def test_each_row_has_an_account(self) -> None:
        for name, row in ROWS.items():
            with self.subTest(name):
                self.assertTrue(why(row.outputs, row.inputs))
                self.assertTrue(why(row.outputs))


class Live(unittest.TestCase):
    """What a live run says while it goes."""

    def said(self, name: str) -> list[str]:
        said = io.StringIO()
        progress = Progress(io.StringIO(), said)
        for record in ROWS[name].outputs:
            progress.take(0, record)
        return said.getvalue().splitlines()

    def test_a_drive_that_ends_by_itself(self) -> None:
        self.assertEqual(
            self.said("let_go_after_its_target_s_end")[:4],
            [
                f"sanhook iscsi:10.0.0.1::::{DISK}",
                f"unit 0 of {DISK} at 10.0.0.1 port 3260 is hooked",
                "sleep 2: goes on after 2 s",
                f"the session with unit 0 of {DISK} has ended: the target closed the session, or sent what isn't allowed in it",
            ],
        )

    def test_one_that_isn_t_hooked(self) -> None:
        self.assertEqual(
            self.said("wrong_secret")[-2:],
            [
                f"the session with unit 0 of {DISK} has ended: the login was refused: the user or the secret is wrong, or CHAP "
                "is wanted and wasn't offered (class 2, detail 1)",
                "line 4: sanhook failed: Refused(record 7, code 513): the login was refused: the user or the secret is wrong, or "
                "CHAP is wanted and wasn't offered (class 2, detail 1)",
            ],
        )


class Shown(unittest.TestCase):
    def test_an_open_has_its_target_and_its_unit(self) -> None:
        (opened,) = (one for one in ROWS["a_unit"].outputs if isinstance(one, Open))
        said = "OPEN 0 ISCSI, server 10.0.0.1 port 3260, own port 49152, target iqn.x:t, unit 1-ff02"
        self.assertEqual(Lines().of(opened), said)

    def test_the_messages_of_a_session(self) -> None:
        row, lines = ROWS["ready_at_last"], Lines()
        frames = [lines.of(one) for one in (*row.inputs, *row.outputs) if isinstance(one, (Received, Sent))]
        said = [line.split("iSCSI ", 1)[1].split("; ")[0] for line in frames if "iSCSI " in line]
        wanted = {
            "login request", "login response", "SCSI command TEST UNIT READY", "SCSI command READ CAPACITY(10)",
            "SCSI response, status 2", "SCSI response, status 0", "Data-In, status 0",
        }  # fmt: skip
        self.assertEqual(set(said), wanted)


if __name__ == "__main__":
    unittest.main()
