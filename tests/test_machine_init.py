"""The machine's init: cards in turn, what follows a run, and what follows a failure; its commands are said, not run."""

from __future__ import annotations

import re
import subprocess
import unittest

from tests import TOP
from tests.case import Case

INIT = TOP / "tools" / "machine" / "init"
# Each command that would do something says itself; a card of that name isn't there, and the bridge has this status.
COMMANDS = """\
. {init}
PATH=/usr/bin:/bin folder=. ports=./ports stick=./stick tried=${{tried:-1}}
on_consoles() {{ "$@"; }}
card() {{ echo "card $*"; [ "$2" != none ]; }}
bridge() {{ echo "bridge $*"; return ${{bridge_status:-4}}; }}
kexec() {{ for word; do printf '<%s>' "$word"; done; echo; return 1; }}
findfs() {{ [ -n "$has_stick" ] && [ "${{waited:-0}}" -ge "$has_stick" ] && echo /dev/sdx1; }}
mount() {{ echo "mount $*"; [ -z "$is_damaged" ]; }}
modprobe() {{ :; }}
load_drivers() {{ echo load_drivers; }}
kilobytes_free() {{ echo "${{free:-1000000}}"; }}
du() {{ printf '40000\\t%s\\n' "$2"; }}
for name in reboot poweroff sync sleep setsid umount; do eval "$name() {{ echo $name \\$*; }}"; done
choose_script
{what}
"""


class Init(Case):
    def said(self, what: str, **words: str) -> list[str]:
        """The lines of a part of init, with these words of the kernel's command line; without the seconds."""
        script = COMMANDS.format(init=INIT, what=what)
        done = subprocess.run(
            ["sh", "-c", script], cwd=self.folder, env=words, capture_output=True, text=True, check=False
        )
        self.assertEqual(done.stderr, "")
        return [re.sub(r", at \d+\.\d\d s$", "", line) for line in done.stdout.splitlines()]

    def test_cards_in_turn(self) -> None:
        lines = self.said("run_on_each", netboot_device="none,eth1,eth0")
        bridge = "-d ./parts -u 65534 -r ./input.rec -o ./output.rec /etc/boot.ipxe /bin/netboot"
        each = [[f"card up eth{k}", f"bridge -i eth{k} {bridge}", f"card down eth{k}",
                 f"init: the run on eth{k} ended with status 4"] for k in (1, 0)]
        self.assertEqual(lines, ["init: cards: none eth1 eth0", "card up none", *each[0], *each[1], "sync"])

    def test_a_hand_off(self) -> None:
        """Each of the words is one for kexec, which comes after the card is down; where it fails the next card comes."""
        for words, wanted in (({}, "<./parts>"), ({"netboot_append": "a=1 b"}, "<-a><a=1 b><./parts>")):
            lines = self.said("run_on_each", netboot_device="eth0,none", bridge_status="0", **words)
            self.assertEqual(
                lines[3:],
                ["card down eth0", "init: the run on eth0 ended with status 0", "sync", wanted, "card up none", "sync"],
            )

    def test_another_script(self) -> None:
        lines = self.said("echo $script", netboot_script="dhcp && imgexec ${filename}")
        self.assertEqual(lines, ["./boot.ipxe"])
        self.assertEqual(self.get("boot.ipxe"), b"#!ipxe\ndhcp && imgexec ${filename}\n")

    def test_recordings(self) -> None:
        """The first run's go to the ports of their names, the next ones' into memory."""
        for port, name in (("vport0p1", "netboot.output"), ("vport0p2", "other"), ("vport1p1", "netboot.input")):
            (self.folder / "ports" / port).mkdir(parents=True)
            self.put(f"ports/{port}/name", f"{name}\n".encode())
        show = "choose_recordings; echo $input $output;"
        self.assertEqual(self.said(show * 3), ["/dev/vport1p1 /dev/vport0p1", *["./input.rec ./output.rec"] * 2])
        self.assertEqual(self.said(show, netboot_record="no"), [""])

    def test_recordings_on_a_stick(self) -> None:
        """Each run's are new files there; the stick is given back before a hand-off and at the end."""
        mounted = ["mount -t vfat -o nosuid,nodev,noexec /dev/sdx1 ./stick", "init: recordings go to /dev/sdx1"]
        (self.folder / "stick").mkdir()
        self.put("stick/output1.rec", b"an earlier run's")
        self.put("stick/input2.rec", b"another's")
        lines = self.said("run_on_each", netboot_device="eth0", has_stick="0")
        self.assertEqual(lines[1:3], mounted)
        self.assertIn("-r ./stick/input3.rec -o ./stick/output3.rec", lines[4])
        self.assertEqual(lines[-2:], ["sync", "umount ./stick"])
        lines = self.said("run_on_each", netboot_device="eth0", has_stick="0", bridge_status="0")
        self.assertEqual(lines[-7:], ["sync", "umount ./stick", "<./parts>", *mounted, "sync", "umount ./stick"])

    def test_a_stick_is_waited_for(self) -> None:
        take = "take_stick; echo ${volume:-none}"
        for words, wanted in (
            ({}, ["none"]),
            ({"netboot_record": "no", "has_stick": "0"}, ["none"]),
            ({"netboot_record": "stick"}, [*["sleep 1", "load_drivers"] * 10, "none"]),
            ({"netboot_record": "stick", "has_stick": "2"},
             [*["sleep 1", "load_drivers"] * 2, "mount", "init", "/dev/sdx1"]),
            ({"has_stick": "0", "is_damaged": "yes"}, ["mount", "none"]),
        ):
            with self.subTest(words):
                lines = self.said(take, **words)
                self.assertEqual([re.sub(r"^(mount|init)[ :].*", r"\1", line) for line in lines], wanted)

    def test_room_for_the_next_kernel(self) -> None:
        """Recordings in memory are removed where the next kernel wants their room."""
        for free, is_kept in (("112768", True), ("112767", False)):
            self.put("input.rec", b"a run's")
            lines = self.said("make_room", free=free)
            self.assertEqual((not lines, (self.folder / "input.rec").exists()), (is_kept, is_kept))

    def test_after_a_failure(self) -> None:
        for words, wanted in (
            ({"netboot_fail": "reboot"}, ["init: reboot", "sync", "reboot -f"]),
            ({"netboot_fail": "off"}, ["init: poweroff", "sync", "poweroff -f"]),
            ({"netboot_fail": "retry", "tried": "4"}, ["sleep 10"]),
            ({"netboot_fail": "retry", "netboot_tries": "2", "netboot_pause": "3"}, ["sleep 3"]),
            ({"netboot_fail": "retry", "tried": "5"}, ["init: reboot", "sync", "reboot -f", "sleep 10"]),
            ({}, ["init: a shell: 'exit' tries again, 'reboot -f' starts the firmware; . has the recordings",
                  "setsid cttyhack sh"]),
        ):
            with self.subTest(words):
                self.assertEqual(self.said("after_failure", **words), wanted)


if __name__ == "__main__":
    unittest.main()
