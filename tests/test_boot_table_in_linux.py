"""What Linux itself finds in the boot tables that are handed off: its iscsi_ibft reads each, in a machine of QEMU's."""

from __future__ import annotations

import shutil
import subprocess
import tempfile
import unittest
from pathlib import Path

from shared.cpio import Tree, archive, file
from shared.kernel_files import Kernel, kernel_of
from shared.kinds import PartKind
from shared.records import Part
from shared.virtual_machine import QEMU, accelerator
from tests.ibft_reader import Table
from tests.test_drives import ROWS
from tests.test_machine_boot import NAMED, installed

BUSYBOX = Path("/bin/busybox")
MODULES = ("iscsi_boot_sysfs", "iscsi_ibft")
MOST_SECONDS = 300
# rows whose hand-off has a table: one drive, two, CHAP both ways with all settings, and one of a lease
NAMES = ("boot_plain", "booted_of_two_the_higher", "hand_off_with_all_settings", "built_in_with_a_root_path_and_secrets")
# prints what stands in each file of the table, a line each after those of the firmware, and switches the machine off
INIT = b"""\
#!/bin/busybox sh
/bin/busybox mkdir /sys
/bin/busybox mount -t sysfs none /sys
for module in iscsi_boot_sysfs iscsi_ibft; do /bin/busybox insmod /$module.ko; done
cd /sys/firmware/ibft
echo
for name in $(/bin/busybox find . -type f); do echo "ibft $name $(/bin/busybox cat $name)"; done
/bin/busybox poweroff -f
"""


def why_not() -> str | None:
    if not shutil.which(QEMU):
        return f"{QEMU} is missing"
    if not BUSYBOX.exists() or b"/ld-linux" in BUSYBOX.read_bytes():
        return "a busybox without libraries is missing: apt-get install busybox-static"
    named = "no Debian kernel is installed; NETBOOT_KERNEL can name a package, its file or a folder"
    return None if NAMED or installed() else named


def file_system(kernel: Kernel) -> bytes:
    """The machine's first file system: busybox, the two modules, and what runs."""
    tree = Tree()
    tree.put("init", file(INIT, is_program=True))
    tree.put("bin/busybox", file(BUSYBOX.read_bytes(), is_program=True))
    for name in MODULES:
        module = kernel.module(name)
        assert module is not None, name
        tree.put(f"{name}.ko", file(module.content))
    return archive(tree.entries)


def unit_text(lun: bytes) -> str:
    """As Linux prints the eight bytes of a unit, each in hexadecimal without zeros before it."""
    return "".join(f"{byte:x}" for byte in lun)


@unittest.skipIf(why_not(), f"boot tables in Linux: {why_not()}")
class InLinux(unittest.TestCase):
    maxDiff = None

    def test_what_linux_reads(self) -> None:
        source, release = (NAMED, None) if NAMED else ("/", installed())
        with tempfile.TemporaryDirectory() as name, kernel_of(source, release) as kernel:
            folder = Path(name)
            (folder / "initramfs").write_bytes(file_system(kernel))
            for row in NAMES:
                with self.subTest(row):
                    (part,) = (one for one in ROWS[row].outputs if isinstance(one, Part) and one.kind is PartKind.TABLE)
                    self.assertEqual(self.read_by_linux(kernel.image, folder, part.piece), self.wanted(Table(part.piece)))

    def read_by_linux(self, kernel: Path, folder: Path, table: bytes) -> dict[str, str]:
        """The files of /sys/firmware/ibft; an empty one isn't said."""
        (folder / "table").write_bytes(table)
        words = [QEMU, *accelerator(is_emulated=True), "-m", "256M", "-nographic", "-no-reboot", "-net", "none", "-kernel", str(kernel),
                 "-initrd", str(folder / "initramfs"), "-append", "console=ttyS0 quiet panic=-1 no_timer_check",
                 "-acpitable", f"file={folder / 'table'}"]  # fmt: skip
        done = subprocess.run(words, capture_output=True, text=True, errors="replace", timeout=MOST_SECONDS, check=False)
        lines = [line.split(" ", 2)[1:] for line in done.stdout.splitlines() if line.startswith("ibft ./")]
        self.assertTrue(lines, done.stdout + done.stderr)
        return {line[0].removeprefix("./"): line[1].strip() for line in lines if len(line) == 2 and line[1].strip()}

    def wanted(self, table: Table) -> dict[str, str]:
        """The same, as the tests' own reader finds it."""
        _, (interface,), targets = table.offsets()
        head = {"signature": "iBFT", "oem_id": "NETBT", "oem_table_id": "NETBOOT"}
        said: dict[str, object] = {f"acpi_header/{name}": value for name, value in head.items()}
        said |= {"initiator/initiator-name": table.initiator().decode(), "initiator/index": 0, "initiator/flags": 3}
        card = table.interface(interface)
        mask = (0xFFFF_FFFF << 32 - int(str(card["prefix"]))) & 0xFFFF_FFFF
        said |= {f"ethernet0/{name}": value for name, value in {
            "index": 0, "flags": 3, "vlan": 0, "origin": 0, "ip-addr": card["address"], "mac": card["mac"],
            "prefix-len": card["prefix"], "subnet-mask": ".".join(str(byte) for byte in mask.to_bytes(4, "big")),
            "gateway": card["gateway"], "primary-dns": card["first dns"], "secondary-dns": card["second dns"],
            "dhcp": card["dhcp"], "hostname": bytes(card["host"]).decode(),
        }.items()}  # fmt: skip
        for offset in targets:
            target = table.target(offset)
            said |= {f"target{target['index']}/{name}": value for name, value in {
                "index": target["index"], "flags": 3, "nic-assoc": 0, "ip-addr": target["address"], "port": target["port"],
                "lun": unit_text(target["lun"]), "chap-type": target["chap"], "target-name": target["name"].decode(),
                "chap-name": target["user"].decode(), "chap-secret": target["secret"].decode(),
                "rev-chap-name": target["reverse user"].decode(), "rev-chap-name-secret": target["reverse secret"].decode(),
            }.items()}  # fmt: skip
        return {name: str(value) for name, value in said.items() if value not in (None, "")}


if __name__ == "__main__":
    unittest.main()
