"""The longest file in blocks of 512 bytes, over the built program: its end, bytes and memory.

`rt run` in crates/netboot, and the gate where it proves anew, build the program. Where it isn't
built the tests are skipped, saying so; without a C compiler the memory's is.
"""

from __future__ import annotations

import resource
import subprocess
import unittest
from itertools import islice

from shared.causes import Cause, Code
from compiler import has_compiler
from shared.kinds import PartKind, Status
from boot import BUILT, is_built
from boots import BLOCK, CLIENT, MEGABYTE, image, replay, start, transfer, web_transfer
from meter import build_meter, measure
from sampled import parts, sample
from shared.recordings import read_output
from shared.records import Done, Ended, Part, Received, Record, spell
from shared.wire import arp_request
from tests.case import Case
from tests.graph_run import fault_of

# blocks have numbers from 1 to 65,535, and the last is shorter than 512 bytes (RFC 1350)
MOST_BLOCKS = 65_535
LONGEST = MOST_BLOCKS * BLOCK - 1

# START, the ARP answer and a TICK come before the first block
BEFORE = 3

NOISE = 200_000_000
ROOM = 256 * MEGABYTE

# the file once, a quarter of it, and 8 MiB
MOST_MEMORY = LONGEST * 5 // 4 + 8 * MEGABYTE

# the image of a fetch by HTTP, and what the program takes beside what has come of it, at each moment
WEB_IMAGE = 72 * MEGABYTE
MOST_BESIDE = 4 * MEGABYTE
# the same, without what is mapped from files
MOST_OWN = 1_500_000


@unittest.skipUnless(is_built(), "the program isn't built")
class Limits(Case):
    def recorded(self, length: int) -> list[str]:
        """Records the boot of a kernel of this length, at most 65,535 blocks of it.

        Answers the words that replay it.
        """
        recording = self.folder / "in.rec"
        with recording.open("wb") as stream:
            for record in islice(transfer(length), BEFORE + MOST_BLOCKS):
                stream.write(spell(record))
        return replay(BUILT, recording, self.folder / "out.rec")

    def boot(self, length: int) -> tuple[int, list[Record]]:
        """How the boot of a kernel of this length ended, and its output."""
        done = subprocess.run(self.recorded(length), check=False)
        with (self.folder / "out.rec").open("rb") as stream:
            output = list(read_output(stream))
        self.assertIsNone(fault_of(output))
        return done.returncode, output

    def test_the_longest_file_is_handed_off(self) -> None:
        status, output = self.boot(LONGEST)
        pieces = [r.piece for r in output if isinstance(r, Part) and r.kind is PartKind.KERNEL]
        self.assertEqual(b"".join(pieces), image(LONGEST))
        self.assertEqual(output[-1], Done(Status.HANDED_OFF))
        self.assertEqual(status, 0)

    @unittest.skipUnless(has_compiler(), "cc is missing")
    def test_the_memory_of_the_longest_file(self) -> None:
        measured = measure(build_meter(self.folder), self.recorded(LONGEST))
        self.assertEqual(measured.status, 0)
        self.assertLessEqual(measured.peak, MOST_MEMORY)

    def test_memory_grows_with_what_came(self) -> None:
        """The peak so far is looked at after each megabyte, so that no jump between two looks is missed."""
        sampled = sample(BUILT, parts(web_transfer(WEB_IMAGE), MEGABYTE), self.folder)
        self.assertEqual(sampled.status, 0)
        self.assertGreaterEqual(len(sampled.samples), WEB_IMAGE // MEGABYTE)
        self.assertLessEqual(sampled.most_over(), MOST_BESIDE)
        self.assertLessEqual(sampled.most_own_over(), MOST_OWN)

    def test_200_mb_of_noise_in_256_mib(self) -> None:
        """Frames that bring nothing, while a command waits; they take no memory."""
        noise = spell(Received(arp_request(CLIENT, CLIENT.ip) + bytes(1_400))) * 16
        recording = self.folder / "in.rec"
        with recording.open("wb") as stream:
            stream.write(spell(start()))
            for _ in range(NOISE // len(noise)):
                stream.write(noise)

        def prepare() -> None:
            resource.setrlimit(resource.RLIMIT_AS, (ROOM, ROOM))

        words = replay(BUILT, recording, self.folder / "out.rec")
        done = subprocess.run(words, preexec_fn=prepare, check=False)
        self.assertEqual(done.returncode, 5)
        with (self.folder / "out.rec").open("rb") as stream:
            output = list(read_output(stream))
        self.assertEqual(output[-1], Done(Status.UNFINISHED))
        self.assertIsNone(fault_of(output))

    def test_one_byte_more_is_too_long(self) -> None:
        status, output = self.boot(LONGEST + 1)
        ended = [record for record in output if isinstance(record, Ended)]
        self.assertEqual(ended, [Ended(0, Cause(Code.TOO_LONG, 4))])
        self.assertEqual(output[-1], Done(Status.SCRIPT_FAILED))
        self.assertEqual(status, 4)


if __name__ == "__main__":
    unittest.main()
