"""`show.py` on GRAPH records: each event in words, and `--graph`, the picture of an open's objects."""

from __future__ import annotations

import unittest

from shared.causes import OK, Cause, Code
from shared.describe import Lines
from shared.kinds import GraphEvent, ObjectKind, OpenKind, Status
from shared.records import Advance, Command, Done, Graph, Open, Record, Result, Step
from shared.wire import tftp_ack
from tests import graph_records, made, test_replay
from tests.case import Case
from tests.graph_records import came, closed, left
from tests.test_graph import events

BOOT = [
    "open 0: TFTP with 10.0.0.1 port 69, target k",
    "        |0   closed third, in step 6: Ok",
    "  fetch 1    made in step 1, freed in step 6; entered once from above, twice from below, once by a close",
    "        |1   closed second, in step 6: Ok",
    "        |    plugged in step 1, unplugged in step 6",
    "        |0   closed first, in step 6: Ok",
    "   tftp 2    made in step 1, freed in step 6; entered once from above, twice from below, twice by time",
    "        |1   closed fourth, in step 6: Ok",
    "  ended in step 6: Ok, as tftp 2 slot 0 was closed first; it went well",
]
MEANT = "it was closed from above: power-off, end of the run, hand-off or unhook"


class Words(unittest.TestCase):
    def test_each_event_in_words(self) -> None:
        lines = Lines()
        texts = (
            "made 1 fetch", "held 1", "made 2 tftp", "plugged 1.1 2.0", "entered 1.0 down", "left 1.0",
            "entered 2.1 up", "entered 2.4 time", "left 2.4", "dropped 1.1", "closed 2.0 timed_out",
            "entered 1.1 close", "unplugged 2.0 1.1", "letgo 2", "freed 2", "held 2",
        )  # fmt: skip
        self.assertEqual(
            [lines.of(event) for event in events(*texts)],
            [
                "GRAPH made fetch 1",
                "GRAPH held fetch 1",
                "GRAPH made tftp 2",
                "GRAPH plugged fetch 1 slot 1 to tftp 2 slot 0",
                "GRAPH entered fetch 1 slot 0 from above",
                "GRAPH left fetch 1 slot 0",
                "GRAPH entered tftp 2 slot 1 from below",
                "GRAPH entered tftp 2 timer",
                "GRAPH left tftp 2 timer",
                "GRAPH dropped a message at fetch 1 slot 1",
                "GRAPH closed tftp 2 slot 0: TimedOut(tries 6)",
                "GRAPH entered fetch 1 slot 1 by a close",
                "GRAPH unplugged tftp 2 slot 0 from fetch 1 slot 1",
                "GRAPH let go of tftp 2",
                "GRAPH freed tftp 2",
                # its kind went with it
                "GRAPH held object 2",
            ],
        )

    def test_only_so_many_names_are_kept(self) -> None:
        lines = Lines()
        for number in range(1, 5_000):
            lines.of(Graph(GraphEvent.MADE, number, other=ObjectKind.TCP))
        self.assertEqual(lines.of(Graph(GraphEvent.HELD, 903)), "GRAPH held object 903")
        self.assertEqual(lines.of(Graph(GraphEvent.HELD, 904)), "GRAPH held tcp 904")


class Pictures(Case):
    def drawn(self, outputs: list[Record], words: str = "") -> list[str]:
        self.put("run.out", outputs)
        return self.works(f"tools/show.py run.out --graph {words}").splitlines()

    def test_a_boot(self) -> None:
        self.assertEqual(self.drawn(made.BOOT_OUTPUT), BOOT)

    def test_with_the_times(self) -> None:
        self.put("run.rec", made.BOOT_INPUT)
        lines = self.drawn(made.BOOT_OUTPUT, "--input run.rec")
        self.assertEqual(lines[1], "        |0   closed third, in step 6 at 253 ms: Ok")
        self.put("run.rec", made.BOOT_INPUT[:3])
        self.fails("tools/show.py run.out --graph --input run.rec", "has no record 4")
        self.fails("tools/show.py run.rec --graph", "--graph needs an output recording")

    def test_one_of_two_opens(self) -> None:
        outputs = test_replay.ROWS["two_files"].outputs
        both = self.drawn(outputs)
        self.assertEqual([line for line in both if line.startswith("open")],
                         [f"open {k}: TFTP with 10.0.0.1 port 69, target {path}" for k, path in enumerate("fk")])
        second = self.drawn(outputs, "--open 1")
        self.assertEqual(both[both.index("") + 1 :], second)
        self.assertIn("   tftp 4    made in step 4, freed in step 6; entered once from above, once from below", second)
        self.assertEqual(self.drawn(outputs, "--open 2"), ["there is no open 2"])

    def test_a_run_that_is_ended_from_outside(self) -> None:
        self.assertEqual(
            self.drawn(test_replay.ROWS["power_off"].outputs),
            [
                "open 0: TFTP with 10.0.0.1 port 69, target f",
                "        |0   closed first, in step 4: Stopped",
                "  fetch 1    made in step 1, freed in step 4; entered once from above",
                "        |2   closed fifth, in step 4: Stopped",
                "        |3   closed sixth, in step 4: Stopped",
                "        |1   closed second, in step 4: Stopped",
                "        |    plugged in step 1, unplugged in step 4",
                "        |0   closed third, in step 4: Stopped",
                "   tftp 2    made in step 1, freed in step 4; entered once from above, once by a close, once by time",
                "        |1   closed fourth, in step 4: Stopped",
                "        |2   closed seventh, in step 4: Stopped",
                "        |3   closed eighth, in step 4: Stopped",
                f"  ended in step 4: Stopped, as fetch 1 slot 0 was closed first; {MEANT}",
            ],
        )

    def test_no_way_and_silence(self) -> None:
        lines = self.drawn(test_replay.ROWS["no_route"].outputs)
        ends = "  ended in step 1: NoRoute(10.0.1.1), as fetch 1 slot 0 was closed first; "
        self.assertTrue(lines[-1].startswith(ends), lines)
        lines = self.drawn(made.silent_run()[1])
        self.assertIn("   tftp 2    made in step 1, freed in step 64; entered once from above, 63 times by time", lines)
        ends = "  ended in step 64: TimedOut(tries 6), as tftp 2 slot 0 was closed first; the tries"
        self.assertTrue(lines[-1].startswith(ends), lines)

    def test_a_body_that_grew_too_large(self) -> None:
        grew = graph_records.grew_too_large(0, Advance(0, 1), made.to_server(tftp_ack(1)))
        lines = self.drawn([*made.fetch_begins(test_replay.FETCH, b"f"), Step(2), *grew])
        self.assertIn("        |1   closed second, in step 2: TooLarge(1: one image); 1 message dropped", lines)
        ends = "  ended in step 2: TooLarge(1: one image), as fetch 1 slot 0 was closed first; "
        self.assertTrue(lines[-1].startswith(ends), lines)

    def test_a_recording_that_stops(self) -> None:
        """What lives at its end is drawn too."""
        begins = made.fetch_begins(test_replay.FETCH, b"f")
        self.assertEqual(
            self.drawn(begins),
            [
                "open 0: TFTP with 10.0.0.1 port 69, target f",
                "        |0   open",
                "  fetch 1    made in step 1, not freed; entered once from above",
                "        |1   open",
                "        |    plugged in step 1",
                "        |0   open",
                "   tftp 2    made in step 1, not freed; entered once from above",
                "  it didn't end in this recording",
            ],
        )
        self.assertEqual(self.drawn(begins[:5])[:2], ["objects of no open", "  fetch 1    made in step 1, not freed"])
        self.put("cut.out", made.spelled(made.BOOT_OUTPUT)[:-1])
        printed = self.fails("tools/show.py cut.out --graph", "cut.out: at byte")
        self.assertEqual(printed.splitlines(), BOOT)

    def test_a_run_without_objects(self) -> None:
        self.put("run.out", made.HELLO_OUTPUT)
        self.assertEqual(self.works("tools/show.py run.out --graph"), "no open was made\n")
        bare = [record for record in made.BOOT_OUTPUT if not isinstance(record, Graph)]
        self.assertEqual(
            self.drawn(bare),
            [BOOT[0], "  there is no GRAPH record of its objects", "  ended in step 6: Ok; it went well"],
        )

    def test_objects_on_several_others(self) -> None:
        """A kind that isn't built yet, with two below it, and an object that is plugged after the OPEN."""
        opened = Open(0, OpenKind.HTTP, made.SERVER.ip, 80, made.OWN_PORT, b"http://a/")
        begins = events("made 1 fetch, made 2 http, plugged 1.1 2.0, made 3 tcp, plugged 2.1 3.0")
        later = events("made 4 resolver, plugged 2.2 4.0, closed 2.2 ok, closed 4.0 ok")
        words = Command(1, 2, 0, True, (b"imgfetch", b"http://a/"))
        lines = self.drawn([Step(1), made.enter(), words, *begins, opened, Step(2), *later, Done(Status.UNFINISHED)])
        self.assertEqual(
            lines,
            [
                "open 0: HTTP with 10.0.0.1 port 80, target http://a/",
                "     fetch 1    made in step 1, not freed",
                "           |1   open",
                "           |    plugged in step 1",
                "           |0   open",
                "      http 2    made in step 1, not freed",
                "           |1   open",
                "           |    plugged in step 1",
                "               |0   open",
                "           tcp 3    made in step 1, not freed",
                "           |2   closed first, in step 2: Ok",
                "           |    plugged in step 2",
                "               |0   closed second, in step 2: Ok",
                "      resolver 4    made in step 2, not freed",
                "  it didn't end in this recording",
            ],
        )

    def test_what_is_no_run_is_refused(self) -> None:
        begins = made.fetch_begins(test_replay.FETCH, b"f")
        for outputs, said in (
            ([Step(1), left(1, 0)], "step 1 speaks of object 1, which was not made"),
            ([*begins, Step(2), *came(0, over=OK), closed(1, 0, OK)], "step 2 speaks of object 1"),
            ([Step(1), *graph_records.made(0), *graph_records.made(0)], "step 1 makes object 1 a second time"),
            ([Step(1), *[one for number in range(513) for one in graph_records.made(number)]],
             "step 1 makes object 1025, and 1024 belong to no open that ended"),
        ):
            self.put("run.out", outputs)
            self.fails("tools/show.py run.out --graph", f"show.py: {said}")

    def test_a_ring_of_objects_is_drawn_once(self) -> None:
        """No run has one, and a recording may say anything."""
        lines = self.drawn([Step(1), *events("made 1 fetch, made 2 tftp, plugged 1.1 2.0, plugged 2.1 1.0")])
        self.assertEqual(sum("made in step 1" in line for line in lines), 2)

    def test_opens_of_one_number(self) -> None:
        """No run has them; of the earlier one nothing is kept."""
        begins = [made.command(b"x"), *graph_records.made(0), made.tftp_open(b"f")]
        again = [made.command(b"x"), *graph_records.made(1), made.tftp_open(b"g")]
        lines = self.drawn([Step(1), *begins, *again, *(begins + again) * 600])
        self.assertEqual([line for line in lines if line.startswith("open")],
                         ["open 0: TFTP with 10.0.0.1 port 69, target g"])

    def test_many_opens(self) -> None:
        """Each picture comes as its open ends; nothing of it is kept."""
        cause = Cause(Code.NO_ROUTE, 1)
        outputs: list[Record] = [Step(1), made.enter()]
        for number in range(300):
            opened = Open(number, OpenKind.TFTP, made.SERVER.ip, 69, made.OWN_PORT + number, b"f")
            words = made.command(b"imgfetch tftp://10.0.0.1/f")
            outputs += [words, *graph_records.turned_back(opened, cause), Result(cause)]
        lines = self.drawn([*outputs, Done(Status.UNFINISHED)])
        self.assertEqual(sum(line.startswith("open ") for line in lines), 300)
        self.assertIn("  fetch 599    made in step 1, freed in step 1; entered once from above", lines)


if __name__ == "__main__":
    unittest.main()
