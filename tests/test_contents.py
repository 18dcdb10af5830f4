"""What enters the lowest object of each open and what leaves it, in every output; and which outputs the check refuses."""

from __future__ import annotations

import unittest
from dataclasses import replace

from shared.kinds import GraphEvent, OpenKind, Way
from shared.records import Graph, Open, Received, Record, Sent, Tick, Try
from tests import TOP, made, test_replay
from tests.all_rows import all_inputs
from tests.graph_contents import contents_fault
from tests.replays import can_run, replay_all, replayed
from tests.test_graph import whole_records

EXAMPLES = {path.name: path.read_bytes() for path in sorted((TOP / "examples").glob("*.rec"))}
# a quarter of a million records, of 16,384 opens
LONGEST = "script_all_opens"


def opened(outputs: list[Record]) -> set[OpenKind]:
    return {record.kind for record in outputs if isinstance(record, Open)}


@unittest.skipUnless(can_run(), "the program isn't built, and the toolchain's rt is missing")
class Written(unittest.TestCase):
    def agree(self, inputs: dict[str, bytes], outputs: dict[str, bytes | None]) -> set[OpenKind]:
        """Each of these outputs agrees with its input; the kinds of opens that they have."""
        kinds: set[OpenKind] = set()
        for name, recording in inputs.items():
            output = outputs[name]
            if output is not None and name != LONGEST:
                with self.subTest(name):
                    records = test_replay.read_all(output)
                    self.assertIsNone(contents_fault(whole_records(recording), records))
                    kinds |= opened(records)
        return kinds

    def test_all_rows(self) -> None:
        kinds = self.agree(all_inputs(), {name: run.output for name, run in replayed().items()})
        self.assertEqual(kinds, set(OpenKind))

    def test_the_examples(self) -> None:
        outputs = {name: run.output for name, run in replay_all(EXAMPLES).items()}
        self.assertEqual(set(outputs), set(EXAMPLES))
        self.agree(EXAMPLES, outputs)


class Refused(unittest.TestCase):
    """A boot by TFTP with one thing changed."""

    INPUTS, OUTPUTS = made.BOOT_INPUT, made.BOOT_OUTPUT
    TFTP = 2

    def refuses(self, outputs: list[Record], why: str) -> None:
        self.assertIn(why, contents_fault(self.INPUTS, outputs) or "no fault")

    def places(self, event: GraphEvent, number: int) -> list[int]:
        """Where the object has this event."""
        return [
            place for place, record in enumerate(self.OUTPUTS)
            if isinstance(record, Graph) and (record.event, record.object) == (event, number)
        ]  # fmt: skip

    def test_it_agrees(self) -> None:
        self.assertIsNone(contents_fault(self.INPUTS, self.OUTPUTS))

    def test_a_message_without_an_entry(self) -> None:
        for place in self.places(GraphEvent.ENTERED, self.TFTP)[1:]:
            last = next(at for at in self.places(GraphEvent.LEFT, self.TFTP) if at > place)
            without = [record for at, record in enumerate(self.OUTPUTS) if at not in (place, last)]
            self.assertIsNotNone(contents_fault(self.INPUTS, without))

    def test_an_entry_by_another_way(self) -> None:
        place = self.places(GraphEvent.ENTERED, self.TFTP)[1]
        entry = self.OUTPUTS[place]
        assert isinstance(entry, Graph)
        other = Way.UP if entry.other_slot == Way.TIME else Way.TIME
        changed = [*self.OUTPUTS[:place], replace(entry, other_slot=other), *self.OUTPUTS[place + 1 :]]
        self.refuses(changed, "was entered by")

    def test_an_input_that_came_to_none(self) -> None:
        other = [Tick(5) if isinstance(record, Received) else record for record in self.INPUTS]
        self.assertIsNotNone(contents_fault(other, self.OUTPUTS))

    def test_a_message_outside_of_its_entry(self) -> None:
        for place in [at for at, record in enumerate(self.OUTPUTS) if isinstance(record, Sent)]:
            last = next(at for at in self.places(GraphEvent.LEFT, self.TFTP) if at > place)
            moved = [*self.OUTPUTS]
            moved.insert(last, moved.pop(place))
            self.assertIsNotNone(contents_fault(self.INPUTS, moved))

    def test_a_message_of_another_port(self) -> None:
        *_, place = (at for at, record in enumerate(self.OUTPUTS) if isinstance(record, Sent))
        sent = self.OUTPUTS[place]
        assert isinstance(sent, Sent)
        frame = bytearray(sent.frame)
        frame[35] ^= 1
        changed = [*self.OUTPUTS[:place], Sent(bytes(frame)), *self.OUTPUTS[place + 1 :]]
        self.refuses(changed, "stands Sent")

    def test_a_try_of_another_open(self) -> None:
        place = next(at for at, record in enumerate(self.OUTPUTS) if isinstance(record, Try))
        attempt = self.OUTPUTS[place]
        assert isinstance(attempt, Try)
        changed = [*self.OUTPUTS[:place], replace(attempt, number=1), *self.OUTPUTS[place + 1 :]]
        self.refuses(changed, "stands within [0]")


if __name__ == "__main__":
    unittest.main()
