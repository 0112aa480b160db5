"""Captures written by hand, with their texts written by hand: the reader gives those texts, and the generator such a wire."""

import unittest
from pathlib import Path
from random import Random

import reader
from history import Transfer
from wire import Timing, Wire

HAND = Path(__file__).resolve().parent / "hand"
WHOLE = "@2e-06 [70+\n# @6.4e-05 [.01]\n"
ENDS = "# @5e-06 []\n@7e-06 [72\n@2.7e-05 [70- .11\n"
SPIKES = "# @2e-06 []\n# @3e-06 [.0]\n"
SPIKES_KEPT = "# @1e-06 []\n# @2e-06 []\n# @3e-06 [.000]\n"


class Even(Random):
    """Draws no glitch, no stretching and nothing else that is rare."""

    def random(self) -> float:
        return 0.999


class Hand(unittest.TestCase):
    def reads(self, name: str, text: str, *options: str) -> None:
        arguments = ["from-vcd", str(HAND / name), *options]
        for way in (reader.called, reader.run):
            with self.subTest(way=way.__name__):
                self.assertEqual(way(arguments), (0, text))

    def test_a_repeated_start_and_a_cut(self):
        self.reads("whole.vcd", WHOLE)

    def test_a_capture_inside_transfers(self):
        self.reads("ends.vcd", ENDS)
        self.reads("ends.vcd", ENDS, "--sda", "2", "--scl", "scl")

    def test_a_spike_is_shorter_than_the_length_given(self):
        self.reads("spikes.vcd", SPIKES, "--spike", "50")
        self.reads("spikes.vcd", SPIKES_KEPT)
        self.reads("spikes.vcd", SPIKES_KEPT, "--spike", "0")

    def test_the_generator_makes_the_wire_written_by_hand(self):
        lines = {"!": "scl", '"': "sda"}
        times = [line.split() for line in (HAND / "whole.vcd").read_text().splitlines() if line.startswith("#")]
        by_hand = [(int(time[1:]), lines[change[1]], int(change[0])) for time, *changes in times for change in changes]
        wire = Wire(Even(), Timing(tick=1_000_000, least=2, most=2), {"scl": 1, "sda": 1}, free=True)
        wire.tell("scl", "sda")
        transfers = [Transfer([(0x70, "+")], stopped=False), Transfer(cut="01")]
        starts = wire.play(transfers)
        self.assertEqual(wire.changes, by_hand)
        self.assertEqual("".join(transfer.text(start) for transfer, start in zip(transfers, starts)), WHOLE)


if __name__ == "__main__":
    unittest.main()
