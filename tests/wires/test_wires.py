"""500 generated captures come back exactly. A failing one's seed is in its message: `tests/wires/generate.py SEED FOLDER` writes it."""

import tempfile
import unittest
from collections import Counter
from pathlib import Path

import generate
import reader
from history import OURS, Outside, Transfer

SEEDS = range(500)
RUN = SEEDS[::50]  # these by the command line too


def kinds(capture: generate.Capture) -> set[str]:
    """What is in its history, its wire's timing and its options."""
    found = {name for name in ("--scl", "--sda", "--spike") if name in capture.options}
    found |= {f"tick {capture.timing.tick}", f"together {capture.timing.together[-1]}"}
    if capture.timing.glitches:
        found.add("glitches")
    if not capture.text:
        found.add("no line")
    for index, item in enumerate(capture.history):
        last = index == len(capture.history) - 1
        if isinstance(item, Outside):
            found.add("START unseen" if item.started else "clocks first" if index == 0 else "clocks after a STOP")
            continue
        found.add("STOP" if item.stopped else "no STOP at the end" if last else "repeated START")
        found |= {f"mark {mark!r}" for _, mark in item.bytes} | kinds_of_bytes(item)
    return found


def kinds_of_bytes(transfer: Transfer) -> set[str]:
    if not transfer.bytes:
        return {f"address cut after {len(transfer.cut)} bits"}
    address = transfer.bytes[0][0]
    whose = "ours" if address in OURS else "another's"
    return {f"{whose}, {'read' if address & 1 else 'write'}"} | ({f"cut after {len(transfer.cut)} bits"} if transfer.cut else set())


ALL = {"--scl", "--sda", "--spike", "glitches", "no line", "START unseen", "clocks first", "clocks after a STOP"}
ALL |= {"STOP", "no STOP at the end", "repeated START", "mark '+'", "mark '-'", "mark ''"}
ALL |= {f"tick {tick}" for tick in (100, 1000, 10_000, 1_000_000)} | {"together ", "together fall", "together rise"}
ALL |= {f"{whose}, {way}" for whose in ("ours", "another's") for way in ("read", "write")}
ALL |= {f"address cut after {count} bits" for count in range(8)} | {f"cut after {count} bits" for count in range(1, 8)}


class Wires(unittest.TestCase):
    @classmethod
    def setUpClass(cls):
        cls.captures = {seed: generate.capture(seed) for seed in SEEDS}

    def test_every_capture_comes_back(self):
        with tempfile.TemporaryDirectory() as folder:
            path = Path(folder, "capture.vcd")
            for seed, capture in self.captures.items():
                path.write_bytes(capture.vcd)
                for way in (reader.called, reader.run) if seed in RUN else (reader.called,):
                    with self.subTest(seed=seed, way=way.__name__):
                        status, text = way(["from-vcd", str(path), *capture.options])
                        self.assertEqual(text, capture.text)
                        self.assertEqual(status, 0)

    def test_every_kind_is_among_them(self):
        found = Counter(kind for capture in self.captures.values() for kind in kinds(capture))
        self.assertEqual(set(found), ALL)
        self.assertGreaterEqual(min(found.values()), 10, found)


if __name__ == "__main__":
    unittest.main()
