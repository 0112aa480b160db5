#!/usr/bin/env python3
"""generate.py SEED FOLDER: writes SEED.vcd and SEED.txt, a capture and its neutral text, and prints the command that makes one of the other.

The text is made of the history that the wire was made of, and never by reading the wire.
"""

import sys
from dataclasses import dataclass
from pathlib import Path
from random import Random

import vcd
from history import Outside, Transfer, bits, history
from signals import named, noise
from wire import Timing, Wire


@dataclass
class Capture:
    history: list[Transfer | Outside]
    timing: Timing
    vcd: bytes
    options: list[str]
    text: str


def timing(random: Random) -> Timing:
    """From edges a tick apart to the sheet's 400 kHz and far slower; a spike is longer than a tick, which is the shortest glitch."""
    tick = random.choice((100, 1000, 1000, 10_000, 1_000_000))
    made = Timing(tick, 1, 3)
    if random.random() < 0.7:
        made.least = max(1, 600_000 // tick)
        made.most = random.choice((1, 2, 5)) * made.least
    if random.random() < 0.4:
        made.spike = random.choice((50_000, 3 * tick // 2, 2 * tick, 5 * tick)) // 1000 * 1000
        made.spike = max(made.spike, (tick // 1000 + 1) * 1000)
        made.glitches = random.choice((0.0, 0.02, 0.2))
        made.least = max(made.least, made.longer())
        made.most = max(made.most, made.least + 2)
    made.together = random.choice((("",), ("",), ("", "fall"), ("", "fall", "rise")))
    return made


def unseen(random: Random, items: list[Transfer | Outside]) -> None:
    """What comes before both lines have a level: a START that nobody can see, or clocks in which each line changes."""
    first = Outside(bits(random, 1, 20), random.random() < 0.5, started=True)
    if random.random() < 0.5:
        first = Outside(bits(random, 0, 20) + "01", first.stopped)
    if items and isinstance(items[0], Outside):
        items.pop(0)
    items.insert(0, first)


def lines(random: Random, timing: Timing, items: list[Transfer | Outside]) -> Wire:
    """The wire before the history: each line's first level at time 0, later, or not before it changes."""
    told = random.choice(("first", "first", "late", "never"))
    if told == "never" and (items or random.random() < 0.5):
        unseen(random, items)
    inside = bool(items) and isinstance(items[0], Outside) and not items[0].started
    levels = {line: random.randrange(2) if inside else 1 for line in ("scl", "sda")}
    wire = Wire(random, timing, levels, free=not inside)
    if told == "first":
        wire.tell("scl", "sda")
    elif told == "late":
        for line in random.sample(("scl", "sda"), 2):
            if random.random() < 0.7:
                wire.pause()
            wire.tell(line)
    elif random.random() < 0.5:
        wire.tell(random.choice(("scl", "sda")))
    return wire


def capture(seed: int) -> Capture:
    random = Random(seed)
    items, times = history(random), timing(random)
    wire = lines(random, times, items)
    starts = wire.play(items)
    wire.end()
    end = max((time for time, _, _ in wire.changes), default=0)
    if random.random() < 0.7:
        wire.pause()
        end = wire.time
    signals, bus, options = named(random)
    changes = [(time, bus[line], str(level)) for time, line, level in wire.changes] + noise(random, signals, bus, end)
    if times.spike or random.random() < 0.1:
        options.append(["--spike", str(times.spike // 1000)])
    random.shuffle(options)
    transfers = [item for item in items if isinstance(item, Transfer)]
    text = "".join(transfer.text(start) for transfer, start in zip(transfers, starts, strict=True))
    return Capture(items, times, vcd.text(random, times.tick, changes, end, signals), sum(options, []), text)


def main(seed: str, folder: str) -> None:
    made, path = capture(int(seed)), Path(folder, seed)
    path.with_suffix(".vcd").write_bytes(made.vcd)
    path.with_suffix(".txt").write_bytes(made.text.encode())
    print("bin/buslog from-vcd", path.with_suffix(".vcd"), *made.options)


if __name__ == "__main__":
    if len(sys.argv) != 3:
        sys.exit(__doc__.splitlines()[0])
    main(*sys.argv[1:])
