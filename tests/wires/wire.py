"""Both lines of a bus over time, as a history makes them."""

from dataclasses import dataclass
from random import Random

from history import Outside, Transfer


@dataclass
class Timing:
    """How long the steps of a wire are; `least` and `most` in ticks of the capture."""

    tick: int  # picoseconds
    least: int  # between two edges
    most: int  # the same, if nothing stretches it
    spike: int = 0  # picoseconds; shorter pulses are glitches, and 0 has none
    glitches: float = 0.0  # how often a pause has one
    together: tuple[str, ...] = ("",)  # edges of SCL with which SDA may change at once: 'fall', 'rise'

    def longer(self) -> int:
        """The fewest ticks that are longer than a spike."""
        return self.spike // self.tick + 1

    def shorter(self) -> int:
        """The most ticks that are shorter than a spike."""
        return (self.spike - 1) // self.tick


class Wire:
    """SCL and SDA, and each change: its tick, its line and the new level. A line that is not told has no level in the capture before its first change."""

    def __init__(self, random: Random, timing: Timing, levels: dict[str, int], free: bool):
        self.random, self.timing, self.levels, self.free = random, timing, dict(levels), free
        self.time = 0
        self.changes: list[tuple[int, str, int]] = []
        self.told: set[str] = set()
        self.starting = False

    def tell(self, *lines: str) -> None:
        """These lines' levels now."""
        self.changes += [(self.time, line, self.levels[line]) for line in lines]
        self.told.update(lines)

    def pause(self) -> None:
        """Uneven, now and then stretched, and with a glitch in it that is far from any edge."""
        timing, random = self.timing, self.random
        if self.told and random.random() < timing.glitches:
            self.time += timing.longer()
            for line in random.sample(sorted(self.told), random.randint(1, len(self.told))):
                length = random.randint(1, timing.shorter())
                level = self.levels[line]
                self.changes += [(self.time, line, 1 - level), (self.time + length, line, level)]
            self.time += timing.shorter() + timing.longer()
        self.time += random.randint(timing.least, timing.most)
        if random.random() < 0.02:
            self.time += 20 * timing.most

    def set(self, **levels: int) -> None:
        """What differs changes now."""
        changed = [line for line, level in levels.items() if level != self.levels[line]]
        self.levels.update(levels)
        self.tell(*changed)

    def move(self, **levels: int) -> None:
        """What differs changes, all at once, after a pause."""
        self.pause()
        self.set(**levels)

    def clock(self, sda: int) -> None:
        """SCL goes low if it is high, SDA takes its level, SCL goes high."""
        together = self.random.choice(self.timing.together)
        if self.levels["scl"]:
            self.move(scl=0, **({"sda": sda} if together == "fall" else {}))
        if together == "" and self.random.random() < 0.1:
            self.move(sda=1 - self.levels["sda"])
        if together == "rise":
            self.move(scl=1, sda=sda)
        else:
            self.move(sda=sda)
            self.move(scl=1)
        self.free = self.starting = False

    def start(self) -> int:
        """Its time in picoseconds."""
        if not self.free:
            self.clock(1)
        self.pause()
        if self.time * self.timing.tick % 1000 == 500:  # half a nanosecond rounds either way
            self.time += 1
        self.set(sda=0)
        self.free, self.starting = False, True
        return self.time * self.timing.tick

    def stop(self) -> None:
        """Directly after a START, it may come in the same high phase."""
        if not self.starting or self.random.random() < 0.5:
            self.clock(0)
        self.move(sda=1)
        self.free = True

    def play(self, history: list[Transfer | Outside]) -> list[int]:
        """The times of the transfers' STARTs."""
        starts = []
        for item in history:
            if isinstance(item, Transfer):
                starts.append(self.start())
            elif item.started:
                self.start()
            for bit in item.bits() if isinstance(item, Transfer) else item.bits:
                self.clock(int(bit))
            if item.stopped:
                self.stop()
        return starts

    def end(self) -> None:
        """A transfer without a STOP ends with SCL low, so that its last bit counts; a high phase that does not end may follow. After a STOP nothing does."""
        if self.free:
            return
        if not self.starting or self.random.random() < 0.5:
            self.move(scl=0)
            if self.random.random() < 0.5:
                self.clock(self.random.randrange(2))
