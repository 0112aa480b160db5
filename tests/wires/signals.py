"""The signals of a capture: the two lines, under the names that a reader is told, and others of every kind around them."""

import string
from dataclasses import dataclass
from random import Random

PRINTABLE = "".join(chr(code) for code in range(33, 127))
NAMES = ("clk", "RESET", "SCL_raw", "sda2", "xscl", "D7", "state", "irq_n", "Vlcd", "data", "chip_select", "INT")


@dataclass
class Signal:
    name: str
    identifier: str
    kind: str = "wire"
    size: int = 1
    range: str = ""

    def change(self, value: str) -> str:
        if self.kind in ("real", "string"):
            return f"{'r' if self.kind == 'real' else 's'}{value} {self.identifier}"
        return f"{value}{self.identifier}" if self.size == 1 else f"b{value} {self.identifier}"

    def draw(self, random: Random) -> str:
        if self.kind == "real":
            return random.choice(("0", "-1.5", "3.3e-05", "1e9", "nan"))
        if self.kind == "string":
            return random.choice(("IDLE", "1!", "#12", "0", "$end", "busy_" + random.choice(string.ascii_letters)))
        return "".join(random.choice("0101xzXZ") for _ in range(random.randint(1, self.size)))

    def unknown(self) -> str:
        return {"real": "0", "string": "none"}.get(self.kind, "x")


Change = tuple[int, Signal, str]  # its time in ticks and the new value


def identifiers(random: Random, count: int) -> list[str]:
    """All different, some so alike that one looks like a change of another; none is a word of the format."""
    alphabet, longest = random.choice(((PRINTABLE, 1), (PRINTABLE, 2), (PRINTABLE, 4), ('01!"#b', 3)))
    found: set[str] = set()
    while len(found) < count:
        drawn = "".join(random.choice(alphabet) for _ in range(random.randint(1, longest)))
        if len(drawn) == 1 or drawn[0] != "$":
            found.add(drawn)
    return random.sample(sorted(found), count)


def others(random: Random, own: list[str]) -> list[Signal]:
    """Signals that are not the bus's, one for each identifier."""
    made = []
    for name, identifier in zip(random.sample(NAMES, len(own)), own):
        kind = random.choice(("wire", "wire", "reg", "integer", "real", "string", "tri"))
        size = {"integer": 32, "real": 64, "string": 1}.get(kind) or random.choice((1, 1, 2, 8, 64))
        ranged = size > 1 and kind in ("wire", "reg", "tri") and random.random() < 0.7
        made.append(Signal(name, identifier, kind, size, random.choice((" ", "")) + f"[{size - 1}:0]" if ranged else ""))
    return made


def cased(random: Random, name: str) -> str:
    return "".join(random.choice((letter.lower(), letter.upper())) for letter in name)


def named(random: Random) -> tuple[list[Signal], dict[str, Signal], list[list[str]]]:
    """The signals in the file's order, those of the two lines, and the options that say which they are."""
    own = identifiers(random, 4 + random.choice((0, 0, 1, 3, 6)))
    around, bus, options = others(random, own[4:]), {}, []
    ways = {line: random.choice(("default", "default", "name", "number")) for line in ("scl", "sda")}
    for line, identifier, another in zip(ways, own, own[2:]):
        name = random.choice(("A", "Bus-", "D", "pin.")) + line[1:].upper() if ways[line] == "name" else cased(random, line)
        bus[line] = Signal(name, identifier, random.choice(("wire", "wire", "reg", "tri")))
        if ways[line] != "default" and random.random() < 0.5:  # another bus's, under the default name
            around.append(Signal(line.upper(), another))
        if random.random() < 0.1:  # the same line under a second name
            around.append(Signal("pad_" + line, identifier))
    signals = random.sample(around + list(bus.values()), len(around) + 2)
    for line, way in ways.items():
        if way == "name":
            options.append(["--" + line, bus[line].name])
        elif way == "number":
            options.append(["--" + line, str(next(index for index, signal in enumerate(signals) if signal is bus[line]))])
    return signals, bus, options


def noise(random: Random, signals: list[Signal], bus: dict[str, Signal], end: int) -> list[Change]:
    """Changes of the signals that are not the bus's, at most one a time."""
    lines = {signal.identifier for signal in bus.values()}
    made = []
    for signal in signals:
        if signal.identifier not in lines:
            times = {random.randint(0, end) for _ in range(random.choice((0, 1, 5, 30)))}
            made += [(time, signal, signal.draw(random)) for time in sorted(times)]
    return made
