"""What happened on a bus: transfers, and clocks that belong to none; drawn at random, and as neutral text."""

from dataclasses import dataclass, field
from random import Random

OURS = (0x70, 0x71, 0x72, 0x73)
OTHERS = (0x00, 0x38, 0x39, 0x6F, 0x74, 0x78, 0xA0, 0xA1, 0xF0, 0xFF)


@dataclass
class Transfer:
    """From a START to a STOP, to the next START or to the end of the capture."""

    bytes: list[tuple[int, str]] = field(default_factory=list)  # each with its mark: '+', '-', or '' where no ninth clock came
    cut: str = ""  # the 1 to 7 bits of a byte that did not end
    stopped: bool = True

    def bits(self) -> str:
        """As clocked: an acknowledge is SDA low."""
        ninth = {"+": "0", "-": "1", "": ""}
        return "".join(f"{value:08b}{ninth[mark]}" for value, mark in self.bytes) + self.cut

    def text(self, picoseconds: int) -> str:
        """Its line of neutral text, for a START at that time."""
        tokens = [f"{value:02X}{mark}" for value, mark in self.bytes]
        if self.cut:
            tokens.append("." + self.cut)
        ours = self.bytes and self.bytes[0][0] in OURS
        time = round(picoseconds / 10**12, 9)
        return f"{'' if ours else '# '}@{time!r} [{' '.join(tokens)}{']' if self.stopped else ''}\n"


@dataclass
class Outside:
    """Clocks that belong to no transfer: its START is not in the capture, or a master frees the bus."""

    bits: str
    stopped: bool
    started: bool = False  # by an edge that is a line's first level, and so no START that anyone can see


def bits(random: Random, least: int, most: int) -> str:
    return "".join(random.choice("01") for _ in range(random.randint(least, most)))


def transfer(random: Random) -> Transfer:
    """Mostly whole and to our addresses; often cut, in the address byte too, or without a STOP."""
    made = Transfer(stopped=random.random() < 0.7)
    length = random.choice((0, 0, 1, 1, 2, 3, 4, 5, 6, 8, 12))
    for index in range(length):
        value = random.randrange(256)
        if index == 0:
            value = random.choice(OURS if random.random() < 0.7 else OTHERS)
        made.bytes.append((value, random.choice("+++++++-")))
    end = random.random()
    if end < 0.3:
        made.cut = bits(random, 1, 7)
    elif made.bytes and end < 0.45:
        made.bytes[-1] = (made.bytes[-1][0], "")
    elif made.bytes and made.bytes[0][0] & 1:
        made.bytes[-1] = (made.bytes[-1][0], "-")
    return made


def history(random: Random) -> list[Transfer | Outside]:
    """At most 8 transfers. Clocks of none come first, where the capture begins inside a transfer, or after a STOP."""
    items: list[Transfer | Outside] = []
    if random.random() < 0.3:
        items.append(Outside(bits(random, 0, 40), random.random() < 0.5))
    for _ in range(random.choice((0, 1, 1, 2, 3, 4, 6, 8))):
        if items and items[-1].stopped and random.random() < 0.05:
            items.append(Outside(bits(random, 1, 9), random.random() < 0.5))
        items.append(transfer(random))
    return items
