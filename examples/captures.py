"""Writes the captures beside it, as sigrok-cli exports them from a logic analyser at 1 MHz: `python3 examples/captures.py [FOLDER]`.

minus-lost.vcd is the incident: the price -4 with a zero for the minus bar. Two chips acknowledge every byte.
missing-chip.vcd has the price -4 twice; the second time chip 1 is off the bus, and nobody acknowledges the data.
"""

import sys
from pathlib import Path

HEAD = """$timescale 1 us $end
$scope module libsigrok $end
$var wire 1 ! SCL $end
$var wire 1 " SDA $end
$upscope $end
$enddefinitions $end
"""
QUARTER = 3  # microseconds: a clock of some 83 kHz
PAUSE = 50
COMMANDS = "70 80 CB 80 E0 80 09 80 4F 40"


class Wire:
    """Both levels over time, and the lines of those that change."""

    def __init__(self) -> None:
        self.time, self.scl, self.sda = 0, 1, 1
        self.lines = ['#0 1! 1"']

    def set(self, scl: int, sda: int) -> None:
        """Both levels from a quarter of a clock later on."""
        self.time += QUARTER
        changes = [f"{level}{code}" for level, before, code in ((scl, self.scl, "!"), (sda, self.sda, '"')) if level != before]
        if changes:
            self.lines.append(f"#{self.time} {' '.join(changes)}")
        self.scl, self.sda = scl, sda

    def bit(self, level: int) -> None:
        """A clock: SDA changes while SCL is low."""
        for scl in (0, 1, 1, 0):
            self.set(scl, level)

    def transfer(self, acknowledged: str, ignored: str = "") -> None:
        """A transfer, START to STOP, of bytes that are acknowledged and bytes that are not."""
        self.time += PAUSE
        self.set(1, 0)
        self.set(0, 0)
        for data, level in ((acknowledged, 0), (ignored, 1)):
            for byte in bytes.fromhex(data):
                for bit in f"{byte:08b}":
                    self.bit(int(bit))
                self.bit(level)
        for scl, sda in ((0, 0), (1, 0), (1, 1)):
            self.set(scl, sda)

    def text(self) -> str:
        """The VCD file."""
        return HEAD + "\n".join([*self.lines, f"#{self.time + PAUSE}", ""])


def captures() -> dict:
    """Each file's name and text."""
    incident, missing = Wire(), Wire()
    incident.transfer(f"{COMMANDS} 00 A6")
    missing.transfer(f"{COMMANDS} 04 A6")
    missing.transfer(COMMANDS, "04 A6")
    return {"minus-lost.vcd": incident.text(), "missing-chip.vcd": missing.text()}


if __name__ == "__main__":
    folder = Path(sys.argv[1]) if len(sys.argv) > 1 else Path(__file__).parent
    for name, text in captures().items():
        (folder / name).write_text(text)
