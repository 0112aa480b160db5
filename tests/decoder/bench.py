"""A decoder and what it puts, without sigrok: packets as its i2c decoder gives them, made of docs/BENCH.md's neutral text."""

import os
import sys
from pathlib import Path

TOP = Path(__file__).resolve().parents[2]
EXAMPLES = TOP / "examples"
sys.path[:0] = [str(Path(__file__).resolve().parent), os.environ.get("SIGROKDECODE_DIR") or str(TOP / "tools" / "sigrok")]

from pcf8532 import Decoder  # noqa: E402

CLOCK = 10  # samples
BYTE = 9 * CLOCK


class Bench:
    """A decoder from power-on; `outputs` has the samples, the class and the content of all that it put."""

    def __init__(self, **options):
        self.decoder = Decoder()
        self.decoder.options = {option["id"]: option["default"] for option in Decoder.options} | options
        self.sample = 0
        self.start()

    def start(self):
        self.decoder.outputs = self.outputs = []
        self.decoder.reset()
        self.decoder.start()

    def packet(self, kind, content=None, length=0):
        self.decoder.decode(self.sample, self.sample + length, [kind, content])

    def byte(self, value, mark):
        """Eight clocks and the ninth; whatever i2c says of the value besides the bits is wrong here, since its form is an option of i2c's."""
        samples = [self.sample + place * CLOCK for place in reversed(range(8))]
        self.packet("BITS", [[value >> place & 1, sample, sample + CLOCK] for place, sample in enumerate(samples)], 8 * CLOCK)
        self.packet("DATA WRITE", 0x55)
        self.sample += 8 * CLOCK
        if mark:
            self.packet({"+": "ACK", "-": "NACK"}[mark], None, CLOCK)
        self.sample += CLOCK

    def transfers(self, *texts):
        """Each with or without its `]`; gives the sample of each START."""
        starts = []
        for text in texts:
            starts.append(self.sample)
            self.packet("START")
            self.sample += CLOCK
            for token in text.rstrip("]").split():
                self.byte(int(token[:2], 16), token[2:])
            if text.endswith("]"):
                self.packet("STOP")
            self.sample += CLOCK
        return starts

    def texts(self, *kinds):
        """The longest text of each annotation of these classes."""
        return [content[0] for _, _, kind, content in self.outputs if kind in kinds]

    def bytes(self):
        return self.texts("address", "control", "command", "data", "byte")

    def log(self, version):
        return b"".join(content for _, _, kind, content in self.outputs if kind == f"log{version}")


def acknowledged(data):
    """A whole transfer of which every byte is acknowledged."""
    return " ".join(f"{byte:02X}+" for byte in bytes.fromhex(data)) + "]"
