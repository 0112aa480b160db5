#!/usr/bin/env python3
"""large.py MEGABYTES CAPTURE TEXT: writes a capture of that size and its neutral text, to time the reader and to hold it to.

A bus at 400 kHz without a rest, sampled at 10 MHz, in sigrok's form: a line for each sample in which a line changes.
"""

import sys
from itertools import groupby
from random import Random

from history import transfer
from wire import Timing, Wire

HEADER = "$timescale 1 ns $end\n$scope module libsigrok $end\n$var wire 1 ! SCL $end\n$var wire 1 \" SDA $end\n$upscope $end\n$enddefinitions $end\n"
SAMPLE = 100  # nanoseconds
CODES = {"scl": "!", "sda": '"'}


def lines(wire: Wire, unit: int = SAMPLE) -> str:
    """What changed since the last time, in units a tick."""
    groups = groupby(wire.changes, key=lambda change: change[0])
    text = "".join(f"#{time * unit} {' '.join(f'{level}{CODES[line]}' for _, line, level in group)}\n" for time, group in groups)
    wire.changes.clear()
    return text


def main(megabytes: str, capture: str, text: str) -> None:
    random = Random(0)
    wire = Wire(random, Timing(tick=SAMPLE * 1000, least=7, most=10), {"scl": 1, "sda": 1}, free=True)
    wire.tell("scl", "sda")
    left = int(megabytes) * 10**6
    with open(capture, "w", encoding="ascii") as captured, open(text, "w", encoding="ascii") as told:
        left -= captured.write(HEADER)
        while left > 0:
            item = transfer(random)
            told.write(item.text(wire.play([item])[0]))
            left -= captured.write(lines(wire))
        wire.end()
        captured.write(lines(wire))


if __name__ == "__main__":
    if len(sys.argv) != 4:
        sys.exit(__doc__.splitlines()[0])
    main(*sys.argv[1:])
