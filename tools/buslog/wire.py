"""The levels of SCL and SDA as transfers.

A bit counts when SCL falls after a high with SDA steady meanwhile, so the high in which a START or a STOP falls is none. The first levels are no
edges. Where both change at one time, SDA changes while SCL is low.
"""

from __future__ import annotations

from fractions import Fraction
from typing import Iterator, Optional

from .text import Transfer
from .vcd import Levels


class Begun:
    """A transfer since its START."""

    def __init__(self, time: int) -> None:
        self.time = time
        self.data = bytearray()
        self.marks = bytearray()
        self.bits = ""

    def bit(self, level: int) -> None:
        """One more clock."""
        if len(self.bits) < 8:
            self.bits += "1" if level else "0"
        else:
            self._byte(b"-" if level else b"+")

    def _byte(self, mark: bytes) -> None:
        self.data.append(int(self.bits, 2))
        self.marks += mark
        self.bits = ""

    def ended(self, unit: Fraction, stopped: bool) -> Transfer:
        """The transfer as it is at a STOP, at the next START or at the end of the capture."""
        if len(self.bits) == 8:
            self._byte(b" ")
        seconds = float(round(self.time * unit, 9))
        return Transfer(seconds, bytes(self.data), self.marks.decode(), self.bits, stopped)


def transfers(levels: Levels, unit: Fraction) -> Iterator[Transfer]:
    """The transfers of a capture, each as soon as it has ended; what comes before the first START belongs to none."""
    begun: Optional[Begun] = None
    high, data, steady = 0, 0, False
    for time, scl, sda in levels:
        if high and scl:
            if begun:
                yield begun.ended(unit, bool(sda))
            begun = None if sda else Begun(time)
            steady = False
        elif high:
            if begun and steady:
                begun.bit(data)
        else:
            steady = True
        high, data = scl, sda
    if begun:
        yield begun.ended(unit, False)


def without_spikes(levels: Levels, shortest: int) -> Levels:
    """The levels without the pulses of either signal that are shorter than so many units: an edge counts if its level lasts, or is the last one."""
    raw: Optional[list[int]] = None
    kept: list[int] = []
    edges: list[Optional[int]] = [None, None]

    def lasted(until: float) -> Levels:
        for edge in sorted({edge for edge in edges if edge is not None and edge <= until}):
            for which in (0, 1):
                if edges[which] == edge:
                    kept[which], edges[which] = 1 - kept[which], None
            yield (edge, *kept)

    for time, *level in levels:
        if raw is None:
            kept = level[:]
            yield (time, *level)
        else:
            yield from lasted(time - shortest)
            for which in (0, 1):
                if level[which] != raw[which]:
                    edges[which] = time if edges[which] is None else None
        raw = level
    yield from lasted(float("inf"))
