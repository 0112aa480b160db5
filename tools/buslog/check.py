"""Each transfer of a capture held against the library: which byte bus and model acknowledge differently, and which chip it is about.

No rule of the chips is here: whether the model acknowledges byte k is asked by the transfer up to it, on a copy of the bus.
"""

from __future__ import annotations

import re
from functools import lru_cache
from typing import Callable, Iterator, NamedTuple, Optional

from humtrellis import WHOLE, Answer, Bus, Number, Refusal

from .text import Transfer

NOTHING = Answer(0, 0, 0, None)


class Difference(NamedTuple):
    """Bytes in a row, `first` to `last`, that only one of bus and model acknowledged; of data bytes the chip that the model names."""

    first: int
    last: int
    on_bus: bool
    data: bool
    chip: Optional[int]


class Verdict(NamedTuple):
    """What the library says of a transfer: its answer or refusal, the acknowledge marks that were compared, and the differences."""

    answer: Answer
    refusal: Optional[Refusal]
    compared: int
    differences: list[Difference]


class Model:
    """The chips from power-on; a refused transfer changes nothing."""

    def __init__(self, part: int, chips: tuple[int, int]) -> None:
        self.bus = Bus(part, *chips)
        self.full = _fullest(part, chips)

    def take(self, transfer: Transfer) -> Verdict:
        """One transfer more."""
        before = self.bus.copy()
        # Of a byte that was cut, the bits that did not come are sent as 0.
        data = transfer.data + (bytes([int(transfer.cut.ljust(WHOLE, "0"), 2)]) if transfer.cut else b"")
        try:
            answer = self.bus.transfer(data, len(transfer.cut) or WHOLE)
        except Refusal as refusal:
            return Verdict(NOTHING, refusal, 0, [])
        # What follows a read's address the master acknowledges.
        marks = transfer.marks[: 1 if transfer.read else None]
        differences = _in_rows(self._differences(before, transfer.data, marks))
        return Verdict(answer, None, len(marks.replace(" ", "")), differences)

    def last(self, data: bytes, on_bus: bool) -> Difference:
        """The last byte of a transfer that goes on, and so changes nothing yet; only one of bus and model acknowledged it."""
        model = _prefixes(self.bus, data)
        return _one(self._fuller(self.bus, model, data) if on_bus else model, len(data) - 1, on_bus)

    def _differences(self, before: Bus, data: bytes, marks: str) -> Iterator[Difference]:
        model = _prefixes(before, data)
        fuller = self._fuller(before, model, data)
        for marked in re.finditer("[+-]+", marks):
            for place in _differing(model, marks, *marked.span()):
                on_bus = marks[place] == "+"
                yield _one(fuller if on_bus else model, place, on_bus)

    def _fuller(self, before: Bus, model: Callable[[int], Answer], data: bytes) -> Callable[[int], Answer]:
        """What a bus with every chip answers; a group without chips has no registers to go by, so that nobody can say which chip would acknowledge."""
        full = self.full.copy()
        full.registers[:] = before.registers
        return _prefixes(full, data) if data and model(1).acknowledged else model


def _in_rows(differences: Iterator[Difference]) -> list[Difference]:
    """Neighbours that are alike as one."""
    rows: list[Difference] = []
    for one in differences:
        if rows and (rows[-1].last + 1, *rows[-1][2:]) == (one.first, *one[2:]):
            rows[-1] = rows[-1]._replace(last=one.last)
        else:
            rows.append(one)
    return rows


def _fullest(part: int, chips: tuple[int, int]) -> Bus:
    """The bus with as many chips more in each group as the library takes: it names the chip that would acknowledge."""
    counts = list(chips)
    for group in (0, 1):
        while True:
            counts[group] += 1
            try:
                Bus(part, *counts)
            except Refusal as refusal:
                if refusal.number != Number.CHIP_COUNT:
                    raise
                counts[group] -= 1
                break
    return Bus(part, *counts)


def _prefixes(bus: Bus, data: bytes) -> Callable[[int], Answer]:
    """What the library answers to the first so many bytes."""

    @lru_cache(maxsize=None)
    def answer(length: int) -> Answer:
        return bus.copy().transfer(data[:length]) if length else NOTHING

    return answer


def _differing(model: Callable[[int], Answer], marks: str, start: int, end: int) -> Iterator[int]:
    """The places from `start` to `end` where the model's acknowledge is not the mark, found by halves, since most stretches are alike."""
    modelled, seen, length = model(end).acknowledged - model(start).acknowledged, marks.count("+", start, end), end - start
    if modelled == seen and seen in (0, length):
        return
    if length == 1:
        yield start
        return
    middle = (start + end) // 2
    yield from _differing(model, marks, start, middle)
    yield from _differing(model, marks, middle, end)


def _one(model: Callable[[int], Answer], place: int, on_bus: bool) -> Difference:
    """A byte that differs; it is data where the bits of data bytes grow by it."""
    before, after = model(place), model(place + 1)
    data = after.stored + after.discarded > before.stored + before.discarded
    return Difference(place, place, on_bus, data, after.acknowledged_by if data else None)


# ---- In words ----------------------------------------------------------------


def about(difference: Difference, group: int) -> str:
    """Who differs over the bytes, and what to look for."""
    chip = f"chip {difference.chip} of group {group}"
    if difference.on_bus:
        if not difference.data:
            return "acknowledged on the bus, and heard by no chip of the model"
        if difference.chip is None:
            return "acknowledged on the bus, and past the last chip that a group can have"
        return f"acknowledged on the bus, and by no chip of the model: is there a {chip}?"
    if not difference.data:
        return f"not acknowledged on the bus, and by every chip of group {group} in the model: is the group there?"
    return f"not acknowledged on the bus, and by {chip} in the model: is it missing?"


def warned(refusal: Refusal) -> str:
    """What a refused transfer means for those after it."""
    return f"{refusal}; the chips may have acted on it, so that from here on the glass may show something else"


def _bytes(difference: Difference, data: bytes) -> str:
    first, last = difference[:2]
    if first == last:
        return f"byte {first} ({data[first]:02X})"
    return f"bytes {first} to {last} ({data[first]:02X} to {data[last]:02X})"


def told(index: int, transfer: Transfer, verdict: Verdict) -> str:
    """A transfer's line, and one for each row of bytes that differ."""
    time = "" if transfer.time is None else f"@{transfer.time!r} "
    cut = f", byte {len(transfer.data)} cut (.{transfer.cut})" if transfer.cut else ""
    if verdict.refusal:
        return f"{time}transfer {index}{cut}: {warned(verdict.refusal)}\n"
    acknowledged, stored, discarded, chip = verdict.answer
    last = "" if chip is None else f", the last data byte by chip {chip}"
    model = f"{acknowledged} bytes acknowledged{last}, {stored} bits stored, {discarded} discarded"
    outcome = "differs" if verdict.differences else "agrees" if verdict.compared else "has no acknowledge mark"
    lines = [f"{time}transfer {index}{cut}: {outcome}; in the model {model}\n"]
    lines += [f"    {_bytes(each, transfer.data)}: {about(each, transfer.group)}\n" for each in verdict.differences]
    return "".join(lines)


class Tally(NamedTuple):
    """Transfers of a capture: how many, those that differ, those refused, and those of other devices; and the acknowledge marks compared."""

    transfers: int = 0
    differing: int = 0
    refused: int = 0
    others: int = 0
    compared: int = 0

    def plus(self, verdict: Verdict) -> Tally:
        """With one transfer more."""
        return Tally(
            self.transfers + 1,
            self.differing + bool(verdict.differences),
            self.refused + (verdict.refusal is not None),
            self.others,
            self.compared + verdict.compared,
        )

    @property
    def agree(self) -> bool:
        """Something was compared, and all of it is alike."""
        return self.compared > 0 and not self.differing and not self.refused

    def told(self) -> str:
        """The counts and the answer, a line each."""
        counts = f"transfers {self.transfers}, differing {self.differing}, refused {self.refused}, of other devices {self.others}\n"
        if self.differing:
            return f"{counts}bus and model differ\n"
        if self.refused:
            return f"{counts}bus and model agree but for what is refused\n"
        if not self.compared:
            return f"{counts}nothing to compare: no {'acknowledge mark' if self.transfers else 'transfer to the chips'}\n"
        return f"{counts}bus and model agree\n"
