"""A log followed transfer by transfer, and what a group shows."""

from __future__ import annotations

from typing import Iterator, NamedTuple, Optional, Union

import humtrellis
from humtrellis import Answer, Bus, Part, Refusal, Register

from . import Failure


class Step(NamedTuple):
    """One transfer: its bytes, the acknowledged bytes that were seen of it if the log says so, and the library's answer."""

    data: bytes
    seen: Optional[int]
    answer: Union[Answer, Refusal]

    @property
    def refused(self) -> bool:
        return isinstance(self.answer, Refusal)


class View(NamedTuple):
    """What a group shows at a blink phase: a byte a column, bit r the element on backplane r."""

    group: int
    phase: int
    mode: int
    on: bool
    chips: int
    columns: bytes
    lit: int

    def chip(self, column: int) -> int:
        """The chip that has a column."""
        return column // humtrellis.COLUMNS


def powered_on(log: bytes) -> Bus:
    """The bus that a log begins with; a log that is refused raises its refusal."""
    humtrellis.replay(log)
    return Bus(Part.PCF8532, log[1], log[2])


def follow(log: bytes, bus: Bus) -> Iterator[Step]:
    """Each transfer of a log, when the bus has taken it."""
    for seen, data in humtrellis.transfers(log):
        try:
            yield Step(data, seen, bus.transfer(data))
        except Refusal as refusal:
            yield Step(data, seen, refusal)


def until(log: bytes, at: Optional[int]) -> tuple[Bus, list[Step]]:
    """The bus after transfer `at`, or after the last one, and the steps to there."""
    bus = powered_on(log)
    steps = []
    for step in follow(log, bus):
        steps.append(step)
        if len(steps) - 1 == at:
            return bus, steps
    if at is not None:
        has = f"transfers 0 to {len(steps) - 1}" if steps else "no transfer"
        raise Failure(f"--at {at}: the log has {has}")
    return bus, steps


def view(bus: Bus, group: int, phase: int) -> View:
    """What a group of a bus shows."""
    columns, lit = bus.picture(group, phase)
    return View(group, phase, bus.register(group, Register.M), bus.register(group, Register.E) == 1, bus.chips[group], columns, lit)


def _written(bus: Bus, data: bytes) -> Iterator[int]:
    """The columns of a bus's RAM that a transfer writes to: those with a row that it leaves alike over RAM of 0 and of 15."""
    zeros, ones = bus.copy(), bus.copy()
    zeros.ram[:] = bytes(len(bus.ram))
    ones.ram[:] = b"\x0f" * len(bus.ram)
    zeros.transfer(data)
    ones.transfer(data)
    return (column for column, pair in enumerate(zip(zeros.ram, ones.ram)) if pair != (0, 15))


def writers(log: bytes, steps: int, group: int) -> list[Optional[int]]:
    """Of each column of a group, the last of so many transfers that wrote to it."""
    bus = powered_on(log)
    last: list[Optional[int]] = [None] * len(bus.ram)
    for index, (_, data) in enumerate(humtrellis.transfers(log)):
        if index == steps:
            break
        before = bus.copy()
        try:
            stored = bus.transfer(data).stored
        except Refusal:
            continue
        for column in _written(before, data) if stored else ():
            last[column] = index
    first = humtrellis.COLUMNS * sum(bus.chips[:group])
    return last[first : first + humtrellis.COLUMNS * bus.chips[group]]
