"""Two logs' pictures, A and B, and what differs."""

from __future__ import annotations

from itertools import zip_longest
from typing import Iterator, Optional

from . import digits, grid, history
from .history import View
from .segments import Element


def elements(one: View, other: View) -> set[Element]:
    """The elements that are lit in one picture and not in the other; one that is not there is dark."""
    found = set()
    for column, (a, b) in enumerate(zip_longest(one.columns, other.columns, fillvalue=0)):
        found |= {Element(column, backplane) for backplane in range((a ^ b).bit_length()) if (a ^ b) >> backplane & 1}
    return found


def _both(one: Optional[str], other: Optional[str]) -> Iterator[str]:
    """A line that both have once, else each after its letter."""
    if one == other:
        yield f"  {one}"
        return
    for letter, line in (("A", one), ("B", other)):
        if line is not None:
            yield f"{letter} {line}"


def grids(one: View, other: View) -> Iterator[str]:
    """Both grids, line by line, with a mark under each column that differs."""
    yield from _both(grid.header(one), grid.header(other))
    columns = zip_longest(list(grid.lines(one))[1:], list(grid.lines(other))[1:])
    for a, b in columns:
        yield from _both(a, b)
        if a and b and a != b:
            yield "  " + "".join(" " if x == y else "^" for x, y in zip(a, b)).rstrip()


def _marks(one: digits.Row, other: digits.Row) -> str:
    """A mark under each digit that is drawn in another way."""
    marks = ""
    for place in range(0, len(one.lines[0]), digits.CELL):
        alike = all(a[place : place + digits.CELL] == b[place : place + digits.CELL] for a, b in zip(one.lines, other.lines))
        marks += "    " if alike else "^^^ "
    return marks.rstrip()


def rows(one: View, other: View, first: int, count: int) -> Iterator[str]:
    """The digits of both, row by row, with a mark under each that differs."""
    yield from _both(grid.header(one), grid.header(other))
    places = digits.firsts(one, first, count), digits.firsts(other, first, count)
    for pair in zip(digits.rows(one, places[0]), digits.rows(other, places[1])):
        for letter, row in zip("AB", pair):
            yield from (f"{letter} {line}".rstrip() for line in row.text())
        if marks := _marks(*pair):
            yield f"  {marks}"
    for letter, view, place in zip("AB", (one, other), places):
        yield from (f"{letter} {line}" for line in digits.spares(view, place))


def _first(logs: tuple[bytes, bytes], group: int, phase: int, steps: int) -> Optional[int]:
    """The first of so many transfers after which the pictures differ."""
    buses = [history.powered_on(log) for log in logs]
    for index, _ in zip(range(steps), zip(*(history.follow(log, bus) for log, bus in zip(logs, buses)))):
        if buses[0].picture(group, phase).columns != buses[1].picture(group, phase).columns:
            return index
    return None


def summary(logs: tuple[bytes, bytes], one: View, other: View, steps: int) -> Iterator[str]:
    """Each element that differs, how many do, and after which of the transfers that both logs have they first did."""
    found = sorted(elements(one, other))
    for element in found:
        only = "A" if element.column < len(one.columns) and one.columns[element.column] >> element.backplane & 1 else "B"
        yield f"column {element.column}, chip {one.chip(element.column)}, backplane {element.backplane}: lit in {only} alone"
    yield f"elements that differ: {len(found)}"
    first = _first(logs, one.group, one.phase, steps)
    if first is not None:
        yield f"the pictures first differ after transfer {first}"
    elif steps:
        yield f"the pictures are alike after each of transfers 0 to {steps - 1}"
