"""Seven segments in three lines of text, with the price that they read as."""

from __future__ import annotations

from typing import Iterator, NamedTuple

from . import Failure
from .history import View
from .segments import MODES, layout, lit, read, spare

# Each line of a digit: a segment and the character that shows it, or a gap.
LINES = ((" ", "a_", " ", " "), ("f|", "g_", "b|", " "), ("e|", "d_", "c|", "DP."))

# A digit's characters in a line, and as many digits a row as fit one of 80 with what they read as.
CELL = 4
ROW = 12


def firsts(view: View, first: int, count: int) -> range:
    """The first column of each digit."""
    width = layout(view.mode).width
    last = first + width * count - 1
    if last >= len(view.columns):
        raise Failure(
            f"--digits {first} {count}: in mode {MODES[view.mode]} a digit has {width} columns, so that the last one is {last},"
            f" and group {view.group} has {len(view.columns)} columns"
        )
    return range(first, last + 1, width)


def reads(view: View, row: range) -> str:
    """The text that digits read as, or the first of them that can't be read."""
    reading = read(view.mode, view.columns, row)
    if reading.unread < 0:
        return f'reads "{reading.text}"'
    first = row[reading.unread]
    return f"no symbol of a price in columns {first} to {first + row.step - 1}"


class Row(NamedTuple):
    """A row of digits: its three lines, and what it reads as."""

    lines: list[str]
    reads: str

    def text(self) -> list[str]:
        """The lines, with the reading beside the middle one."""
        top, middle, bottom = self.lines
        return [top.rstrip(), f"{middle}  {self.reads}", bottom.rstrip()]


def _line(view: View, row: range, line: tuple[str, ...]) -> str:
    segments = layout(view.mode).segments
    return "".join(part[-1] if part != " " and lit(view.columns, first, segments[part[:-1]]) else " " for first in row for part in line)


def rows(view: View, digits: range) -> Iterator[Row]:
    """Digits, row by row."""
    for place in range(0, len(digits), ROW):
        row = digits[place : place + ROW]
        yield Row([_line(view, row, line) for line in LINES], reads(view, row))


def lines(view: View, digits: range) -> Iterator[str]:
    """The lines of all digits, then of what is lit beside them."""
    for row in rows(view, digits):
        yield from row.text()
    yield from spares(view, digits)


def spares(view: View, digits: range) -> Iterator[str]:
    """A line for each lit element in these columns that no digit has."""
    for column, backplane in spare(view.mode, view.columns, digits):
        yield f"lit, and no digit's: column {column}, chip {view.chip(column)}, backplane {backplane}"
