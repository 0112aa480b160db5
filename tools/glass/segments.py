"""Where a mode puts a digit's segments, and the price that columns read as: all of it asked of the library."""

from __future__ import annotations

import functools
from typing import Iterator, NamedTuple

import humtrellis
from humtrellis import Bus, Part, Refusal, Register

# A mode by its number M in the registers.
MODES = ("1:4", "static", "1:2", "1:3")

# The symbols of a price whose segments, where an odd number of them has it, are one alone.
SYMBOLS = {
    "a": ("7", "1"),
    "b": ("8", "6"),
    "c": ("8", "2", "4", "1", "-"),
    "d": ("3", "7", "-"),
    "e": ("8", "9"),
    "f": ("4", "1", "-"),
    "g": ("-",),
    "DP": ("8.", "8"),
}


class Element(NamedTuple):
    """An element of a digit: columns from the digit's first on, and the backplane."""

    column: int
    backplane: int


class Layout(NamedTuple):
    """A mode's digit: its columns, the element that each bit of its data byte lights, the highest bit first, and each segment's element."""

    width: int
    bits: tuple[Element, ...]
    segments: dict[str, Element]


class Reading(NamedTuple):
    """The price that columns show, or the first digit that is no symbol of one."""

    text: str
    unread: int


def _shown(mode: int, data: bytes, ram: int = 0) -> Bus:
    """One chip, switched on in a mode, with RAM of one value in all columns, after data from column 0 on."""
    bus = Bus(Part.PCF8532, 1)
    bus.registers[Register.E], bus.registers[Register.M] = 1, mode
    bus.ram[:] = bytes([ram]) * len(bus.ram)
    bus.transfer(b"\x70\x40" + data)
    return bus


@functools.lru_cache(maxsize=None)
def backplanes(mode: int) -> int:
    """How many backplanes a mode has."""
    return _shown(mode, b"", 15).picture().columns[0].bit_length()


def _lit(byte: int, mode: int) -> Element:
    """The one element that a data byte with one bit lights."""
    columns, count = _shown(mode, bytes([byte])).picture()
    assert count == 1
    column = next(column for column, value in enumerate(columns) if value)
    return Element(column, columns[column].bit_length() - 1)


@functools.lru_cache(maxsize=None)
def layout(mode: int) -> Layout:
    """A mode's digit."""
    segments = {}
    for segment, symbols in SYMBOLS.items():
        byte = 0
        for symbol in symbols:
            byte ^= humtrellis.price_write(mode, symbol)[0]
        segments[segment] = _lit(byte, mode)
    bits = tuple(_lit(0x80 >> bit, mode) for bit in range(8))
    return Layout(_shown(mode, b"\0").register(0, Register.P), bits, segments)


def lit(columns: bytes, first: int, element: Element) -> bool:
    """Whether an element of the digit from a first column on is lit."""
    return columns[first + element.column] >> element.backplane & 1 == 1


def data_byte(mode: int, columns: bytes, first: int) -> int:
    """The data byte that shows what the digit from a first column on shows."""
    byte = 0
    for element in layout(mode).bits:
        byte = byte << 1 | lit(columns, first, element)
    return byte


def read(mode: int, columns: bytes, firsts: range) -> Reading:
    """The price that the digits from these columns on show, at most 80 of them, so that nothing but a symbol can be refused."""
    try:
        return Reading(humtrellis.price_read(mode, bytes(data_byte(mode, columns, first) for first in firsts)), -1)
    except Refusal as refusal:
        return Reading("", refusal.place)


def spare(mode: int, columns: bytes, firsts: range) -> Iterator[Element]:
    """The lit elements in the columns of digits that are no digit's."""
    digit = layout(mode)
    for first in firsts:
        for column in range(digit.width):
            for backplane in range(backplanes(mode)):
                element = Element(column, backplane)
                if element not in digit.bits and lit(columns, first, element):
                    yield Element(first + column, backplane)
