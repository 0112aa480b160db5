"""The neutral text of a capture: a line a transfer, which people can also write by hand and compare by `diff` (docs/BENCH.md has its tokens)."""

from __future__ import annotations

import re
from typing import Iterable, Iterator, NamedTuple, Optional

from . import Fault

# Both groups' addresses, to write and to read; every other device's transfers are comments.
ADDRESSES = (0x70, 0x71, 0x72, 0x73)
READ = 1


class Transfer(NamedTuple):
    """A transfer as it was on the bus; `time` is None where nobody says it, `marks` has a `+`, a `-` or a blank for each byte."""

    time: Optional[float]
    data: bytes
    marks: str
    cut: str
    stopped: bool

    @property
    def ours(self) -> bool:
        """Its address came whole and is that of a group."""
        return len(self.data) > 0 and self.data[0] in ADDRESSES

    @property
    def group(self) -> Optional[int]:
        """The group whose address it has."""
        return ADDRESSES.index(self.data[0]) // 2 if self.ours else None

    @property
    def read(self) -> bool:
        """The master reads: it acknowledges every byte but the address."""
        return len(self.data) > 0 and self.data[0] & READ != 0


class Line(NamedTuple):
    """A transfer of a text and its line's number."""

    number: int
    transfer: Transfer


class Text(NamedTuple):
    """A text: the chips of both groups, where it says them, and its transfers."""

    chips: Optional[tuple[int, int]]
    lines: list[Line]


def written(transfer: Transfer) -> str:
    """A transfer as its line has it."""
    tokens = [f"{byte:02X}{mark.strip()}" for byte, mark in zip(transfer.data, transfer.marks)]
    if transfer.cut:
        tokens.append(f".{transfer.cut}")
    time = "" if transfer.time is None else f"@{transfer.time!r} "
    return f"{time}[{' '.join(tokens)}{']' if transfer.stopped else ''}"


def captured(transfers: Iterable[Transfer]) -> Iterator[str]:
    """The lines of a capture; what is not ours is a comment, so that the n-th transfer is record n and T line n."""
    for transfer in transfers:
        yield f"{'' if transfer.ours else '# '}{written(transfer)}\n"


def chips_line(chips: tuple[int, int]) -> str:
    """The line that says the chips of both groups."""
    return f"chips {chips[0]} {chips[1]}\n"


def parsed(text: str, name: str) -> Text:
    """A text that was written by `captured` or by hand."""
    chips: Optional[tuple[int, int]] = None
    lines: list[Line] = []
    for number, line in enumerate(text.split("\n"), 1):
        tokens = re.sub(r"([\[\]])", r" \1 ", line.split("#", 1)[0]).split()
        try:
            if tokens[:1] == ["chips"]:
                if chips or lines:
                    raise ValueError("a second chips line" if chips else "the chips line comes before the first transfer")
                chips = _chips(tokens[1:])
            elif tokens:
                lines.append(Line(number, _transfer(tokens)))
        except ValueError as error:
            raise Fault(name, number, str(error)) from None
    return Text(chips, lines)


def _chips(tokens: list[str]) -> tuple[int, int]:
    if len(tokens) != 2 or not all(token.isdecimal() and int(token) <= 255 for token in tokens):
        raise ValueError("chips has two numbers, the chips of group 0 and of group 1")
    return int(tokens[0]), int(tokens[1])


def _time(token: str) -> float:
    if not re.fullmatch(r"@\d+(\.\d*)?([eE][+-]?\d+)?", token, re.ASCII):
        raise ValueError(f"{token!a} is no time: it is @ and seconds, as @0.000555 or @5e-05")
    return float(token[1:])


def _transfer(tokens: list[str]) -> Transfer:
    time = _time(tokens.pop(0)) if tokens[0].startswith("@") else None
    if tokens[:1] != ["["]:
        raise ValueError(f"a transfer begins with [, not with {ascii(tokens[0]) if tokens else 'the end of the line'}")
    stopped = tokens[-1] == "]"
    data, marks, cut = bytearray(), "", ""
    for token in tokens[1 : -1 if stopped else None]:
        if cut:
            raise ValueError(f"{token!a} after a byte that was cut: only ] can follow it")
        if re.fullmatch(r"[0-9A-Fa-f]{2}[+-]?", token):
            data.append(int(token[:2], 16))
            marks += token[2:] or " "
        elif re.fullmatch(r"\.[01]{1,7}", token):
            cut = token[1:]
        elif token in "[]":
            raise ValueError(f"{token} inside a transfer: a line has one")
        else:
            raise ValueError(f"{token!a} is no byte: two hexadecimal digits and + or - or nothing, or . and 1 to 7 bits")
    return Transfer(time, bytes(data), marks, cut, stopped)
