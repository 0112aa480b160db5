"""A VCD file as the levels of SCL and SDA. It is read as a stream, so that memory does not grow with it."""

from __future__ import annotations

import itertools
import re
from fractions import Fraction
from typing import BinaryIO, Iterator, NamedTuple, Optional

from . import Fault
from .progress import Progress

PIECE = 1 << 16
POWERS = {b"s": 0, b"ms": 3, b"us": 6, b"ns": 9, b"ps": 12, b"fs": 15}
# A released wire (z) is high by its pull-up; of x nobody knows.
VALUES = {b"0": 0, b"1": 1, b"z": 1, b"Z": 1, b"x": None, b"X": None}
SIGNALS = ("SCL", "SDA")
TIME = ord("#")
COMMENT = b"$comment"
Levels = Iterator[tuple[int, int, int]]


class Variable(NamedTuple):
    """A variable of the file: its name, the code that stands for it, and its bits."""

    name: str
    code: bytes
    bits: bytes


class Vcd:
    """A VCD file whose header has been read; `unit` is its timescale in seconds, and lines that begin with one of `passed` are passed over."""

    def __init__(self, file: BinaryIO, name: str, progress: Progress, passed: tuple[bytes, ...] = ()) -> None:
        self.file, self.name, self.progress, self.passed = file, name, progress, passed
        self.line = 0
        self.unit: Optional[Fraction] = None
        self.variables: list[Variable] = []
        self._lines = self._read()
        self._rest: list[bytes] = []
        self._header()

    def fault(self, what: str) -> Fault:
        return Fault(self.name, self.line, what)

    def _read(self) -> Iterator[list[bytes]]:
        """The words of each line; a line that is longer than a piece comes in pieces."""
        kept, done, ended = b"", 0, True
        for piece in iter(lambda: self.file.readline(PIECE), b""):
            done += len(piece)
            self.line += ended
            ended = piece[-1:] == b"\n"
            if piece.startswith(self.passed):
                continue
            piece, kept = kept + piece, b""
            if not ended:
                whole = len(piece) - len(re.search(rb"\S*\Z", piece)[0])
                piece, kept = piece[:whole], piece[whole:]
                if len(kept) > PIECE:
                    raise self.fault(f"a word of more than {PIECE:,} bytes: this is no VCD")
            if not self.line & 0xFFF:
                self.progress.at(done)
            yield piece.split()
        yield kept.split()

    # ---- The header ----------------------------------------------------------

    def _words(self) -> Iterator[bytes]:
        for words in self._lines:
            self._rest = words
            while self._rest:
                yield self._rest.pop(0)

    def _header(self) -> None:
        words = self._words()
        for word in words:
            if not word.startswith(b"$"):
                raise self.fault(f"{shown(word)} before $enddefinitions: this is no VCD")
            body = []
            for inner in words:
                if inner == b"$end":
                    break
                body.append(inner)
            else:
                raise self.fault(f"{shown(word)} has no $end")
            if word == b"$timescale":
                self._timescale(b"".join(body))
            elif word == b"$var":
                self._variable(body)
            elif word == b"$enddefinitions":
                if self.unit is None:
                    raise self.fault("no $timescale: nobody knows how long a time is")
                return
        raise self.fault("no $enddefinitions: this is no VCD, or it was cut short")

    def _timescale(self, scale: bytes) -> None:
        form = re.fullmatch(rb"(1|10|100)(s|ms|us|ns|ps|fs)", scale)
        if not form:
            raise self.fault(f"$timescale is {shown(scale)}: it is 1, 10 or 100 and s, ms, us, ns, ps or fs")
        self.unit = Fraction(int(form[1]), 10 ** POWERS[form[2]])

    def _variable(self, body: list[bytes]) -> None:
        if len(body) < 4:
            raise self.fault("$var has a type, a number of bits, a code and a name")
        self.variables.append(Variable(body[3].decode(errors="replace"), body[2], body[1]))

    # ---- The signals ---------------------------------------------------------

    def code(self, asked: Optional[str], default: str) -> bytes:
        """The code of the signal that is asked for by name or number, else of the one that is called `default` in any case of letters."""
        wanted = default if asked is None else asked
        found = [variable for variable in self.variables if variable.name == wanted]
        found = found or [variable for variable in self.variables if variable.name.lower() == wanted.lower()]
        if not found and wanted.isdecimal() and int(wanted) < len(self.variables):
            found = [self.variables[int(wanted)]]
        option = f"--{default.lower()}"
        listed = ", ".join(f"{number} {variable.name}" for number, variable in enumerate(self.variables)) or "none"
        if not found:
            raise self.fault(f"no signal is called {wanted}: name one by {option}, by name or number; there are: {listed}")
        if len({variable.code for variable in found}) > 1:
            raise self.fault(f"several signals are called {wanted}: choose one by {option} and its number; there are: {listed}")
        if found[0].bits != b"1":
            raise self.fault(f"{found[0].name} has {shown(found[0].bits)} bits: {default} has one")
        return found[0].code

    def _changes(self, scl: bytes, sda: bytes) -> dict:
        """What each word says that is a change of one bit: of SCL (0), of SDA (1) or of another signal (2), and its level."""
        which = {**{variable.code: 2 for variable in self.variables}, scl: 0, sda: 1}
        return {value + code: (number, level) for code, number in which.items() for value, level in VALUES.items()}

    def levels(self, scl: Optional[str] = None, sda: Optional[str] = None) -> Levels:
        """The first levels of SCL and SDA, and then each time, in units, at which one changes, with both."""
        codes = self.code(scl, SIGNALS[0]), self.code(sda, SIGNALS[1])
        if codes[0] == codes[1]:
            raise self.fault("SCL and SDA are the same signal")
        return self._levels(codes)

    def _levels(self, codes: tuple[bytes, bytes]) -> Levels:
        changes = self._changes(*codes)
        now, level, given, within = 0, [None, None], [None, None], None
        for word in itertools.chain(self._rest, itertools.chain.from_iterable(self._lines)):
            change = changes.get(word)
            if within or change is None and word[0] != TIME:
                within, change = self._odd(within, word, changes)
                if not change:
                    continue
            if not change:
                if level != given and None not in level:
                    yield (now, level[0], level[1])
                    given = level[:]
                now = self._later(now, word)
            elif change[0] < 2:
                which, value = change
                if value is None and level[which] is not None:
                    raise self.fault(f"{SIGNALS[which]} becomes unknown (x)")
                level[which] = value
        if within:
            raise self.fault(f"the file ends after {shown(within)}")
        for which, signal in enumerate(SIGNALS):
            if level[which] is None:
                raise self.fault(f"{signal} has no level in the whole file")
        if level != given:
            yield (now, level[0], level[1])

    def _later(self, now: int, word: bytes) -> int:
        if not word[1:].isdigit():
            raise self.fault(f"{shown(word)} is no time")
        later = int(word[1:])
        if later < now:
            raise self.fault(f"the time goes back, from #{now} to #{later}")
        return later

    def _odd(self, within: Optional[bytes], word: bytes, changes: dict) -> tuple[Optional[bytes], Optional[tuple]]:
        """A word that is no time and no change of one bit, or stands within a comment or after a vector's value: what comes next is within, and the change."""
        if within == COMMENT:
            return (None if word == b"$end" else within), None
        if within:
            return None, changes.get(within[-1:] + word)
        if word == COMMENT or word[:1] in b"bBrRsS":
            return word, None
        if word[:1] != b"$":
            raise self.fault(f"{shown(word)} is neither a time nor a change of a signal of this file")
        return None, None


def shown(word: bytes) -> str:
    """A word of the file as a message has it."""
    text = word[:40].decode("ascii", "backslashreplace")
    return text if text.isprintable() else repr(text)[1:-1]
