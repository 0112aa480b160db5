"""PCF8532 or PCA85133 drivers on one I2C bus: the proved model, for Python.

    >>> from humtrellis import Bus, Part
    >>> bus = Bus(Part.PCF8532, 1)                                    # one chip in group 0, from power-on, RAM all 0
    >>> bus.transfer(bytes.fromhex("70 80 C8 40 A5"))                 # group 0: 1:4 and on, then a data byte
    Answer(acknowledged=5, stored=8, discarded=0, acknowledged_by=0)
    >>> bus.picture().columns[:2], bus.picture().lit
    (b'\\x05\\n', 4)

Every answer comes from the library (include/humtrellis.h says what each call takes and refuses). A call that it refuses raises `Refusal`, with the
paper's number and place, and changes nothing; only a refused power-on leaves the power-on registers. A number that is no byte, 0 to 255, raises
ValueError and what is not of its type TypeError, before the library is asked, and both name the argument.

The library is the file that HUMTRELLIS_LIB names, else the one of this module's version beside this file, else target/package/libhumtrellis.so of the
repository that this file lies in (`make` makes it), else the installed one of this module's version.

    python3 -m humtrellis replay LOG        # what bin/replay prints
    python3 -m humtrellis picture LOG       # what is lit at its end, of a group and at a blink phase
"""

from __future__ import annotations

import argparse
import ctypes
import functools
import operator
import os
import signal
import sys
from enum import IntEnum
from pathlib import Path
from typing import Callable, Iterator, NamedTuple, Optional, Sequence, Union

# The header's names, without HUMTRELLIS_; tests/declarations compares them.
VERSION = 9
COLUMNS = 160
PCA85133_COLUMNS = 80
SET = 12
REGISTERS = 24
WHOLE = 8
ANSWER = 6
NONE = 4
PCA85133_NONE = 8
SIZE = 255
ROWS = 332
THREE = 2563
HEX = 1772
PRICE = 80
PRICE_TEXT = 160
TEXT = 700000
CHIP = 174
CHIP_SA0 = 160
CHIP_SUBADDRESS = 161
CHIP_REGISTERS = 162


class Part(IntEnum):
    """The part whose chips a bus has."""

    PCF8532 = 0
    PCA85133 = 1


class Register(IntEnum):
    """The index of each register in a set; group 1's set begins at SET."""

    E = 0
    B = 1
    M = 2
    P = 3
    A = 4
    I = 5
    O = 6
    AB = 7
    BF = 8
    UNKNOWN_HIGH = 9
    UNKNOWN_LOW = 10
    UNKNOWN_DEVICE = 11


class Index(IntEnum):
    """The index of each number in an answer of the library."""

    NUMBER = 0
    PLACE = 1
    ACKNOWLEDGED = 2
    LIT = 2
    WRITTEN = 2
    STORED = 3
    DISCARDED = 4
    RECORDS_KEPT = 2
    BYTES_KEPT = 3
    BYTES_DROPPED = 4
    TEAR = 5
    ACKNOWLEDGED_BY = 5


class Number(IntEnum):
    """The paper's number of each refusal."""

    EMPTY_TRANSFER = 1
    LONG_TRANSFER = 2
    CHIP_COUNT = 3
    RAM_LENGTH = 4
    COLUMN = 5
    REGISTER = 6
    COMMAND = 7
    VIEW = 8
    OUT_LENGTH = 9
    CHIP_LIST = 10
    CHIP = 11
    LOG = 12
    RECORD = 13
    LOG_LENGTH = 14
    SYMBOL = 15
    PART = 16
    CONTROL = 17
    UNKNOWN = 18
    BITS = 19
    BODY = 20
    FORM = 21
    CHECKSUM = 22
    TYPE = 23
    ADDRESS = 24
    TWICE = 25
    MISSING = 26
    END = 27


# What each refusal is called, and what its place counts where it has one.
NAMES = {
    Number.EMPTY_TRANSFER: ("empty transfer", None),
    Number.LONG_TRANSFER: ("too many bytes", None),
    Number.CHIP_COUNT: ("too many chips in a group", None),
    Number.RAM_LENGTH: ("length of the RAM", None),
    Number.COLUMN: ("column over 15", "column"),
    Number.REGISTER: ("register, mode or bank out of range", None),
    Number.COMMAND: ("undefined command", "byte"),
    Number.VIEW: ("group or phase over 1", None),
    Number.OUT_LENGTH: ("length of the output", None),
    Number.CHIP_LIST: ("too many plain chips", None),
    Number.CHIP: ("field or column of a chip out of range", "chip"),
    Number.LOG: ("no log of version 1 or 2", None),
    Number.RECORD: ("record cut short", "offset"),
    Number.LOG_LENGTH: ("log or RAM image too long", None),
    Number.SYMBOL: ("no symbol of a price", "byte"),
    Number.PART: ("unknown part", None),
    Number.CONTROL: ("stray bits in a control byte", "byte"),
    Number.UNKNOWN: ("data while pointer or counter is unknown", "byte"),
    Number.BITS: ("bits of the last byte not 1 to 8", None),
    Number.BODY: ("record too short for what was seen", "offset"),
    Number.FORM: ("character or form of a record", "offset"),
    Number.CHECKSUM: ("wrong checksum", "offset"),
    Number.TYPE: ("unknown record type", "offset"),
    Number.ADDRESS: ("address outside the group", "offset"),
    Number.TWICE: ("address given twice", "offset"),
    Number.MISSING: ("address missing", "column"),
    Number.END: ("no end record, or bytes after it", None),
}


class Refusal(Exception):
    """The library refused a call: the paper's number, its name, and the place, 0 unless the number has one."""

    def __init__(self, number: int, place: int, image: bool = False) -> None:
        super().__init__(number, place, image)
        self.number = Number(number)
        self.place = place
        self.name, counted = NAMES[self.number]
        # In a RAM image that is read, a column's place is its record's offset.
        self._counted = "offset" if image and self.number == Number.COLUMN else counted

    def __str__(self) -> str:
        at = f" at {self._counted} {self.place}" if self._counted else ""
        return f"refused by {self.number:d} ({self.name}){at}"


class Answer(NamedTuple):
    """What a transfer did: bytes acknowledged, bits stored and discarded, and the subaddress that acknowledged the last data byte, or None."""

    acknowledged: int
    stored: int
    discarded: int
    acknowledged_by: Optional[int]


class PlainAnswer(NamedTuple):
    """What a transfer to plain chips did; a byte counts once, and the smallest subaddress is named."""

    acknowledged: int
    acknowledged_by: Optional[int]


class Picture(NamedTuple):
    """A byte a column, bit r the element on backplane r, and how many elements are lit."""

    columns: bytes
    lit: int


class Rescued(NamedTuple):
    """What is whole of a torn log; `tear` is its length where nothing is torn."""

    log: bytes
    records_kept: int
    bytes_kept: int
    bytes_dropped: int
    tear: int


# ---- The calls -------------------------------------------------------------

# Each call's arguments in order: `x[]` is a pointer and a length, `const` is only read, the others are bytes.
CALLS = {
    "humtrellis_power_on": "part, chips0, chips1, const ram[], registers[], answer[]",
    "humtrellis_transfer": "part, chips0, chips1, registers[], ram[], const bytes[], bits, answer[]",
    "humtrellis_picture": "part, chips0, chips1, const registers[], const ram[], group, phase, out[], answer[]",
    "humtrellis_packed_power_on": "part, chips0, chips1, const ram[], registers[], answer[]",
    "humtrellis_packed_transfer": "part, chips0, chips1, registers[], ram[], const bytes[], bits, answer[]",
    "humtrellis_packed_picture": "part, chips0, chips1, const registers[], const ram[], group, phase, out[], answer[]",
    "humtrellis_plain_transfer": "part, chips[], const bytes[], bits, answer[]",
    "humtrellis_chip_power_on": "part, chip[], answer[]",
    "humtrellis_chip_picture": "part, const chip[], phase, out[], answer[]",
    "humtrellis_write_rows": "part, chips0, chips1, const registers[], group, mode, bank, const wanted[], out[], answer[]",
    "humtrellis_write_three": "part, chips0, chips1, const registers[], group, const wanted[], out[], answer[]",
    "humtrellis_hex_write": "part, chips, const ram[], out[], answer[]",
    "humtrellis_hex_read": "part, chips, const file[], ram[], answer[]",
    "humtrellis_price_write": "mode, const text[], out[], answer[]",
    "humtrellis_price_read": "mode, const segments[], out[], answer[]",
    "humtrellis_rescue": "const log[], out[], answer[]",
    "humtrellis_replay": "const log[], out[]",
}


def argument_types(call: str) -> list[type]:
    """The types of a call's arguments as ctypes has them."""
    types: list[type] = []
    for argument in CALLS[call].split(", "):
        if not argument.endswith("[]"):
            types.append(ctypes.c_uint8)
        else:
            element = ctypes.c_size_t if argument == "answer[]" else ctypes.c_uint8
            types += [ctypes.POINTER(element), ctypes.c_size_t]
    return types


def result_type(call: str) -> type:
    """The type of what a call returns: its answer's number, or the length of a text."""
    return ctypes.c_uint8 if "answer[]" in CALLS[call] else ctypes.c_size_t


def _open() -> ctypes.CDLL:
    named = os.environ.get("HUMTRELLIS_LIB")
    here = Path(__file__).resolve()
    installed = f"libhumtrellis.so.{VERSION}"
    built = here.parents[2] / "target" / "package" / "libhumtrellis.so"
    found = (str(path) for path in (here.with_name(installed), built) if path.exists())
    chosen = os.path.abspath(named) if named else next(found, installed)
    try:
        return ctypes.CDLL(chosen)
    except OSError as error:
        raise OSError(
            f"the library could not be loaded: {error}. It is looked for in the file that HUMTRELLIS_LIB names"
            f" ({named or 'not set'}), else beside {here}, else in {built} (`make` makes it), else as the installed {installed}"
        ) from None


@functools.lru_cache(maxsize=None)
def library() -> ctypes.CDLL:
    """The library with the types of its calls; OSError, which says where it was looked for, if there is none."""
    opened = _open()
    for call in CALLS:
        function = getattr(opened, call, None)
        if function is None:
            raise OSError(f"{opened._name} has no {call}: this module is written for version {VERSION} of the library")
        function.argtypes = argument_types(call)
        function.restype = result_type(call)
    return opened


def _byte(name: str, value: int) -> int:
    try:
        number = operator.index(value)
    except TypeError:
        raise TypeError(f"{name} must be a number, not {type(value).__name__}") from None
    if not 0 <= number <= 255:
        raise ValueError(f"{name} is {number}: a byte, 0 to 255, can be given to the library")
    return number


def _length(name: str, value: Union[bytes, bytearray], types: tuple[type, ...] = (bytes, bytearray)) -> int:
    if not isinstance(value, types):
        raise TypeError(f"{name} must be {' or '.join(kind.__name__ for kind in types)}, not {type(value).__name__}")
    return len(value)


def _read(name: str, value: Union[bytes, bytearray]) -> ctypes.Array:
    return (ctypes.c_uint8 * _length(name, value)).from_buffer_copy(value)


def _written(name: str, value: bytearray) -> ctypes.Array:
    return (ctypes.c_uint8 * _length(name, value, (bytearray,))).from_buffer(value)


def _answered(_: str, value: ctypes.Array) -> ctypes.Array:
    return value


@functools.lru_cache(maxsize=None)
def _lending(call: str) -> list[tuple[str, Callable]]:
    """The arguments of a call in its order: the name of each, and how it is lent."""
    lending: list[tuple[str, Callable]] = []
    for argument in CALLS[call].split(", "):
        name = argument.removeprefix("const ").removesuffix("[]")
        buffer = _answered if name == "answer" else _read if argument.startswith("const ") else _written
        lending.append((name, buffer if argument.endswith("[]") else _byte))
    return lending


def _lent(call: str, given: dict) -> Iterator:
    """The arguments of a call in its order, from their names."""
    for name, lend in _lending(call):
        value = lend(name, given[name])
        yield value
        if lend is not _byte:
            yield len(value)


def _call(call: str, **given) -> Sequence[int]:
    """The numbers of a call's answer."""
    answer = (ctypes.c_size_t * ANSWER)()
    number = getattr(library(), call)(*_lent(call, {**given, "answer": answer}))
    if number == SIZE:
        raise ValueError(f"{call}: registers must have {REGISTERS} bytes and a chip {CHIP}")
    if number:
        raise Refusal(number, answer[Index.PLACE], call == "humtrellis_hex_read")
    return answer


def _columns(part: int) -> int:
    return PCA85133_COLUMNS if part == Part.PCA85133 else COLUMNS


def _acknowledged_by(part: int, answer: Sequence[int]) -> Optional[int]:
    none = PCA85133_NONE if part == Part.PCA85133 else NONE
    subaddress = answer[Index.ACKNOWLEDGED_BY]
    return None if subaddress == none else subaddress


# ---- A bus -----------------------------------------------------------------


class Bus:
    """Chips of one part in both groups, with their registers and RAM, from power-on with RAM all 0.

    `registers` has two sets in the order of `Register`, group 0's first. `ram` has a byte a column, group 0's chips in order and then
    group 1's; packed, two columns a byte, the even one in the low four bits. Both may be changed in place.
    """

    def __init__(self, part: int, chips0: int, chips1: int = 0, *, packed: bool = False) -> None:
        self.part = _byte("part", part)
        self.chips = _byte("chips0", chips0), _byte("chips1", chips1)
        self.packed = bool(packed)
        self.registers = bytearray(REGISTERS)
        self.ram = bytearray(_columns(self.part) * sum(self.chips) // (2 if packed else 1))
        self.power_on()

    def __eq__(self, other: object) -> bool:
        return isinstance(other, Bus) and vars(self) == vars(other)

    def __repr__(self) -> str:
        return f"Bus({self.part}, {self.chips[0]}, {self.chips[1]}, packed={self.packed})"

    def copy(self) -> Bus:
        """A bus of its own in the same state."""
        other = object.__new__(Bus)
        vars(other).update(vars(self), registers=bytearray(self.registers), ram=bytearray(self.ram))
        return other

    def register(self, group: int, register: Register) -> int:
        """One register of a group."""
        if group not in (0, 1):
            raise ValueError(f"group is {group}: a bus has groups 0 and 1")
        return self.registers[SET * group + Register(register)]

    def power_on(self) -> None:
        """Makes the registers the power-on ones, also where it is refused; the RAM stays."""
        self._ask("power_on", registers=self.registers, ram=self.ram)

    def transfer(self, data: bytes, bits: int = WHOLE) -> Answer:
        """One transfer, START to STOP or to the cut, address byte first; `bits` of its last byte came."""
        answer = self._ask("transfer", registers=self.registers, ram=self.ram, bytes=data, bits=bits)
        counts = (answer[index] for index in (Index.ACKNOWLEDGED, Index.STORED, Index.DISCARDED))
        return Answer(*counts, _acknowledged_by(self.part, answer))

    def picture(self, group: int = 0, phase: int = 0) -> Picture:
        """The lit elements of a group at a blink phase."""
        chips = dict(enumerate(self.chips)).get(_byte("group", group), 0)
        out = bytearray(_columns(self.part) * chips)
        answer = self._ask("picture", registers=self.registers, ram=self.ram, group=group, phase=phase, out=out)
        return Picture(bytes(out), answer[Index.LIT])

    def write_rows(self, group: int, mode: int, bank: int, wanted: bytes) -> bytes:
        """The transfer that puts a group's wanted rows, a byte a column, into its RAM in a mode (M) and an input bank."""
        return self._write("humtrellis_write_rows", bytearray(ROWS), group=group, mode=mode, bank=bank, wanted=wanted)

    def write_three(self, group: int, wanted: bytes) -> bytes:
        """The transfer that sets rows 0 to 2 of every column of a group in 1:3."""
        return self._write("humtrellis_write_three", bytearray(THREE), group=group, wanted=wanted)

    def _ask(self, name: str, **given) -> Sequence[int]:
        form = "humtrellis_packed_" if self.packed else "humtrellis_"
        return _call(form + name, part=self.part, chips0=self.chips[0], chips1=self.chips[1], **given)

    def _write(self, call: str, out: bytearray, **given) -> bytes:
        chips0, chips1 = self.chips
        answer = _call(call, part=self.part, chips0=chips0, chips1=chips1, registers=self.registers, out=out, **given)
        return bytes(out[: answer[Index.WRITTEN]])


# ---- Plain chips -----------------------------------------------------------


class Chip:
    """One plain chip from power-on with columns of 0; `state` has the header's bytes: columns, SA0, subaddress, registers."""

    def __init__(self, part: int, sa0: int, subaddress: int) -> None:
        self.part = _byte("part", part)
        self.state = bytearray(CHIP)
        self.state[CHIP_SA0] = _byte("sa0", sa0)
        self.state[CHIP_SUBADDRESS] = _byte("subaddress", subaddress)
        self.power_on()

    def __eq__(self, other: object) -> bool:
        return isinstance(other, Chip) and vars(self) == vars(other)

    def __repr__(self) -> str:
        return f"Chip({self.part}, {self.state[CHIP_SA0]}, {self.state[CHIP_SUBADDRESS]})"

    @property
    def columns(self) -> bytes:
        """The columns that the part has."""
        return bytes(self.state[: _columns(self.part)])

    def register(self, register: Register) -> int:
        """One register."""
        return self.state[CHIP_REGISTERS + Register(register)]

    def power_on(self) -> None:
        """Makes the registers the power-on ones, also where it is refused; the rest stays."""
        _call("humtrellis_chip_power_on", part=self.part, chip=self.state)

    def picture(self, phase: int = 0) -> Picture:
        """The lit elements of this chip at a blink phase."""
        out = bytearray(_columns(self.part))
        answer = _call("humtrellis_chip_picture", part=self.part, chip=self.state, phase=phase, out=out)
        return Picture(bytes(out), answer[Index.LIT])


def plain_transfer(part: int, chips: Sequence[Chip], data: bytes, bits: int = WHOLE) -> PlainAnswer:
    """One transfer to chips of a part, each of which follows every byte by itself."""
    for index, chip in enumerate(chips):
        if not isinstance(chip, Chip) or chip.part != part:
            raise ValueError(f"chips[{index}] is {chip!r}: a bus has chips of one part, here {part}")
        if len(chip.state) != CHIP:
            raise ValueError(f"chips[{index}] has {len(chip.state)} bytes of state, not {CHIP}")
    states = bytearray().join(chip.state for chip in chips)
    answer = _call("humtrellis_plain_transfer", part=part, chips=states, bytes=data, bits=bits)
    for index, chip in enumerate(chips):
        chip.state[:] = states[CHIP * index : CHIP * (index + 1)]
    return PlainAnswer(answer[Index.ACKNOWLEDGED], _acknowledged_by(part, answer))


# ---- RAM images, prices, logs ----------------------------------------------


def hex_write(part: int, chips: int, ram: bytes) -> bytes:
    """A group's RAM, a byte a column, as Intel HEX."""
    out = bytearray(HEX)
    answer = _call("humtrellis_hex_write", part=part, chips=chips, ram=ram, out=out)
    return bytes(out[: answer[Index.WRITTEN]])


def hex_read(part: int, chips: int, file: bytes) -> bytes:
    """A group's RAM from Intel HEX."""
    ram = bytearray(_columns(part) * _byte("chips", chips))
    _call("humtrellis_hex_read", part=part, chips=chips, file=file, ram=ram)
    return bytes(ram)


def price_write(mode: int, text: Union[str, bytes]) -> bytes:
    """The 7-segment data byte of each symbol of a price in a mode (M); a refusal's place counts the bytes of UTF-8."""
    out = bytearray(PRICE)
    text = text.encode() if isinstance(text, str) else text
    answer = _call("humtrellis_price_write", mode=mode, text=text, out=out)
    return bytes(out[: answer[Index.WRITTEN]])


def price_read(mode: int, segments: bytes) -> str:
    """The price that such data bytes show, with the ASCII minus."""
    out = bytearray(PRICE_TEXT)
    answer = _call("humtrellis_price_read", mode=mode, segments=segments, out=out)
    return out[: answer[Index.WRITTEN]].decode("ascii")


def rescue(log: bytes) -> Rescued:
    """What is whole of a torn bus log: its head and the records before the first tear."""
    out = bytearray(_length("log", log))
    answer = _call("humtrellis_rescue", log=log, out=out)
    kept = answer[Index.BYTES_KEPT]
    return Rescued(bytes(out[:kept]), answer[Index.RECORDS_KEPT], kept, answer[Index.BYTES_DROPPED], answer[Index.TEAR])


def replay(log: bytes) -> str:
    """The text of a bus log of PCF8532 drivers (docs/BENCH.md); a refused log, which has an X line alone, raises its refusal."""
    out = bytearray(TEXT)
    length = library().humtrellis_replay(*_lent("humtrellis_replay", {"log": log, "out": out}))
    text = out[:length].decode("ascii")
    if text.startswith("X "):
        _, number, place = text.split()
        raise Refusal(int(number), int(place))
    return text


def transfers(log: bytes) -> Iterator[tuple[Optional[int], bytes]]:
    """Each transfer of a log that is not refused, with the acknowledged bytes that were seen of it, which version 1 does not say."""
    seen = 2 if log[0] == 2 else 0
    place = 3
    while place < len(log):
        start = place + 2
        place = start + int.from_bytes(log[place:start], "big")
        yield int.from_bytes(log[start : start + seen], "big") if seen else None, log[start + seen : place]


def outcome(log: bytes) -> Bus:
    """The bus that a log leaves: its transfers from power-on, of which a refused one changes nothing."""
    replay(log)
    bus = Bus(Part.PCF8532, log[1], log[2])
    for _, data in transfers(log):
        try:
            bus.transfer(data)
        except Refusal:
            pass
    return bus


# ---- The program -----------------------------------------------------------


def picture_lines(log: bytes, group: int, phase: int) -> str:
    """The S lines and the G line of one group at the end of a log, at a blink phase."""
    columns, lit = outcome(log).picture(group, phase)
    lines = [f"S {group} {column} {value}\n" for column, value in enumerate(columns) if value]
    return "".join(lines) + f"G {group} {lit}\n"


def _arguments() -> argparse.Namespace:
    parser = argparse.ArgumentParser(
        prog="python3 -m humtrellis",
        description="Replays a bus log of PCF8532 drivers, or shows what is lit at its end (docs/BENCH.md).",
        epilog="Status: 0 done, 1 the log is refused (an X line), 2 a failure, which standard error names.",
    )
    commands = parser.add_subparsers(dest="command", required=True, metavar="COMMAND")
    log = argparse.ArgumentParser(add_help=False)
    log.add_argument("log", metavar="LOG", nargs="?", help="the bus log; standard input if there is none")
    commands.add_parser("replay", parents=[log], help="print what each transfer did and what is lit")
    picture = commands.add_parser("picture", parents=[log], help="print the lit columns of a group, S lines, and their count, its G line")
    picture.add_argument("--group", type=int, choices=(0, 1), default=0, help="the group; 0 if not said")
    picture.add_argument("--phase", type=int, choices=(0, 1), default=0, help="the blink phase; 0 if not said")
    asked = parser.parse_args()
    if asked.log is None and sys.stdin is not None and sys.stdin.isatty():
        parser.error("no LOG, and standard input is a terminal")
    return asked


def _text(asked: argparse.Namespace) -> tuple[str, int]:
    """What the program prints, and its status."""
    with open(0 if asked.log is None else asked.log, "rb") as file:
        log = file.read()
    try:
        return (replay(log) if asked.command == "replay" else picture_lines(log, asked.group, asked.phase)), 0
    except Refusal as refusal:
        print(f"humtrellis: the log is {refusal}", file=sys.stderr)
        return f"X {refusal.number} {refusal.place}\n", 1


def main() -> int:
    """The program; gives its status."""
    signal.signal(signal.SIGPIPE, signal.SIG_DFL)
    asked = _arguments()
    try:
        text, status = _text(asked)
        # A file of its own, so that a failure of the last write is seen here.
        with open(1, "w", closefd=False) as out:
            out.write(text)
        return status
    except OSError as error:
        print(f"humtrellis: {error}", file=sys.stderr)
        return 2


if __name__ == "__main__":
    sys.exit(main())
