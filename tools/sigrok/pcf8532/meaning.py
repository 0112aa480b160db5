"""What each byte of a transfer is, asked of the library by the transfer up to it, on a copy of the bus. No rule of the chips is here."""

from __future__ import annotations

from functools import lru_cache
from typing import NamedTuple, Optional

from buslog.check import NOTHING
from buslog.text import Transfer
from humtrellis import SET, Answer, Bus, Number, Refusal, Register

# The paper's name of a command, by the registers and marks that are the same after it whatever they were.
COMMANDS = {
    (Register.E, Register.B, Register.M): "mode-set",
    (Register.UNKNOWN_HIGH,): "pointer high",
    (Register.UNKNOWN_LOW,): "pointer low",
    (Register.P, Register.UNKNOWN_HIGH, Register.UNKNOWN_LOW): "pointer",
    (Register.A, Register.UNKNOWN_DEVICE): "device-select",
    (Register.I, Register.O): "bank-select",
    (Register.AB, Register.BF): "blink-select",
    (): "frequency-ctrl",
}
# What a byte is that is refused so.
REFUSED = {Number.COMMAND: "command", Number.CONTROL: "control", Number.UNKNOWN: "data"}
NEITHER = 0xFF  # no control byte and no command


class Byte(NamedTuple):
    """What a byte is (address, control, command, data or byte, of which the model says nothing), in words from long to short."""

    kind: str
    texts: list[str]


class Course:
    """A transfer so far, to the bus as it was before."""

    def __init__(self, before: Bus) -> None:
        self.before = before
        self.now, self.other = before.copy(), before.copy()
        self.data = bytearray()
        self.answer = NOTHING
        self.refusal: Optional[Refusal] = None
        self.control: Optional[int] = None

    def take(self, value: int) -> Byte:
        """One byte more, which came whole."""
        self.data.append(value)
        answer, kind = self.answer, "byte"
        if not self.refusal:
            try:
                self.answer = self._ask(self.now, value)
                kind = self._kind(answer)
            except Refusal as refusal:
                self.refusal, self.answer = refusal, NOTHING
                kind = REFUSED.get(refusal.number, "byte")
        if kind == "control":
            self.control = value
        said = [self.refusal.name] if self.refusal and kind != "byte" else self._said(kind, answer)
        title, number = f"{kind.capitalize()} {value:02X}", f"{value:02X}"
        return Byte(kind, [f"{title}: {', '.join(said)}", ", ".join(said), said[0], number] if said else [title, number])

    def _ask(self, bus: Bus, last: int) -> Answer:
        """The transfer so far with this last byte, on a bus that becomes what it leaves."""
        bus.registers[:] = self.before.registers
        bus.ram[:] = self.before.ram
        return bus.transfer(bytes(self.data[:-1]) + bytes([last]))

    def _kind(self, before: Answer) -> str:
        """What the last byte is, which the library takes."""
        if len(self.data) == 1:
            return "address"
        if not self.answer.acknowledged:
            return "byte"
        if self.answer.stored + self.answer.discarded > before.stored + before.discarded:
            return "data"
        try:
            self._ask(self.other, NEITHER)
        except Refusal as refusal:
            return REFUSED[refusal.number]
        raise AssertionError(f"{NEITHER:02X} is taken after {self.data[:-1].hex(' ')}")

    def _addressed(self) -> Transfer:
        """The address alone, which says the group."""
        return Transfer(None, bytes(self.data[:1]), "", "", False)

    # ---- In words, by kind ---------------------------------------------------

    def _said(self, kind: str, before: Answer) -> list[str]:
        if kind == "address":
            return self._address()
        if kind == "command":
            return self._command()
        return self._data(before) if kind == "data" else []

    def _address(self) -> list[str]:
        address = self._addressed()
        return [f"group {address.group}"] + ["read"] * address.read + ["heard by no chip"] * (not self.answer.acknowledged)

    def _command(self) -> list[str]:
        touched = _touched(self.before.part, self.data[0], self.control, self.data[-1])
        # Half of the pointer is set by what restores half of its marks.
        shown = [register for register in touched if register < Register.UNKNOWN_HIGH] or [Register.P] * len(touched)
        values = " ".join(f"{register.name}={self.now.register(self._addressed().group, register)}" for register in shown)
        return [COMMANDS[touched]] + ([values] if values else [])

    def _data(self, before: Answer) -> list[str]:
        """The columns that the byte covers: they are another if each of its bits is."""
        self._ask(self.other, self.data[-1] ^ 0xFF)
        # As one number, since looking at each column takes far longer than the library.
        one, other = (int.from_bytes(bus.ram, "little") for bus in (self.now, self.other))
        said = self._columns(one ^ other) if one != other else []
        discarded = self.answer.discarded - before.discarded
        return said + [f"{discarded} bits past the last chip"] * (discarded > 0)

    def _columns(self, changed: int) -> list[str]:
        """The first and the last column of those that are not 0, counted inside the group as in a log's S lines, and their chips."""
        each = len(self.before.ram) // sum(self.before.chips)
        start = each * self.before.chips[0] * self._addressed().group
        first, last = (bit // 8 - start for bit in ((changed & -changed).bit_length() - 1, changed.bit_length() - 1))
        return [_counted("column", first, last), _counted("chip", first // each, last // each)]


def _counted(name: str, first: int, last: int) -> str:
    return f"{name} {first}" if first == last else f"{name}s {first} to {last}"


@lru_cache(maxsize=None)
def _touched(part: int, address: int, control: int, command: int) -> tuple[Register, ...]:
    """The registers and marks that are the same after a command, sent to registers that have none in common."""
    low, high = Bus(part, 1, 1), Bus(part, 1, 1)
    high.registers[:] = bytes([1]) * len(high.registers)
    for group in (0, 1):
        high.registers[SET * group + Register.P] = 0x11  # another high and another low half than 0
    for bus in (low, high):
        bus.transfer(bytes([address, control, command]))
    return tuple(register for group in (0, 1) for register in Register if low.register(group, register) == high.register(group, register))
