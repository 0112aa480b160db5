"""Bus logs from the neutral text and back (docs/BENCH.md has their form); what is a log, the library says."""

from __future__ import annotations

from typing import Iterator, Optional

import humtrellis

from . import Fault
from .text import Text, Transfer

LIMIT = 65536
HEAD = 3


def seen(transfer: Transfer) -> int:
    """The bytes that the chips acknowledged; in a read only the address is theirs to acknowledge."""
    return transfer.marks[: 1 if transfer.read else None].count("+")


def recorded(transfer: Transfer, version: int, room: int) -> Optional[bytes]:
    """A transfer's record, or None where the log has no room for it."""
    length = len(transfer.data) + (2 if version == 2 else 0)
    if 2 + length > room:
        return None
    return length.to_bytes(2, "big") + (seen(transfer).to_bytes(2, "big") if version == 2 else b"") + transfer.data


def to_log(text: Text, chips: tuple[int, int], version: int, name: str) -> tuple[bytes, list[str]]:
    """The log of a text, and a warning for each byte that it leaves out."""
    warnings = []
    log = bytearray([version, *chips])
    if version == 2 and not any(line.transfer.marks.strip() for line in text.lines):
        raise Fault(name, None, "no byte is marked + or -: a log of version 2 says how many were acknowledged")
    for index, (number, transfer) in enumerate(text.lines):
        if version == 2:
            _marked(transfer, name, number)
        record = recorded(transfer, version, LIMIT - len(log))
        if record is None:
            raise Fault(name, number, _too_long(text, index, len(log)))
        log += record
        if transfer.cut:
            bits = f"{len(transfer.cut)} bit{'s' if len(transfer.cut) > 1 else ''}"
            warnings.append(f"{name}:{number}: a byte that was cut after {bits} is left out, since a log has whole bytes; `check` takes it")
    try:
        humtrellis.replay(bytes(log))
    except humtrellis.Refusal as refusal:
        raise Fault(name, None, f"the log is {refusal}") from None
    return bytes(log), warnings


def _marked(transfer: Transfer, name: str, number: int) -> None:
    """Only a last byte can be without its mark: eight bits came, and no ninth clock."""
    place = transfer.marks[: 1 if transfer.read else None].find(" ")
    if 0 <= place < len(transfer.data) - 1:
        raise Fault(name, number, f"byte {place} is not marked + or -: a log of version 2 says how many were acknowledged")


def _too_long(text: Text, index: int, length: int) -> str:
    limit = f"the log would have more than {LIMIT:,} bytes"
    if not index:
        return f"{limit} by this transfer alone"
    fit = f"the transfers up to line {text.lines[index - 1].number} fit, {index} of {len(text.lines)}, in {length:,} bytes"
    return f"{limit}: {fit}. Split the text before this line; the rest is a log of its own only where it begins at power-on, since each log does"


def from_log(log: bytes, name: str) -> Iterator[Transfer]:
    """The transfers of a log. Version 2 counts acknowledged bytes and does not say which: the first ones are marked."""
    try:
        humtrellis.replay(log)
    except humtrellis.Refusal as refusal:
        raise Fault(name, None, f"the log is {refusal}") from None
    for index, (count, data) in enumerate(humtrellis.transfers(log)):
        transfer = Transfer(None, data, " " * len(data), "", True)
        if count is not None:
            transfer = transfer._replace(marks=("+" * count).ljust(len(data), "-"))
            if count > len(data) or seen(transfer) != count:
                of = f"{len(data)} that came" if count > len(data) else "a read, of which only the address counts"
                raise Fault(name, None, f"record {index}: {count} acknowledged bytes seen of {of}, which no text can say; bin/replay shows it")
        yield transfer
