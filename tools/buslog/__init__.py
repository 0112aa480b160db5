"""Captures of the bus: VCD and sigrok files to a neutral text, to logs and back, and each transfer held against the library (docs/BENCH.md)."""

from __future__ import annotations

from typing import Optional


class Fault(Exception):
    """The input says something is wrong: in which file, on which line where there is one, and what."""

    def __init__(self, name: str, line: Optional[int], what: str) -> None:
        super().__init__(f"{name}:{line}: {what}" if line else f"{name}: {what}")


class Failure(Exception):
    """What was asked cannot be done: an option, or a program that is missing or failed."""
