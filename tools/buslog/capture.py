"""A capture of any kind as its transfers: a VCD file, a sigrok file through sigrok-cli, or the neutral text."""

from __future__ import annotations

import contextlib
import math
import os
import re
import shutil
import subprocess
import sys
import tempfile
from fractions import Fraction
from typing import BinaryIO, Iterable, Iterator, NamedTuple, Optional

from . import Failure, Fault, wire
from .progress import Progress
from .text import Text, Transfer, parsed
from .vcd import Vcd

MEGABYTE = 1 << 20
SIGROK = b"PK"
VERSIONS = (b"\x01", b"\x02")


class Signals(NamedTuple):
    """Which signals of a capture are SCL and SDA, by name or number, and the nanoseconds below which a pulse is a spike."""

    scl: Optional[str] = None
    sda: Optional[str] = None
    spike: Fraction = Fraction(0)


@contextlib.contextmanager
def opened(path: str) -> Iterator[BinaryIO]:
    """A file to read; `-` is standard input."""
    if path == "-":
        if sys.stdin is None:
            raise Failure("standard input is closed")
        yield sys.stdin.buffer
    else:
        with open(path, "rb") as file:
            yield file


def name(path: str) -> str:
    """What messages call it."""
    return "standard input" if path == "-" else path


def from_vcd(file: BinaryIO, called: str, signals: Signals, passed: tuple[bytes, ...] = ()) -> Iterator[Transfer]:
    """The transfers of a VCD file, each as soon as it has ended; lines that begin with one of `passed` are passed over."""
    if file.peek(len(SIGROK)).startswith(SIGROK):
        raise Fault(called, None, "this is a sigrok file, which from-sigrok takes")
    progress = Progress(os.fstat(file.fileno()).st_size, "MB", MEGABYTE)
    try:
        vcd = Vcd(file, called, progress, passed)
        levels = vcd.levels(signals.scl, signals.sda)
        if signals.spike:
            levels = wire.without_spikes(levels, math.ceil(signals.spike / 10**9 / vcd.unit))
        yield from wire.transfers(levels, vcd.unit)
    finally:
        progress.over()


def _for_sigrok(path: str) -> None:
    """What sigrok-cli cannot be asked is this program's message."""
    if path == "-":
        raise Failure("standard input: sigrok-cli opens a sigrok file by its name: give that in place of -")
    if not shutil.which("sigrok-cli"):
        raise Failure(
            f"{path}: sigrok-cli, which reads sigrok files, is not installed (Debian: apt-get install sigrok-cli);"
            " or save the capture as VCD in PulseView and use from-vcd"
        )
    with open(path, "rb") as file:
        if file.read(len(SIGROK)) != SIGROK:
            raise Fault(path, None, "this is no sigrok file; from-vcd takes a VCD")


def _analog(command: list[str]) -> tuple[bytes, ...]:
    """The beginnings of the lines about analog channels that sigrok-cli puts into its VCD."""
    shown = subprocess.run([*command, "--show"], stdin=subprocess.DEVNULL, capture_output=True, check=False).stdout
    return tuple(name + b": " for name in re.findall(rb"^- (.*): analog$", shown, re.MULTILINE))


def from_sigrok(path: str, signals: Signals) -> Iterator[Transfer]:
    """The transfers of a sigrok file, which sigrok-cli turns into VCD on the way."""
    _for_sigrok(path)
    command = ["sigrok-cli", "-i", os.path.abspath(path)]
    with tempfile.TemporaryFile() as said:
        with subprocess.Popen([*command, "-O", "vcd"], stdin=subprocess.DEVNULL, stdout=subprocess.PIPE, stderr=said) as program:
            came = program.stdout.peek(1)
            if came:
                yield from from_vcd(program.stdout, path, signals, _analog(command))
        if program.returncode or not came:
            said.seek(0)
            reason = said.read().decode(errors="replace").strip() or f"status {program.returncode}"
            raise Failure(f"{path}: sigrok-cli could not read it: {reason}")


def text(file: BinaryIO, called: str) -> Text:
    """The neutral text in a file."""
    return parsed(file.read().decode(errors="replace").replace("\r\n", "\n"), called)


class Capture(NamedTuple):
    """The transfers of a capture; of a text, which has none of other devices but as comments, also the chips where it says them."""

    transfers: Iterable[Transfer]
    text: bool = False
    chips: Optional[tuple[int, int]] = None


@contextlib.contextmanager
def any_kind(path: str, signals: Signals) -> Iterator[Capture]:
    """A capture of the kind that its first bytes tell: sigrok's is a ZIP archive, and a VCD file begins with a word in $."""
    with opened(path) as file:
        start = file.peek(64)
        if start[:1] in VERSIONS:
            raise Fault(name(path), None, "this is a bus log, which bin/replay holds against the model")
        if start.startswith(SIGROK):
            yield Capture(from_sigrok(path, signals))
        elif start.lstrip().startswith(b"$"):
            yield Capture(from_vcd(file, name(path), signals))
        else:
            chips, lines = text(file, name(path))
            yield Capture([line.transfer for line in lines], True, chips)
