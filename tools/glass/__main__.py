"""The program: its arguments, its pictures and its statuses."""

from __future__ import annotations

import argparse
import os
import signal
import sys
from typing import Iterator, NamedTuple, Optional

import humtrellis
from humtrellis import Refusal

from . import Failure, compare, digits, grid, history, page, svg
from .history import Step, View

DESCRIPTION = "Shows what a bus log of PCF8532 drivers leaves on the glass; of two logs, both and what differs (docs/BENCH.md)."
STATUS = "Status: 0 shown, 1 a log is refused, 2 a failure, which standard error names."


class Source(NamedTuple):
    """A log, its transfers as far as asked, and what the group shows after them."""

    name: str
    log: bytes
    steps: list[Step]
    view: View


class Refused(Exception):
    """A log that the library refuses."""


# ---- What is asked -----------------------------------------------------------


def _number(text: str) -> int:
    if not text.isdecimal():
        raise argparse.ArgumentTypeError(f"{text} is no number from 0 on")
    return int(text)


def _arguments(arguments: Optional[list[str]]) -> argparse.Namespace:
    parser = argparse.ArgumentParser(prog="bin/glass", description=DESCRIPTION, epilog=STATUS, allow_abbrev=False)
    parser.add_argument("logs", metavar="LOG", nargs="*", help="a bus log, or two; standard input for - or if there is none")
    shape = parser.add_mutually_exclusive_group()
    grid_help = "a hexadecimal digit a column, bit r backplane r: what is shown without a choice, but plain on a terminal too"
    shape.add_argument("--grid", action="store_true", help=grid_help)
    digits_help = "COUNT seven-segment digits from column FIRST on, in the group's mode, and the price that they read as"
    shape.add_argument("--digits", type=_number, nargs=2, metavar=("FIRST", "COUNT"), help=digits_help)
    file = parser.add_mutually_exclusive_group()
    file.add_argument("--svg", metavar="FILE", help="write a drawing of the whole group, or of the digits, instead of text; - is standard output")
    html_help = "write a page with a slider over all transfers, of which it first shows the last, or N; - is standard output"
    file.add_argument("--html", metavar="FILE", help=html_help)
    parser.add_argument("--group", type=int, choices=(0, 1), default=0, help="the group; 0 if not said")
    parser.add_argument("--phase", type=int, choices=(0, 1), default=0, help="the blink phase; 0 if not said")
    parser.add_argument("--at", type=_number, metavar="N", help="after transfer N, counted from 0; after the last if not said")
    asked = parser.parse_args(arguments)
    if len(asked.logs) > 2:
        parser.error("one log is shown, or two are compared")
    if asked.logs.count("-") > 1:
        parser.error("standard input has one log")
    if asked.digits and not 1 <= asked.digits[1] <= humtrellis.PRICE:
        parser.error(f"--digits: COUNT is 1 to {humtrellis.PRICE}, as many as a price has")
    if asked.grid and (asked.svg is not None or asked.html is not None):
        parser.error("--grid is text, --svg and --html are drawings: choose one")
    if asked.html is not None and len(asked.logs) > 1:
        parser.error("--html: a page has one log")
    if not asked.logs and sys.stdin is not None and sys.stdin.isatty():
        parser.error("no LOG, and standard input is a terminal")
    return asked


def _source(asked: argparse.Namespace, path: str) -> Source:
    name = "standard input" if path == "-" else path
    with open(0 if path == "-" else path, "rb") as file:
        log = file.read()
    try:
        bus, steps = history.until(log, asked.at)
    except Refusal as refusal:
        raise Refused(f"{name}: the log is {refusal}") from None
    except Failure as failure:
        raise Failure(f"{name}: {failure}") from None
    return Source(name, log, steps, history.view(bus, asked.group, asked.phase))


def _warn(source: Source) -> None:
    """Says on standard error that the glass may show something else."""
    refused = [index for index, step in enumerate(source.steps) if step.refused]
    if refused:
        first = f"transfer {refused[0]} is {source.steps[refused[0]].answer}"
        more = f", and {len(refused) - 1} more are" if len(refused) > 1 else ""
        print(f"bin/glass: {source.name}: {first}{more}: from there on the glass may show something else", file=sys.stderr)


# ---- What is shown -----------------------------------------------------------


def _coloured(line: str) -> str:
    """A line of the grid with its lit columns and marks in reverse."""
    return "".join(f"\x1b[7m{each}\x1b[0m" if place >= grid.MARGIN and each not in ".+- " else each for place, each in enumerate(line))


def _one(asked: argparse.Namespace, source: Source) -> Iterator[str]:
    view = source.view
    if asked.digits:
        yield grid.header(view)
        yield from digits.lines(view, digits.firsts(view, *asked.digits))
        return
    header, *columns = grid.lines(view)
    yield header
    yield from columns if asked.grid or sys.stdout is None or not sys.stdout.isatty() else map(_coloured, columns)


def _two(asked: argparse.Namespace, one: Source, other: Source) -> Iterator[str]:
    yield f"A {one.name}"
    yield f"B {other.name}"
    views = one.view, other.view
    yield from compare.rows(*views, *asked.digits) if asked.digits else compare.grids(*views)
    yield from compare.summary((one.log, other.log), *views, min(len(one.steps), len(other.steps)))


def _drawing(asked: argparse.Namespace, sources: list[Source]) -> str:
    marked = compare.elements(*(source.view for source in sources)) if len(sources) == 2 else ()
    drawings = []
    for source in sources:
        firsts = digits.firsts(source.view, *asked.digits) if asked.digits else None
        writers = history.writers(source.log, len(source.steps), asked.group)
        drawing = svg.Drawing(source.view, firsts, writers, marked)
        drawings.append((drawing, svg.caption(drawing, os.path.basename(source.name))))
    return svg.file(drawings)


def _write(path: Optional[str], text: str, logs: list[str]) -> None:
    """Writes to a file, which is no log that was read, or to standard output."""
    if path is None or path == "-":
        # A file of its own, so that a failure of the last write is seen here.
        with open(1, "w", encoding="utf-8", errors="backslashreplace", closefd=False) as out:
            out.write(text)
        return
    if os.path.exists(path) and any(log != "-" and os.path.samefile(path, log) for log in logs):
        raise Failure(f"{path}: it would be written over the log")
    with open(path, "w", encoding="utf-8", errors="backslashreplace") as out:
        out.write(text)


def _run(asked: argparse.Namespace) -> None:
    sources = [_source(asked, path) for path in asked.logs or ["-"]]
    if asked.svg is not None:
        _write(asked.svg, _drawing(asked, sources), asked.logs)
    elif asked.html is not None:
        [source] = sources
        _write(asked.html, page.page(source.log, source.name, source.view, len(source.steps), asked.digits), asked.logs)
    else:
        shown = _one(asked, *sources) if len(sources) == 1 else _two(asked, *sources)
        _write(None, "".join(f"{line}\n" for line in shown), asked.logs)
    for source in sources:
        _warn(source)


def main(arguments: Optional[list[str]] = None) -> int:
    """The program; gives its status."""
    signal.signal(signal.SIGPIPE, signal.SIG_DFL)
    asked = _arguments(arguments)
    try:
        _run(asked)
    except Refused as refused:
        print(f"bin/glass: {refused}", file=sys.stderr)
        return 1
    except OSError as error:
        print(f"bin/glass: {f'{error.filename}: {error.strerror}' if error.filename else error}", file=sys.stderr)
        return 2
    except Failure as failure:
        print(f"bin/glass: {failure}", file=sys.stderr)
        return 2
    return 0
