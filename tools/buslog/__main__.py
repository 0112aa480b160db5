"""The program: its commands, their arguments and statuses."""

from __future__ import annotations

import argparse
import contextlib
import itertools
import os
import re
import signal
import sys
from fractions import Fraction
from typing import BinaryIO, Iterator, Optional, Sequence

import humtrellis
from humtrellis import Part

from . import Failure, Fault, archive, capture, check, log, text
from .progress import silence

STATUS = "Status: 0 done, 1 the input says that something is wrong, is refused, or bus and model differ, 2 a failure: usage, or a file."
SAY_CHIPS = "say by --chips N,M how many chips group 0 and group 1 have"
PARTS = {part.name.lower(): part for part in Part}


# ---- The commands ------------------------------------------------------------


def quiet(path: Optional[str]) -> None:
    """No line about progress on a terminal that the result goes to."""
    if path is None and os.isatty(1):
        silence()


@contextlib.contextmanager
def output(path: Optional[str], source: str) -> Iterator[BinaryIO]:
    """Where a result goes: a file, which is not the one that is read, or standard output."""
    if path is None:
        # A file of its own, so that a failure of the last write is seen here.
        with open(1, "wb", closefd=False) as out:
            yield out
        return
    if os.path.exists(path) and source != "-" and os.path.samefile(path, source):
        raise Failure(f"{path}: -o names the file that is read")
    with open(path, "wb") as out:
        yield out


def _text(asked: argparse.Namespace, transfers: Iterator[text.Transfer]) -> int:
    quiet(asked.output)
    # Before the result is opened, so that a capture that is wrong from the start leaves an earlier result as it is.
    first = list(itertools.islice(transfers, 1))
    with output(asked.output, asked.file) as out:
        if asked.chips:
            out.write(text.chips_line(asked.chips).encode())
        for line in text.captured(itertools.chain(first, transfers)):
            out.write(line.encode())
    return 0


def from_vcd(asked: argparse.Namespace) -> int:
    """A VCD file to the neutral text."""
    with capture.opened(asked.file) as file:
        return _text(asked, capture.from_vcd(file, capture.name(asked.file), _signals(asked)))


def from_sigrok(asked: argparse.Namespace) -> int:
    """A sigrok file to the neutral text."""
    return _text(asked, capture.from_sigrok(asked.file, _signals(asked)))


def to_log(asked: argparse.Namespace) -> int:
    """The neutral text to a log."""
    with capture.opened(asked.file) as file:
        read = capture.text(file, capture.name(asked.file))
    chips = asked.chips or read.chips
    if chips is None:
        raise Failure(f"{capture.name(asked.file)}: there is no chips line: {SAY_CHIPS}")
    if asked.output is None and os.isatty(1):
        raise Failure("a log is no text for a terminal: name a file by -o")
    made, warnings = log.to_log(read, chips, asked.version, capture.name(asked.file))
    with output(asked.output, asked.file) as out:
        out.write(made)
    for warning in warnings:
        print(f"bin/buslog: {warning}", file=sys.stderr)
    return 0


def to_text(asked: argparse.Namespace) -> int:
    """A log to the neutral text."""
    with capture.opened(asked.file) as file:
        read = file.read()
    lines = [text.written(transfer) + "\n" for transfer in log.from_log(read, capture.name(asked.file))]
    with output(asked.output, asked.file) as out:
        out.write((text.chips_line((read[1], read[2])) + "".join(lines)).encode())
    return 0


def check_capture(asked: argparse.Namespace) -> int:
    """Each transfer of a capture held against the library."""
    quiet(None)
    with capture.any_kind(asked.file, _signals(asked)) as read, output(None, asked.file) as out:
        chips = asked.chips or read.chips
        if chips is None:
            raise Failure(f"{capture.name(asked.file)}: there is no chips line: {SAY_CHIPS}")
        model, tally = check.Model(PARTS[asked.part], chips), check.Tally()
        for transfer in read.transfers:
            if read.text or transfer.ours:
                verdict = model.take(transfer)
                out.write(check.told(tally.transfers, transfer, verdict).encode())
                tally = tally.plus(verdict)
            else:
                tally = tally._replace(others=tally.others + 1)
        out.write(tally.told().encode())
    return 0 if tally.agree else 1


def archive_of(asked: argparse.Namespace) -> int:
    """Every log and capture under some folders."""
    paths = list(archive.files(asked.paths))
    captures = [path for path in paths if archive.is_capture(path)]
    if not paths:
        raise Failure(f"no log (.log) and no capture (.vcd, .sr) under {', '.join(asked.paths)}")
    if captures and asked.chips is None:
        raise Failure(f"{captures[0]}: a capture has no chips line: {SAY_CHIPS}")
    humtrellis.library()
    if captures:
        humtrellis.Bus(PARTS[asked.part], *asked.chips)
    found = archive.look_at_all(paths, archive.Bench(PARTS[asked.part], asked.chips, _signals(asked)), asked.processes)
    with output(None, "-") as out:
        out.write(archive.summary(found).encode(errors="surrogateescape"))
    return archive.status(found)


# ---- The arguments -----------------------------------------------------------


def _signals(asked: argparse.Namespace) -> capture.Signals:
    return capture.Signals(asked.scl, asked.sda, asked.spike)


def _chips(said: str) -> tuple[int, int]:
    numbers = said.split(",")
    if len(numbers) != 2 or not all(number.isdecimal() and int(number) <= 255 for number in numbers):
        raise argparse.ArgumentTypeError(f"{said} is not N,M: the chips of group 0 and of group 1")
    return int(numbers[0]), int(numbers[1])


def _nanoseconds(said: str) -> Fraction:
    if not re.fullmatch(r"\d+(\.\d+)?", said, re.ASCII):
        raise argparse.ArgumentTypeError(f"{said} is no number of nanoseconds")
    return Fraction(said)


def _processes(said: str) -> int:
    if not said.isdecimal() or not int(said):
        raise argparse.ArgumentTypeError(f"{said} is no number of processors")
    return int(said)


def _shared() -> dict[str, argparse.ArgumentParser]:
    """Arguments that several commands have."""
    parsers = {name: argparse.ArgumentParser(add_help=False) for name in ("signals", "chips", "part", "output")}
    signals = parsers["signals"]
    signals.add_argument("--scl", metavar="NAME", help="the signal that is SCL, by name or by its number from 0; else the one called SCL")
    signals.add_argument("--sda", metavar="NAME", help="the signal that is SDA, by name or by its number from 0; else the one called SDA")
    signals.add_argument("--spike", metavar="NS", type=_nanoseconds, default=Fraction(0), help="drop pulses shorter than so many nanoseconds; 0 if not said")
    parsers["chips"].add_argument("--chips", metavar="N,M", type=_chips, help="the chips of group 0 (address 70) and of group 1 (72)")
    parsers["part"].add_argument("--part", choices=PARTS, default="pcf8532", help="the part; pcf8532 if not said")
    parsers["output"].add_argument("-o", dest="output", metavar="FILE", help="where to write; standard output if not said")
    return parsers


def _parser() -> argparse.ArgumentParser:
    parser = argparse.ArgumentParser(prog="bin/buslog", description="Captures of the bus: from the wire to a log and back (docs/BENCH.md).", epilog=STATUS)
    commands = parser.add_subparsers(dest="command", required=True, metavar="COMMAND")
    shared = _shared()

    def command(name: str, run, parents: str, file: str, about: str) -> argparse.ArgumentParser:
        made = commands.add_parser(name, parents=[shared[parent] for parent in parents.split()], help=about, description=about, epilog=STATUS)
        made.set_defaults(run=run)
        if file:
            made.add_argument("file", metavar=file, help="the file to read; - is standard input" if file != "CAPTURE.sr" else "the file to read")
        return made

    command("from-vcd", from_vcd, "signals chips output", "CAPTURE.vcd", "a VCD file to the neutral text, a line a transfer")
    command("from-sigrok", from_sigrok, "signals chips output", "CAPTURE.sr", "a sigrok file to the neutral text, through sigrok-cli")
    made = command("to-log", to_log, "chips output", "TEXT", "the neutral text to a bus log; --chips stands before the text's own line")
    made.add_argument("--version", type=int, choices=(1, 2), default=1, help="2 for a log that counts the acknowledged bytes; 1 if not said")
    command("to-text", to_text, "output", "LOG", "a bus log to the neutral text; of version 2, the first so many bytes are marked as acknowledged")
    command("check", check_capture, "signals chips part", "CAPTURE", "each transfer of a VCD file, sigrok file or neutral text held against the model")
    made = command("archive", archive_of, "signals chips part", "", "every log and capture under folders, with a summary and the files to look at")
    made.add_argument("paths", metavar="PATH", nargs="+", help="a folder, for every .log, .vcd and .sr under it, or a file")
    made.add_argument("--processes", metavar="N", type=_processes, default=len(os.sched_getaffinity(0)), help="how many at once; as many as processors if not said")
    return parser


def main(arguments: Optional[Sequence[str]] = None) -> int:
    """The program; gives its status."""
    signal.signal(signal.SIGPIPE, signal.SIG_DFL)
    signal.signal(signal.SIGINT, signal.SIG_DFL)
    asked = _parser().parse_args(arguments)
    try:
        return asked.run(asked)
    except (Fault, humtrellis.Refusal) as fault:
        print(f"bin/buslog: {fault}", file=sys.stderr)
        return 1
    except (Failure, OSError) as failure:
        print(f"bin/buslog: {failure}", file=sys.stderr)
        return 2


if __name__ == "__main__":
    sys.exit(main())
