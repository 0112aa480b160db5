"""Every log and capture under some folders on all processors: what the library refuses, and where bus and model differ."""

from __future__ import annotations

import os
from collections import Counter
from concurrent.futures import BrokenExecutor, ProcessPoolExecutor
from functools import partial
from typing import Iterable, Iterator, NamedTuple, Optional

import humtrellis

from . import Failure, Fault
from .capture import Signals, any_kind
from .check import Model
from .progress import Progress, silence

LOGS = (".log",)
CAPTURES = (".vcd", ".sr")
AT_ONCE = 32


class Bench(NamedTuple):
    """What captures do not say: the part, the chips of both groups, and the signals."""

    part: int
    chips: Optional[tuple[int, int]]
    signals: Signals


class Found(NamedTuple):
    """What is to be said of a file: transfers, those refused by each number, and those acknowledged differently on the bus; or what is wrong with the file."""

    path: str
    transfers: int = 0
    refused: Counter = Counter()
    differences: int = 0
    fault: str = ""
    failure: str = ""

    @property
    def to_look_at(self) -> bool:
        return bool(self.refused or self.differences or self.fault or self.failure)


def files(paths: Iterable[str]) -> Iterator[str]:
    """The files that are named, and every log and capture under the folders that are."""
    for path in paths:
        if not os.path.isdir(path):
            yield path
            continue
        for folder, folders, names in os.walk(path, onerror=_raise):
            folders.sort()
            yield from (os.path.join(folder, name) for name in sorted(names) if name.lower().endswith(LOGS + CAPTURES))


def _raise(error: OSError) -> None:
    raise error


def is_capture(path: str) -> bool:
    """By its name; what is no capture is a log."""
    return path.lower().endswith(CAPTURES)


def _log(path: str) -> Found:
    with open(path, "rb") as file:
        try:
            lines = [line.split() for line in humtrellis.replay(file.read()).splitlines()]
        except humtrellis.Refusal as refusal:
            return Found(path, refused=Counter([int(refusal.number)]), fault=f"{path}: the log is {refusal}")
    answers = [int(line[2]) for line in lines if line[0] == "T"]
    return Found(path, len(answers), Counter(filter(None, answers)), sum(line[0] == "A" for line in lines))


def _capture(path: str, bench: Bench) -> Found:
    model = Model(bench.part, bench.chips)
    with any_kind(path, bench.signals) as capture:
        verdicts = [model.take(transfer) for transfer in capture.transfers if transfer.ours]
    if not verdicts:
        return Found(path, fault=f"{path}: no transfer to the chips")
    refused = Counter(int(verdict.refusal.number) for verdict in verdicts if verdict.refusal)
    return Found(path, len(verdicts), refused, sum(bool(verdict.differences) for verdict in verdicts))


def look(path: str, bench: Bench) -> Found:
    """What is to be said of one file."""
    try:
        return _capture(path, bench) if is_capture(path) else _log(path)
    except Fault as fault:
        return Found(path, fault=str(fault))
    except (OSError, Failure) as failure:
        return Found(path, failure=str(failure))


def look_at_all(paths: list[str], bench: Bench, processes: int) -> list[Found]:
    """What is to be said of each file, on so many processors."""
    progress = Progress(len(paths), "files")
    found = []
    try:
        with ProcessPoolExecutor(processes, initializer=silence) as pool:
            for one in pool.map(partial(look, bench=bench), paths, chunksize=AT_ONCE):
                found.append(one)
                progress.at(len(found))
    except BrokenExecutor:
        raise Failure(f"one of {processes} processes was ended from outside, after {len(found)} of {len(paths)} files") from None
    finally:
        progress.over()
    return found


def _said(found: Found) -> str:
    if found.failure or found.fault:
        return found.failure or found.fault
    parts = [f"{count} refused by {number}" for number, count in sorted(found.refused.items())]
    if found.differences:
        parts.append(f"{found.differences} acknowledged differently")
    return f"{found.path}: {', '.join(parts)} of {found.transfers} transfers"


def summary(found: list[Found]) -> str:
    """The counts of all files, and a line for each to look at."""
    refused = sum((one.refused for one in found), Counter())
    by_number = "".join(f", {count} by {number}" for number, count in sorted(refused.items()))
    look_at = [one for one in found if one.to_look_at]
    lines = [
        f"files {len(found)}",
        f"transfers {sum(one.transfers for one in found)}",
        f"refused {sum(refused.values())}{by_number}",
        f"acknowledge differences {sum(one.differences for one in found)}",
        f"files to look at {len(look_at)}",
        *(f"    {_said(one)}" for one in look_at),
    ]
    return "\n".join(lines) + "\n"


def status(found: list[Found]) -> int:
    """0 nothing to look at, 1 something, 2 a file that could not be read."""
    return 2 if any(one.failure for one in found) else int(any(one.to_look_at for one in found))
