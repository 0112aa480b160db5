"""The glass after each transfer, as one HTML file that loads nothing: page.html, filled in."""

from __future__ import annotations

import json
import re
from html import escape
from pathlib import Path
from typing import Iterator, Optional

from . import Failure, digits, grid, history, svg
from .history import Step, View

TEMPLATE = Path(__file__).with_name("page.html")


def _answer(step: Step) -> str:
    """What the library says of a transfer."""
    if step.refused:
        return f"{step.answer}"
    acknowledged, stored, discarded, last = step.answer
    by = "" if last is None else f", the last data byte by chip {last}"
    return f"acknowledged {acknowledged}{by}; bits stored {stored}, discarded {discarded}"


def _row(index: int, step: Step) -> str:
    """A transfer in the list."""
    modelled = 0 if step.refused else step.answer.acknowledged
    differs = step.seen is not None and step.seen != modelled
    seen = f'<br><span class="seen">the analyser saw {step.seen} acknowledged, the model has {modelled}</span>' if differs else ""
    refused = ' class="refused"' if step.refused else ""
    return f"<li{refused}>{index}: {step.data.hex(' ').upper()}<br>{escape(_answer(step))}{seen}</li>"


def _firsts(view: View, asked: Optional[list[int]]) -> Optional[range]:
    """The digits that were asked for, where the group's mode at that step has room for them."""
    try:
        return digits.firsts(view, *asked) if asked else None
    except Failure:
        return None


def _views(log: bytes, group: int, phase: int) -> Iterator[tuple[Optional[Step], View]]:
    """What a group shows at power-on and after each transfer."""
    bus = history.powered_on(log)
    yield None, history.view(bus, group, phase)
    for step in history.follow(log, bus):
        yield step, history.view(bus, group, phase)


def page(log: bytes, name: str, shown: View, start: int, asked: Optional[list[int]]) -> str:
    """The page of a group at a blink phase; it first shows what is shown after so many transfers."""
    if asked:
        digits.firsts(shown, *asked)
    rows, steps, pictures, drawings = [], [], {}, {}
    for step, view in _views(log, shown.group, shown.phase):
        rows.append("<li>power-on</li>" if step is None else _row(len(steps) - 1, step))
        firsts = _firsts(view, asked)
        picture = pictures.setdefault(view.columns, len(pictures))
        reads = digits.reads(view, firsts) if firsts else ""
        steps.append({"header": grid.header(view), "mode": view.mode, "picture": picture, "reads": reads})
        if view.mode not in drawings:
            dark = view._replace(columns=bytes(len(view.columns)))
            drawings[view.mode] = f'<div class="drawing" data-mode="{view.mode}">{svg.file([(svg.Drawing(dark, firsts), [])])}</div>'
    data = json.dumps({"pictures": [grid.figures(columns) for columns in pictures], "steps": steps}).replace("<", "\\u003c")
    filled = {"NAME": escape(name), "LAST": str(len(steps) - 1), "START": str(start), "DATA": data}
    filled |= {"DRAWINGS": "".join(drawings.values()), "TRANSFERS": "\n".join(rows)}
    return re.sub("@([A-Z]+)@", lambda mark: filled[mark[1]], TEMPLATE.read_text())
