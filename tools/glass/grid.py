"""A hexadecimal digit a column, in a fixed shape, so that `diff` of two shows the count and the columns that differ."""

from __future__ import annotations

from typing import Iterator

import humtrellis

from .history import View
from .segments import MODES

LINE = 80
MARGIN = 7
RULE = "+---------" * (LINE // 10)


def header(view: View) -> str:
    """What the group is set to, and how much of it is lit."""
    on = "on " if view.on else "off"
    return f"group {view.group}  phase {view.phase}  mode {MODES[view.mode]:6}  {on}  chips {view.chips}  lit {view.lit}"


def figures(columns: bytes) -> str:
    """A hexadecimal digit for each column, which is at most 15."""
    return columns.hex()[1::2].upper()


def lines(view: View) -> Iterator[str]:
    """The header; of each chip a rule with a plus at every tenth column, then its columns after the number of the first."""
    yield header(view)
    for first in range(0, len(view.columns), LINE):
        if first % humtrellis.COLUMNS == 0:
            yield f"chip {view.chip(first)} {RULE}"
        yield f"{first:{MARGIN - 1}} " + figures(view.columns[first : first + LINE]).replace("0", ".")
