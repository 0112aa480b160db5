"""Elements and digits as a drawing: lit and unlit, column numbers, a dashed line at a chip edge, and a tooltip on each."""

from __future__ import annotations

from html import escape
from typing import Collection, Iterable, Iterator, NamedTuple, Optional, Sequence

import humtrellis

from . import digits, grid
from .history import View
from .segments import Element, backplanes, layout, lit

STYLE = """
.glass { fill: #dde3d0 }
.segment, .element { fill: #c6cdb9 }
.segment.lit, .element.lit { fill: #1b2116 }
.differs { stroke: #d00000; stroke-width: 2 }
.edge { stroke: #a04000; stroke-width: 1.5; stroke-dasharray: 4 3 }
text { font: 10px monospace; fill: #333; text-anchor: middle }
text.left { text-anchor: start }
text.right { text-anchor: end }
text.name { fill: #6c735f; pointer-events: none }
text.name.lit { fill: #fff }
text.name.differs { stroke: none }
text.edge { fill: #a04000; stroke: none }
"""

# The outline of each segment in a box of 40 by 72, and the point beside it.
SHAPES = {
    "a": "5,4 9,0 31,0 35,4 31,8 9,8",
    "b": "36,5 40,9 40,31 36,35 32,31 32,9",
    "c": "36,37 40,41 40,63 36,67 32,63 32,41",
    "d": "5,68 9,64 31,64 35,68 31,72 9,72",
    "e": "4,37 8,41 8,63 4,67 0,63 0,41",
    "f": "4,5 8,9 8,31 4,35 0,31 0,9",
    "g": "5,36 9,32 31,32 35,36 31,40 9,40",
    "DP": "44,64 52,64 52,72 44,72",
}
BOX = 52
TALL = 72


class Drawing(NamedTuple):
    """What is drawn: a view, its digits if there are any, the last transfer that wrote to each column if that is known, and the elements to mark."""

    view: View
    firsts: Optional[range] = None
    writers: Sequence[Optional[int]] = ()
    marked: Collection[Element] = ()


class Cells(NamedTuple):
    """How a strip of columns is drawn: a cell's width and height, and which columns have their number."""

    width: float
    height: float
    numbered: int


def _title(drawing: Drawing, element: Element) -> str:
    view = drawing.view
    place = f"column {element.column}, chip {view.chip(element.column)}, backplane {element.backplane}"
    if not drawing.writers:
        return place
    state = "lit" if lit(view.columns, 0, element) else "dark"
    writer = drawing.writers[element.column]
    wrote = "written by no transfer" if writer is None else f"last written by transfer {writer}"
    return f"{place}: {state}; the column was {wrote}"


def _place(element: Element) -> str:
    return f'data-column="{element.column}" data-backplane="{element.backplane}"'


def _shape(drawing: Drawing, kind: str, element: Element, shape: str, name: str) -> str:
    """A shape for an element, with its tooltip."""
    classes = kind + (" lit" if lit(drawing.view.columns, 0, element) else "") + (" differs" if element in drawing.marked else "")
    return f'<{shape} class="{classes}" {_place(element)}><title>{name}{_title(drawing, element)}</title></{shape.split()[0]}>'


def _text(x: float, y: float, text: str, classes: str = "") -> str:
    return f'<text x="{x:g}" y="{y:g}"' + (f' class="{classes}"' if classes else "") + f">{escape(text)}</text>"


def _edge(x1: float, y1: float, x2: float, y2: float) -> str:
    return f'<line class="edge" x1="{x1:g}" y1="{y1:g}" x2="{x2:g}" y2="{y2:g}"/>'


def _strip(drawing: Drawing, columns: range, cells: Cells, x: float, y: float) -> Iterator[str]:
    """A cell for each element of some columns, the backplanes at the left and the columns' numbers below."""
    rows = backplanes(drawing.view.mode)
    for backplane in range(rows):
        yield _text(x - 30, y + cells.height * (backplane + 0.5) + 4, f"BP{backplane}", "left")
    for place, column in enumerate(columns):
        left = x + cells.width * place
        for backplane in range(rows):
            top = y + cells.height * backplane
            shape = f'rect x="{left + 0.5:g}" y="{top + 0.5:g}" width="{cells.width - 1:g}" height="{cells.height - 1:g}"'
            yield _shape(drawing, "element", Element(column, backplane), shape, "")
        if column % cells.numbered == 0:
            yield _text(left + cells.width / 2, y + cells.height * rows + 11, str(column))


# ---- The whole group ---------------------------------------------------------


def _whole(drawing: Drawing, top: float) -> tuple[list[str], float, float]:
    """Every column of the group, 80 a line, a dashed line between chips; the drawing's width and its lower end."""
    view = drawing.view
    cells = Cells(12, 10, 10)
    drawn, y = [], top
    for first in range(0, len(view.columns), grid.LINE):
        if first % humtrellis.COLUMNS == 0:
            if first:
                drawn.append(_edge(0, y - 6, 1010, y - 6))
            drawn.append(_text(10, y + 10, f"chip {view.chip(first)}", "left edge"))
            y += 18
        drawn += _strip(drawing, range(first, first + grid.LINE), cells, 40, y)
        y += cells.height * backplanes(view.mode) + 26
    return drawn, 1010, y


# ---- Digits ------------------------------------------------------------------


def _digit(drawing: Drawing, index: int, first: int, x: float, y: float) -> Iterator[str]:
    yield f'<g transform="translate({x:g} {y:g})">'
    for segment, element in layout(drawing.view.mode).segments.items():
        named = f"segment {segment} of digit {index}: "
        yield _shape(drawing, "segment", Element(first + element.column, element.backplane), f'polygon points="{SHAPES[segment]}"', named)
    yield "</g>"


def _names(drawing: Drawing, first: int, cells: Cells, x: float, y: float) -> Iterator[str]:
    """The name of each segment in its cell."""
    for segment, element in layout(drawing.view.mode).segments.items():
        classes = "name lit" if lit(drawing.view.columns, first, element) else "name"
        place = f'x="{x + cells.width * (element.column + 0.5):g}" y="{y + cells.height * (element.backplane + 0.5) + 4:g}"'
        yield f'<text {place} class="{classes}" {_place(Element(first + element.column, element.backplane))}>{segment}</text>'


def _digits(drawing: Drawing, top: float) -> tuple[list[str], float, float]:
    """Digits above the cells of their columns, a dashed line between those of two chips; the drawing's width and its lower end."""
    view, firsts = drawing.view, drawing.firsts
    cells = Cells(max(24, 64 / firsts.step), 18, 1)
    columns = range(firsts[0], firsts[-1] + firsts.step)
    left, strip = 40, top + TALL + 16
    drawn = list(_strip(drawing, columns, cells, left, strip))
    for index, first in enumerate(firsts):
        x = left + cells.width * (first - columns[0])
        drawn += _digit(drawing, index, first, x + (cells.width * firsts.step - BOX) / 2, top)
        drawn += _names(drawing, first, cells, x, strip)
    below = strip + cells.height * backplanes(view.mode) + 14
    drawn += _edges(view, columns, cells, left, (strip - 6, below + 14))
    return drawn, left + cells.width * len(columns) + 10, below + 22


def _edges(view: View, columns: range, cells: Cells, left: float, ends: tuple[float, float]) -> Iterator[str]:
    """A dashed line between the columns of two chips, with a chip's name on either side; of one chip its name alone."""
    top, bottom = ends
    if view.chip(columns[0]) == view.chip(columns[-1]):
        yield _text(left, bottom, f"chip {view.chip(columns[0])}", "left edge")
    for column in columns[1:]:
        if view.chip(column) != view.chip(column - 1):
            x = left + cells.width * (column - columns[0])
            yield _edge(x, top, x, bottom)
            yield _text(x - 4, bottom, f"chip {view.chip(column - 1)}", "right edge")
            yield _text(x + 4, bottom, f"chip {view.chip(column)}", "left edge")


# ---- The file ----------------------------------------------------------------


def caption(drawing: Drawing, name: str) -> list[str]:
    """The lines above a drawing: its name, the header, what its digits read as."""
    words = grid.header(drawing.view).split()
    if drawing.firsts is None:
        return [name, " ".join(words)]
    return [name, " ".join(words[:7]), " ".join(words[7:]), digits.reads(drawing.view, drawing.firsts)]


def _captioned(drawing: Drawing, lines: list[str], top: float) -> tuple[list[str], float, float]:
    """A drawing under its lines; its width and its lower end."""
    drawn = [_text(10, top + 16 + 13 * place, line, "left") for place, line in enumerate(lines)]
    below = top + 16 + 13 * len(lines)
    shapes, width, end = _whole(drawing, below) if drawing.firsts is None else _digits(drawing, below)
    return drawn + shapes, max([width] + [20 + 6.1 * len(line) for line in lines]), end


def file(drawings: Iterable[tuple[Drawing, list[str]]]) -> str:
    """An SVG of drawings, one below the other, each under its lines."""
    drawn, wide, end = [], 0.0, 0.0
    for drawing, lines in drawings:
        shapes, width, end = _captioned(drawing, lines, end)
        drawn += shapes
        wide = max(wide, width)
    size = f'width="{wide:.0f}" height="{end:.0f}" viewBox="0 0 {wide:.0f} {end:.0f}"'
    head = f'<svg xmlns="http://www.w3.org/2000/svg" {size}>\n<style>{STYLE}</style>\n<rect class="glass" width="100%" height="100%" rx="6"/>\n'
    return head + "\n".join(drawn) + "\n</svg>\n"
