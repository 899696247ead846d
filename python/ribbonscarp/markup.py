"""A screen as HTML."""
from __future__ import annotations

import html
import itertools
from collections.abc import Iterator, Sequence

from .cells import Cell, Color, Style

_SHADES = {
    Color.GREEN: "#3c3",
    Color.WHITE: "#fff",
    Color.RED: "#f44",
    Color.TURQUOISE: "#3dd",
    Color.YELLOW: "#dd3",
    Color.PINK: "#f7f",
    Color.BLUE: "#79f",
}


def html_of(rows: Sequence[Sequence[Cell]], cursor: tuple[int, int]) -> str:
    """A `pre` element of rows of cells, whose colours stand in it, so that it needs no style sheet."""
    lines = ("".join(_runs(row, cursor[1] - 1 if number == cursor[0] else -1)) for number, row in enumerate(rows, 1))
    text = "\n".join(lines)
    return f'<pre style="background:#000;color:{_SHADES[Color.GREEN]};line-height:1.2">\n{text}\n</pre>'


def _runs(row: Sequence[Cell], cursor: int) -> Iterator[str]:
    """The cells of a row that look alike, one after another."""
    looks = [(cell.style, at == cursor) for at, cell in enumerate(row)]
    for (style, is_cursor), run in itertools.groupby(range(len(row)), looks.__getitem__):
        text = html.escape("".join(row[at].character for at in run))
        css = ";".join(_css(style, is_cursor))
        yield f'<span style="{css}">{text}</span>' if css else text


def _css(style: Style, is_cursor: bool) -> Iterator[str]:
    shade = _SHADES[style.color]
    if style.is_reversed:
        yield f"background:{shade};color:#000"
    elif style.color is not Color.GREEN:
        yield f"color:{shade}"
    if style.is_underscored:
        yield "text-decoration:underline"
    if style.is_blinking:
        yield "font-weight:bold"
    if is_cursor:
        yield "outline:1px solid #fff"
