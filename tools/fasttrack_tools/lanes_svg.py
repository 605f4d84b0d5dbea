"""The picture of a run as an SVG file."""

from __future__ import annotations

from .canvas import Canvas
from .history import History
from .layout import bins_of, lanes_left_out
from .summary import plural, summary
from .svg_bins import draw_bins
from .svg_panels import MOST_NARROW, draw_panels
from .svg_style import HEAD, LEFT, LETTER_WIDTH, RIGHT, WIDTH

MOST_BINS = 120


def lanes_svg(history: History) -> str:
    """The picture, as the text of an SVG file."""
    canvas = Canvas()
    first, *rest = summary(history)
    canvas.text(LEFT, 26, first, "title")
    y = 44.0
    for line in rest:
        canvas.text(LEFT, y, line)
        y += 16
    y = _legend(canvas, y + 6)
    if len(history.entries) <= MOST_NARROW:
        y = draw_panels(canvas, history, y)
    else:
        y = draw_bins(canvas, bins_of(history, MOST_BINS), y)
    more = lanes_left_out(history)
    if more:
        canvas.text(LEFT, y + 12, f"{plural(more, 'lane')} more not drawn")
        y += 20
    return canvas.svg(LEFT + WIDTH + RIGHT, y + 12, HEAD)


def _legend(canvas: Canvas, y: float) -> float:
    """What the colours mean; answers where the next thing may stand."""
    x = LEFT
    for style, overlay, words in (
        ("original", "", "original"),
        ("fast", "", "fast version"),
        ("lead", "", "lead between regions"),
        ("fast", "thrown", "thrown away (hatched)"),
        ("fast", "open", "not judged (pale)"),
        ("gone", "", "gone: did not come back"),
    ):
        canvas.box((x, y, 22, 12), style)
        if overlay:
            canvas.box((x, y, 22, 12), overlay)
        canvas.text(x + 28, y + 10, words)
        x += 42 + LETTER_WIDTH * len(words)
    return y + 26
