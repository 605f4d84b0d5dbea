"""A long history in bins of many entries."""

from __future__ import annotations

from typing import Dict, List, Sequence, Tuple

from .canvas import Box, Canvas
from .history import Fate, Part
from .layout import EVENTS, Bins, Work, lane_label
from .svg_style import EVENT_STYLE, LEFT, OVERLAY, STYLE, WIDTH


def draw_bins(canvas: Canvas, bins: Bins, y: float) -> float:
    """A long journal, whose columns are bins."""
    step = WIDTH / bins.number
    words = (
        f"A column is {bins.width:,} entries: a journal has no times. The height on a seat is the instructions that "
        f"came home there: the whole lane is {bins.most_work:,}."
    )
    canvas.text(LEFT, y + 4, words)
    y += 24
    canvas.text(LEFT - 8, y, "entry", "right")
    for place in range(0, bins.number, 10):
        canvas.text(LEFT + place * step, y, f"{place * bins.width:,}", "axis")
    y += 6
    for label, counts in bins.events.items():
        y = _bin_row(canvas, (label, EVENT_STYLE[EVENTS[label]]), counts, step, y)
    y = _bin_row(canvas, ("open regions", "opened"), bins.open_regions, step, y)
    for lane, cells in bins.work.items():
        canvas.text(LEFT - 8, y + 22, lane_label(lane), "right")
        canvas.box((LEFT, y, WIDTH, 36), "rail")
        if bins.most_work:
            _work(canvas, cells, 36 / bins.most_work, step, y + 36)
        y += 40
    return y


def _bin_row(canvas: Canvas, row: Tuple[str, str], counts: Sequence[int], step: float, y: float) -> float:
    """A row of the board: its label and style, and a height for each bin."""
    label, style = row
    most = max(counts)
    canvas.text(LEFT - 8, y + 13, f"{label}, to {most:,}", "small right")
    canvas.box((LEFT, y, WIDTH, 18), "rail")
    if most:
        heights = [18 * count / most for count in counts]
        bars = [(LEFT + place * step, y + 18 - high, step - 0.5, high) for place, high in enumerate(heights) if high]
        canvas.boxes(bars, style)
    return y + 22


def _work(canvas: Canvas, cells: Sequence[Work], scale: float, step: float, base: float) -> None:
    """The instructions of one lane, stacked by part and fate; those thrown away stand on top."""
    kinds = [(part, fate) for fate in (Fate.KEPT, Fate.OPEN, Fate.THROWN) for part in Part]
    stacked: Dict[Tuple[Part, Fate], List[Box]] = {kind: [] for kind in kinds}
    for place, cell in enumerate(cells):
        y = base
        for kind in kinds:
            height = cell.get(kind, 0) * scale
            if height:
                y -= height
                stacked[kind].append((LEFT + place * step, y, step - 0.5, height))
    for part, fate in kinds:
        canvas.boxes(stacked[part, fate], STYLE[part])
        if fate in OVERLAY:
            canvas.boxes(stacked[part, fate], OVERLAY[fate])
