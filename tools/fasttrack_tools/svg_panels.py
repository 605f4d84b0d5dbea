"""A history in single entries: a bar for each loan, and a sign for each event of the board."""

from __future__ import annotations

from dataclasses import dataclass
from typing import Dict, List, Tuple

from .canvas import Box, Canvas
from .history import History, Loan
from .journal import Cross, Discard, Entry, Finish, Fork, Halt, Keep, Release
from .layout import Lane, lane_label, lanes_of, panels
from .svg_style import EVENT_STYLE, LEFT, LETTER_WIDTH, OVERLAY, STYLE, WIDTH, mark

# Up to so many entries stand in panels of 40 with labels, and up to so many in panels of 240.
MOST_WIDE = 240
MOST_NARROW = 1200
WIDE_PANEL = 40
NARROW_PANEL = 240

SAY = (
    "Each entry has one place: a journal has no times. A bar goes from the entry that lends a track to the one that "
    "returns it, with its name and instructions{where}. At a dashed line tracks end."
)

# From so many pixels an entry on, bars and events have labels.
LABELLED = 25.0


@dataclass(frozen=True)
class _Panel:
    """The entries from `first` up to `end`, each `step` pixels wide, with the upper edge at `y`."""

    first: int
    end: int
    step: float
    y: float

    @property
    def labelled(self) -> bool:
        return self.step >= LABELLED

    @property
    def lane_height(self) -> float:
        return 32.0 if self.labelled else 16.0

    def x(self, index: int) -> float:
        """The left edge of an entry."""
        return LEFT + (index - self.first) * self.step


def draw_panels(canvas: Canvas, history: History, y: float) -> float:
    """Single entries in panels, one below the other."""
    entries = len(history.entries)
    parts = panels(entries, WIDE_PANEL if entries <= MOST_WIDE else NARROW_PANEL, even=True)
    step = min(60.0, WIDTH / parts[0][1])
    lanes = lanes_of(history)
    y = _legend(canvas, y)
    canvas.text(LEFT, y + 4, SAY.format(where="" if step >= LABELLED else " (under the pointer)"))
    y += 22
    for first, end in parts:
        panel = _Panel(first, end, step, y)
        y = _panel(canvas, history, lanes, panel) + 16
    return y


def _panel(canvas: Canvas, history: History, lanes: Dict[Lane, List[Loan]], panel: _Panel) -> float:
    """One panel; answers its lower edge."""
    right = panel.x(panel.end)
    y = panel.y + 14
    _axis(canvas, panel, panel.y + 8)
    board = y
    canvas.text(LEFT - 8, y + 13, "board", "right")
    canvas.box((LEFT, y, right - LEFT, 28 if panel.labelled else 16), "rail")
    y += 32 if panel.labelled else 20
    y = _open_regions(canvas, history, panel, y)
    lanes_top = y
    for lane, loans in lanes.items():
        canvas.text(LEFT - 8, y + panel.lane_height / 2 + 4, lane_label(lane), "right")
        canvas.box((LEFT, y, right - LEFT, panel.lane_height), "rail")
        for loan in loans:
            _bar(canvas, loan, panel, y)
        y += panel.lane_height + 4
    for index in range(panel.first, panel.end):
        _event(canvas, history.entries[index], panel, index, board, (lanes_top, y - 4))
    return y


def _axis(canvas: Canvas, panel: _Panel, y: float) -> None:
    """The numbers of entries."""
    canvas.text(LEFT - 8, y, "entry", "right")
    every = 5 if panel.labelled else 20
    for index in range(panel.first, panel.end):
        if index % every == 0:
            canvas.text(panel.x(index) + panel.step / 2, y, str(index), "axis")


def _open_regions(canvas: Canvas, history: History, panel: _Panel, y: float) -> float:
    """A strip as high as there are open regions."""
    most = max(history.open_regions)
    if most == 0:
        return y
    height = 12.0
    canvas.text(LEFT - 8, y + 10, f"open regions, to {most}", "small right")
    start = panel.first
    for index in range(panel.first, panel.end + 1):
        if index == panel.end or history.open_regions[index] != history.open_regions[start]:
            part = height * history.open_regions[start] / most
            if part:
                canvas.box((panel.x(start), y + height - part, panel.x(index) - panel.x(start), part), "opened")
            start = index
    return y + height + 6


def _bar(canvas: Canvas, loan: Loan, panel: _Panel, y: float) -> None:
    """A loan, as far as it lies in the panel."""
    last = loan.last if loan.last is not None else panel.end
    if loan.first >= panel.end or last < panel.first:
        return
    x = panel.x(max(loan.first, panel.first)) + 0.5
    width = panel.x(min(last + 1, panel.end)) - x - 0.5
    box: Box = (x, y + 1, width, panel.lane_height - 2)
    count = f"{loan.count:,}" if loan.count is not None else "still lent" if loan.last is None else "gone"
    place = f"{loan.first} to {'the end' if loan.last is None else loan.last}"
    seat = lane_label((loan.seat, loan.slot))
    title = f"{loan.name} on {seat}, {loan.part.value}, entries {place}: {count}, {loan.fate.value}"
    canvas.box(box, STYLE[loan.part] if loan.count is not None else "gone", title)
    if loan.fate in OVERLAY and loan.count is not None:
        canvas.box(box, OVERLAY[loan.fate])
    if panel.labelled:
        _bar_label(canvas, str(loan.name), count, box)


def _bar_label(canvas: Canvas, name: str, count: str, box: Box) -> None:
    """Name and count in two lines, each where it has room."""
    x, y, width, _ = box
    for words, base in ((name, y + 12), (count, y + 25)):
        if LETTER_WIDTH * len(words) <= width:
            canvas.text(x + width / 2, base, words, "name")


def _event(canvas: Canvas, entry: Entry, panel: _Panel, index: int, board: float, lanes: Tuple[float, float]) -> None:
    """The sign of an event of the board and its label. Where it ends tracks, a line as well, from the upper edge of the
    lanes to their lower one."""
    if type(entry) not in EVENT_STYLE:
        return
    x = panel.x(index) + panel.step / 2
    if isinstance(entry, (Discard, Halt)):
        canvas.line(x, lanes[0] if panel.labelled else board + 8, x, lanes[1], "cut")
    mark(canvas, type(entry), x, board + 8)
    label = _event_label(entry)
    if panel.labelled and LETTER_WIDTH * len(label) <= panel.step + 4:
        canvas.text(x, board + 25, label, "tick")


def _event_label(entry: Entry) -> str:
    """The region, the row, the bytes or the seat of an event."""
    if isinstance(entry, Fork):
        return f"{entry.name.generation}.{entry.name.region}"
    if isinstance(entry, (Keep, Discard)):
        return str(entry.row)
    if isinstance(entry, Release):
        return str(entry.bytes)
    if isinstance(entry, Halt):
        return f"seat {entry.seat}"
    return ""


def _legend(canvas: Canvas, y: float) -> float:
    """What the signs of the board's events mean; answers where the next thing may stand."""
    x = LEFT
    for kind, words in (
        (Fork, "fork REGION"),
        (Cross, "cross"),
        (Keep, "keep ROW"),
        (Discard, "discard ROW"),
        (Release, "release BYTES"),
        (Finish, "finish"),
        (Halt, "halt"),
    ):
        mark(canvas, kind, x + 8, y)
        canvas.text(x + 20, y + 4, words)
        x += 38 + LETTER_WIDTH * len(words)
    return y + 20
