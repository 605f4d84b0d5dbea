"""The picture of a run as text of 100 columns."""

from __future__ import annotations

from typing import List, Sequence

from .history import Fate, History, Loan, Part
from .journal import Cross, Discard, Entry, Finish, Fork, Halt, Keep, Release
from .layout import Lane, Work, bins_of, lane_label, lanes_left_out, lanes_of, panels
from .summary import summary

MARGIN = 12
COLUMNS = 88

# Up to so many entries each has a cell of 8 columns, and up to so many one column.
MOST_WIDE = 11 * 11
MOST_NARROW = 10 * COLUMNS
WIDE = 8

FILL = {Fate.KEPT: "=", Fate.THROWN: "x", Fate.OPEN: "?"}
LETTER = {Part.ORIGINAL: "n", Part.FAST: "f", Part.LEAD: "l"}
EVENT_LETTER = {Fork: "F", Cross: "C", Keep: "K", Discard: "D", Release: "R", Finish: "E", Halt: "H"}

WIDE_LEGEND = """\
The columns are the entries in their order: a journal has no times. A bar goes from lend to return, and has the track's
name and its instructions; it is filled with = where they were kept, x thrown away, ? not judged, and . where the track
did not come back. A discard throws away the region's fast version and all tracks that go on from it."""

NARROW_LEGEND = """\
A column is an entry: a journal has no times. Board: F fork, C crossing, K keep, D discard, R release, E finish, H halt.
A bar goes from lend to return: n an original, f a fast version, l the lead between regions; then = where its
instructions were kept, x thrown away, ? not judged, and . where the track did not come back."""


def lanes_text(history: History) -> str:
    """The picture, with a line feed behind each line."""
    entries = len(history.entries)
    lines = [line for told in summary(history) for line in _wrapped(told)] + [""]
    if entries <= MOST_NARROW:
        cell = WIDE if entries <= MOST_WIDE else 1
        for first, end in panels(entries, COLUMNS // cell):
            lines += _panel(history, first, end, cell) + [""]
        lines += _wrapped(WIDE_LEGEND if cell == WIDE else NARROW_LEGEND)
    else:
        lines += _binned(history)
    lines += [""] + _seats(history)
    return "".join(line.rstrip() + "\n" for line in lines)


def _wrapped(text: str) -> List[str]:
    """The words of a text in lines of at most 100 columns."""
    lines = [""]
    for word in text.split():
        if len(lines[-1]) + 1 + len(word) > MARGIN + COLUMNS:
            lines.append("")
        lines[-1] = f"{lines[-1]} {word}".lstrip()
    return lines


def _labelled(label: str, cells: str) -> str:
    return f"{label[: MARGIN - 1]:<{MARGIN}}{cells}"


def _panel(history: History, first: int, end: int, cell: int) -> List[str]:
    """The lines of the entries from `first` up to `end`."""
    entries = history.entries[first:end]
    opened = history.open_regions[first:end]
    lines = [_labelled("entry", _axis(first, end, cell))]
    if cell == WIDE:
        lines.append(_labelled("board", _event_words(entries)))
        lines.append(_labelled("open", "".join(f"{number:<{cell}}" for number in opened)))
    else:
        lines.append(_labelled("board", "".join(EVENT_LETTER.get(type(entry), " ") for entry in entries)))
        lines.append(_labelled("open", "".join(_digit(number) for number in opened)))
    for lane, loans in lanes_of(history).items():
        lines.append(_labelled(lane_label(lane), _bars(loans, first, end, cell)))
    return lines + _left_out(history)


def _left_out(history: History) -> List[str]:
    more = lanes_left_out(history)
    return [f"{more:,} lanes more are not drawn"] if more else []


def _digit(number: int) -> str:
    """A number up to 35 as one digit or letter; + for more."""
    return "0123456789abcdefghijklmnopqrstuvwxyz"[number] if number < 36 else "+"


def _axis(first: int, end: int, cell: int) -> str:
    step = 1 if cell == WIDE else 10
    axis = [" "] * ((end - first) * cell)
    for index in range(first, end):
        if index % step == 0:
            place = (index - first) * cell
            text = str(index)
            if place + len(text) <= len(axis):
                axis[place : place + len(text)] = text
    return "".join(axis)


def _event_text(entry: Entry) -> str:
    """The board's own part of an entry's text: the word, and a row or a number of bytes behind it."""
    if isinstance(entry, (Keep, Discard)):
        return f"{'keep' if isinstance(entry, Keep) else 'discard'} {entry.row}"
    if isinstance(entry, Release):
        return f"release {entry.bytes}"
    return {Fork: "fork", Cross: "cross", Finish: "finish", Halt: "halt"}.get(type(entry), "")


def _event_words(entries: Sequence[Entry]) -> str:
    """The texts of the board's own entries, a cell each. One that is too long goes on into the next cell where that is
    empty, and else is its word alone."""
    line = ""
    texts = [_event_text(entry) for entry in entries]
    for place, text in enumerate(texts):
        if text:
            room = WIDE if any(texts[place + 1 : place + 2]) else 2 * WIDE
            line = f"{line:<{place * WIDE}}" + (text if len(text) < room else text.split(" ")[0])
    return line[:COLUMNS]


def _bars(loans: Sequence[Loan], first: int, end: int, cell: int) -> str:
    """The bars of a lane, as far as they lie within these entries."""
    cells = [" "] * ((end - first) * cell)
    for loan in loans:
        last = loan.last if loan.last is not None else end
        if loan.first < end and last >= first:
            begin = max(loan.first - first, 0) * cell
            stop = min(last + 1 - first, end - first) * cell
            cells[begin:stop] = _bar(loan, stop - begin, loan.first >= first, last < end, cell)
    return "".join(cells)


def _bar(loan: Loan, width: int, begins: bool, ends: bool, cell: int) -> str:
    """A bar of this width, which begins or ends here or at another panel's."""
    fill = FILL[loan.fate] if loan.count is not None else "."
    if cell != WIDE:
        return (LETTER[loan.part] if begins else fill) + fill * (width - 1)
    left, right = ("[" if begins else fill), ("]" if ends else fill)
    inner = width - 2
    name, count = str(loan.name), "" if loan.count is None else str(loan.count)
    texts = (f"{name} {count}".rstrip(), name if begins else count)
    label = next((text for text in texts if len(text) <= inner), "")
    return left + label + fill * (inner - len(label)) + right


def _binned(history: History) -> List[str]:
    """The lines of a long journal, a column for each bin."""
    bins = bins_of(history, COLUMNS)
    lines = [_labelled("entry", _bin_axis(bins.number, bins.width))]
    for label, counts in bins.events.items():
        lines.append(_labelled(label, _ninths(counts)))
    lines.append(_labelled("open", "".join(_digit(number) for number in bins.open_regions)))
    for lane, cells in bins.work.items():
        lines.append(_labelled(lane_label(lane), "".join(work_cell(cell, bins.most_work) for cell in cells)))
    legend = (
        f"A column is {bins.width:,} entries: a journal has no times. On the seats 1 to 9 are ninths of "
        f"{bins.most_work:,} instructions that came home, and a to i the same where more than half of them was thrown "
        "away. On the board's lines 1 to 9 are ninths of the line's greatest number: "
        + ", ".join(f"{label} {max(counts):,}" for label, counts in bins.events.items())
        + ". 'open' is the greatest number of open regions, a letter from 10 on."
    )
    return lines + _left_out(history) + [""] + _wrapped(legend)


def _bin_axis(number: int, width: int) -> str:
    axis = [" "] * number
    for place in range(0, number, 20):
        text = str(place * width)
        if place + len(text) <= number:
            axis[place : place + len(text)] = text
    return "".join(axis)


def _level(value: int, most: int) -> int:
    """The ninths of the greatest value, rounded up; 0 for 0 alone."""
    return -(-9 * value // most) if most else 0


def _ninths(values: Sequence[int]) -> str:
    most = max(values)
    return "".join(str(_level(value, most)) if value else "." for value in values)


def work_cell(cell: Work, most: int) -> str:
    """What came home in a bin, in ninths of the greatest cell: a digit, or a letter where most was thrown away."""
    total = sum(cell.values())
    if total == 0:
        return "."
    thrown = sum(count for (_, fate), count in cell.items() if fate is Fate.THROWN)
    return (" abcdefghi" if 2 * thrown > total else " 123456789")[_level(total, most)]


def _seats(history: History) -> List[str]:
    """A table of the lanes: loans and instructions."""
    lines = [f"{'':<12}{'loans':>10}{'gone':>10}{'instructions':>17}{'kept':>17}{'thrown away':>17}{'not judged':>17}"]
    for lane, loans in lanes_of(history).items():
        lines.append(_seat_row(lane, loans))
    return lines + _left_out(history)


def _seat_row(lane: Lane, loans: Sequence[Loan]) -> str:
    by_fate = {fate: sum(loan.count or 0 for loan in loans if loan.fate is fate) for fate in Fate}
    gone = sum(loan.last is not None and loan.count is None for loan in loans)
    numbers = "".join(f"{by_fate[fate]:>17,}" for fate in (Fate.KEPT, Fate.THROWN, Fate.OPEN))
    return f"{lane_label(lane):<12}{len(loans):>10,}{gone:>10,}{sum(by_fate.values()):>17,}{numbers}"
