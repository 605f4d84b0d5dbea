"""How a history is parted for a picture: lanes, panels of single entries, and bins of many entries."""

from __future__ import annotations

from dataclasses import dataclass
from typing import Dict, List, Tuple

from .history import Fate, History, Loan, Part
from .journal import Cross, Discard, Fork, Keep, Release

# A run has at most 64 workers beside its own thread, so no journal of a run has more lanes.
MOST_LANES = 65

# A seat and its slot.
Lane = Tuple[int, int]

# Instructions by what a track ran and by what became of it.
Work = Dict[Tuple[Part, Fate], int]


def lanes_of(history: History) -> Dict[Lane, List[Loan]]:
    """The loans of each lane, in the order of seats: at most MOST_LANES of them."""
    lanes: Dict[Lane, List[Loan]] = {}
    for loan in history.loans:
        lanes.setdefault((loan.seat, loan.slot), []).append(loan)
    return {lane: lanes[lane] for lane in sorted(lanes)[:MOST_LANES]}


def lanes_left_out(history: History) -> int:
    """The number of lanes that are too many to be drawn."""
    return max(0, len({(loan.seat, loan.slot) for loan in history.loans}) - MOST_LANES)


def lane_label(lane: Lane) -> str:
    """The seat; behind it the number of the slot, from 2 on."""
    seat, slot = lane
    return f"seat {seat}" if slot == 0 else f"seat {seat}/{slot + 1}"


def panels(entries: int, width: int, even: bool = False) -> List[Tuple[int, int]]:
    """The entries from and up to which each panel goes: at most `width`, and about as many in each if `even`."""
    if even:
        width = -(-entries // -(-entries // width))
    return [(first, min(first + width, entries)) for first in range(0, entries, width)]


# What a bin counts of the board's own entries.
EVENTS: Dict[str, type] = {
    "forks": Fork,
    "crossings": Cross,
    "keeps": Keep,
    "discards": Discard,
    "releases": Release,
}


@dataclass
class Bins:
    """A history in bins of `width` entries each.

    `events` counts the entries of each kind by bin, `open_regions` is the greatest number of open regions in a bin, and
    `work` has for each lane and bin the instructions that came home there, by part and fate."""

    width: int
    number: int
    events: Dict[str, List[int]]
    open_regions: List[int]
    work: Dict[Lane, List[Work]]

    @property
    def most_work(self) -> int:
        """The greatest number of instructions that came home on one lane in one bin."""
        return max((sum(cell.values()) for cells in self.work.values() for cell in cells), default=0)


def bins_of(history: History, most: int) -> Bins:
    """The history in at most so many bins."""
    width = -(-len(history.entries) // most)
    number = -(-len(history.entries) // width)
    events = {label: [0] * number for label in EVENTS}
    labels = {kind: label for label, kind in EVENTS.items()}
    open_regions = [0] * number
    for index, entry in enumerate(history.entries):
        place = index // width
        if type(entry) in labels:
            events[labels[type(entry)]][place] += 1
        open_regions[place] = max(open_regions[place], history.open_regions[index])
    work = {lane: _work_of(loans, width, number) for lane, loans in lanes_of(history).items()}
    return Bins(width, number, events, open_regions, work)


def _work_of(loans: List[Loan], width: int, number: int) -> List[Work]:
    """What came home of these loans in each bin."""
    cells: List[Work] = [{} for _ in range(number)]
    for loan in loans:
        if loan.last is not None and loan.count:
            cell = cells[loan.last // width]
            cell[loan.part, loan.fate] = cell.get((loan.part, loan.fate), 0) + loan.count
    return cells
