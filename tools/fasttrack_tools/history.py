"""The replay of a journal: which track was on which seat from when to when, and what became of its instructions.

A journal has no times. The place of a thing is the index of its entry, from 0 on."""

from __future__ import annotations

import heapq
from collections import OrderedDict
from dataclasses import dataclass, field
from enum import Enum
from typing import Dict, List, Optional, Tuple

from .journal import Back, Cross, Discard, Entry, Finish, Fork, Gone, Halt, Keep, Lend, Name, Release


class Part(Enum):
    """What a track ran while it was lent."""

    ORIGINAL = "original"
    FAST = "fast version"
    LEAD = "lead between regions"


class Fate(Enum):
    """What became of it."""

    KEPT = "kept"
    THROWN = "thrown away"
    OPEN = "not judged"


@dataclass
class Loan:
    """A track on a seat, from the entry that lent it to the one that returned it or said that it is gone.

    `last` is none where the journal ends before. `count` is the number of instructions, none where the track did not
    come back: a journal does not tell it. A seat with several tracks at once has them on different slots."""

    seat: int
    slot: int
    name: Name
    part: Part
    first: int
    last: Optional[int] = None
    count: Optional[int] = None
    fate: Fate = Fate.OPEN


@dataclass
class _Region:
    """An open region: the loans of its original, of its fast version, and of the lead behind it."""

    original: List[Loan] = field(default_factory=list)
    fast: List[Loan] = field(default_factory=list)
    behind: List[Loan] = field(default_factory=list)
    crossed: bool = False


@dataclass
class History:
    """A replayed journal. `open_regions` has the number of open regions behind each entry; `ending` is in words."""

    entries: List[Entry]
    loans: List[Loan]
    open_regions: List[int]
    ending: str

    @property
    def seats(self) -> List[int]:
        """The numbers of the seats that were lent a track."""
        return sorted({loan.seat for loan in self.loans})

    def instructions(self, part: Optional[Part] = None, fate: Optional[Fate] = None) -> int:
        """The instructions of the tracks that came back: of all, or of this part and this fate."""
        return sum(
            loan.count or 0
            for loan in self.loans
            if part in (None, loan.part) and fate in (None, loan.fate)
        )

    def number_of(self, kind: type) -> int:
        """The number of entries of this kind."""
        return sum(isinstance(entry, kind) for entry in self.entries)

    @property
    def released(self) -> int:
        """The bytes that were handed out."""
        return sum(entry.bytes for entry in self.entries if isinstance(entry, Release))


class Impossible(Exception):
    """An entry that no run can have at its place, with the reason."""

    def __init__(self, index: int, reason: str) -> None:
        super().__init__(reason)
        self.index = index


class _Slots:
    """The slots of one seat: the lowest free one is taken first."""

    def __init__(self) -> None:
        self._free: List[int] = []
        self._made = 0

    def take(self) -> int:
        if self._free:
            return heapq.heappop(self._free)
        self._made += 1
        return self._made - 1

    def put_back(self, slot: int) -> None:
        heapq.heappush(self._free, slot)


class _Replay:
    """What the entries so far lead to, as far as a picture needs it. It is no check of a journal."""

    def __init__(self) -> None:
        self.loans: List[Loan] = []
        self.out: Dict[Name, Loan] = {}
        self.slots: Dict[int, _Slots] = {}
        self.lead = Name(0, 0, False)
        self.last_region = 0
        self.rows = 0
        self.regions: OrderedDict[int, _Region] = OrderedDict()
        self.index = 0
        self.ending = ""

    @property
    def youngest(self) -> Optional[_Region]:
        """The open region that was forked last."""
        return next(reversed(self.regions.values()), None)

    def step(self, index: int, entry: Entry) -> None:
        """Takes one entry. Raises Impossible where none of its kind can stand here."""
        self.index = index
        if isinstance(entry, Lend):
            self._lend(entry)
        elif isinstance(entry, Back):
            self._back(entry)
        elif isinstance(entry, Gone):
            self._gone(entry.name)
        elif isinstance(entry, Fork):
            self._fork(entry.name)
        elif isinstance(entry, Cross):
            self._cross(entry.name)
        elif isinstance(entry, Keep):
            self._keep(entry.row)
        elif isinstance(entry, Discard):
            self._discard(entry.row)
        elif isinstance(entry, Finish):
            self._end("finished")
        elif isinstance(entry, Halt):
            self._end(f"given up by seat {entry.seat}")

    def _end(self, words: str) -> None:
        """The first thing that ends a run is its end."""
        self.ending = self.ending or words

    def _require(self, holds: bool, reason: str) -> None:
        if not holds:
            raise Impossible(self.index, reason)

    def _lend(self, entry: Lend) -> None:
        self._require(entry.name not in self.out, f"{entry.name} is lent already")
        part, fate, group = self._place_of(entry.name)
        slot = self.slots.setdefault(entry.seat, _Slots()).take()
        loan = Loan(entry.seat, slot, entry.name, part, self.index, fate=fate)
        self.out[entry.name] = loan
        self.loans.append(loan)
        group.append(loan)

    def _place_of(self, name: Name) -> Tuple[Part, Fate, List[Loan]]:
        """What the track of this name runs now, what is known of its fate, and where its loans are kept."""
        region = self.regions.get(name.region)
        if name.normal and region and name.generation == self.lead.generation:
            return Part.ORIGINAL, Fate.OPEN, region.original
        self._require(name == self.lead, f"there is no track {name}")
        youngest = self.youngest
        if not youngest:
            return Part.LEAD, Fate.KEPT, []
        if youngest.crossed:
            return Part.LEAD, Fate.OPEN, youngest.behind
        return Part.FAST, Fate.OPEN, youngest.fast

    def _home(self, name: Name) -> Loan:
        self._require(name in self.out, f"{name} is not lent")
        loan = self.out.pop(name)
        self.slots[loan.seat].put_back(loan.slot)
        loan.last = self.index
        return loan

    def _back(self, entry: Back) -> None:
        loan = self._home(entry.name)
        self._require(loan.fate is not Fate.THROWN, f"{entry.name} was thrown away, so it can only be gone")
        loan.count = entry.count

    def _gone(self, name: Name) -> None:
        loan = self._home(name)
        if loan.fate is not Fate.THROWN:
            self._end(f"given up as {name} is gone")

    def _fork(self, name: Name) -> None:
        self.last_region += 1
        awaited = Name(self.lead.generation, self.last_region, False)
        self._require(name == awaited, f"the next region is {awaited}")
        self._require(not self.youngest or self.youngest.crossed, "the lead is inside a region")
        self._require(self.lead not in self.out, f"{self.lead} is lent")
        self.regions[name.region] = _Region()
        self.lead = name

    def _cross(self, name: Name) -> None:
        self._require(name == self.lead, f"the lead is {self.lead}")
        self._require(name not in self.out, f"{name} is lent")
        youngest = self.youngest
        if not youngest or youngest.crossed:
            raise Impossible(self.index, "the lead is inside no region")
        youngest.crossed = True

    def _judged(self, row: int) -> _Region:
        """The oldest region, which is judged by the next row and is open no longer."""
        self._require(row == self.rows, f"the next row is {self.rows}")
        self._require(bool(self.regions), "no region is open")
        self.rows += 1
        _, region = self.regions.popitem(last=False)
        _mark(region.original, Fate.KEPT)
        return region

    def _keep(self, row: int) -> None:
        region = self._judged(row)
        self._require(region.crossed, "the lead is inside this region")
        _mark(region.fast + region.behind, Fate.KEPT)

    def _discard(self, row: int) -> None:
        region = self._judged(row)
        _mark(region.fast + region.behind, Fate.THROWN)
        for younger in self.regions.values():
            _mark(younger.original + younger.fast + younger.behind, Fate.THROWN)
        self.regions.clear()
        self.last_region = 0
        self.lead = Name(self.lead.generation + 1, 0, False)


def _mark(loans: List[Loan], fate: Fate) -> None:
    for loan in loans:
        loan.fate = fate


def replay(entries: List[Entry]) -> History:
    """The history of these entries. Raises Impossible at the first entry that cannot stand at its place."""
    state = _Replay()
    open_regions: List[int] = []
    for index, entry in enumerate(entries):
        state.step(index, entry)
        open_regions.append(len(state.regions))
    return History(entries, state.loans, open_regions, state.ending or "without an end")
