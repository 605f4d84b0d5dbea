"""A model of the board that makes journals for tests: it knows how many instructions each track takes, and no program.

Its seats lend and return in an order that a seed chooses. It counts what is kept and thrown away on its own, at the
tracks, so that a replay can be held against it."""

from __future__ import annotations

import random
from dataclasses import dataclass
from typing import Dict, List, Optional

SLICE = 65536


@dataclass(frozen=True)
class Region:
    """Instructions of the lead before the region, of its original, and of its fast version; and the verdict.

    A late version does not end; a stopped one ends the program after so many instructions."""

    gap: int
    original: int
    fast: int
    verdict: str


@dataclass
class Track:
    """A track with what it ran in its present part, and in all of its parts that are not judged."""

    name: str
    length: Optional[int]
    own: int = 0
    pending: int = 0
    seat: Optional[int] = None
    dropped: bool = False

    @property
    def stopped(self) -> bool:
        return self.length is not None and self.own == self.length

    @property
    def home(self) -> bool:
        return self.seat is None

    def slice(self) -> int:
        return SLICE if self.length is None else min(SLICE, self.length - self.own)


@dataclass
class Opened:
    """An open region: its place in the program, its original, what the lead ran in it, and whether it is closed."""

    place: int
    original: Track
    fast: int = 0
    behind: int = 0
    crossed: bool = False


class Board:
    """Runs a program of regions, with a last gap behind them, on so many seats."""

    def __init__(self, regions: List[Region], last_gap: int, seats: int, tracks: int, seed: int) -> None:
        self.regions = regions + [Region(last_gap, 0, 0, "end")]
        self.seats: Dict[int, Optional[Track]] = {seat: None for seat in range(seats)}
        self.tracks = tracks
        self.random = random.Random(seed)
        self.journal: List[str] = []
        self.run = self.kept = self.thrown = 0
        self.generation = self.region_number = self.rows = self.ready = 0
        self.place = 0
        self.open: List[Opened] = []
        self.lead = Track("0.0.f", self.regions[0].gap)
        self.over = False

    def text(self) -> str:
        """Runs to the end, and answers the journal."""
        while not self.over or any(self.seats.values()):
            self._settle()
            if self.random.random() < 0.7:
                self._release()
            self._turn()
        self._release()
        return "".join(line + "\n" for line in self.journal)

    @property
    def left(self) -> int:
        """The instructions of tracks in regions that are open at the end."""
        return self.run - self.kept - self.thrown

    def _release(self) -> None:
        if self.ready:
            self.journal.append(f"release {self.ready}")
            self.ready = 0

    def _turn(self) -> None:
        """A seat with nothing takes the oldest track, or one that has a track returns it."""
        seat = self.random.choice(list(self.seats))
        track = self.seats[seat]
        if track is None:
            lendable = self._lendable()
            if lendable:
                self.journal.append(f"lend {seat} {lendable.name}")
                lendable.seat, self.seats[seat] = seat, lendable
            return
        self.seats[seat] = track.seat = None
        if track.dropped or self.over:
            self.journal.append(f"gone {track.name}")
            return
        self._count(track, track.slice())

    def _count(self, track: Track, count: int) -> None:
        self.journal.append(f"back {track.name} {count}")
        self.run += count
        track.own += count
        if track is not self.lead:
            track.pending += count
        elif not self.open:
            self.kept += count
        elif self.open[-1].crossed:
            self.open[-1].behind += count
        else:
            self.open[-1].fast += count

    def _lendable(self) -> Optional[Track]:
        if self.over:
            return None
        for region in self.open:
            if region.original.home and not region.original.stopped:
                return region.original
        lead = self.lead
        if not lead.home or lead.stopped:
            return None
        if self.open and not self.open[-1].crossed:
            original = self.open[-1].original
            if original.home and original.stopped and lead.own >= self.regions[self.open[-1].place].original:
                return None
        return lead

    def _settle(self) -> None:
        while not self.over and (self._finish() or self._cross() or self._judge() or self._fork()):
            pass

    def _finish(self) -> bool:
        ends = not self.open and self.lead.home and self.lead.stopped and self.place == len(self.regions) - 1
        if ends:
            self.journal.append("finish")
            self.over = True
        return ends

    def _cross(self) -> bool:
        region = self.open[-1] if self.open else None
        if not region or region.crossed or not self.lead.home or not self.lead.stopped:
            return False
        if self.regions[region.place].verdict == "stopped":
            return False
        region.crossed = True
        self.place = region.place + 1
        self.lead.own, self.lead.length = 0, self.regions[self.place].gap
        self.journal.append(f"cross {self.lead.name}")
        return True

    def _judge(self) -> bool:
        if not self.open or not self.open[0].original.home or not self.open[0].original.stopped:
            return False
        region, told = self.open[0], self.regions[self.open[0].place]
        inside = region is self.open[-1] and not region.crossed
        if inside and not (told.verdict == "stopped" and self.lead.stopped) and self.lead.own < told.original:
            return False
        self.open.pop(0)
        self.kept += region.original.pending
        self.ready += 5
        if told.verdict == "kept":
            self.kept += region.fast + region.behind
            self.journal.append(f"keep {self.rows}")
        else:
            self._discard(region)
        self.rows += 1
        return True

    def _discard(self, region: Opened) -> None:
        self.journal.append(f"discard {self.rows}")
        self.thrown += region.fast + region.behind
        for younger in self.open:
            self.thrown += younger.original.pending + younger.fast + younger.behind
            younger.original.dropped = True
        self.lead.dropped = True
        self.open = []
        self.generation, self.region_number = self.generation + 1, 0
        self.place = region.place + 1
        self.lead = Track(f"{self.generation}.0.f", self.regions[self.place].gap)

    def _fork(self) -> bool:
        ready = self.lead.home and self.lead.stopped and (not self.open or self.open[-1].crossed)
        if not ready or len(self.open) >= self.tracks or self.place == len(self.regions) - 1:
            return False
        region = self.regions[self.place]
        self.region_number += 1
        name = f"{self.generation}.{self.region_number}"
        self.open.append(Opened(self.place, Track(f"{name}.n", region.original)))
        self.lead.name, self.lead.own = f"{name}.f", 0
        self.lead.length = None if region.verdict == "late" else region.fast
        self.journal.append(f"fork {name}.f")
        return True


def program(regions: int, seed: int, wrong: float) -> List[Region]:
    """Regions of random lengths, of which so great a part has a wrong fast version."""
    source = random.Random(seed)
    made = []
    for _ in range(regions):
        original = source.choice([4_000, 40_000, 150_000]) + source.randrange(1_000)
        verdict = source.choice(["differs", "late", "stopped"]) if source.random() < wrong else "kept"
        made.append(Region(20 + source.randrange(60), original, original // source.choice([3, 8, 20]), verdict))
    return made
