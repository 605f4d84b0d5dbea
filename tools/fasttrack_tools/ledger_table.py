"""The rows of a report, summed by the address of the call that opens the region."""

from __future__ import annotations

from dataclasses import dataclass, field
from typing import Dict, List, Optional, Sequence

from .report import ABI_NAMES, VERDICTS, Report, Row, Verdict
from .summary import plural
from .symbols import Symbols

# Of so many different verdicts of one place each has a line.
MOST_VERDICTS = 10


@dataclass
class Place:
    """The rows of one pc, in their order."""

    pc: int
    rows: List[Row] = field(default_factory=list)

    def number_of(self, word: str) -> int:
        """The number of rows with this verdict."""
        return sum(row.verdict.word == word for row in self.rows)

    @property
    def original(self) -> int:
        """The instructions of the originals."""
        return sum(row.original for row in self.rows)

    @property
    def saved(self) -> int:
        """The instructions that kept fast versions save."""
        return sum(row.saved for row in self.rows)

    @property
    def first_bad(self) -> Optional[Row]:
        """The first row whose fast version is not kept."""
        return next((row for row in self.rows if not row.verdict.kept), None)

    def bad(self) -> Dict[Verdict, List[Row]]:
        """The rows of each verdict but kept, in the order in which the verdicts come first."""
        rows: Dict[Verdict, List[Row]] = {}
        for row in self.rows:
            if not row.verdict.kept:
                rows.setdefault(row.verdict, []).append(row)
        return rows


def places_of(rows: Sequence[Row]) -> List[Place]:
    """The places of these rows, by their addresses."""
    places: Dict[int, Place] = {}
    for row in rows:
        places.setdefault(row.pc, Place(row.pc)).rows.append(row)
    return [places[pc] for pc in sorted(places)]


def verdict_text(verdict: Verdict, symbols: Symbols) -> str:
    """The verdict, with the ABI name of a register, and with the symbol of a byte."""
    if verdict.where is None:
        return verdict.word if verdict.what is None else f"{verdict.word} {verdict.what}"
    if verdict.what == "register":
        return f"differs {ABI_NAMES[verdict.where]} (x{verdict.where})"
    name = symbols.name(verdict.where)
    return f"differs byte {verdict.where:08x}" + (f" ({name})" if name else "")


def ledger_table(report: Report, symbols: Symbols) -> str:
    """The table, what was not kept, and the totals, with a line feed behind each line."""
    places = places_of(report.rows)
    lines: List[str] = []
    if places:
        lines += _table(places, symbols) + [""]
    if any(place.first_bad for place in places):
        lines += ["Not kept:", *_bad_lines(places, symbols), ""]
    lines += _totals(report, len(places))
    return "".join(line.rstrip() + "\n" for line in lines)


def _aligned(rows: Sequence[Sequence[str]], left: Sequence[bool]) -> List[str]:
    """Rows in columns as wide as they have to be, the ones to the left, the others to the right."""
    widths = [max(len(row[column]) for row in rows) for column in range(len(left))]
    return [
        "  ".join(
            f"{text:<{width}}" if to_left else f"{text:>{width}}" for text, width, to_left in zip(row, widths, left)
        )
        for row in rows
    ]


def _table(places: Sequence[Place], symbols: Symbols) -> List[str]:
    """A line for each place."""
    named = bool(symbols)
    heads = ["pc", *(["symbol"] if named else []), "entered", *VERDICTS, "original", "saved", "first bad row"]
    rows = [heads]
    for place in places:
        bad = place.first_bad
        numbers = [len(place.rows), *map(place.number_of, VERDICTS), place.original, place.saved]
        rows.append(
            [
                f"{place.pc:08x}",
                *([symbols.name(place.pc)] if named else []),
                *(f"{number:,}" for number in numbers),
                f"{bad.number}: {verdict_text(bad.verdict, symbols)}" if bad else "",
            ]
        )
    return _aligned(rows, [True, *([True] if named else []), *([False] * 7), True])


def _bad_lines(places: Sequence[Place], symbols: Symbols) -> List[str]:
    """A line for each place and each verdict that is not kept, with the numbers of its first rows."""
    rows: List[List[str]] = []
    for place in places:
        verdicts = list(place.bad().items())
        for verdict, bad in verdicts[:MOST_VERDICTS]:
            rows.append([f"{place.pc:08x}", verdict_text(verdict, symbols), f"{len(bad):,}", _numbers(bad)])
        if len(verdicts) > MOST_VERDICTS:
            rows.append([f"{place.pc:08x}", f"and {len(verdicts) - MOST_VERDICTS:,} verdicts more", "", ""])
    return _aligned(rows, [True, True, False, True])


def _numbers(rows: Sequence[Row]) -> str:
    """The numbers of the first rows."""
    shown = ", ".join(str(row.number) for row in rows[:5])
    return f"row{'s' if len(rows) > 1 else ''} {shown}{', ..' if len(rows) > 5 else ''}"


def _totals(report: Report, places: int) -> List[str]:
    """The totals, which agree with the rows, and the program's end."""
    told = report.totals
    saved = told.alone - told.path
    factor = f", alone / path {told.alone / told.path:.2f}" if told.path else ""
    words = ", ".join(f"{word} {vars(told)[word]:,}" for word in VERDICTS)
    return [
        f"{plural(told.regions, 'region')} at {plural(places, 'place')}: {words}",
        f"alone {told.alone:,}, path {told.path:,}, saved {saved:,}{factor}",
        report.end,
    ]
