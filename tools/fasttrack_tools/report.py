"""A report: the rows of the ledger, the totals and the program's end, as `trial` and `run --report` print them."""

from __future__ import annotations

import re
from dataclasses import dataclass
from typing import List, Optional

from .lines import ADDRESS, NUMBER, Lines, number_of

ABI_NAMES = (
    "zero ra sp gp tp t0 t1 t2 s0 s1 a0 a1 a2 a3 a4 a5 a6 a7 s2 s3 s4 s5 s6 s7 s8 s9 s10 s11 t3 t4 t5 t6".split()
)

VERDICTS = ("kept", "differs", "stopped", "late")


@dataclass(frozen=True)
class Verdict:
    """One of the four words; of `differs` also what differs, and the register's number or the byte's address."""

    word: str
    what: Optional[str] = None
    where: Optional[int] = None

    @property
    def kept(self) -> bool:
        return self.word == "kept"


@dataclass(frozen=True)
class Row:
    """A region of the ledger. `at`, `original` and `fast` count instructions; `pc` is the address of the call."""

    number: int
    at: int
    pc: int
    original: int
    fast: int
    verdict: Verdict

    @property
    def saved(self) -> int:
        """The instructions by which a kept fast version is shorter; of another version 0."""
        return self.original - self.fast if self.verdict.kept else 0


@dataclass(frozen=True)
class Totals:
    """The totals line."""

    regions: int
    kept: int
    differs: int
    stopped: int
    late: int
    alone: int
    path: int


@dataclass(frozen=True)
class Report:
    """Rows in their order, totals that agree with them, and the text of the program's end."""

    rows: List[Row]
    totals: Totals
    end: str


_VERDICT = rf"(kept|stopped|late|differs (?:pc|place|break|register (?:[1-9]|[12][0-9]|3[01])|byte {ADDRESS}))"
_ROW = re.compile(f"region {NUMBER} at {NUMBER} pc {ADDRESS} original {NUMBER} fast {NUMBER} {_VERDICT}")
_TOTALS = re.compile(
    f"regions {NUMBER} kept {NUMBER} differs {NUMBER} stopped {NUMBER} late {NUMBER} alone {NUMBER} path {NUMBER}"
)
_TRAP = "misaligned|fetch|illegal|breakpoint|load|store"
_END = re.compile(f"end (?:exit {NUMBER}|trap (?:{_TRAP}) at {ADDRESS}|spent)")


def _verdict(text: str) -> Verdict:
    words = text.split(" ")
    what = words[1] if len(words) > 1 else None
    where = int(words[2], 16 if what == "byte" else 10) if len(words) > 2 else None
    return Verdict(words[0], what, where)


def read_row(line: str) -> Optional[Row]:
    """The row whose text is the line, none where there is none."""
    found = _ROW.fullmatch(line)
    if not found:
        return None
    number, at, pc, original, fast, verdict = found.groups()[:6]
    try:
        return Row(
            number_of(number), number_of(at), int(pc, 16), number_of(original), number_of(fast), _verdict(verdict)
        )
    except ValueError:
        return None


def _read_rows(lines: Lines) -> List[Row]:
    rows: List[Row] = []
    while (line := lines.next()) is not None:
        row = read_row(line)
        if row is None:
            break
        if row.number != len(rows):
            raise lines.bad(f"row {len(rows)} is expected here")
        if row.fast > row.original:
            raise lines.bad("a fast version has at most as many instructions as its original")
        rows.append(row)
        lines.advance()
    return rows


def _totals_of(rows: List[Row], alone: int) -> Totals:
    """The totals that the rows have, where the program alone takes so many instructions."""
    kept, differs, stopped, late = (sum(row.verdict.word == word for row in rows) for word in VERDICTS)
    return Totals(len(rows), kept, differs, stopped, late, alone, alone - sum(row.saved for row in rows))


def _read_totals(lines: Lines, rows: List[Row]) -> Totals:
    found = _TOTALS.fullmatch(lines.next() or "")
    if not found:
        raise lines.bad("no row and no totals of a report")
    told = Totals(*(int(digits) for digits in found.groups()))
    counted = _totals_of(rows, told.alone)
    for field, value in vars(told).items():
        if value != vars(counted)[field]:
            raise lines.bad(f"the rows give {field} {vars(counted)[field]}, and not {field} {value}")
    lines.advance()
    return told


def read_report(lines: Lines) -> Report:
    """The report that begins at the next line. Raises BadText at the first line that is none of it."""
    rows = _read_rows(lines)
    totals = _read_totals(lines, rows)
    end = lines.next()
    if end is None or not _END.fullmatch(end):
        raise lines.bad("no end of a report")
    lines.advance()
    return Report(rows, totals, end)


def begins_report(line: Optional[str]) -> bool:
    """Whether a report begins at this line."""
    return line is not None and line.split(" ", 1)[0] in ("region", "regions")
