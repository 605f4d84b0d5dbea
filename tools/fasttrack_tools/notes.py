"""All that `fasttrack` prints of itself: a report, a journal, and the line of the answer, each where there is one."""

from __future__ import annotations

import re
from dataclasses import dataclass
from typing import List, Optional

from .journal import Entry, read_journal
from .lines import ADDRESS, NUMBER, Lines
from .report import Report, begins_report, read_report

_ANSWER = re.compile("fasttrack: .*")

# What a report or a journal begins with. In a run's standard error the guest's own bytes stand before it.
_BEGINNING = re.compile(
    rf"(region 0 at {NUMBER} pc {ADDRESS} original {NUMBER} fast {NUMBER} [a-z0-9 ]+"
    rf"|regions 0 kept 0 differs 0 stopped 0 late 0 alone {NUMBER} path {NUMBER}"
    rf"|lend {NUMBER} 0\.0\.f)$"
)


@dataclass(frozen=True)
class Journal:
    """The entries of a journal, at least one, and the number of the line of the first."""

    entries: List[Entry]
    first_line: int


def _lines(text: str, after_guest: bool) -> Lines:
    lines = Lines(text)
    if after_guest:
        lines.pass_to(_BEGINNING)
    return lines


def _optional_report(lines: Lines) -> Optional[Report]:
    return read_report(lines) if begins_report(lines.next()) else None


def _end(lines: Lines) -> None:
    """Nothing but the line of an answer may stand here."""
    answer = lines.next()
    if answer is not None and _ANSWER.fullmatch(answer):
        lines.advance()
    if lines.next() is not None:
        raise lines.bad("no entry of a journal")


def report_in(text: str, after_guest: bool = False) -> Report:
    """The report in the text. Raises BadText at the first line that has no place in it.

    With `after_guest` all before the first line of a report or a journal is passed over."""
    lines = _lines(text, after_guest)
    report = _optional_report(lines)
    if report is None:
        raise lines.bad("no report begins here (fasttrack trial IMAGE prints one)")
    read_journal(lines)
    _end(lines)
    return report


def journal_in(text: str, after_guest: bool = False) -> Journal:
    """The journal in the text, behind the report where there is one. Raises BadText as `report_in` does."""
    lines = _lines(text, after_guest)
    _optional_report(lines)
    first_line = lines.number
    entries = read_journal(lines)
    if not entries:
        raise lines.bad("no journal begins here (fasttrack run IMAGE --journal prints one)")
    _end(lines)
    return Journal(entries, first_line)
