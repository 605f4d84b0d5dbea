"""The entries of a journal, one a line, as `fasttrack run --journal` prints them."""

from __future__ import annotations

import re
from dataclasses import dataclass
from typing import Callable, Dict, List, Optional, Tuple, Union

from .lines import NUMBER, Lines, number_of


@dataclass(frozen=True)
class Name:
    """A track's name: generation, region, and whether it is the region's original or the lead."""

    generation: int
    region: int
    normal: bool

    def __str__(self) -> str:
        return f"{self.generation}.{self.region}.{'n' if self.normal else 'f'}"


@dataclass(frozen=True)
class Lend:
    """A track is lent to a seat."""

    seat: int
    name: Name


@dataclass(frozen=True)
class Back:
    """A track that was lent is returned, `count` instructions further."""

    name: Name
    count: int


@dataclass(frozen=True)
class Gone:
    """A track that was lent does not come back into the run."""

    name: Name


@dataclass(frozen=True)
class Fork:
    """The lead goes on as the fast version of a new region, which has this name."""

    name: Name


@dataclass(frozen=True)
class Cross:
    """The lead is at its region's end, and goes on as the program behind it."""

    name: Name


@dataclass(frozen=True)
class Keep:
    """The oldest region is judged by this row of the ledger, and its fast version is kept."""

    row: int


@dataclass(frozen=True)
class Discard:
    """The oldest region is judged by this row; its fast version and all behind it are thrown away."""

    row: int


@dataclass(frozen=True)
class Release:
    """So many verified bytes are handed out."""

    bytes: int


@dataclass(frozen=True)
class Finish:
    """The program's end is known."""


@dataclass(frozen=True)
class Halt:
    """A seat gave the run up."""

    seat: int


Entry = Union[Lend, Back, Gone, Fork, Cross, Keep, Discard, Release, Finish, Halt]

_NAME = rf"{NUMBER}\.{NUMBER}\.([nf])"


def _name(fields: Tuple[str, ...]) -> Name:
    generation, region, kind = fields
    return Name(number_of(generation), number_of(region), kind == "n")


# For each first word the pattern of the line, and the entry of the pattern's fields.
_FORMS: Dict[str, Tuple[re.Pattern[str], Callable[[Tuple[str, ...]], Entry]]] = {
    "lend": (re.compile(f"lend {NUMBER} {_NAME}"), lambda f: Lend(number_of(f[0]), _name(f[1:]))),
    "back": (re.compile(f"back {_NAME} {NUMBER}"), lambda f: Back(_name(f[:3]), number_of(f[3]))),
    "gone": (re.compile(f"gone {_NAME}"), lambda f: Gone(_name(f))),
    "fork": (re.compile(f"fork {_NAME}"), lambda f: Fork(_name(f))),
    "cross": (re.compile(f"cross {_NAME}"), lambda f: Cross(_name(f))),
    "keep": (re.compile(f"keep {NUMBER}"), lambda f: Keep(number_of(f[0]))),
    "discard": (re.compile(f"discard {NUMBER}"), lambda f: Discard(number_of(f[0]))),
    "release": (re.compile(f"release {NUMBER}"), lambda f: Release(number_of(f[0]))),
    "finish": (re.compile("finish"), lambda f: Finish()),
    "halt": (re.compile(f"halt {NUMBER}"), lambda f: Halt(number_of(f[0]))),
}


def read_entry(line: str) -> Optional[Entry]:
    """The entry whose text is the line, none where there is none."""
    form = _FORMS.get(line.split(" ", 1)[0])
    found = form[0].fullmatch(line) if form else None
    if not form or not found:
        return None
    try:
        return form[1](found.groups())
    except ValueError:
        return None


def read_journal(lines: Lines) -> List[Entry]:
    """The entries from the next line on, up to the first line that has none."""
    entries: List[Entry] = []
    while (line := lines.next()) is not None:
        entry = read_entry(line)
        if entry is None:
            break
        entries.append(entry)
        lines.advance()
    return entries
