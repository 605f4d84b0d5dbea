"""What the pictures of a history say in words."""

from __future__ import annotations

from typing import List

from .history import Fate, History, Part
from .journal import Cross, Discard, Fork, Gone, Keep, Release

_PARTS = {Part.ORIGINAL: "originals", Part.FAST: "fast versions", Part.LEAD: "lead between regions"}


def plural(number: int, word: str) -> str:
    """The number and its word."""
    return f"{number:,} {word}" if number == 1 else f"{number:,} {word}s"


def summary(history: History) -> List[str]:
    """What both pictures say in words: how the journal ends, its events, and its instructions."""
    gone = history.number_of(Gone)
    out = sum(loan.last is None for loan in history.loans)
    lost = f", {gone:,} of them gone" if gone else ""
    lost += f", {out:,} still lent at the end" if out else ""
    crossings = plural(history.number_of(Cross), "crossing")
    parts = ", ".join(f"{_PARTS[part]} {history.instructions(part=part):,}" for part in Part)
    fates = ", ".join(f"{fate.value} {history.instructions(fate=fate):,}" for fate in Fate)
    return [
        f"Journal of {len(history.entries):,} entries, {history.ending}: "
        f"{plural(len(history.seats), 'seat')}, {plural(len(history.loans), 'loan')}{lost}",
        f"{plural(history.number_of(Fork), 'fork')}, {crossings}, {plural(history.number_of(Keep), 'keep')}, "
        f"{plural(history.number_of(Discard), 'discard')}; {plural(history.released, 'byte')} "
        f"in {plural(history.number_of(Release), 'release')}; "
        f"at most {plural(max(history.open_regions), 'open region')}",
        f"Instructions run {history.instructions():,}: {parts}",
        f"Of these {fates}",
    ]
