"""The lines of a text, read from the first to the last, and the fault of a line that is not as it has to be."""

from __future__ import annotations

import re
from dataclasses import dataclass
from typing import List, Optional

# A decimal number without leading zeros, as the program prints it, and an address.
NUMBER = "(0|[1-9][0-9]{0,19})"
ADDRESS = "([0-9a-f]{8})"

NUMBER_LIMIT = 2**64


def number_of(digits: str) -> int:
    """The number of decimal digits. Raises ValueError where it is 2^64 or more."""
    number = int(digits)
    if number >= NUMBER_LIMIT:
        raise ValueError(f"{digits} does not fit 64 bits")
    return number


@dataclass
class BadText(Exception):
    """The first line (counted from 1) that is not as it has to be, and the reason."""

    line: int
    reason: str
    text: Optional[str] = None

    def __str__(self) -> str:
        shown = "" if self.text is None else f": {self.text[:200]!r}"
        return f"line {self.line}: {self.reason}{shown}"


class Lines:
    """A text's lines with a place, which is the next line to be read."""

    def __init__(self, text: str) -> None:
        self._lines: List[str] = text.split("\n")
        if self._lines[-1] == "":
            self._lines.pop()
        self._place = 0

    @property
    def number(self) -> int:
        """The number of the next line, counted from 1."""
        return self._place + 1

    def next(self) -> Optional[str]:
        """The next line, which stays the next one; none at the end."""
        return self._lines[self._place] if self._place < len(self._lines) else None

    def advance(self) -> None:
        """The line behind the next one is the next from here on."""
        self._place += 1

    def bad(self, reason: str) -> BadText:
        """The fault that the next line has, or the end of the text."""
        return BadText(self.number, reason, self.next())

    def pass_to(self, pattern: re.Pattern[str]) -> None:
        """Passes over all before the first place in the text from where a line matches the pattern up to its end.

        A text without such a place stays as it is."""
        for place, line in enumerate(self._lines):
            found = pattern.search(line)
            if found:
                self._place = place
                self._lines[place] = line[found.start() :]
                return
