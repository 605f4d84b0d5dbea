"""The names of addresses, as `nm` tells them of an image that has its symbols."""

from __future__ import annotations

import bisect
import os
import re
import shutil
import subprocess
from dataclasses import dataclass
from typing import Dict, List, Optional

from .command import Fault

# The programs that are looked for, in this order.
PROGRAMS = ("llvm-nm", "riscv32-unknown-elf-nm", "riscv64-unknown-elf-nm", "riscv64-linux-gnu-nm", "nm")

# The guest's stack has no symbol.
STACK = range(0x7FF00000, 0x80000000)

# How far behind the last symbol an address still gets its name, where the symbol has no size.
REACH = 0x1000

_LINE = re.compile(r"([0-9a-f]+) (?:([0-9a-f]+) )?[A-Za-z?] (\S+)")


@dataclass(frozen=True)
class Symbol:
    """A name and the addresses from `first` up to `end`."""

    first: int
    end: int
    name: str


class Symbols:
    """The symbols of an image, or none."""

    def __init__(self, symbols: List[Symbol]) -> None:
        self._symbols = sorted(symbols, key=lambda symbol: symbol.first)
        self._firsts = [symbol.first for symbol in self._symbols]

    def __bool__(self) -> bool:
        return bool(self._symbols)

    def name(self, address: int) -> str:
        """The symbol that the address lies in, with the distance from its beginning; 'stack'; or nothing."""
        if address in STACK:
            return "stack"
        place = bisect.bisect_right(self._firsts, address) - 1
        if place < 0 or address >= self._symbols[place].end:
            return ""
        symbol = self._symbols[place]
        return symbol.name if address == symbol.first else f"{symbol.name}+0x{address - symbol.first:x}"


def read_symbols(text: str) -> Symbols:
    """The symbols of what `nm -n -S` prints: the first at each address, but for the marks that an assembler makes."""
    found = [match.groups() for match in map(_LINE.fullmatch, text.splitlines()) if match]
    told = [(int(first, 16), int(size or "0", 16), name) for first, size, name in found if name[0] not in "$."]
    firsts = sorted({first for first, _, _ in told})
    symbols: Dict[int, Symbol] = {}
    for first, size, name in told:
        place = bisect.bisect_right(firsts, first)
        following = firsts[place] if place < len(firsts) else first + REACH
        symbols.setdefault(first, Symbol(first, first + size if size else following, name))
    return Symbols(list(symbols.values()))


def symbols_of(image: str, program: Optional[str]) -> Symbols:
    """The symbols of the image, by this program or by the first of PROGRAMS that is there."""
    program = program or next(filter(shutil.which, PROGRAMS), None)
    if program is None:
        raise Fault(f"none of {', '.join(PROGRAMS)} is installed; name one by --nm")
    try:
        words = [program, "-n", "-S", os.path.abspath(image)]
        done = subprocess.run(words, capture_output=True, text=True, check=False)
    except OSError as error:
        raise Fault(f"{program}: {error.strerror}") from error
    if done.returncode != 0:
        raise Fault(f"{program}: {done.stderr.strip() or f'status {done.returncode}'}")
    return read_symbols(done.stdout)
