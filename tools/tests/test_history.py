"""The replay of journals: what became of each track's instructions, and which entries cannot stand where they do."""

import unittest
from typing import List, Tuple

from board_model import Board, program

from fasttrack_tools.history import Fate, History, Impossible, Part, replay
from fasttrack_tools.lanes_text import work_cell
from fasttrack_tools.layout import MOST_LANES, Work, bins_of, lanes_left_out, lanes_of
from fasttrack_tools.notes import journal_in

OPENED = "lend 0 0.0.f, back 0.0.f 1, fork 0.1.f, lend 1 0.1.n, back 0.1.n 36, lend 2 0.1.f, back 0.1.f 5, cross 0.1.f"

# A journal, and its instructions: kept, thrown away, not judged.
FATES = [
    ("lend 0 0.0.f, back 0.0.f 7, finish", 7, 0, 0),
    (OPENED, 1, 0, 41),
    # What the lead ran behind the region goes with its fast version.
    (f"{OPENED}, lend 0 0.1.f, back 0.1.f 3, keep 0, finish", 45, 0, 0),
    (f"{OPENED}, lend 0 0.1.f, back 0.1.f 3, discard 0, lend 0 1.0.f, back 1.0.f 4, finish", 41, 8, 0),
    # The same where the lead is out while the region is judged.
    (f"{OPENED}, lend 0 0.1.f, keep 0, back 0.1.f 3", 45, 0, 0),
    (f"{OPENED}, lend 0 0.1.f, discard 0, gone 0.1.f", 37, 5, 0),
    # A discard takes the younger regions, their originals too.
    (f"{OPENED}, fork 0.2.f, lend 1 0.2.n, back 0.2.n 20, discard 0", 37, 25, 0),
    # A keep takes no younger region.
    (f"{OPENED}, fork 0.2.f, lend 1 0.2.n, back 0.2.n 20, keep 0", 42, 0, 20),
    (f"{OPENED}, fork 0.2.f, keep 0, lend 1 0.2.n, back 0.2.n 20, lend 1 0.2.f, back 0.2.f 6, discard 1", 62, 6, 0),
]

# A journal whose last entry cannot stand there.
IMPOSSIBLE = [
    "back 0.0.f 1",
    "gone 0.0.f",
    "lend 0 0.1.f",
    "lend 0 0.0.n",
    "lend 0 0.0.f, lend 1 0.0.f",
    "lend 0 0.0.f, fork 0.1.f",
    "fork 0.2.f",
    "fork 0.1.f, fork 0.2.f",
    "cross 0.0.f",
    "keep 0",
    "discard 0",
    f"{OPENED}, keep 1",
    f"{OPENED}, cross 0.1.f",
    "fork 0.1.f, keep 0",
    f"{OPENED}, discard 0, fork 0.2.f",
    f"{OPENED}, discard 0, lend 0 0.1.f",
    f"{OPENED}, lend 0 0.1.f, discard 0, back 0.1.f 3",
]

ENDINGS = [
    ("lend 0 0.0.f, back 0.0.f 7, finish", "finished"),
    ("lend 0 0.0.f, halt 3, gone 0.0.f", "given up by seat 3"),
    ("lend 0 0.0.f, gone 0.0.f", "given up as 0.0.f is gone"),
    (f"{OPENED}, lend 0 0.1.f, discard 0, gone 0.1.f", "without an end"),
]


def history_of(entries: str) -> History:
    """The replay of entries that are parted by commas."""
    return replay(journal_in(entries.replace(", ", "\n")).entries)


class Replays(unittest.TestCase):
    """Replays of journals that were written by hand, and of those of a model."""

    def test_instructions_have_their_fate(self) -> None:
        for entries, *counts in FATES:
            history = history_of(entries)
            told = [history.instructions(fate=fate) for fate in (Fate.KEPT, Fate.THROWN, Fate.OPEN)]
            self.assertEqual(told, counts, entries)
            self.assertEqual(history.instructions(), sum(counts))

    def test_an_impossible_entry_is_refused(self) -> None:
        for entries in IMPOSSIBLE:
            with self.subTest(entries), self.assertRaises(Impossible) as refused:
                history_of(entries)
            self.assertEqual(refused.exception.index, entries.count(", "))

    def test_a_journal_tells_how_it_ends(self) -> None:
        for entries, ending in ENDINGS:
            self.assertEqual(history_of(entries).ending, ending)

    def test_a_replay_counts_as_the_model_of_the_board_does(self) -> None:
        for seed in range(40):
            board = Board(program(12, seed, 0.3), 30, 1 + seed % 9, 1 + seed % 5, seed)
            history = replay(journal_in(board.text()).entries)
            told = [history.instructions(), *(history.instructions(fate=fate) for fate in Fate)]
            self.assertEqual(told, [board.run, board.kept, board.thrown, board.left], seed)

    def test_bins_have_all_that_came_home(self) -> None:
        board = Board(program(300, 3, 0.1), 30, 8, 8, 3)
        history = replay(journal_in(board.text()).entries)
        bins = bins_of(history, 88)
        self.assertLessEqual(bins.number, 88)
        self.assertEqual(sum(sum(cell.values()) for cells in bins.work.values() for cell in cells), board.run)
        self.assertEqual(sum(bins.events["discards"]) + sum(bins.events["keeps"]), 300)

    def test_cells_show_ninths_and_what_was_thrown_away(self) -> None:
        cells: List[Tuple[Work, str]] = [
            ({}, "."),
            ({(Part.LEAD, Fate.KEPT): 1}, "1"),
            ({(Part.ORIGINAL, Fate.KEPT): 11}, "2"),
            ({(Part.ORIGINAL, Fate.KEPT): 60, (Part.FAST, Fate.KEPT): 30}, "9"),
            ({(Part.ORIGINAL, Fate.KEPT): 40, (Part.FAST, Fate.THROWN): 40}, "8"),
            ({(Part.ORIGINAL, Fate.KEPT): 39, (Part.FAST, Fate.THROWN): 20, (Part.LEAD, Fate.THROWN): 21}, "h"),
        ]
        for cell, sign in cells:
            self.assertEqual(work_cell(cell, 90), sign)

    def test_a_seat_with_two_tracks_has_two_lanes(self) -> None:
        history = history_of("fork 0.1.f, lend 0 0.1.n, lend 0 0.1.f, back 0.1.n 3, back 0.1.f 2, lend 0 0.1.n")
        self.assertEqual([(loan.seat, loan.slot) for loan in history.loans], [(0, 0), (0, 1), (0, 0)])

    def test_lanes_are_bounded(self) -> None:
        history = history_of(", ".join(f"lend {seat} 0.0.f, back 0.0.f 1" for seat in range(100)))
        self.assertEqual(len(lanes_of(history)), MOST_LANES)
        self.assertEqual(lanes_left_out(history), 100 - MOST_LANES)


if __name__ == "__main__":
    unittest.main()
