"""Lines, journals and reports: what is read, and what is refused at which line."""

import unittest
from typing import Callable, List, Tuple

from fasttrack_tools.journal import (
    Back,
    Cross,
    Discard,
    Entry,
    Finish,
    Fork,
    Gone,
    Halt,
    Keep,
    Lend,
    Name,
    Release,
    read_entry,
)
from fasttrack_tools.lines import BadText
from fasttrack_tools.notes import journal_in, report_in
from fasttrack_tools.report import Verdict, read_row
from fasttrack_tools.symbols import read_symbols

LEAD = Name(0, 1, False)
MOST = 2**64 - 1

ENTRIES: List[Tuple[str, Entry]] = [
    ("lend 3 2.10.n", Lend(3, Name(2, 10, True))),
    ("back 0.1.f 65536", Back(LEAD, 65536)),
    (f"back 0.1.f {MOST}", Back(LEAD, MOST)),
    ("gone 0.1.f", Gone(LEAD)),
    ("fork 0.1.f", Fork(LEAD)),
    ("cross 0.1.f", Cross(LEAD)),
    ("keep 0", Keep(0)),
    ("discard 12", Discard(12)),
    ("release 5", Release(5)),
    ("finish", Finish()),
    ("halt 7", Halt(7)),
]

NO_ENTRIES = [
    "",
    "lend 0",
    "lend 0 0.1.x",
    "lend 0  0.1.n",
    "lend +0 0.1.n",
    "back 0.1.n 01",
    f"back 0.1.f {MOST + 1}",
    "keep \u0661",
    "finish ",
    "Finish",
    "halt",
    "halt 7\r",
]

ROWS = [
    ("kept", Verdict("kept")),
    ("late", Verdict("late")),
    ("stopped", Verdict("stopped")),
    ("differs pc", Verdict("differs", "pc")),
    ("differs register 31", Verdict("differs", "register", 31)),
    ("differs byte 0001092c", Verdict("differs", "byte", 0x1092C)),
    ("differs place", Verdict("differs", "place")),
    ("differs break", Verdict("differs", "break")),
]

NO_VERDICTS = ["", "differs", "differs register 0", "differs register 32", "differs byte 1092c", "kept 1"]

ROW = "region 0 at 1 pc 00010004 original 36 fast 5 kept\n"
TOTALS = "regions 1 kept 1 differs 0 stopped 0 late 0 alone 49 path 18\n"
END = "end exit 0\n"

# A text, and the line at which it is refused as a report.
NO_REPORTS = [
    ("", 1),
    (ROW, 2),
    (ROW + TOTALS, 3),
    (ROW + TOTALS + "end\n", 3),
    (ROW + TOTALS + END + "lend 0 0.0.f\nmore\n", 5),
    (ROW + TOTALS + END + "fasttrack: budget spent\nfasttrack: budget spent\n", 5),
    (ROW + ROW + TOTALS + END, 2),
    (ROW.replace("fast 5", "fast 37") + TOTALS + END, 1),
    (TOTALS + END, 1),
    (ROW + TOTALS.replace("kept 1", "kept 0") + END, 2),
    (ROW + TOTALS.replace("late 0", "late 1") + END, 2),
    (ROW + TOTALS.replace("path 18", "path 19") + END, 2),
    ("bench 7\n" + TOTALS + END, 1),
]

# A text, and the line at which it is refused as a journal.
NO_JOURNALS = [
    ("", 1),
    ("a guest's line\nlend 0 0.0.f\n", 1),
    ("lend 0 0.0.f\n\nback 0.0.f 1\n", 2),
    (ROW + TOTALS + END, 4),
    (ROW + TOTALS + END + "lend 0 0.0\n", 4),
]


class Texts(unittest.TestCase):
    """The texts of entries, rows, reports, journals and symbols."""

    def test_each_entry_is_read_from_its_line(self) -> None:
        for line, entry in ENTRIES:
            self.assertEqual(read_entry(line), entry)

    def test_other_lines_are_no_entry(self) -> None:
        for line in NO_ENTRIES:
            self.assertIsNone(read_entry(line), line)

    def test_each_verdict_is_read(self) -> None:
        for text, verdict in ROWS:
            row = read_row(f"region 0 at 1 pc 00010004 original 36 fast 5 {text}")
            self.assertEqual(row and row.verdict, verdict)

    def test_other_verdicts_are_no_row(self) -> None:
        for text in NO_VERDICTS:
            self.assertIsNone(read_row(f"region 0 at 1 pc 00010004 original 36 fast 5 {text}"), text)

    def test_bad_texts_are_refused_at_their_line(self) -> None:
        readers: List[Tuple[Callable[[str], object], List[Tuple[str, int]]]] = [
            (report_in, NO_REPORTS),
            (journal_in, NO_JOURNALS),
        ]
        for read, rows in readers:
            for text, line in rows:
                with self.subTest(text), self.assertRaises(BadText) as refused:
                    read(text)
                self.assertEqual(refused.exception.line, line, text)

    def test_a_report_may_have_a_journal_and_an_answer_behind_it(self) -> None:
        text = ROW + TOTALS + END + "lend 0 0.0.f\nfinish\n" + "fasttrack: trap load at 00010024\n"
        self.assertEqual(report_in(text).totals.path, 18)
        self.assertEqual(journal_in(text).first_line, 4)

    def test_addresses_have_the_symbol_that_they_lie_in(self) -> None:
        symbols = read_symbols(
            "         U outside\n00010000 T _start\n00010010 00000020 T main\n00010014 t .Ltmp0\n00010100 B last\n"
        )
        names = [
            (0xFFFF, ""),
            (0x10000, "_start"),
            (0x1000C, "_start+0xc"),
            (0x10014, "main+0x4"),
            (0x1002F, "main+0x1f"),
            (0x10030, ""),
            (0x10100, "last"),
            (0x11100, ""),
            (0x7FFFFECB, "stack"),
        ]
        for address, name in names:
            self.assertEqual(symbols.name(address), name, hex(address))


if __name__ == "__main__":
    unittest.main()
