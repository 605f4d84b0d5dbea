"""The commands as they are called: what they print, and their status.

What a call prints is stored in data/NAME.stdout and data/NAME.stderr; a file that is absent means nothing. After a
change that is meant, make the file anew by the call itself, and look at it."""

import subprocess
import tempfile
import unittest
import xml.etree.ElementTree
from pathlib import Path

from board_model import Board, program

TOOLS = Path(__file__).resolve().parent.parent
DATA = TOOLS / "tests" / "data"

# The name of the stored texts, the command and its words, the status, and the file that is standard input.
CALLS = [
    ("lanes_one_seat", "lanes one_seat.journal", 0, None),
    ("lanes_roots", "lanes roots.notes", 0, None),
    ("lanes_three_seats", "lanes -", 0, "three_seats.journal"),
    ("lanes_eight_seats", "lanes eight_seats.journal", 0, None),
    ("lanes_halted", "lanes halted.journal", 0, None),
    ("lanes_bad_line", "lanes bad_line.journal", 2, None),
    ("lanes_impossible", "lanes impossible.notes", 2, None),
    ("lanes_of_a_report", "lanes roots.report", 2, None),
    ("lanes_of_no_file", "lanes nowhere.journal", 2, None),
    ("ledger_roots", "ledger roots.report", 0, None),
    ("ledger_of_a_run", "ledger --strict - ", 1, "roots.notes"),
    ("ledger_symbols", "ledger roots.report --nm ./nm roots.elf", 0, None),
    ("ledger_strict", "ledger --strict roots.report", 1, None),
    ("ledger_kept", "ledger kept.report --strict", 0, None),
    ("ledger_no_regions", "ledger --strict no_regions.report", 0, None),
    ("ledger_wrong_totals", "ledger wrong_totals.report", 2, None),
    ("ledger_of_a_journal", "ledger three_seats.journal", 2, None),
]


def call(words: str, given: bytes = b"") -> "subprocess.CompletedProcess[bytes]":
    """What a command does, called where the stored texts are."""
    command, *rest = words.split()
    return subprocess.run(
        [str(TOOLS / command), *rest], cwd=DATA, input=given, capture_output=True, timeout=60, check=False
    )


def stored(name: str) -> str:
    """The stored text of this name; an absent file has none."""
    path = DATA / name
    return path.read_text() if path.exists() else ""


class Commands(unittest.TestCase):
    """Calls of the commands."""

    maxDiff = None

    def test_calls_print_what_is_stored(self) -> None:
        for name, words, status, given in CALLS:
            with self.subTest(name):
                done = call(words, (DATA / given).read_bytes() if given else b"")
                self.assertEqual(done.stdout.decode(), stored(f"{name}.stdout"))
                self.assertEqual(done.stderr.decode(), stored(f"{name}.stderr"))
                self.assertEqual(done.returncode, status)

    def test_guest_output_is_passed_over_where_that_is_asked_for(self) -> None:
        printed = (DATA / "roots.notes").read_bytes()
        notes = b"a line\nregion 0 at 7\nand no line feed: " + printed + b"fasttrack: budget spent\n"
        for command, name in (("lanes", "lanes_roots"), ("ledger", "ledger_roots")):
            with self.subTest(command):
                self.assertEqual(call(f"{command} --after-guest -", notes).stdout.decode(), stored(f"{name}.stdout"))
                self.assertEqual(call(f"{command} -", notes).returncode, 2)

    def test_a_picture_is_made_as_a_file(self) -> None:
        with tempfile.TemporaryDirectory() as folder:
            picture = Path(folder) / "three_seats.svg"
            self.assertEqual(call(f"lanes three_seats.journal -o {picture}").returncode, 0)
            self.assertEqual(picture.read_text(), stored("three_seats.svg"))

    def test_a_long_journal_has_a_picture_of_bounded_size(self) -> None:
        journal = Board(program(9_500, 1, 0.05), 30, 8, 8, 1).text().encode()
        self.assertGreater(journal.count(b"\n"), 100_000)
        lines = call("lanes -", journal).stdout.decode().splitlines()
        self.assertLess(len(lines), 50)
        self.assertLessEqual(max(map(len, lines)), 100)
        with tempfile.TemporaryDirectory() as folder:
            picture = Path(folder) / "long.svg"
            self.assertEqual(call(f"lanes - -o {picture}", journal).returncode, 0)
            self.assertLess(picture.stat().st_size, 200_000)
            paths = xml.etree.ElementTree.parse(picture).iter("{http://www.w3.org/2000/svg}path")
            # Of each seat what was thrown away is hatched.
            self.assertGreaterEqual(sum(path.get("class") == "thrown" for path in paths), 8)

    def test_help_names_each_option(self) -> None:
        named = {"lanes": ["--output", "--after-guest"], "ledger": ["--strict", "--nm", "--after-guest"]}
        for command, options in named.items():
            done = call(f"{command} --help")
            self.assertEqual(done.returncode, 0)
            for option in options:
                self.assertIn(option, done.stdout.decode())


if __name__ == "__main__":
    unittest.main()
