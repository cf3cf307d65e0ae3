"""Tests of the picture: what is read of a trace, where entries are placed, and what is refused."""

import subprocess
import sys
import unittest
from pathlib import Path

from layout import bands, lanes, spots
from trace import Attempt, Reason, TraceError, read_trace

HERE = Path(__file__).parent

# two sessions that change two records in opposite order, and one of them gives up
CROSSED = """TXN 1 1 COMMITTED 1
TXN 2 1 ABORTED LOCKED
TABLE t
LINES
0 0 1 1 1 2 1 0 0 1 2
0 1 2 2 1 2 3 0 0 0 2
0 2 2 3 1 10 7 0 0 0 0
1 0 2 1 1 2 1 0 0 1 2
1 1 1 2 1 2 3 0 0 0 2
COUNTS
1 2
"""


def drawn(text, *words):
    return subprocess.run(
        [sys.executable, HERE / "draw.py", *words], input=text, capture_output=True, text=True, check=False
    )


class Reading(unittest.TestCase):
    def test_entries_and_attempts_are_read(self):
        trace = read_trace(CROSSED)
        self.assertEqual(trace.attempts, [Attempt(1, 1, "COMMITTED 1"), Attempt(2, 1, "ABORTED LOCKED")])
        self.assertEqual([(e.part, e.place, e.session) for e in trace.entries], [(0, 0, 1), (0, 1, 2), (0, 2, 2), (1, 0, 2), (1, 1, 1)])
        self.assertTrue(trace.entries[1].is_locked and trace.entries[2].is_undo)

    def test_a_text_without_a_trace_is_refused(self):
        for text in ("", "TXN 1 1 COMMITTED 1\nTABLE t\n"):
            with self.assertRaises(TraceError) as refused:
                read_trace(text)
            self.assertEqual(refused.exception.reason, Reason.NO_TRACE)

    def test_a_line_that_is_no_entry_is_refused(self):
        for line in ("0 0 1 1", "0 0 1 1 1 11 1 0 0 0 0", "0 0 1 1 1 1 1 5 0 0 0", "0 0 1 1 1 1 1 0 0 0 -1"):
            with self.assertRaises(TraceError) as refused:
                read_trace(f"LINES\n{line}\n")
            self.assertEqual(refused.exception.reason, Reason.BAD_LINE)


class Placing(unittest.TestCase):
    def test_nothing_stands_left_of_what_came_before_it(self):
        placed = {(s.entry.part, s.entry.place): s.column for s in spots(read_trace(CROSSED).entries)}
        self.assertEqual(placed, {(0, 0): 0, (1, 0): 0, (0, 1): 1, (1, 1): 1, (0, 2): 2})

    def test_bands_are_cut_by_columns(self):
        entries = read_trace(CROSSED).entries
        self.assertEqual(lanes(entries), 2)
        self.assertEqual([[spot.column for spot in band] for band in bands(spots(entries), 2)], [[0, 0, 1, 1], [0]])


class Drawing(unittest.TestCase):
    def test_a_page_and_a_picture_are_drawn(self):
        page = drawn(CROSSED)
        self.assertEqual(page.returncode, 0)
        self.assertTrue(page.stdout.startswith("<!doctype html>") and page.stdout.count("<title>") == 6)
        self.assertTrue(drawn(CROSSED, "--svg").stdout.startswith("<svg "))

    def test_a_text_without_a_trace_ends_with_status_1(self):
        refused = drawn("TXN 1 1 COMMITTED 1\n")
        self.assertEqual((refused.returncode, refused.stdout), (1, ""))
        self.assertIn("NoTrace", refused.stderr)

    def test_another_word_ends_with_status_2(self):
        self.assertEqual(drawn(CROSSED, "--png").returncode, 2)


if __name__ == "__main__":
    unittest.main()
