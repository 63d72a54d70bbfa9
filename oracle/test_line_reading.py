#!/usr/bin/env python3
"""Line breaks: the corners with the answers that were written down by hand, what is said of the crate's table, and
that pair_table.txt is the Rust's where its sources are at hand."""

import pathlib
import re
import unittest

import cases
import line_cases
import line_reading
import rust_judge
from line_reading import BREAK_ALL, KEEP_ALL, KEPT, LINE, LINE_START, NORMAL, crate_table


def sources():
    try:
        return pathlib.Path(rust_judge.found()[0])
    except rust_judge.NotFound:
        return None


def step(strength, state, line_class):
    return line_reading.checked_line_step(strength, crate_table(), state, line_class)


def reachable():
    """Every state that some text leads to on the crate's table."""
    found, new = set(), {LINE_START}
    while new:
        found |= new
        new = {step(NORMAL, state, line_class)[1] for state in new for line_class in range(len(LINE))} - found
    return found


class Corners(unittest.TestCase):
    def test_answers_by_hand(self):
        for line, answer in line_cases.corners():
            with self.subTest(line):
                self.assertEqual(cases.answer(line), answer)

    def test_the_empty_text(self):
        self.assertEqual(cases.answer("L;Normal;crate;0;"), "")
        self.assertEqual(cases.answer("L;KeepAll;1980*0;9;"), "")

    def test_too_long_comes_before_the_table(self):
        self.assertEqual(cases.answer("L;Normal;;0;" + " ".join(["43,0,0"] * 4097)), "R 1 0 -")
        self.assertEqual(cases.answer("L;Normal;;0;" + " ".join(["43,0,0"] * 4096)), "R 10 0 -")

    def test_a_table_in_other_words(self):
        """Counts, no cells at all, leading zeros; the crate's table cell by cell."""
        self.assertEqual(cases.table("1980*7").cells, cases.table("0*255 990*007 7 0989*7").cells)
        spelled = line_cases.spelled_out(crate_table().cells)
        self.assertEqual(cases.table(spelled).cells, crate_table().cells)
        self.assertEqual(len(cases.table("").cells), 0)

    def test_not_of_the_layout(self):
        for table in ("1980*0*0", "*0", "1980*", "65536*0", "256", "1980*0 ", "Crate", "-"):
            with self.subTest(table), self.assertRaises(cases.NotOfLayout):
                cases.answer(f"l;Normal;{table};44,-;1")
        for strength in ("normal", "", "2"):
            with self.subTest(strength), self.assertRaises(cases.NotOfLayout):
                cases.answer(f"l;{strength};crate;44,-;1")


class CrateTable(unittest.TestCase):
    def test_its_shape(self):
        self.assertEqual((crate_table().rows, len(crate_table().cells)), (53, 53 * 44))
        self.assertTrue(crate_table().is_sound)

    @unittest.skipUnless(sources(), "the Rust's sources are not at hand")
    def test_it_is_the_rusts(self):
        text = (sources() / "src/text/analyze.rs").read_text()
        cells = re.search(r"const PAIR_TABLE: \[\[u8; 44\]; 53\] = \[(.*?)\n\];", text, re.DOTALL)[1]
        self.assertEqual(list(crate_table().cells), [int(cell) for cell in re.findall(r"\d+", cells)])

    def test_the_first_record_has_no_line_answer(self):
        for strength in line_reading.STRENGTHS:
            self.assertEqual({step(strength, LINE_START, line_class)[0] for line_class in range(len(LINE))}, {0})

    def test_what_the_strengths_change(self):
        """On every state that a text leads to, BreakAll takes no break away, and KeepAll no mandatory one."""
        kept = [LINE.index(name) for name in KEPT]
        for state in reachable():
            normal, broken, held = ([step(strength, state, line_class)[0] for line_class in range(len(LINE))]
                                    for strength in (NORMAL, BREAK_ALL, KEEP_ALL))
            self.assertTrue(all(one <= other for one, other in zip(normal, broken)), state)
            for line_class, (one, other) in enumerate(zip(normal, held)):
                is_kept = state.previous in kept and line_class in kept
                self.assertEqual(other, 0 if is_kept else one)
                self.assertFalse(is_kept and one == line_reading.MANDATORY_BREAK, state)


if __name__ == "__main__":
    unittest.main()
