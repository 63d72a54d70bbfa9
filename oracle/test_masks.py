#!/usr/bin/env python3
"""That masks.py reads what stands there and notices another line, another number and a test too few."""

import pathlib
import sys
import tempfile
import unittest
from unittest import mock

import masks
from loading import printed

SOURCE = """        const AH_LETTER: u32 = LE.mask() | HL.mask();
        if a_mask & AH_LETTER != 0 || b_mask & AH_LETTER != 0 {
        if b_mask & (AH_LETTER | NU.mask()) != 0 {
        if c.mask() & NU.mask() != 0 {
        if a == CR && b == LF {
"""
TESTS = [(2, 0x300), (2, 0x300), (3, 0x2300), (4, 0x2000)]
ROWS = "".join(f"    ∷ asks {line} 0x{bits:05X} (λ b. rule b)\n" for line, bits in TESTS)


class Masks(unittest.TestCase):
    def setUp(self):
        folder = tempfile.TemporaryDirectory()
        self.addCleanup(folder.cleanup)
        self.folder = pathlib.Path(folder.name)
        (self.folder / "src/text").mkdir(parents=True)
        (self.folder / "src/text/analyze.rs").write_text(SOURCE)

    def run_with(self, rows):
        table = self.folder / "Masks.antt"
        table.write_text(rows)
        with mock.patch.object(sys, "argv", ["masks.py", str(self.folder)]), mock.patch.object(masks, "TABLE", table):
            return printed(masks.main)

    def test_what_is_read(self):
        self.assertEqual(masks.of_rust(SOURCE), TESTS)
        self.assertEqual(masks.of_table(ROWS), TESTS)

    def test_alike(self):
        status, output = self.run_with(ROWS)
        self.assertEqual((status, output[:39]), (0, "4 tests by masks are those of the Rust "))

    def test_differences(self):
        for rows in (ROWS.replace("asks 3 ", "asks 4 "), ROWS.replace("0x02300", "0x02301"), ROWS.split("\n", 1)[1]):
            status, output = self.run_with(rows)
            self.assertEqual((status, output[:7]), (1, "NOT SO:"))


if __name__ == "__main__":
    unittest.main()
