#!/usr/bin/env python3
"""That annex.py notices what is stored and is not what the files say, and a program whose answers are not the rules'."""

import pathlib
import sys
import tempfile
import unittest
from unittest import mock

import annex
import small_unicode
from loading import printed

ANSWERS = {"G;0,0 10,0": "10", "W;8,0": "1"}


class Stored(unittest.TestCase):
    def setUp(self):
        crate = tempfile.TemporaryDirectory()
        self.addCleanup(crate.cleanup)
        self.crate = pathlib.Path(crate.name)
        self.folder = small_unicode.folder(self)
        patch = mock.patch("annex.CRATE", self.crate)
        patch.start()
        self.addCleanup(patch.stop)
        annex.stored(self.folder, "write")

    def test_the_files_as_lines(self):
        asked, answered = ((self.crate / name).read_text().splitlines() for name in ("stdin", "stdout"))
        self.assertEqual(asked, ["G;0,0 10,0 0,0", "G;2,0 3,0 0,1 12,0 0,1", "G;9,0 9,0 9,0", "W;8,0 13,0 8,0", "W;0,0 8,0"])
        self.assertEqual(answered, ["101", "10100", "101", "100", "11"])

    def test_what_is_written_is_right(self):
        self.assertEqual(printed(annex.stored, self.folder, "check"), (0, ""))

    def test_a_change_is_noticed(self):
        for name in ("stdin", "stdout"):
            annex.stored(self.folder, "write")
            (self.crate / name).write_text((self.crate / name).read_text().replace("1", "0", 1))
            self.assertEqual(printed(annex.stored, self.folder, "check"), (1, f"crates/annex/{name} is not what the published files say\n"))


class Hold(unittest.TestCase):
    """Two texts, and a program that answers from a table."""

    def hold(self, answers):
        program = f"import sys\nfor line in sys.stdin: print({answers}[line.strip()])"
        with (mock.patch("uax29.cluster_texts", lambda: [[("XX", 0), ("EX", 0)]]),
              mock.patch("uax29.word_texts", lambda: [[("ALetter", 0)]])):
            return printed(annex.hold, [sys.executable, "-c", program])

    def test_the_rules_answers(self):
        self.assertEqual(self.hold(ANSWERS), (0, "2 texts, 0 differ\n"))

    def test_another_answer(self):
        status, output = self.hold(ANSWERS | {"G;0,0 10,0": "11"})
        self.assertEqual((status, output), (1, "  G;0,0 10,0: 11, and the rules say 10\n2 texts, 1 differ\n"))


if __name__ == "__main__":
    unittest.main()
