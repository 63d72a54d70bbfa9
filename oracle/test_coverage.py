#!/usr/bin/env python3
"""That coverage.py counts the blocks of the right files and names the lines of those that are not taken. The counting
program, which needs the Rust's sources, is played by lines of text."""

import unittest
from unittest import mock

import coverage
from loading import printed

# what addr2line says of five blocks: a function, then its place
PLACES = """parse
/src/text/cluster/simple.rs:10
parse
/src/text/cluster/simple.rs:10 (discriminator 2)
oracle::text::words::BoundaryState::check_line
/src/text/analyze.rs:300
oracle::text::words::BoundaryState::new
/src/text/analyze.rs:70
main
/src/main.rs:5
"""


class Blocks(unittest.TestCase):
    def setUp(self):
        located = mock.Mock(stdout=PLACES)
        answers = {(): ["1 2 3 4 5"], ("one", "two", "three"): ["1 2 3 4 5", "0 3 4", "-", "0 1"]}
        with (mock.patch("rust_judge.built", return_value="program"), mock.patch("subprocess.run", return_value=located),
              mock.patch("programs.answers", lambda _, lines: answers[tuple(lines)])):
            self.coverage = coverage.Coverage("folder")
            self.taken = list(self.coverage.blocks(["one", "two", "three"]))

    def test_which_blocks_count(self):
        self.assertEqual(self.coverage.places, {0: ("simple.rs", "10"), 1: ("simple.rs", "10"), 2: ("analyze.rs", "300")})

    def test_what_each_case_takes(self):
        self.assertEqual(self.taken, [{0}, set(), {0, 1}])

    def test_report(self):
        _, output = printed(coverage.report, self.coverage, {0})
        self.assertEqual(output.splitlines(), [
            "simple.rs: 1 of 2 blocks; not taken, by line: 10×1", "myanmar.rs: 0 of 0 blocks", "complex.rs: 0 of 0 blocks",
            "analyze.rs: 0 of 1 blocks; not taken, by line: 300×1"])
        _, output = printed(coverage.report, self.coverage, {0, 1, 2})
        self.assertNotIn("not taken", output)


if __name__ == "__main__":
    unittest.main()
