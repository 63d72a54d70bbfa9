#!/usr/bin/env python3
"""Clusters as UAX #29 has them: the corners with the answers that were written down by hand, what a case cannot hold, and that the regular
expressions say what uax29.py says, which looks back from each place."""

import itertools
import random
import unittest

import cases
import grapheme_cases
import grapheme_reading
import uax29
from reading import CLUSTER_BREAK, LONGEST, Refusal

ALL = list(itertools.product(range(len(CLUSTER_BREAK)), (0, 1)))


def looking_back(records):
    return uax29.Text([(CLUSTER_BREAK[kind], mark) for kind, mark in records], uax29.is_cluster_start).stated


class Corners(unittest.TestCase):
    def test_answers_by_hand(self):
        for engine in grapheme_cases.ENGINES:
            for line, answer in grapheme_cases.corners(engine):
                with self.subTest(line):
                    self.assertEqual(cases.answer(line), answer)

    def test_not_of_the_layout(self):
        read = [line for line in grapheme_cases.not_of_layout("g") if not next(cases.answers([line])).startswith("?")]
        self.assertEqual(read, ["g;1;", "g;0;", "g;00;", "g;65535;", "g;1;255,255", "g;1;000013,0001"])

    def test_the_order_of_refusals(self):
        """1 before 4, 4 before 9; 2 is not of a case, and here the two columns are one list of pairs."""
        self.assertEqual(grapheme_reading.graphemes([(14, 2)] * (LONGEST + 1), 0), Refusal(1))
        self.assertEqual(grapheme_reading.graphemes([(0, 0)] * (LONGEST - 1) + [(14, 0)], 0), Refusal(4, LONGEST - 1, "r"))
        self.assertEqual(grapheme_reading.graphemes([(0, 0)] * LONGEST, LONGEST - 1), Refusal(9))
        self.assertEqual(grapheme_reading.graphemes([(0, 0)] * LONGEST, LONGEST), [1] * LONGEST)


class Rules(unittest.TestCase):
    def test_short_texts_beside_rules_that_look_back(self):
        for length in range(1, 4):
            for records in itertools.product(ALL, repeat=length):
                self.assertEqual(grapheme_reading.graphemes(records, length), looking_back(records), records)

    def test_longer_texts_beside_rules_that_look_back(self):
        rng = random.Random(5)
        for _ in range(2_000):
            text = grapheme_cases.random_text(rng)
            records = list(map(cases.marked_class, text))
            self.assertEqual(grapheme_reading.graphemes(records, len(records)), looking_back(records) if records else [], records)


if __name__ == "__main__":
    unittest.main()
