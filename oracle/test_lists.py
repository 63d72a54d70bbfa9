#!/usr/bin/env python3
"""That `replay-lists` and `mutants.py` notice wrong answers to the fixed lists."""

import ast
import sys
import unittest
from unittest import mock

import cases
import grapheme_cases
import grapheme_reading
import line_cases
import line_reading
import lists
import loading
import mutants
import property_cases
import property_reading
import reading

replay_lists = loading.command("oracle/replay-lists")
# the answers themselves, as a program that does not look at the cases
RIGHT = ["cat", str(lists.REPLAYED[1])]


class Replay(unittest.TestCase):
    def replay(self, *command):
        with mock.patch.object(sys, "argv", ["replay-lists", *command]):
            return loading.printed(replay_lists.main)

    def test_agreement(self):
        status, output = self.replay(*RIGHT)
        self.assertEqual(status, 0)
        self.assertRegex(output, r"^\d+ cases agree\n$")

    def test_another_answer(self):
        status, output = self.replay("sed", "2s/^/x/", RIGHT[1])
        self.assertEqual(status, 1)
        case, answer = list(lists.pairs())[1]
        self.assertEqual(output, f"DIFFERS\n  case     {case}\n  expected {answer}\n  given    x{answer}\n")

    def test_too_few_answers(self):
        status, output = self.replay("head", "-n", "3", RIGHT[1])
        self.assertEqual(status, 1)
        self.assertTrue(output.startswith("DIFFERS: 3 answers to "), output)


class Order(unittest.TestCase):
    def test_what_stands_in_the_lists_keeps_its_place(self):
        with mock.patch("lists.pairs", lambda: [("b", "1"), ("a", "2"), ("b", "1"), ("c", "3")]):
            kept = lists.keeping_places([("new", "5"), ("a", "2"), ("b", "1"), ("c", "4"), ("newer", "6"), ("b", "1")])
        self.assertEqual([line for line, _ in kept], ["b", "a", "b", "c", "new", "newer"])

    def test_the_corners_of_line_breaks_are_chosen(self):
        chosen = loading.command("oracle/make-lists").line_breaks()
        self.assertLessEqual({line for line, _ in line_cases.corners()}, set(chosen))


    def test_the_corners_of_property_files_are_chosen(self):
        chosen = loading.command("oracle/make-lists").property_files()
        self.assertLessEqual({line for line, _ in property_cases.corners()} | {property_cases.too_long()}, set(chosen))


    def test_the_corners_of_clusters_are_chosen(self):
        make_lists = loading.command("oracle/make-lists")
        for engine in grapheme_cases.ENGINES:
            self.assertLessEqual({line for line, _ in grapheme_cases.corners(engine)}, set(make_lists.graphemes(engine)))


class Mutants(unittest.TestCase):
    def test_one_change_at_each_site(self):
        source = 'def f(a):\n    """Says."""\n    return a == 1 or a in ("x", True) or a < 2\n'
        changed = []
        for number in range(len(list(mutants.sites(ast.parse(source))))):
            tree = ast.parse(source)
            mutants.change(list(mutants.sites(tree))[number])
            changed.append(ast.unparse(tree).splitlines()[-1].strip())
        self.assertEqual(sorted(changed), sorted([
            "return a != 1 or a in ('x', True) or a < 2",
            "return a == 2 or a in ('x', True) or a < 2",
            "return a == 1 or a not in ('x', True) or a < 2",
            "return a == 1 or a in ('x changed', True) or a < 2",
            "return a == 1 or a in ('x', False) or a < 2",
            "return a == 1 or a in ('x', True) or a <= 2",
            "return a == 1 or a in ('x', True) or a < 3"]))

    def test_a_wrong_answer_is_noticed(self):
        unchanged = mutants.reading_itself()
        # a mutant takes the reading's place for good; the other tests want the reading back
        with (mock.patch.dict(vars(reading)), mock.patch.dict(vars(line_reading)), mock.patch.dict(vars(property_reading)),
              mock.patch.dict(vars(grapheme_reading)), mock.patch.dict(vars(cases))):
            self.assertFalse(mutants.is_noticed(unchanged, [("W;1;0,0", "1"), ("l;Normal;;0,0;0", "R 10 0 -;0,0"),
                                                            ("F;0,0;;1;0041", "||0,0"), ("G;2;9,0 9,0", "1 0")]))
            self.assertTrue(mutants.is_noticed(unchanged, [("W;1;0,0", "0")]))
            self.assertTrue(mutants.is_noticed(unchanged, [("l;Normal;crate;44,-;1", "2;1,1")]))
            self.assertTrue(mutants.is_noticed(unchanged, [("F;0,0;;1;0041", "||0,1")]))
            self.assertTrue(mutants.is_noticed(unchanged, [("g;2;9,0 9,0", "1 1")]))


if __name__ == "__main__":
    unittest.main()
