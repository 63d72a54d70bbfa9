#!/usr/bin/env python3
"""That the real labels are what real/README.md and data/label-classes.txt say of them."""

import unittest

import cases
import lists
import loading
import real_labels

LABELS = ("simple", "myanmar", "complex")


def records(line):
    """The fields of a label's records."""
    items = line.split(";")[4]
    return [item.split(",") for item in items.split(" ")] if items else []


def recorded():
    """For each character of the labels the classes and marks that it was ever given."""
    found = {}
    for name in LABELS:
        for line, _ in real_labels.pairs(name):
            for scalar, *fields in records(line):
                found.setdefault(int(scalar, 16), set()).add(tuple(map(int, fields[:11])))
    return found


class Answers(unittest.TestCase):
    def test_the_reading_answers_as_the_crate_did(self):
        for line, answer in real_labels.all_pairs():
            self.assertEqual(cases.answer(line), answer, line)

    def test_as_many_as_are_said(self):
        self.assertEqual([len(real_labels.pairs(name)) for name in (*LABELS, "words")], [169, 135, 681, 382])

    def test_the_shortest_are_in_the_lists(self):
        fixed = {line for line, _ in lists.pairs()}
        shortest = loading.command("oracle/make-lists").real
        for name in real_labels.NAMES:
            self.assertLessEqual(set(shortest(name)), fixed, name)


class Classes(unittest.TestCase):
    def setUp(self):
        self.recorded = recorded()

    def test_a_character_has_the_same_classes_everywhere(self):
        self.assertEqual({len(classes) for classes in self.recorded.values()}, {1})

    def test_the_table_of_label_has_their_classes(self):
        table = loading.command("data/make-label-table")
        for first, last, names, mark, heading in table.lines():
            told = [codes[name] for codes, name in zip(table.LISTS, names)] + [int(mark == "emoji"), int(mark == "selector")]
            for scalar in range(first, last + 1):
                for kind, _, myanmar, category, _, _, emoji, _, _, selector, _ in self.recorded.get(scalar, ()):
                    self.assertEqual(told, [kind, myanmar, category, emoji, selector], f"U+{scalar:04X}")
                if heading == "# Myanmar":
                    self.assertIn(scalar, self.recorded, f"U+{scalar:04X} is in no label")


if __name__ == "__main__":
    unittest.main()
