#!/usr/bin/env python3
"""That the rows of a choice are read as antt reads them."""
import unittest

import grammar

# a file that knows both kinds of rows
SHARED = grammar.module("parse", "Shared")
ASKS, STOP, NOTE, SKIP = SHARED.find("is_scalar"), ("stop",), ("note",), ("skip",)


def value(*lines):
    """The value of a rule whose lines stand behind `rule =`."""
    clause = grammar.Clause(SHARED, list(enumerate(["rule =", *lines], 1)))
    return grammar.value(clause.body, {})


class Rows(unittest.TestCase):
    def test_a_later_row_is_the_last_arm_of_the_one_before(self):
        rows = value("is_scalar 1 ⇒ note", "∣ is_scalar 2 ⇒ stop", "∣ skip")
        self.assertEqual(rows, ("choose", (ASKS, 1), NOTE, ("choose", (ASKS, 2), STOP, SKIP)))

    def test_a_sequence_binds_more_strongly_in_every_arm(self):
        rows = value("is_scalar 1 ⇒ note ▸ stop", "∣ skip ▸ note")
        self.assertEqual(rows, ("choose", (ASKS, 1), ("seq", NOTE, STOP), ("seq", SKIP, NOTE)))

    def test_a_choice_in_parentheses_is_one_rule(self):
        self.assertEqual(value("note ▸ (is_scalar 1 ⇒ stop ∣ skip)"), ("seq", NOTE, ("choose", (ASKS, 1), STOP, SKIP)))

    def test_the_second_sign_says_what_the_rows_are_of(self):
        _, shape = value("push (λ t. eqb t 1 ⇒ Zwnj ▹ eqb t 2 ⇒ Zwj ▹ Mark)")
        self.assertEqual([grammar.applied(shape, [t]) for t in (1, 2, 3)], [("Zwnj",), ("Zwj",), ("Mark",)])

    def test_rows_without_a_last_one_or_a_test_are_refused(self):
        for line in ("is_scalar 1 ⇒ note", "is_scalar 1 ⇒ note ∣", "is_scalar 1 ⇒ ∣ note", "is_scalar 1 ∣ note", "∣ note"):
            with self.assertRaisesRegex(grammar.Unreadable, "Shared.antt:2: "):
                value(line)


if __name__ == "__main__":
    unittest.main()
