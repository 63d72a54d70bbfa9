#!/usr/bin/env python3
"""That class lists are read whole, or not at all."""
import unittest

import class_lists

LIST = """// Two classes. A second sentence.
pub const One: u8 = 0;

pub const TWO: u8 = 1;

// How many there are.
pub const LEN: u8 = 2;
"""


class Parsed(unittest.TestCase):
    def test_the_names_and_the_first_sentence(self):
        self.assertEqual(class_lists.parsed("two", LIST), ("Two classes.", {"One": 0, "TWO": 1}))

    def test_a_list_with_a_gap_is_refused(self):
        for changed in (LIST.replace("TWO: u8", "TWO: u16"), LIST.replace("= 1", "= 2"), LIST.replace("LEN: u8 = 2", "LEN: u8 = 3"),
                        LIST.replace("pub const LEN", "const LEN")):
            with self.assertRaisesRegex(SystemExit, "two.rt"):
                class_lists.parsed("two", changed)


if __name__ == "__main__":
    unittest.main()
