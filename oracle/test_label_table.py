#!/usr/bin/env python3
"""That `make-label-table --check` notices a line that is not what Unicode's files say, and files that the lines do not make."""

import unittest
from unittest import mock

import loading
import small_unicode

table = loading.command("data/make-label-table")
MODEL = "# Myanmar, by the model"


def line(scalar, brk, category, mark="-", myanmar="O", heading="# some"):
    return scalar, scalar, [brk, myanmar, category], mark, heading


RIGHT = [line(0x0D, "CR", "Control"), line(0x300, "EX", "Other"), line(0x1003, "XX", "Other", myanmar="C", heading=MODEL),
         line(0x1F600, "XX", "Other", "emoji")]


class Unicode(unittest.TestCase):
    def setUp(self):
        self.folder = small_unicode.folder(self)

    def test_right_lines(self):
        self.assertEqual(list(table.unicode_differences(RIGHT, self.folder)), [])

    def test_each_wrong_line(self):
        for wrong in (line(0x0D, "CN", "Control"), line(0x0D, "CR", "Other"), line(0x1F600, "XX", "Other"),
                      line(0x300, "EX", "Other", "selector"), line(0x41, "XX", "Other"),
                      line(0x1003, "XX", "Other", myanmar="IV", heading=MODEL)):
            with self.subTest(wrong):
                self.assertEqual(len(list(table.unicode_differences([wrong], self.folder))), 1)


class Made(unittest.TestCase):
    def setUp(self):
        self.folder = small_unicode.folder(self)
        self.files = {table.CODE: table.code(RIGHT), table.SPEC: table.spec(RIGHT)}

    def check(self):
        with mock.patch.object(table, "read", self.files.get):
            return loading.printed(table.check, RIGHT, self.folder)

    def test_what_the_lines_make(self):
        self.assertEqual(self.check(), (0, "label's table: 4 lines, 4 characters, as Unicode 15.0 has them\n"))

    def test_the_formatters_changes_are_none(self):
        self.files[table.CODE] = self.files[table.CODE].replace("[", "[\n    ").replace(", ", ",\n    ").replace("]", ",\n]")
        self.assertEqual(self.check()[0], 0)

    def test_a_change_is_noticed(self):
        for path in (table.CODE, table.SPEC):
            right = self.files[path]
            self.files[path] = right.replace("0", "1", 1)
            self.assertEqual(self.check(), (1, f"{path} is not what {table.SOURCE} makes: run data/make-label-table\n"))
            self.files[path] = right


if __name__ == "__main__":
    unittest.main()
