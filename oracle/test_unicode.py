#!/usr/bin/env python3
"""That the published files are read as they are meant, and that answers which differ from them are found, by
unicode.py and by uax29.py's rules."""

import unittest

import cases
import small_unicode
import uax29
import unicode
from loading import printed


def text(kinds, rule, marks=""):
    """A text of kinds, pictographs where `marks` has a 1."""
    kinds = kinds.split()
    return uax29.Text(list(zip(kinds, map(int, marks or "0" * len(kinds)))), rule)


class Published(unittest.TestCase):
    def setUp(self):
        self.folder = small_unicode.folder(self)
        self.clusters, self.words = unicode.test_lines(self.folder)

    def test_lines(self):
        self.assertEqual((len(self.clusters), len(self.words)), (3, 2))
        line = self.clusters[1]
        self.assertEqual(line.scalars, [0x0D, 0x0A, 0x1F600, 0x200D, 0x1F601])
        self.assertEqual(line.stated, [1, 0, 1, 0, 0])
        self.assertEqual(line.kinds, ["CR", "LF", "XX", "ZWJ", "XX"])
        self.assertEqual(line.marks, [0, 0, 1, 0, 1])
        self.assertEqual(self.words[0].kinds, ["ALetter", "NU", "ALetter"])

    def test_lines_that_are_wrapped(self):
        lines = unicode.wrapped_lines(self.folder)
        self.assertEqual(lines[0].stated, [0, 0, 1])
        self.assertEqual(unicode.wrapped_case(lines[0]), "L;Normal;crate;3;1,8,0 37,0,0 20,0,1")
        self.assertEqual(lines[2].is_wide, [False, False, True])
        self.assertEqual([line.is_unassigned_pictograph[0] for line in lines], [False] * 5 + [True])

    def test_what_stands_before_by_the_rules(self):
        line = unicode.wrapped_lines(self.folder)[0]
        for kinds, seen in (("CP CM ZWJ IN", "CP"), ("SP CM OP", "AL"), ("CM OP", "AL"), ("CJ NU", "NS"), ("XX CM OP", "AL"), ("SP OP", "SP")):
            line.kinds = kinds.split()
            self.assertEqual(unicode.seen_before(line, len(line.kinds) - 1), seen, kinds)

    def test_plain(self):
        self.assertEqual([unicode.is_plain_cluster(line) for line in self.clusters], [True, True, False])
        self.assertEqual([unicode.is_plain_word(line) for line in self.words], [True, True])

    def answers(self, *changes):
        """The reading's answers, some of them changed: (number, old, new)."""
        answers = list(cases.answers(unicode.all_cases(self.folder)))
        for at, old, new in changes:
            self.assertIn(old, answers[at])
            answers[at] = answers[at].replace(old, new)
        return printed(unicode.check_all, self.folder, answers)

    def test_the_readings_answers(self):
        status, output = self.answers()
        self.assertEqual(status, 0, output)
        self.assertIn("GraphemeBreakTest: 3 lines, 2 of them plain; 2 agree, 1 differ", output)
        self.assertIn("    1 one RI a cluster", output)
        self.assertIn("WordBreakTest: 2 lines, 2 of them plain; 2 agree, 0 differ", output)
        self.assertIn("LineBreakTest: 6 lines; 2 agree, 4 differ", output)
        for engine in ("looking back", "forward"):
            self.assertIn(f"GraphemeBreakTest by the rules, {engine}: 3 lines; 3 agree, 0 differ\n", output)
        for entry in unicode.LINE_ENTRIES:
            self.assertIn(f"    1 {entry}\n", output)

    def test_differences_without_an_entry(self):
        for change in ((0, "|2>3:", "|1>3:"), (1, "|2>5:", "|3>5:"), (3, "1 0 0", "1 0 1"), (4, "1 1", "1 0"), (5, "1 1 2", "1 2 2"),
                       (6, "1 0 3", "1 0 1"), (7, "1 0", "2 0"), (8, "1 1", "1 2"), (11, "1 0 1", "1 0 0"), (12, "1 0 1 0 0", "1 0 1 0 1"), (13, "1 0", "1 1"),
                       (15, "1 0 1 0 0", "1 1 1 0 0"), (16, "1 0", "1 1")):
            with self.subTest(change):
                status, output = self.answers(change)
                self.assertEqual(status, 1)
                self.assertIn("NO ENTRY", output)

    def test_too_few_answers(self):
        with self.assertRaises(ValueError):
            printed(unicode.check_all, self.folder, list(cases.answers(unicode.all_cases(self.folder)))[:-1])

    def test_the_rules_agree_with_the_lines(self):
        self.assertEqual(uax29.published_faults(self.folder), 0)
        file = self.folder / "auxiliary/WordBreakTest.txt"
        file.write_text(file.read_text().replace("÷ 0021 ÷ 0041", "÷ 0021 × 0041"))
        self.assertEqual(uax29.published_faults(self.folder), 1)


class Rules(unittest.TestCase):
    def clusters(self, kinds, marks=""):
        return "".join(map(str, text(kinds, uax29.is_cluster_start, marks).stated))

    def words(self, kinds, marks=""):
        return "".join(map(str, text(kinds, uax29.is_word_start, marks).stated))

    def test_clusters(self):
        self.assertEqual(self.clusters("CR LF EX"), "101")
        self.assertEqual(self.clusters("L L V T LV"), "10001")
        self.assertEqual(self.clusters("PP XX SM CN"), "1001")
        self.assertEqual(self.clusters("RI RI RI RI RI"), "10101")
        self.assertEqual(self.clusters("XX EX ZWJ XX", "1001"), "1000")
        self.assertEqual(self.clusters("XX EX ZWJ XX", "0001"), "1001")

    def test_words(self):
        self.assertEqual(self.words("ALetter MidNumLet ALetter MidNumLet Other"), "10011")
        self.assertEqual(self.words("ALetter Extend ML FO HL"), "10000")
        self.assertEqual(self.words("NU MN NU MN ALetter"), "10011")
        self.assertEqual(self.words("HL SQ Other HL DQ HL"), "101100")
        self.assertEqual(self.words("KA KA EX ALetter"), "1000")
        self.assertEqual(self.words("LF RI RI RI RI"), "11010")
        self.assertEqual(self.words("WSegSpace WSegSpace Extend WSegSpace"), "1001")
        self.assertEqual(self.words("Other ZWJ Other", "101"), "100")


class Hold(unittest.TestCase):
    """uax29.py on one text, with answers that are wrong."""

    def hold(self, kinds, answers):
        texts = [[(kind, 0) for kind in kinds.split()]]
        return printed(uax29.hold, "clusters", texts, uax29.is_cluster_start, lambda _: answers, unicode.is_plain_cluster,
                       unicode.CLUSTER_ENTRIES)

    def test_agreement(self):
        self.assertEqual(self.hold("XX EX", [1, 0])[0], 0)

    def test_a_difference_under_an_entry(self):
        faults, output = self.hold("RI RI", [1, 1])
        self.assertEqual(faults, 0)
        self.assertIn("     1 one RI a cluster", output)

    def test_a_difference_without_one(self):
        faults, output = self.hold("XX EX", [1, 1])
        self.assertEqual(faults, 1)
        self.assertIn("NO ENTRY", output)


if __name__ == "__main__":
    unittest.main()
