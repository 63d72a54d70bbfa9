#!/usr/bin/env python3
"""That a comparison finds differences and reports them. The programs are functions here: the Rust is
played by the reading, which answers `-` where the text is refused, as the Rust judge does."""

import subprocess
import unittest
from unittest import mock

import cases
import comparison
import generate
import property_cases
import small_unicode
from cases import answers as read
from comparison import Comparison
from loading import printed

TEXT, OTHER_TEXT = [generate.case("S", 0, [item]) for item in generate.SIMPLE_KINDS[:2]]
REFUSED = TEXT.replace("S;crate;-;0;0061", "S;crate;-;0;D800")
# a kinzi at the end of the text, which crate mode repeats
KINZI = generate.case("M", 0, [choices[0] for choices in generate.KINZI])
KINZI_RUN = KINZI.replace("M;crate;-;0", "m;crate;-;6")
RUN = generate.case("s", 2, [generate.SIMPLE_KINDS[0]])
REFUSED_RUN = RUN.replace("s;crate;-;2", "s;crate;-;1")
WORDS = "W;4;2,0 18,0 18,0 18,0"
LINES = "L;Normal;crate;3;1,8,0 37,7,0 1,8,0"
LINE_STEP = "l;Normal;1935*0;44,-;1"
FILES = "F;4,4;G:34313B4C;1;0041"


def rust(lines):
    """It has no say in property files."""
    lines = list(lines)
    return ["-" if answer[:2] in ("R ", "? ") or line[:1] == "F" else answer for line, answer in zip(lines, read(lines))]


def changed(program, case, answer):
    """The program, but for its answer to one case."""
    def answers(lines):
        lines = list(lines)
        return [answer if line == case else given for line, given in zip(lines, program(lines), strict=True)]
    return answers


def third(lines):
    return list(read(lines))


def failing(_):
    raise subprocess.CalledProcessError(3, "program")


class Parts(unittest.TestCase):
    def compare(self, judges, name, *lines):
        """The count of cases and what is printed."""
        return printed(judges.part, name, lines)

    def assert_differs(self, judges, name, line, *words):
        _, output = self.compare(judges, name, line)
        self.assertEqual(judges.differences, 1, output)
        for word in (f"{name}: DIFFERS: ", *words):
            self.assertIn(word, output)

    def test_agreement(self):
        judges = Comparison(rust, third)
        count, output = self.compare(judges, "S", TEXT, OTHER_TEXT, REFUSED)
        self.assertEqual((count, judges.differences), (6, 0))
        self.assertEqual(output, "S: 6 cases, 2 by the Rust, 1 refused, 3 whole\n")
        self.compare(judges, "M", KINZI)
        self.compare(judges, "W", WORDS)
        self.assertEqual(self.compare(judges, "L", LINES, LINE_STEP), (2, "L: 2 cases, 1 by the Rust, 1 refused, 0 whole\n"))
        self.compare(judges, "layout", "S;crate", "# skipped", "", TEXT)
        count, output = self.compare(judges, "runs-s", RUN, REFUSED_RUN, KINZI_RUN)
        self.assertEqual((count, judges.differences), (6, 0))
        self.assertEqual(output, "runs-s: 6 cases, 2 by the Rust, 1 refused, 3 whole, 1 equal in whole mode, 1 read in crate mode\n")

    def test_the_reading_and_the_rust(self):
        judges = Comparison(changed(rust, TEXT, "1|0>1:0061.2.0.0:n0061.."))
        self.assert_differs(judges, "S", TEXT, "the reading against the Rust", f"case     {TEXT}",
                            "expected 1|0>1:0061.2.0.0:n0061..", "given    1|0>1:0061.0.0.0:n0061..")
        self.assert_differs(Comparison(changed(rust, WORDS, "1 0 1 0")), "W", WORDS, "the reading against the Rust")
        self.assert_differs(Comparison(changed(rust, LINES, "1 1 3")), "L", LINES, "the reading against the Rust")
        self.assert_differs(Comparison(changed(rust, LINE_STEP, "0;0,1")), "l", LINE_STEP, "given    -")

    def test_one_of_them_refuses(self):
        self.assert_differs(Comparison(changed(rust, TEXT, "-")), "S", TEXT, "expected -")
        self.assert_differs(Comparison(changed(rust, REFUSED, "1|0>1:D800.0.0.0:nD800..")), "S", REFUSED, "given    -")

    def test_full_runs(self):
        """The Rust answers the stepping calls that a run consists of."""
        wrong = changed(rust, TEXT, "1|0>1:0061.2.0.0:n0061..")
        self.assert_differs(Comparison(wrong), "runs-s", RUN, "a law of whole mode", "expected 1 1|0061.2.0")
        self.assert_differs(Comparison(wrong), "full", RUN, "the reading against the Rust", "expected 1 1|0061.2.0")
        wrong = changed(rust, KINZI, "3|0>3:1004.4.0.0,103A.4.1.0,1039.4.2.0,1039.0.2.0:n-B.")
        self.assert_differs(Comparison(wrong), "runs-m", KINZI_RUN, "the reading against the Rust", "1039.0.0")
        self.assert_differs(Comparison(changed(rust, TEXT, "-")), "runs-s", RUN, "expected -")
        wrong = changed(rust, REFUSED, "1|0>1:D800.0.0.0:nD800..")
        self.assert_differs(Comparison(wrong), "runs-s", REFUSED.replace("S;crate;-;0", "s;crate;-;2"), "given    -")

    def test_laws_of_whole_mode(self):
        for name, line in (("S", TEXT), ("runs-s", RUN)):
            whole = generate.whole(line)
            with mock.patch("comparison.cases.answers", changed(third, whole, "0 0|" if name == "runs-s" else "1")):
                self.assert_differs(Comparison(rust), name, line, "a law of whole mode")

    def test_a_third_program(self):
        for name, line in (("S", TEXT), ("M", KINZI), ("W", WORDS), ("L", LINES), ("l", LINE_STEP), ("runs-s", RUN), ("S", REFUSED),
                           ("runs-s", REFUSED_RUN)):
            with self.subTest(line):
                self.assert_differs(Comparison(rust, changed(third, line, "wrong")), name, line,
                                    "the program against the judges", "given    wrong")

    def test_a_third_program_in_whole_mode(self):
        for name, line in (("S", TEXT), ("M", KINZI), ("runs-s", RUN)):
            with self.subTest(line):
                judges = Comparison(rust, changed(third, generate.whole(line), "wrong"))
                self.assert_differs(judges, name, line, "the program against the judges", generate.whole(line))

    def test_a_third_program_that_breaks_off(self):
        self.assert_differs(Comparison(rust, failing), "S", TEXT, "the program failed")
        self.assert_differs(Comparison(rust, lambda lines: third(lines)[:-1]), "S", TEXT, "0 answers to 1 cases")

    def test_the_other_parts_go_on(self):
        judges = Comparison(changed(rust, TEXT, "-"))
        self.compare(judges, "S", TEXT)
        self.compare(judges, "W", WORDS)
        self.compare(judges, "exhaustive-S", TEXT)
        self.assertEqual(judges.differences, 2)

    def test_property_files(self):
        """The Rust has no say."""
        judges = Comparison(rust, third, kinds="F")
        self.assertEqual(self.compare(judges, "F", FILES, TEXT), (1, "F: 1 cases, 0 by the Rust, 0 refused, 0 whole\n"))
        self.assertEqual(judges.differences, 0)
        wrong = changed(third, FILES, "? 1")
        self.assert_differs(Comparison(rust, wrong), "F", FILES, "the program against the judges", "expected ok|0041-0041.4||4,0")
        judges = Comparison(rust, wrong, kinds="W")
        self.assertEqual(self.compare(judges, "F", FILES), (0, ""))
        self.assertFalse(any(judges.may_have_chosen(part) for part in property_cases.RANDOM | property_cases.FIXED))

    def test_parts_that_there_are(self):
        self.assertLessEqual({*comparison.CLUSTER_PARTS, *comparison.RUN_PARTS}, {*generate.RANDOM, *generate.FIXED})

    def test_kinds(self):
        judges = Comparison(changed(rust, TEXT, "-"), kinds="W")
        self.assertEqual(self.compare(judges, "S", TEXT), (0, ""))
        self.assertFalse(judges.may_have_chosen("exhaustive-S"))
        self.assertTrue(judges.may_have_chosen("W") and judges.may_have_chosen("refusals"))


class RealLabels(unittest.TestCase):
    def compare(self, answer):
        judges = Comparison(rust)
        with mock.patch("comparison.real_labels.all_pairs", lambda: [(TEXT, answer)]):
            count, output = printed(comparison.compare_real, judges)
        return count, judges.differences, "DIFFERS" in output

    def test_the_crates_answer(self):
        self.assertEqual(self.compare(cases.answer(TEXT)), (1, 0, False))
        self.assertEqual(self.compare("1|0>1:0061.2.0.0:n0061.."), (1, 1, True))


class Published(unittest.TestCase):
    def test_a_line_that_differs(self):
        folder = small_unicode.folder(self)
        judges = Comparison(rust)
        self.assertEqual(printed(comparison.compare_unicode, judges, folder)[0], 17)
        self.assertEqual(judges.differences, 0)
        file = folder / "auxiliary/WordBreakTest.txt"
        file.write_text(file.read_text().replace("÷ 0021 ÷ 0041", "÷ 0021 × 0041"))
        self.assertIn("NO ENTRY", printed(comparison.compare_unicode, judges, folder)[1])
        self.assertEqual(judges.differences, 1)

    def test_the_property_files(self):
        folder = small_unicode.folder(self)
        for program, expected in ((third, (7 + 1 + 2 * 5, 0)), (failing, (0, 2))):
            judges = Comparison(rust, program, kinds="F")
            with mock.patch("real_properties.EVERY_SCALAR", range(0x400)):
                count, output = printed(comparison.compare_properties, judges, folder, 1, 5)
            self.assertEqual((count, judges.differences), expected, output)


if __name__ == "__main__":
    unittest.main()
