#!/usr/bin/env python3
"""What binds answers to each other: that each law holds of right answers and is broken by wrong ones."""

import unittest

import cases
import generate
import laws

MARK = generate.SIMPLE_KINDS[10]
# two clusters, then a cluster of 32 and a repeat, then a kinzi at the end and a repeat
PLAIN = generate.case("S", 0, generate.SIMPLE_KINDS[:2])
FULL = generate.case("S", 0, [generate.SIMPLE_KINDS[0]] + [MARK] * 31)
KINZI = generate.case("M", 0, [choices[0] for choices in generate.KINZI])
NOTED = generate.case("S", 0, [generate.EMOJI, generate.EMOJI_TAIL[0]])
# a base, and a marked record without parts
ALONE = generate.case("C", 0, [generate.USE_BY_KIND["B"], generate.WITHOUT_PARTS[1]])


def fault(line, crate, whole):
    return laws.whole_fault(generate.whole(line), crate, whole)


class FullRuns(unittest.TestCase):
    def test_twin(self):
        self.assertEqual(laws.stepping_twin("m;crate;-;9;A B;C"), "M;crate;-;0;A B;C")
        for line in (PLAIN, "W;1;0,0", "w;0,0,0,0;0,0;-", "m;crate", ""):
            self.assertEqual(laws.stepping_twin(line), line)

    def test_a_run_is_its_calls(self):
        for line in (PLAIN, FULL, KINZI, NOTED):
            run = line[0].lower() + line[1:].replace(";0;", ";99;", 1)
            self.assertEqual(laws.full_run(cases.answer(line)), cases.answer(run))
        self.assertEqual(laws.full_run("0"), "0 0|")

    def test_judgement(self):
        answer = cases.answer(PLAIN)
        self.assertEqual(laws.rust_judgement(PLAIN, answer), answer)
        self.assertIsNone(laws.rust_judgement(generate.whole(PLAIN), answer))
        for cells, judged in (("4", laws.full_run(answer)), ("5", laws.full_run(answer)), ("3", "-"), ("x", "-"), ("\u00b2", "-")):
            self.assertEqual(laws.rust_judgement(f"s;crate;-;{cells};A B;", answer), judged, cells)
        self.assertEqual(laws.rust_judgement("s;crate;-;4;A B;", "-"), "-")


class WholeMode(unittest.TestCase):
    def test_ordinary(self):
        ordinary = [laws.is_ordinary(cases.answer(line)) for line in (PLAIN, NOTED, FULL, KINZI)]
        self.assertEqual(ordinary, [True, True, False, False])

    def test_right_answers(self):
        for line in (PLAIN, NOTED, FULL, KINZI, ALONE, ALONE.replace(";0;", ";2;", 1), ALONE.replace(";0;", ";3;", 1),
                     PLAIN.replace("0061", "D800")):
            self.assertIsNone(fault(line, cases.answer(line), cases.answer(generate.whole(line))))

    def test_refused_in_one_mode(self):
        self.assertIn("one mode only", fault(PLAIN, "R 3 0 r", cases.answer(PLAIN)))

    def test_sees_more(self):
        parts = ["0061,1,0,0"]  # which ends as such a record does
        for line, expected in ((ALONE, True), (ALONE.replace("C", "c", 1), True), (ALONE.replace("C", "S", 1), False), (PLAIN, False),
                               (generate.case("C", 0, [generate.marked(0, 1)], parts), False), ("C;crate", False)):
            self.assertEqual(laws.sees_more(generate.whole(line)), expected, line)

    def test_refused_in_one_mode_where_whole_mode_sees_more(self):
        place = ALONE.replace(";0;", ";2;", 1)
        self.assertEqual((cases.answer(place), cases.answer(generate.whole(place))), ("R 8 0 -", "2"))
        self.assertIn("one mode only", fault(ALONE, "R 3 0 r", cases.answer(generate.whole(ALONE))))

    def test_a_record_in_no_cluster(self):
        self.assertIn("neither pushed nor noted", fault(ALONE, cases.answer(ALONE), cases.answer(ALONE)))
        noted = generate.case("C", 0, [generate.EMOJI, generate.WITHOUT_PARTS[7]])
        self.assertIsNone(fault(noted, cases.answer(noted), cases.answer(generate.whole(noted))))

    def test_other_answers_where_crate_mode_is_ordinary(self):
        self.assertIn("other answers", fault(PLAIN, cases.answer(PLAIN), "2|0>2:0061.0.0.0,0085.0.1.0:n-.."))

    def test_a_token_pushed_twice_or_passed_over(self):
        crate = cases.answer(KINZI)
        self.assertIn("pushed twice", fault(KINZI, crate, crate))
        self.assertIn("passed over", fault(KINZI, crate, "3|0>3:1004.4.0.0,103A.4.1.0:n-.."))

    def test_gaps_and_the_end(self):
        crate = cases.answer(KINZI)
        self.assertIn("a gap", fault(KINZI, crate, "3|0>1:1004.4.0.0:n-..|2>3:1039.4.2.0:n-.."))
        self.assertIn("the end", fault(KINZI, crate, "3|0>2:1004.4.0.0,103A.4.1.0:n-.."))


if __name__ == "__main__":
    unittest.main()
