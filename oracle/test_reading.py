#!/usr/bin/env python3
"""Corners of SCOPE 6 and 7, each on a single text, the refusals that a case cannot hold (columns of
different lengths), and that the reading's lists of codes are those of crates/classes."""

import pathlib
import sys
import unittest

import cases
import generate
import reading
from generate import EMOJI, EMOJI_TAIL, JOINER, KINZI, MYANMAR_BY_KIND, USE_BY_KIND, case, record, whole

sys.path.append(str(pathlib.Path(__file__).resolve().parent.parent / "tools"))
from class_lists import class_list

THREE = [choices[0] for choices in KINZI]
CR, LF = generate.STANDING_ALONE[:2]


def clusters(line):
    """For each call its shape classes and its signs."""
    calls = [call.split(":") for call in cases.answer(line).split("|")[1:]]
    return [([int(character.split(".")[1]) for character in characters.split(",")], signs)
            for _, characters, signs in calls]


def classes(line):
    return [shapes for shapes, _ in clusters(line)]


class Lists(unittest.TestCase):
    def test_codes(self):
        lists = {"cluster_break": reading.CLUSTER_BREAK, "use_class": reading.USE, "myanmar_class": reading.MYANMAR,
                 "category": reading.CATEGORY, "word_break": reading.WORD}
        for name, read in lists.items():
            with self.subTest(name):
                self.assertEqual([word.lower() for word in class_list(name).codes], [word.lower() for word in read])


class Lengths(unittest.TestCase):
    def test_longer_than_the_limit_comes_first(self):
        self.assertEqual(reading.lengths_refusal([4097, 4096], [1] * 4), reading.Refusal(1))
        self.assertEqual(reading.lengths_refusal([0] * 14, [4096, 4097, 0, 0]), reading.Refusal(1))

    def test_columns_of_one_set_differ(self):
        self.assertEqual(reading.lengths_refusal([3] * 13 + [2], [1] * 4), reading.Refusal(2))
        self.assertEqual(reading.lengths_refusal([3] * 14, [1, 1, 0, 1]), reading.Refusal(2))
        self.assertIsNone(reading.lengths_refusal([4096] * 14, [0] * 4))


class Corners(unittest.TestCase):
    def test_joiner_at_the_start_of_a_call(self):
        text = whole(case("M", 0, [MYANMAR_BY_KIND["C"]] + [JOINER] * 32))
        self.assertEqual([len(shapes) for shapes in classes(text)], [32, 1])
        self.assertEqual(clusters(text)[1], ([reading.OTHER], "n-B."))

    def test_repeat_b_goes_by_the_last_tokens_class(self):
        text = case("M", 0, THREE[:2] + [record(0x1039, myanmar="C")])
        self.assertEqual(clusters(text), [([reading.KINZI] * 3 + [reading.BASE], "n-..")])
        text = case("M", 0, THREE + [record(0x34F, myanmar="C")])
        self.assertEqual(clusters(text), [([reading.KINZI] * 3 + [reading.OTHER, reading.BASE], "n-..")])

    def test_the_33rd_push(self):
        for after in ([], [MYANMAR_BY_KIND["C"]]):
            text = case("M", 0, THREE + [JOINER] * 29 + after)
            self.assertEqual(clusters(text)[0], ([reading.KINZI] * 3 + [reading.OTHER] * 29, "n-.."))
            self.assertIn("|0>31:", cases.answer(text))

    def test_repeat_b_as_the_32nd(self):
        answer = cases.answer(case("M", 0, THREE + [JOINER] * 28))
        self.assertTrue(answer.startswith("31|0>31:"))
        self.assertEqual(answer.count(","), 31)

    def test_newlines(self):
        self.assertEqual(len(clusters(case("M", 0, [CR, JOINER, LF]))), 1)
        self.assertEqual(len(clusters(case("C", 0, [CR, JOINER, LF]))), 1)
        self.assertEqual(len(clusters(case("S", 0, [CR, JOINER, LF]))), 2)
        self.assertEqual(len(clusters(case("C", 0, [CR, generate.STANDING_ALONE[2]]))), 1)

    def test_newline_behind_prepended_characters(self):
        prepended, cr, lf = (generate.SIMPLE_KINDS[number] for number in (13, 2, 3))
        marked = {name: record(generate.KIND_SCALARS[name], name, simple=1) for name in ("CR", "LF")}
        for count, behind, lengths in (
            (31, [cr, lf], [31, 2]), (30, [cr, lf], [32]), (32, [cr, lf], [32, 2]), (31, [cr], [32]), (31, [cr, cr], [32, 1]),
            (31, [marked["CR"], lf], [32, 1]), (31, [cr, marked["LF"]], [31, 2]), (0, [cr, lf], [2]),
        ):
            text = whole(case("S", 0, [prepended] * count + behind))
            self.assertEqual([len(shapes) for shapes in classes(text)], lengths)
        crate = case("S", 0, [prepended] * 31 + [cr, lf])
        self.assertEqual([(len(shapes), signs) for shapes, signs in clusters(crate)], [(32, "nN.."), (2, "nN..")])
        self.assertEqual([(len(shapes), signs) for shapes, signs in clusters(whole(crate))], [(31, "n-.."), (2, "nN..")])

    def test_reph_swallows_what_is_no_base(self):
        self.assertEqual(clusters(case("C", 0, [USE_BY_KIND["R"], LF])), [([reading.REPH, reading.OTHER], "n-B.")])
        self.assertEqual(clusters(case("C", 0, [USE_BY_KIND["R"]])), [([reading.REPH], "n-..")])

    def test_emoji_zwj_extend(self):
        text = [EMOJI, EMOJI_TAIL[2], EMOJI_TAIL[4]]
        self.assertEqual(len(clusters(case("S", 0, text))), 1)
        for kind in "MC":
            self.assertEqual([signs[2] for _, signs in clusters(case(kind, 0, text))], [".", "B"])

    def test_below_vowel_and_coeng(self):
        self.assertEqual(classes(case("C", 0, [USE_BY_KIND["VBlw"]])), [[reading.VBLW]])
        self.assertEqual(classes(case("C", 0, [USE_BY_KIND["B"], USE_BY_KIND["VBlw"]])), [[reading.BASE, reading.OTHER]])
        self.assertEqual(classes(case("C", 0, [generate.COENG], script="K")), [[reading.HALANT]])
        text = [USE_BY_KIND["B"], generate.COENG]
        self.assertEqual(classes(case("C", 0, text, script="K")), [[reading.BASE, reading.OTHER]])
        self.assertEqual(classes(case("C", 0, text)), [[reading.BASE, reading.HALANT]])

    def test_many_notes(self):
        parts = [generate.PARTS[5]] * 3
        marked = generate.marked(0, 3)
        answer = cases.answer(case("C", 0, [EMOJI] + [marked] * 4095, parts))
        self.assertEqual(answer, "12286|0>12286:1F600.0.0.12285:C-..")

    def test_a_marked_record_without_parts(self):
        sign = generate.without_parts(generate.khmer_sign(0x17BE, complex_=1))
        for script in "-K":
            text = case("C", 0, [sign], script=script)
            self.assertEqual((cases.answer(text), cases.answer(whole(text))), ("0", "1|0>1:17BE.0.0.0:D-.."))
        for kind in "SM":
            self.assertEqual(cases.answer(case(kind, 0, [sign])), cases.answer(whole(case(kind, 0, [sign]))))
        text = case("C", 0, [generate.marked(0, 1)], generate.PARTS)
        self.assertEqual(cases.answer(text), cases.answer(whole(text)))

    def test_its_place_and_room(self):
        for place, crate, of_whole in ((0, "0", "1|0>1:0900.0.0.0:n-.."), (1, "R 8 0 -", "1"), (2, "R 8 0 -", "R 8 0 -")):
            text = case("C", place, generate.WITHOUT_PARTS[:1])
            self.assertEqual((cases.answer(text), cases.answer(whole(text))), (crate, of_whole))
        for cells, of_whole in ((0, "R 9 0 -"), (1, "R 9 0 -"), (2, "1 1|0900.0.0")):
            text = case("c", cells, generate.WITHOUT_PARTS[:1])
            self.assertEqual((cases.answer(text), cases.answer(whole(text))), ("0 0|", of_whole))

    def test_word_step(self):
        self.assertEqual(cases.answer("w;1,0,1,2;0,0;-"), "1;0,0,1,2")
        self.assertEqual(cases.answer("w;0,8,1,2;0,0;-"), "0;0,0,0,2")
        self.assertEqual(cases.answer("w;0,0,0,0;0,0;19"), "R 4 0 r;0,0,0,0")


if __name__ == "__main__":
    unittest.main()
