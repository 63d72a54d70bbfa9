#!/usr/bin/env python3
"""That the generated cases are of the layout, the same for the same seed, and meet what they are for."""

import itertools
import unittest

import cases
import generate
import grapheme_cases
import laws
import line_cases
import line_reading
import property_cases
import reading

COUNT = 100


def some(part, seed=1):
    """The first cases of a part."""
    return list(itertools.islice(generate.generate(part, seed, COUNT), COUNT))


def refusal_numbers(lines):
    """The numbers of the refusals that the reading gives to cases."""
    answers = map(cases.answer, lines)
    return {int(answer.split(" ")[1]) for answer in answers if answer.startswith("R ")}


class Layout(unittest.TestCase):
    def test_every_part_but_one_is_of_the_layout(self):
        for part in {*generate.RANDOM, *generate.FIXED} - {"layout", "line-layout", "layout-F", "layout-G", "layout-g", "long", "sizes-F"}:
            for line in some(part):
                with self.subTest(part, line=line[:200]):
                    cases.answer(line)

    def test_the_other_has_lines_of_every_sort(self):
        lines = list(generate.not_of_layout())
        answers = list(cases.answers(lines))
        self.assertEqual(len(lines) - len(answers), sum(map(cases.is_skipped, lines)))
        self.assertTrue(any(answer.startswith("? ") for answer in answers))
        self.assertTrue(any(not answer.startswith("? ") for answer in answers))

    def test_texts_are_in_crate_mode_and_have_a_twin(self):
        for part in ("S", "M", "C", "runs-s", "runs-m", "runs-c", "runs-khmer", "places", "split-runs"):
            for line in some(part):
                self.assertEqual(line.split(";")[1], "crate")
                self.assertEqual(generate.whole(line).replace("whole", "crate"), line)


class Seeds(unittest.TestCase):
    def test_the_same_seed_gives_the_same_cases(self):
        for part in generate.RANDOM:
            with self.subTest(part):
                self.assertEqual(some(part), some(part))
                self.assertEqual(len(some(part)), COUNT)
                self.assertNotEqual(some(part), some(part, seed=2))


class Meant(unittest.TestCase):
    def test_refusals(self):
        self.assertEqual(refusal_numbers(generate.refusals()), {3, 4, 5, 6, 7, 8, 9})
        short = itertools.islice(generate.damaged_runs(), 2_000)
        self.assertEqual(refusal_numbers(short), {3, 4, 5, 6})

    def test_too_long(self):
        too_long = [line for line in generate.long_refusals() if line.count(" ") == reading.LONGEST]
        self.assertEqual(len(too_long), 8)
        self.assertEqual({cases.answer(line) for line in too_long}, {"R 1 0 -"})

    def test_the_edges_are_those_of_the_lists(self):
        self.assertEqual(list(generate.RECORD_EDGES.values()), list(map(len, reading.RECORD_LISTS)))
        self.assertEqual(list(generate.PART_EDGES.values()), list(map(len, reading.PART_LISTS)))

    def test_random_texts_meet_the_repeats(self):
        for part in "SMC":
            with self.subTest(part):
                self.assertFalse(all(laws.is_ordinary(cases.answer(line)) for line in some(part)))

    def test_line_breaks(self):
        self.assertEqual(refusal_numbers(line_cases.refusals()), {4, 8, 9, 10})
        self.assertEqual({cases.answer(line) for line in line_cases.long_cases() if line.count(" ") == reading.LONGEST}, {"R 1 0 -"})
        steps = set(line_cases.exhaustive_steps())
        self.assertEqual(len(steps), 3 * 53 * 44 * 43)
        answers = [cases.answer(line) for line in some("L") if line.split(";")[2] == "crate"]
        self.assertEqual({sign for answer in answers if answer[:1] != "R" for sign in answer.split()}, set("0123"))

    def test_random_tables_of_every_sort(self):
        tables = {line.split(";")[2] for line in generate.generate("l", 1, 2_000)}
        self.assertIn("crate", tables)
        self.assertIn("", tables)
        read = [cases.table(table) for table in tables]
        self.assertLessEqual({45, 64, 94}, {table.rows for table in read if table.is_sound})
        self.assertTrue(any(not table.is_sound and len(table.cells) % line_reading.WIDTH == 0 and table.rows >= 45 for table in read))

    def test_property_files_of_every_sort(self):
        answers = [cases.answer(line).split("|") for line in generate.generate("F", 1, 600)]
        refused = [verdict.split(" ") for *verdicts, _, _, _ in answers for verdict in verdicts if verdict != "ok"]
        self.assertEqual({number for _, number, _, _ in refused}, {"11", "12", "13", "14"})
        self.assertTrue(any(int(line) > 9 for _, _, line, _ in refused))
        self.assertEqual({lookup[:3] for *_, lookup in answers if lookup.startswith("R ")}, {"R 3", "R 9"})

    def test_property_files_of_every_size(self):
        blocks = [block for line in property_cases.sizes() for block in line.split(";")[2].split(" ")]
        self.assertLessEqual({0xFFFF, 0x10000, 0x10001}, {len(block) // 2 - 1 for block in blocks})

    def test_clusters_of_uax29(self):
        for engine in grapheme_cases.ENGINES:
            self.assertEqual(refusal_numbers(grapheme_cases.refusals(engine)), {4, 9})
            too_long = [line for line in grapheme_cases.long_runs(engine) if line.count(" ") == reading.LONGEST]
            self.assertEqual({cases.answer(line) for line in too_long}, {"R 1 0 -"})
            self.assertEqual({line[0] for part in (engine, f"exhaustive-{engine}", f"layout-{engine}") for line in some(part)} - {" "}, {engine})
        self.assertEqual(refusal_numbers(generate.generate("G", 1, 2_000)), {4, 9})
        self.assertEqual(sum(1 for _ in grapheme_cases.exhaustive("g")), sum(28 ** length for length in range(5)) + 7 ** 5 + 7 ** 6)

    def test_every_word_step_once(self):
        steps = list(generate.word_steps())
        states, records, following = 2 * 19 * 2 * 3, 19 * 2, 20
        self.assertEqual(len(steps), states * records * following)
        self.assertEqual(len(set(steps)), len(steps))


if __name__ == "__main__":
    unittest.main()
