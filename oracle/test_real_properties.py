#!/usr/bin/env python3
"""That real_properties.py notices what is not so, on small files; and, where Unicode's own are at hand, what they hold."""

import pathlib
import sys
import unittest
from unittest import mock

import cases
import property_reading
import real_properties
import small_unicode
from loading import printed
from property_reading import CLUSTER_CODES, WORD_CODES

UNICODE = pathlib.Path("/usr/share/unicode")


class SmallFiles(unittest.TestCase):
    def setUp(self):
        self.folder = small_unicode.folder(self)
        self.change("PropertyValueAliases.txt", lambda _: "".join(
            f"{name} ; x ; {value}\n" for name, codes in (("GCB", CLUSTER_CODES), ("WB", WORD_CODES)) for value in codes))
        for name, total in (("Grapheme", 8), ("Word", 17)):
            self.change(f"auxiliary/{name}BreakProperty.txt", lambda text, total=total: f"{text}# Total code points: {total}\n")

    def change(self, name, edit):
        file = self.folder / name
        file.write_text(edit(file.read_text() if file.exists() else ""))

    def run_over_them(self, *words):
        with (mock.patch.object(sys, "argv", ["real_properties.py", str(self.folder), *words]),
              mock.patch("real_properties.EVERY_SCALAR", range(0xE010))):
            return printed(real_properties.main)

    def run_with(self, program):
        """A program is a function from lines to answers here."""
        with mock.patch("programs.answers", lambda command, lines: program(list(lines))):
            return self.run_over_them("--with", "the program")

    def assert_not_so(self, *words):
        status, output = self.run_over_them()
        self.assertEqual(status, 1)
        for word in ("NOT SO: ", *words):
            self.assertIn(word, output)

    def test_what_it_prints(self):
        self.change("auxiliary/GraphemeBreakProperty.txt", lambda text: text.replace("1F1E6..1F1E8", "D7FF..D801"))
        status, output = self.run_over_them()
        self.assertEqual((status, output.splitlines()), (0, [
            "18 names of GCB are those of PropertyValueAliases.txt", "23 names of WB are those of PropertyValueAliases.txt",
            "auxiliary/GraphemeBreakProperty.txt: 156 bytes in 1 blocks, 5 ranges, 0 neighbours touch",
            "auxiliary/WordBreakProperty.txt: 106 bytes in 1 blocks, 5 ranges, 0 neighbours touch",
            "57360 scalars have the classes of the other parse, 8 and 17 of them another than XX and Other; 55312 were looked up"]))

    def test_a_line_that_is_refused(self):
        self.change("auxiliary/WordBreakProperty.txt", lambda text: text.replace("ALetter", "Aletter"))
        self.assert_not_so("WordBreakProperty.txt: block 1 is refused: Refusal(number=12, index=3, side='l')")

    def test_another_total(self):
        self.change("auxiliary/WordBreakProperty.txt", lambda text: text.replace("17", "18"))
        self.assert_not_so("17 scalars, and its comments say 18")

    def test_other_classes(self):
        for values in ({0xD: "CR", 0xA: "CN"}, {0xDBFF: "CN"}):
            with mock.patch("property_files.grapheme_breaks", lambda _, values=values: values):
                self.assert_not_so("scalars have other classes, first U+")

    def test_another_name(self):
        self.change("PropertyValueAliases.txt", lambda text: text.replace("WSegSpace", "Blank"))
        self.assert_not_so("the names of WB: ['Blank', 'WSegSpace'] in one list only")

    def test_another_cut(self):
        with mock.patch("real_properties.other_cuts", lambda _: [[b"41;CR"], [b"\n"]]):
            self.assert_not_so("other ranges where it is cut into 1 blocks")

    def test_a_program(self):
        with mock.patch("real_properties.MOST_ASKED", 20_000):
            status, output = self.run_with(lambda lines: list(cases.answers(lines)))
        self.assertEqual(status, 0, output)
        self.assertRegex(output, r"^55312 scalars have the classes of the other parse by the program, 3 lines, the longest of \d+ bytes\n$")

    def test_a_program_that_is_wrong(self):
        def wrong(edit):
            status, output = self.run_with(lambda lines: [edit(answer) for answer in cases.answers(lines)])
            self.assertEqual(status, 1)
            return output

        self.assertIn("the program has other classes of U+0000: (0, 1), not (0, 0)", wrong(lambda answer: answer.replace("|0,0", "|0,1")))
        self.assertIn("the program refuses: R 12 3 l ok", wrong(lambda answer: answer.replace("ok", "R 12 3 l", 1)))
        self.assertIn("the program refuses: ok ok R 9 0 -", wrong(lambda answer: answer[:answer.rindex("|")] + "|R 9 0 -"))

    def test_cutting(self):
        data = b"ab\nc\r\n\n0123456\nde"
        self.assertEqual(real_properties.cut(data, 8), [b"ab\nc\r\n\n", b"0123456\n", b"de"])
        self.assertEqual(real_properties.cut(data, 100), [data])


@unittest.skipUnless((UNICODE / real_properties.FILES["G"]).is_file(), "Unicode's files are not at hand")
class OwnFiles(unittest.TestCase):
    """Unicode 15.0."""

    def test_ranges(self):
        for file, size, count, touching in (("G", 96_863, 1_391, 1_062), ("W", 109_110, 1_359, 581)):
            data = real_properties.content(UNICODE, file)
            blocks = real_properties.cut(data)
            self.assertEqual((len(data), len(blocks), max(map(len, blocks)) <= property_reading.MOST_BYTES), (size, 2, True))
            ranges = real_properties.held(blocks, file)
            self.assertEqual((len(ranges), real_properties.touching(ranges)), (count, touching))

    def test_names(self):
        printed(real_properties.check_names, UNICODE)

    def test_whole_files_as_cases(self):
        uncut, enough, *_ = real_properties.whole_files(UNICODE)
        self.assertEqual(cases.answer(uncut), "R 1 0 -|R 1 0 -|||")
        *verdicts, breaks, words, _ = cases.answer(enough).split("|")
        self.assertEqual((verdicts, breaks.count("-"), words.count("-")), (["ok"] * 4, 1_391, 1_359))


if __name__ == "__main__":
    unittest.main()
