#!/usr/bin/env python3
"""That Unicode's files are read as they are laid out, on small ones."""
import bz2
import pathlib
import tempfile
import unittest

import property_files

BREAKS = """# a comment

000D          ; CR # Cc       <control-000D>
0300..0302    ; Extend # Mn [3]
0903          ; SpacingMark
"""
EMOJI = """00A9          ; Emoji
00A9          ; Extended_Pictographic# E0.6 [1] copyright
1F600..1F602  ; Extended_Pictographic
"""
DATA = """0041;LATIN CAPITAL LETTER A;Lu;0;L;;;;;N;;;;0061;
3400;<CJK Ideograph Extension A, First>;Lo;0;L;;;;;N;;;;;
3403;<CJK Ideograph Extension A, Last>;Lo;0;L;;;;;N;;;;;
4DC0;HEXAGRAM FOR THE CREATIVE HEAVEN;So;0;ON;;;;;N;;;;;
"""


class PropertyFiles(unittest.TestCase):
    def setUp(self):
        folder = tempfile.TemporaryDirectory()
        self.addCleanup(folder.cleanup)
        self.folder = pathlib.Path(folder.name)
        for name in ("auxiliary", "emoji"):
            (self.folder / name).mkdir()

    def test_a_value_for_each_scalar_of_a_range(self):
        (self.folder / "auxiliary/GraphemeBreakProperty.txt").write_text(BREAKS)
        self.assertEqual(property_files.grapheme_breaks(self.folder), {0x0D: "CR", 0x300: "EX", 0x301: "EX", 0x302: "EX", 0x903: "SM"})

    def test_widths_that_count_as_wide(self):
        (self.folder / "EastAsianWidth.txt").write_text("0020;Na # Zs\n20A9;H\n2329..232A;W # Ps..Pe\n00A1;A\nFF08;F\n")
        self.assertEqual(property_files.wide(self.folder), {0x20A9, 0x2329, 0x232A, 0xFF08})

    def test_a_compressed_file_is_the_same(self):
        (self.folder / "auxiliary/GraphemeBreakProperty.txt.bz2").write_bytes(bz2.compress(BREAKS.encode()))
        self.assertEqual(len(property_files.grapheme_breaks(self.folder)), 5)

    def test_a_scalar_may_have_several_values(self):
        (self.folder / "emoji/emoji-data.txt").write_text(EMOJI)
        self.assertEqual(property_files.pictographs(self.folder), {0xA9, 0x1F600, 0x1F601, 0x1F602})
        self.assertEqual(property_files.having(self.folder, "emoji/emoji-data.txt", "Emoji"), {0xA9})

    def test_first_and_last_are_a_range(self):
        (self.folder / "UnicodeData.txt").write_text(DATA)
        self.assertEqual(property_files.general_categories(self.folder),
                         {0x41: "Lu", 0x3400: "Lo", 0x3401: "Lo", 0x3402: "Lo", 0x3403: "Lo", 0x4DC0: "So"})

    def test_conjuncts_are_derived(self):
        for name, text in {
                "Scripts.txt": "0915..0916 ; Devanagari\n093C ; Devanagari\n094D ; Devanagari\n0B95 ; Tamil\n0BCD ; Tamil\n200D ; Inherited\n",
                "IndicSyllabicCategory.txt": "0915..0916 ; Consonant\n0B95 ; Consonant\n093C ; Nukta\n094D ; Virama\n0BCD ; Virama\n",
                "auxiliary/GraphemeBreakProperty.txt": "034F ; Extend\n093C ; Extend\n094D ; Extend\n0BCD ; Extend\n200C ; Extend\n200D ; ZWJ\n",
                "UnicodeData.txt": "034F;CGJ;Mn;0\n093C;NUKTA;Mn;7\n094D;VIRAMA;Mn;9\n0BCD;VIRAMA;Mn;9\n200C;ZWNJ;Cf;0\n200D;ZWJ;Cf;0\n"}.items():
            (self.folder / name).write_text(text)
        self.assertEqual(property_files.conjuncts(self.folder),
                         {0x915: "consonant", 0x916: "consonant", 0x94D: "linker", 0x93C: "extend", 0x200D: "extend"})

    def test_what_is_not_of_the_layout_is_an_error(self):
        for line in ("0041", "0041 ; A ; B", "G ; A"):
            (self.folder / "PropList.txt").write_text(line)
            with self.assertRaises(ValueError):
                property_files.values(self.folder, "PropList.txt")

    def test_a_missing_file_is_named(self):
        with self.assertRaisesRegex(SystemExit, "PropList.txt"):
            property_files.values(self.folder, "PropList.txt")


if __name__ == "__main__":
    unittest.main()
