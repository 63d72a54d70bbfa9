"""A folder of small files laid out as Unicode's are, for tests: a few test lines, and the values of their characters."""

import pathlib
import tempfile

FILES = {
    "auxiliary/GraphemeBreakProperty.txt": """# the values of the lines' characters
000D ; CR
000A ; LF
0300..0301 ; Extend # two marks
200D ; ZWJ
1F1E6..1F1E8 ; Regional_Indicator
""",
    "auxiliary/WordBreakProperty.txt": """000D ; CR
000A ; LF
0041..0043 ; ALetter
0300..0301 ; Extend
0030..0039 ; Numeric
""",
    "LineBreak.txt": """000A;LF # Cc
000D;CR
0020;SP
0025;PO
0029;CP
002C;IS
0030..0039;NU
0041..0043;AL # some letters
0300..0301;CM
2024;IN
2329;OP
1F02C..1F02F;ID # Cn
1F3FB..1F3FF;EM
1F600..1F602;ID
""",
    "EastAsianWidth.txt": """0041..0043;Na
2329;W
""",
    "emoji/emoji-data.txt": """1F02C ; Extended_Pictographic
1F600..1F602 ; Extended_Pictographic
""",
    "PropList.txt": "FE00..FE0F ; Variation_Selector\n",
    "IndicSyllabicCategory.txt": "1003 ; Consonant\n",
    "UnicodeData.txt": """000D;<control>;Cc;0;B;;;;;N;CARRIAGE RETURN (CR);;;;
0300;COMBINING GRAVE ACCENT;Mn;230;NSM;;;;;N;NON-SPACING GRAVE;;;;
1003;MYANMAR LETTER GHA;Lo;0;L;;;;;N;;;;;
1F600;GRINNING FACE;So;0;ON;;;;;N;;;;;
""",
    "auxiliary/GraphemeBreakTest.txt": """÷ 0041 × 0300 ÷ 0042 ÷\t# ÷ [0.2] A letter and its mark, then another letter
÷ 000D × 000A ÷ 1F600 × 200D × 1F601 ÷
÷ 1F1E6 × 1F1E7 ÷ 1F1E8 ÷\t# the simple parser parts the pair
""",
    "auxiliary/WordBreakTest.txt": """÷ 0041 × 0030 × 0042 ÷\t# letters and a digit
÷ 0021 ÷ 0041 ÷
""",
    "auxiliary/LineBreakTest.txt": """× 0041 × 0020 ÷ 1F600 ÷\t# × [0.3] a letter, a space, an ideograph
× 000D × 000A ÷ 0041 × 0025 ÷
× 0041 × 0300 ÷ 2329 ÷\t# the four entries
× 0041 × 0029 × 0300 × 2024 ÷
× 002C ÷ 0030 ÷
× 1F02C × 1F3FF ÷
""",
}


def folder(test):
    """The folder, which goes when the test is over."""
    made = tempfile.TemporaryDirectory()
    test.addCleanup(made.cleanup)
    for name, text in FILES.items():
        file = pathlib.Path(made.name) / name
        file.parent.mkdir(exist_ok=True)
        file.write_text(text)
    return pathlib.Path(made.name)
