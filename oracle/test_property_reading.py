#!/usr/bin/env python3
"""Property files: the corners with the answers that were written down by hand, the examples of the layout, what a case cannot hold, and
that a reading in other words, by splitting instead of a pattern, has the same answers."""

import itertools
import pathlib
import string
import sys
import unittest

import cases
import generate
import property_cases
import property_reading
import reading
from property_reading import CLUSTER_CODES, WORD_CODES, Range
from reading import Refusal

sys.path.append(str(pathlib.Path(__file__).resolve().parent.parent / "tools"))
import property_files

EXAMPLES = {
    "F;4,4;G:303330302E2E30333646203B20457874656E642023204D6E0D0A W:303034312E2E303035413B414C6574746572;3;0040 0042 0301":
        "ok|ok|0300-036F.10|0041-005A.8|0,0 0,8 10,0",
    "F;4,4;G:303034313B4C0A303034313B466F6F0A;1;0041": "R 12 2 l|||0,0",
}
XML_EXAMPLE = "F;4,4;X:3C723E3C636861722057423D224C45222063703D223431222F3E3C2F723E;2;0041 0042"


def read(text, held=(), cells=4, codes=CLUSTER_CODES):
    return property_reading.read(text.encode("latin-1"), codes, held, cells)


class Answers(unittest.TestCase):
    def test_answers_by_hand(self):
        for line, answer in property_cases.corners():
            with self.subTest(line):
                self.assertEqual(cases.answer(line), answer)

    def test_examples_of_the_layout(self):
        for line, answer in EXAMPLES.items():
            self.assertEqual(cases.answer(line), answer)
        self.assertLessEqual(set(EXAMPLES.items()), set(property_cases.corners()))

    def test_an_xml_document_is_not_of_the_layout_before_its_request(self):
        for line in (XML_EXAMPLE, "F;4,4;X:;0;", "F;4,4;G:34313B4C X:;0;"):
            with self.subTest(line), self.assertRaises(cases.NotOfLayout):
                cases.answer(line)

    def test_not_of_the_layout(self):
        of_layout = {line for line in property_cases.not_of_layout() if not next(cases.answers([line])).startswith("?")}
        self.assertEqual(of_layout, {
            "F;4,4;;0;", "F;4096,4096;;0;", "F;004,00004;;000;0041", "F;4,4;;65535;", "F;4,4;;1;0000000000000041", "F;4,4;;1;aB",
            "F;4,4;G:34313B4C;1;0041", "F;4,4;G:34313B4C G:34313B4C;1;0041", "F;4,4;G:;1;0041", "F;4,4;W:;1;0041",
            "F;4,4;G: W:;1;0041", "F;4,4;G:eFbBBf23;1;0041", "F;4,4;G:0a W:0D;1;0041"})

    def test_sizes(self):
        """65,536 bytes are read, one more is refused before all else."""
        whole = "41;L\n" + "#" * 0xFFFB
        self.assertEqual(read(whole), [Range(0x41, 0x41, 4)])
        for text in (whole + "#", "x" * 0x10001, "\n" * 0x10001):
            self.assertEqual(read(text, cells=0), Refusal(1))
        self.assertEqual(read("\n" * 0xFFFF + "x"), Refusal(11, 0x10000, "l"))
        self.assertEqual(read("0" * 0xFFFC + "41;L"[1:]), [Range(1, 1, 4)])

    def test_a_full_set(self):
        line = property_cases.case([("G", property_cases.scattered(300)), ("G", "1;L"), ("G", "0;L")], (300, 0))
        self.assertTrue(cases.answer(line).startswith("ok|R 14 1 l|R 13 1 l|0000-0000.4,0002-0002.4,"))


class BesideTheLayout(unittest.TestCase):
    """What a case cannot hold: held ranges that no block filled."""

    def test_more_held_than_cells(self):
        two = [Range(1, 1, 0), Range(3, 3, 0)]
        for text in ("", "41;L", "x", "1;L"):
            self.assertEqual(read(text, two, cells=1), Refusal(14))
        self.assertEqual(read("#" * 0x10001, two, cells=1), Refusal(1))
        self.assertEqual(read("# x", two, cells=2), two)

    def test_a_refusal_changes_nothing(self):
        held = [Range(0x41, 0x41, 4)]
        self.assertEqual(read("40;V\n42;V\nx", held), Refusal(11, 3, "l"))
        self.assertEqual(held, [Range(0x41, 0x41, 4)])

    def test_a_held_range_without_scalars_meets_none(self):
        self.assertEqual(read("5..9;L", [Range(8, 7, 3)], cells=2), [Range(5, 9, 4), Range(8, 7, 3)])
        self.assertEqual(read("5..9;L", [Range(20, 30, 3), Range(9, 9, 3)], cells=3), Refusal(13, 1, "l"))

    def test_the_first_range_that_has_a_scalar_decides(self):
        disorder = [Range(5, 9, 1), Range(0, 6, 2), Range(8, 7, 3), Range(9, 12, 4)]
        self.assertEqual(property_reading.found_codes([0, 5, 7, 9, 12, 13, 5], disorder), [2, 1, 1, 1, 4, 0, 1])

    def test_a_lookup_is_of_any_length(self):
        self.assertEqual(property_reading.lookup([0x41] * 70_000, [Range(0x41, 0x41, 4)], [], 70_000), [(4, 0)] * 70_000)


class Names(unittest.TestCase):
    def test_codes_are_those_of_the_lists(self):
        for codes, names, shorter in ((CLUSTER_CODES, reading.CLUSTER_BREAK, {"Other": "XX"} | property_files.GRAPHEME_NAMES),
                                      (WORD_CODES, reading.WORD, property_files.WORD_NAMES)):
            own = {name: code for name, code in codes.items() if name not in property_reading.OLD_NAMES}
            self.assertEqual({shorter.get(name, name): code for name, code in own.items()}, {name: code for code, name in enumerate(names)})
            self.assertEqual({codes[name] for name in property_reading.OLD_NAMES}, {0})
        self.assertEqual((len(CLUSTER_CODES), len(WORD_CODES)), (18, 23))


# ---- The same in other words ----------------------------------------------------------------


def split_line(line, codes):
    """(first, last, code), None, or the number of a refusal."""
    fields = [field.strip(b" \t") for field in line.split(b"#")[0].split(b";")]
    if fields == [b""]:
        return None
    if len(fields) != 2:
        return 11
    ends = fields[0].split(b"..")
    if len(ends) > 2 or not all(end and set(end) <= set(string.hexdigits.encode()) for end in ends):
        return 11
    if not fields[1] or set(fields[1]) & set(b" \t"):
        return 11
    first, last = int(ends[0], 16), int(ends[-1], 16)
    if last < first or last >= 0x110000:
        return 11
    code = codes.get(fields[1].decode("latin-1"))
    return 12 if code is None else (first, last, code)


def split_answer(line):
    """The answer to a case that is of the layout."""
    _, cells, blocks, out, scalars = line.split(";")
    sets, verdicts = {"G": [], "W": []}, []
    most = dict(zip("GW", map(int, cells.split(","))))
    for file, data in ((item[0], bytes.fromhex(item[2:])) for item in blocks.split()):
        new = list(sets[file])
        verdict = "R 1 0 -" if len(data) > 65_536 else "ok"
        for number, text in enumerate(data.split(b"\n") if verdict == "ok" else [], 1):
            found = split_line(text[:-1] if text.endswith(b"\r") else text, CLUSTER_CODES if file == "G" else WORD_CODES)
            if isinstance(found, tuple):
                is_met = any(max(found[0], first) <= min(found[1], last) for first, last, _ in new)
                new.append(found)
                found = 13 if is_met else 14 if len(new) > most[file] else None
            if found:
                verdict = f"R {found} {number} l"
                break
        verdicts.append(verdict)
        sets[file] = sorted(new) if verdict == "ok" else sets[file]
    numbers = [int(scalar, 16) for scalar in scalars.split()]
    bad = [at for at, number in enumerate(numbers) if number > 0x10FFFF or number >> 11 == 0x1B]
    classes = " ".join(",".join(str(next((code for first, last, code in held if first <= number <= last), 0)) for held in sets.values())
                       for number in numbers)
    looked_up = f"R 3 {bad[0]} r" if bad else "R 9 0 -" if int(out) < len(numbers) else classes
    return "|".join(verdicts + [",".join(f"{first:04X}-{last:04X}.{code}" for first, last, code in held) for held in sets.values()] + [looked_up])


class OtherWords(unittest.TestCase):
    def hold(self, lines):
        for line in lines:
            self.assertEqual(cases.answer(line), split_answer(line), line)

    def test_corners(self):
        self.hold(line for line, _ in property_cases.corners())

    def test_random_files(self):
        self.hold(generate.generate("F", 1, 1_500))

    def test_fixed_parts(self):
        for part, stride in (("exhaustive-F", 17), ("bytes-F", 7), ("names-F", 11), ("faults-F", 5)):
            self.hold(itertools.islice(generate.generate(part, 1, None), 0, None, stride))


if __name__ == "__main__":
    unittest.main()
