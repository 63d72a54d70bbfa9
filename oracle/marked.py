#!/usr/bin/env python3
"""The sixteen marked cases, as the table of SCOPE 9.1 has them. As a command it prints whether
they hold of the reading, P01 ok to P16 ok, and fails where one does not."""

import argparse
import sys

import reading
from reading import CLUSTER_BREAK, CRATE, MYANMAR, USE, WHOLE, WORD, Part, Record, Refusal

EMPTY = Record(*[0] * 14)._replace(use=USE.index("rest"), myanmar=MYANMAR.index("rest"))


def s(scalar, kind, emoji=0):
    return EMPTY._replace(scalar=scalar, cluster_break=CLUSTER_BREAK.index(kind), emoji_simple=emoji)


def m(scalar, kind):
    return EMPTY._replace(scalar=scalar, myanmar=MYANMAR.index(kind))


def c(scalar, kind, first=0, count=0):
    return EMPTY._replace(scalar=scalar, use=USE.index(kind), first=first, count=count)


MARK = s(0x301, "EX")
EMOJI = s(0x1F600, "XX", emoji=1)
THREE = [m(0x1004, "C"), m(0x103A, "As"), m(0x1039, "H")]
JOINERS = [m(0x34F, "rest")] * 29
VPRE_PART = [Part(0x17C1, 0, USE.index("VPre"), 0)]


def shapes(names):
    numbers = dict(B=reading.BASE, M=reading.MARK_SHAPE, C=reading.CONTROL, K=reading.KINZI,
                   V=reading.VPRE, J=reading.ZWJ, O=reading.OTHER)
    return [numbers[name] for name in names]


def clusters(parser, mode, records, parts=(), khmer=False):
    """What a marked case looks at: for each call its shape classes and what is set."""
    answer = reading.stepping(records, list(parts), 0, mode, parser, khmer)
    assert not isinstance(answer, Refusal), answer
    return [([shape for _, shape, _, _ in call.pushed],
             {name for name, is_set in [("newline", call.space == "newline"), ("broken", call.broken),
                                        ("normalise", call.normalise), (call.emoji, call.emoji != "none"),
                                        ("one noted", sum(noted for *_, noted in call.pushed) == 1)] if is_set})
            for _, call in answer[1]]


def both(parser, records, expected, parts=(), khmer=False):
    expected = [(shapes(names), flags) for names, flags in expected]
    return all(clusters(parser, mode, records, parts, khmer) == expected for mode in (CRATE, WHOLE))


def each(parser, records, crate, whole):
    return all(clusters(parser, mode, records) == [(shapes(names), flags) for names, flags in expected]
               for mode, expected in ((CRATE, crate), (WHOLE, whole)))


def words(*records):
    return reading.word_run([(WORD.index(name), pictograph) for name, pictograph in records], len(records))


def plain(names):
    return words(*[(name, 0) for name in names.split()])


def marked_cases():
    yield both("simple", [], [])
    yield both("simple", [s(13, "CR"), s(10, "LF")], [("CC", {"newline"})])
    yield both("simple", [s(10, "LF"), MARK], [("CM", {"newline", "normalise"})])
    yield both("simple", [s(0x1F1E6, "RI")] * 2, [("B", set()), ("B", set())])
    yield both("simple", [s(0x1100, "L"), s(0x1161, "V"), s(0x11A8, "T")], [("BB", set()), ("B", set())])
    yield both("simple", [EMOJI, s(0xFE0F, "EX"), s(0x200D, "ZWJ"), EMOJI], [("BJB", {"one noted", "Color"})])
    yield both("simple", [s(0x61, "XX")] + [MARK] * 30, [("B" + "M" * 30, {"normalise"})])
    yield each("simple", [s(0x61, "XX")] + [MARK] * 31,
               [("B" + "M" * 31, {"normalise"}), ("M", {"broken", "normalise"})],
               [("B" + "M" * 31, {"normalise"})])
    yield each("myanmar", THREE, [("KKKO", {"broken"})], [("KKK", set())])
    yield both("myanmar", THREE + [m(0x1000, "C")], [("KKKB", set())])
    yield each("myanmar", THREE + JOINERS, [("KKK" + "O" * 29, set()), ("O", {"broken"})],
               [("KKK" + "O" * 29, set())])
    yield both("complex", [c(0x1780, "B"), c(0x17BE, "VAbv", 0, 1)], [("BVO", set())], VPRE_PART, True)
    yield both("complex", [c(13, "O"), c(0x34F, "O"), c(10, "O")], [("COC", {"newline"})])
    yield plain("ALetter MidNumLet ALetter") == [1, 0, 0]
    yield all(words(("Other", 1), ("ZWJ", mark), ("Other", 1)) == [1, 0, 1] for mark in (0, 1))
    yield plain("LF RI RI RI") == [1, 1, 0, 0] and plain("RI RI RI") == [1, 0, 1]


def main():
    argparse.ArgumentParser(description=__doc__).parse_args()
    results = list(marked_cases())
    for number, holds in enumerate(results, 1):
        print(f"P{number:02} {'ok' if holds else 'fails'}")
    return 0 if all(results) and len(results) == 16 else 1


if __name__ == "__main__":
    sys.exit(main())
