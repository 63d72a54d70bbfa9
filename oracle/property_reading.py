"""A second reading of Req 02, the property files: the names of both files, a line, a block of bytes that
is read into held ranges, the lookup, and what they refuse. Written from the request, apart from the
Rattle code and its definitions, as reading.py is; the words are that file's.
"""

import re
from bisect import bisect_left, bisect_right, insort
from typing import NamedTuple

from reading import Refusal, is_scalar

# ---- The values of both files, by name, in the order of their codes (SCOPE 2.2) --------------

CLUSTER_NAMES = "Other Control CR LF L V T LV LVT Regional_Indicator Extend SpacingMark ZWJ Prepend".split()
WORD_NAMES = """Other CR LF Newline Extend ZWJ Format WSegSpace ALetter Hebrew_Letter MidLetter MidNumLet MidNum
    Numeric Single_Quote Double_Quote Katakana ExtendNumLet Regional_Indicator""".split()
OLD_NAMES = "E_Base E_Modifier Glue_After_Zwj E_Base_GAZ".split()  # of Unicode 9 and 10
NO_VALUE = 0  # XX or Other: what a scalar in no range has


def coded(names):
    return {name: code for code, name in enumerate(names)} | dict.fromkeys(OLD_NAMES, NO_VALUE)


CLUSTER_CODES, WORD_CODES = map(coded, (CLUSTER_NAMES, WORD_NAMES))

# ---- A line ---------------------------------------------------------------------------------

MALFORMED, UNKNOWN, MEETING, NO_CELL = 11, 12, 13, 14
LAST_SCALAR = 0x10FFFF
# a letter here is a byte; what follows the number sign is never looked at
LINE = re.compile(r"[ \t]*"
                  r"(?:([0-9A-Fa-f]+)(?:\.\.([0-9A-Fa-f]+))?[ \t]*;[ \t]*([^ \t;#]+)[ \t]*)?"
                  r"(?:#.*)?", re.DOTALL)


class Range(NamedTuple):
    first: int
    last: int
    code: int


def lines(data):
    """Without their ends: LF or the end of the bytes, and one CR directly before either."""
    return [line.removesuffix("\r") for line in data.decode("latin-1").split("\n")]


def said(line, codes):
    """The range of a line, None where the line is skipped, or the number of its refusal: 11 or 12."""
    found = LINE.fullmatch(line)
    if not found:
        return MALFORMED
    first, last, value = found.groups()
    if value is None:
        return None
    first, last = int(first, 16), int(last or first, 16)
    if first > last or last > LAST_SCALAR:
        return MALFORMED
    return Range(first, last, codes[value]) if value in codes else UNKNOWN


# ---- A block of bytes -----------------------------------------------------------------------

MOST_BYTES = 0x10000


def meets(one, held):
    """Whether a range shares a scalar with one that is held; to touch is not to meet. (A held range that runs
    downward, which no block fills, has no scalar.)"""
    return any(one.first <= other.last and other.first <= one.last and other.first <= other.last for other in held)


def read(data, codes, held, cells):
    """The ranges that are held after a block, in scalar order as those before, or a refusal. Lines are
    judged in turn, each for 11, 12, 13 and 14; with a refusal what was held stays."""
    if len(data) > MOST_BYTES:
        return Refusal(1)
    if len(held) > cells:
        return Refusal(NO_CELL)
    held = list(held)
    for number, line in enumerate(lines(data), 1):
        found = said(line, codes)
        if found is None:
            continue
        if found in (MALFORMED, UNKNOWN):
            return Refusal(found, number, "l")
        if meets(found, held):
            return Refusal(MEETING, number, "l")
        if len(held) == cells:
            return Refusal(NO_CELL, number, "l")
        insort(held, found)
    return held


# ---- The lookup -----------------------------------------------------------------------------


def found_codes(scalars, held):
    """The code of each scalar: that of the first range which has it."""
    asked = sorted(set(scalars))
    found = dict.fromkeys(asked, NO_VALUE)
    for range_ in reversed(held):
        for scalar in asked[bisect_left(asked, range_.first):bisect_right(asked, range_.last)]:
            found[scalar] = range_.code
    return [found[scalar] for scalar in scalars]


def lookup(scalars, breaks, words, cells):
    """Both classes of each scalar, by the ranges of both files; or 3, then 9. A text of any length."""
    for index, scalar in enumerate(scalars):
        if not is_scalar(scalar):
            return Refusal(3, index, "r")
    if cells < len(scalars):
        return Refusal(9)
    return list(zip(found_codes(scalars, breaks), found_codes(scalars, words)))
