#!/usr/bin/env python3
"""UAX #29 of Unicode 15.0, rule by rule and looking back, to see that the entries of
unicode.py are complete: beyond the published lines, every short text over small alphabets
agrees with it, or differs under an entry; plain texts agree. The rules written here have to agree
with the published lines first.
"""

import argparse
import collections
import itertools
import random
import sys

import reading
import unicode
from reading import AH_LETTER, CLUSTER_BREAK, CRATE, IGNORED, MID_NUM_LET_Q, NEWLINES, WORD, Record

CONTROLS = ("CN", "CR", "LF")
LETTERS_AND_DIGITS = AH_LETTER + ("NU",)


class Text:
    """Kinds and Extended_Pictographic marks; `stated` is what the rules say."""

    def __init__(self, items, rule):
        self.kinds = [kind for kind, _ in items]
        self.marks = [mark for _, mark in items]
        self.stated = [1] + [int(rule(self, at)) for at in range(1, len(items))]


# ---- Clusters -------------------------------------------------------------------------------


def is_cluster_start(text, at):
    a, b = text.kinds[at - 1], text.kinds[at]
    if a == "CR" and b == "LF":  # GB3
        return False
    if a in CONTROLS or b in CONTROLS:  # GB4, GB5
        return True
    if (a == "L" and b in ("L", "V", "LV", "LVT") or a in ("LV", "V") and b in ("V", "T")
            or a in ("LVT", "T") and b == "T"):  # GB6, GB7, GB8
        return False
    if b in ("EX", "ZWJ", "SM") or a == "PP":  # GB9, GB9a, GB9b
        return False
    if a == "ZWJ" and text.marks[at] and follows_pictograph(text, at - 1):  # GB11
        return False
    return not (b == "RI" and odd(ri_before(text, at)))  # GB12, GB13, GB999


def follows_pictograph(text, at):
    """Pictograph Extend* directly before `at`; an Extend may be the pictograph too."""
    at -= 1
    while at >= 0 and text.kinds[at] == "EX" and not text.marks[at]:
        at -= 1
    return at >= 0 and text.marks[at]


def ri_before(text, at):
    kinds = list(itertools.takewhile(lambda kind: kind == "RI", reversed(text.kinds[:at])))
    return len(kinds)


def odd(number):
    return number % 2 == 1


# ---- Words ----------------------------------------------------------------------------------


def is_word_start(text, at):
    a, b = text.kinds[at - 1], text.kinds[at]
    if a == "CR" and b == "LF":  # WB3
        return False
    if a in NEWLINES or b in NEWLINES:  # WB3a, WB3b
        return True
    if a == "ZWJ" and text.marks[at] or a == b == "WSegSpace" or b in IGNORED:  # WB3c, WB3d, WB4
        return False
    before = kept_before(text, at)
    after = [kind for kind in text.kinds[at + 1:] if kind not in IGNORED][:1]
    return not joins(before, b, after[0] if after else None)


def kept_before(text, at):
    """The kinds before `at`, nearest first, without what WB4 ignores; an ignored one that has
    nothing to belong to stands for itself."""
    kept = []
    for number, kind in enumerate(text.kinds[:at]):
        if kind not in IGNORED or number == 0 or text.kinds[number - 1] in NEWLINES:
            kept.insert(0, kind)
    return kept


def joins(before, b, after):
    a, z = before[0], before[1] if len(before) > 1 else None
    letters = ("ML",) + MID_NUM_LET_Q
    digits = ("MN",) + MID_NUM_LET_Q
    return (a in LETTERS_AND_DIGITS and b in LETTERS_AND_DIGITS  # WB5, WB8, WB9, WB10
            or a in AH_LETTER and b in letters and after in AH_LETTER  # WB6
            or z in AH_LETTER and a in letters and b in AH_LETTER  # WB7
            or a == "HL" and (b == "SQ" or b == "DQ" and after == "HL")  # WB7a, WB7b
            or z == "HL" and a == "DQ" and b == "HL"  # WB7c
            or z == "NU" and a in digits and b == "NU"  # WB11
            or a == "NU" and b in digits and after == "NU"  # WB12
            or a == b == "KA"  # WB13
            or a in LETTERS_AND_DIGITS + ("KA", "EX") and b == "EX"  # WB13a
            or a == "EX" and b in LETTERS_AND_DIGITS + ("KA",)  # WB13b
            or b == "RI" and odd(len(list(itertools.takewhile(lambda kind: kind == "RI", before)))))  # WB15, WB16


# ---- Against the reading --------------------------------------------------------------------


def clusters(text):
    records = [Record(0x61, CLUSTER_BREAK.index(kind), 0, 0, 0, 0, mark, 0, 0, mark, 0, 0, 0, 0)
               for kind, mark in zip(text.kinds, text.marks)]
    _, calls = reading.stepping(records, [], 0, CRATE, "simple", False)
    starts = {start for start, _ in calls}
    return [int(at in starts) for at in range(len(records))]


def words(text):
    return reading.word_run([(WORD.index(kind), mark) for kind, mark in zip(text.kinds, text.marks)], len(text.kinds))


def marked_alphabet(kinds):
    return [(kind, mark) for kind in kinds for mark in (0, 1)]


def cluster_texts():
    yield from nonempty([(kind, 0) for kind in CLUSTER_BREAK] + [("XX", 1)], 4)
    yield from nonempty(marked_alphabet(CLUSTER_BREAK), 3)
    yield from random_texts([(kind, 0) for kind in CLUSTER_BREAK] + [("XX", 1)] * 4, 50_000)


def word_texts():
    yield from nonempty([(kind, 0) for kind in WORD] + [("Other", 1)], 3)
    yield from nonempty(marked_alphabet(WORD), 2)
    yield from nonempty([("LF", 0), ("ZWJ", 0), ("Extend", 0), ("RI", 0), ("RI", 1), ("Other", 1), ("WSegSpace", 0)], 5)
    yield from nonempty([("ALetter", 0), ("HL", 0), ("NU", 0), ("SQ", 0), ("DQ", 0), ("FO", 0), ("ML", 0)], 5)
    yield from random_texts(marked_alphabet(WORD), 50_000)


def nonempty(alphabet, longest):
    for length in range(1, longest + 1):
        yield from itertools.product(alphabet, repeat=length)


def random_texts(alphabet, count):
    rng = random.Random(29)
    for _ in range(count):
        yield rng.choices(alphabet, k=rng.randint(1, 9))


def hold(title, texts, rule, answers, is_plain, entries):
    counts, faults = collections.Counter(), 0
    for items in texts:
        text = Text(items, rule)
        found = list(unicode.entries_of(text, answers(text), entries))
        counts["texts"] += 1
        counts.update({name for _, name in found})
        if any(name is None for _, name in found) or found and is_plain(text):
            faults += 1
            print(f"  NO ENTRY: {items} stated {text.stated} answered {answers(text)}")
    print(f"{title}: {counts['texts']} texts, {faults} without an entry")
    for name in entries:
        print(f"  {counts[name]:6} {name}")
    return faults


def published_faults(folder):
    lines = unicode.test_lines(folder)
    return sum(Text(list(zip(line.kinds, line.marks)), rule).stated != line.stated
               for rule, of_rule in zip((is_cluster_start, is_word_start), lines) for line in of_rule)


def main():
    options = argparse.ArgumentParser(description=__doc__)
    options.add_argument("folder", help=unicode.FOLDER_HELP)
    faults = published_faults(options.parse_args().folder)
    print(f"published lines that these rules miss: {faults}")
    faults += hold("clusters", cluster_texts(), is_cluster_start, clusters, unicode.is_plain_cluster,
                   unicode.CLUSTER_ENTRIES)
    faults += hold("words", word_texts(), is_word_start, words, unicode.is_plain_word, unicode.WORD_ENTRIES)
    return 1 if faults else 0


if __name__ == "__main__":
    sys.exit(main())
