"""A second reading of Req 05, clusters as UAX #29 has them: the rules GB1 to GB999 of Unicode 15.0 and what is refused (SCOPE 12.5).
Written from the request and the annex, apart from the Rattle code and its definitions, as reading.py is.

A text becomes a string with one letter for each record, a small one or, for a record with the emoji mark, a capital. Each rule is a
regular expression that is looked for in the whole string, from its first letter to the last, and no rule looks back from a place.
"""

import re

import reading
from reading import CLUSTER_BREAK, MARK, Refusal

NO_START, START = range(2)
RECORD_LISTS = [CLUSTER_BREAK, MARK]
LETTERS = "abcdefghijklmn", "ABCDEFGHIJKLMN"
SETS = {"Any": ".", "Pictograph": f"[{LETTERS[1]}]",
        **{name: f"[{small}{capital}]" for name, small, capital in zip(CLUSTER_BREAK, *LETTERS)}}


def rule(line, answer):
    """A line of the annex: what stands before the place is the first group, and classes are written by their names."""
    return re.compile(re.sub("[A-Za-z]+", lambda name: SETS[name[0]], line).replace(" ", "")), answer


# Each in the order of the annex, so that the first that speaks of a place decides; GB1 is the text's start. What is only looked at, (?=…), may be
# before the next place. Behind GB11's (?=…) a match may begin inside of another. GB12 and GB13: the letters of a run of RI are taken two by two.
RULES = [
    rule("(CR) LF", NO_START),  # GB3
    rule("(CN|CR|LF) (?=Any)", START),  # GB4
    rule("(Any) (?=CN|CR|LF)", START),  # GB5
    rule("(L) (?=L|V|LV|LVT)", NO_START),  # GB6
    rule("(LV|V) (?=V|T)", NO_START),  # GB7
    rule("(LVT|T) (?=T)", NO_START),  # GB8
    rule("(Any) (?=EX|ZWJ)", NO_START),  # GB9
    rule("(Any) (?=SM)", NO_START),  # GB9a
    rule("(PP) (?=Any)", NO_START),  # GB9b
    rule("(?= (Pictograph EX* ZWJ) Pictograph)", NO_START),  # GB11
    rule("(RI) RI", NO_START),  # GB12, GB13
    rule("(Any) (?=Any)", START),  # GB999
]


def graphemes(records, cells):
    """Over (cluster break, emoji mark): 1, 2, 4, 9, or for each record 1 where a cluster starts and 0 where none does."""
    lengths = reading.lengths_refusal([len(records)] * 2)
    if lengths:
        return lengths
    for index, record in enumerate(records):
        if not reading.in_lists(record, RECORD_LISTS):
            return Refusal(4, index, "r")
    if cells < len(records):
        return Refusal(9)
    return starts("".join([LETTERS[mark][kind] for kind, mark in records]))


def starts(text):
    answers = [START if at == 0 else None for at in range(len(text))]
    for pattern, answer in RULES:
        for match in pattern.finditer(text):
            if answers[match.end(1)] is None:
                answers[match.end(1)] = answer
    return answers
