#!/usr/bin/env python3
"""The published break test files of Unicode 15.0 as cases, and a checker of answers to them:
GraphemeBreakTest, WordBreakTest and LineBreakTest.

A line that is a plain text (SCOPE 8.1, of clusters and words) must agree; any other may differ where
an entry of the known differences says so. Counts the lines for each entry; fails where a difference
has none. The clusters of UAX #29 (Req 05) have no entries: every line must agree, by both engines.
"""

import argparse
import collections
import itertools
import pathlib
import re
import sys

import grapheme_cases
import laws
import programs
from generate import case, record, word_case
from line_cases import run_case
from line_reading import LINE, LINE_BREAK
from reading import CLUSTER_BREAK, WORD

# the tools read Unicode's files too, in the folder beside this one
sys.path.append(str(pathlib.Path(__file__).resolve().parent.parent / "tools"))
import property_files

FOLDER_HELP = "has the files of Unicode 15.0 as Debian's unicode-data lays them out: LineBreak.txt, auxiliary/, emoji/ and so on"


# ---- The published files --------------------------------------------------------------------


class Line:
    """A test line: the scalars, and before each scalar 1 for a boundary or 0; the boundary at
    the text's end "is not written"."""

    def __init__(self, text, values, other, marks):
        signs = re.findall("[÷×]", text)
        self.scalars = [int(scalar, 16) for scalar in re.findall("[0-9A-F]+", text)]
        self.stated = [1 if sign == "÷" else 0 for sign in signs[:-1]]
        self.kinds = [values.get(scalar, other) for scalar in self.scalars]
        self.marks = [int(scalar in marks) for scalar in self.scalars]


def published(folder, name, values, other, marks):
    """The lines of a test file; a scalar that the values lack has the other one."""
    return [Line(text, values, other, marks) for text in property_files.lines(folder, f"auxiliary/{name}.txt")]


def test_lines(folder):
    """The grapheme lines and the word lines."""
    marks = property_files.pictographs(folder)
    return (published(folder, "GraphemeBreakTest", property_files.grapheme_breaks(folder), "XX", marks),
            published(folder, "WordBreakTest", property_files.word_breaks(folder), "Other", marks))


class WrappedLine(Line):
    """A line of LineBreakTest, with what LB30 and LB30b look at besides the class."""

    def __init__(self, text, values, words, marks, wide, assigned):
        super().__init__(text, values, "XX", marks)
        self.words = [words.get(scalar, "Other") for scalar in self.scalars]
        self.is_wide = [scalar in wide for scalar in self.scalars]
        self.is_unassigned_pictograph = [bool(mark) and scalar not in assigned
                                         for scalar, mark in zip(self.scalars, self.marks)]


def wrapped_lines(folder):
    """The lines of LineBreakTest; a class is what LineBreak.txt says, not resolved by LB1: that is
    the table's part."""
    properties = (property_files.line_breaks(folder), property_files.word_breaks(folder), property_files.pictographs(folder),
                  property_files.wide(folder), property_files.general_categories(folder))
    return [WrappedLine(text, *properties) for text in property_files.lines(folder, "auxiliary/LineBreakTest.txt")]


def cluster_case(line):
    return case("S", 0, [record(scalar, kind, simple=mark, pictograph=mark)
                         for scalar, kind, mark in zip(line.scalars, line.kinds, line.marks)])


def grapheme_case(engine, line):
    return grapheme_cases.case(engine, [f"{CLUSTER_BREAK.index(kind)},{mark}" for kind, mark in zip(line.kinds, line.marks)])


def words_case(line):
    return word_case([f"{WORD.index(kind)},{mark}" for kind, mark in zip(line.kinds, line.marks)])


def wrapped_case(line):
    return run_case([f"{LINE.index(kind)},{WORD.index(word)},{mark}"
                     for kind, word, mark in zip(line.kinds, line.words, line.marks)])


def cluster_boundaries(line, answer):
    starts = {int(laws.CALL.match(call)[1]) for call in answer.split("|")[1:]}
    return [int(at in starts) for at in range(len(line.scalars))]


def given_boundaries(_, answer):
    return [int(sign) for sign in answer.split(" ")]


def line_breaks(_, answer):
    return [int(int(sign) >= LINE_BREAK) for sign in answer.split(" ")]


# ---- Plain texts (SCOPE 8.1) ----------------------------------------------------------------


def neighbours(line):
    return zip(line.kinds, line.kinds[1:])


def is_plain_cluster(line):
    """Every cluster break is XX, CR, LF, CN, EX, SM or ZWJ; only XX has the emoji mark; none of
    EX, SM and ZWJ stands right behind a CR, LF or CN; and the published lines are too short for
    a call that pushes 32."""
    return (set(line.kinds) <= {"XX", "EX", "SM", "ZWJ", "CR", "LF", "CN"}
            and all(kind == "XX" for kind, mark in zip(line.kinds, line.marks) if mark)
            and not any(a in CONTROLS and b in EXTENSIONS for a, b in neighbours(line))
            and len(line.kinds) < 32)


def is_plain_word(line):
    """No record is Extend, FO or ZWJ, and no RI stands right behind a CR, LF or NL."""
    return (not set(line.kinds) & set(IGNORED)
            and not any(a in NEWLINES and b == "RI" for a, b in neighbours(line)))


# ---- Known differences: entry by entry, each a rule about one boundary ----------------------
# A rule gets the line, the number of the scalar before which the boundary is, and whether the
# file states a boundary where the answers have none ("stated") or the other way round.

CONTROLS = ("CR", "LF", "CN")
EXTENSIONS = ("EX", "SM", "ZWJ")
HANGUL = ("L", "V", "T", "LV", "LVT")
NEWLINES = ("CR", "LF", "NL")
IGNORED = ("Extend", "FO", "ZWJ")


def one_ri_a_cluster(line, at, stated):
    return not stated and line.kinds[at - 1:at + 1] == ["RI", "RI"]


def hangul_cut_after_two(line, at, stated):
    return not stated and line.kinds[at - 1] in HANGUL and line.kinds[at] in HANGUL


def extension_after_control(line, at, stated):
    return stated and line.kinds[at - 1] in CONTROLS and line.kinds[at] in EXTENSIONS


def prepend_before_control(line, at, stated):
    return stated and line.kinds[at - 1] == "PP" and line.kinds[at] in CONTROLS


def mark_on_other_kind(line, at, _):
    return any(mark and kind != "XX" for kind, mark in zip(line.kinds[:at + 1], line.marks))


CLUSTER_ENTRIES = {
    "one RI a cluster": one_ri_a_cluster,
    "Hangul is cut after two": hangul_cut_after_two,
    "extensions after a control": extension_after_control,
    "Prepend before a control": prepend_before_control,
    "an emoji mark on a kind other than XX": mark_on_other_kind,
}


def before_ignored(line, at):
    """The number of the last scalar before `at` that WB4 does not pass over, and how many of
    those it passed over."""
    back = at - 1
    while back > 0 and line.kinds[back] in IGNORED and line.kinds[back - 1] not in NEWLINES:
        back -= 1
    return back, at - 1 - back


def zwj_and_pictograph(line, at, stated):
    _, passed = before_ignored(line, at)
    return not stated and line.kinds[at - 1] == "ZWJ" and passed > 0 and line.marks[at]


def is_middle(kind):
    return kind in ("ML", "MidNumLet", "MN", "SQ", "DQ")


def look_ahead_past_ignored(line, at, stated):
    """The middle, before which the answers part, or what follows it."""
    back, passed = before_ignored(line, at)
    is_before_middle = is_middle(line.kinds[at]) and line.kinds[at + 1:at + 2] and line.kinds[at + 1] in IGNORED
    is_after_middle = is_middle(line.kinds[back]) and passed > 0
    return not stated and bool(is_before_middle or is_after_middle)


def spaces_around_ignored(line, at, stated):
    back, passed = before_ignored(line, at)
    return stated and line.kinds[back] == line.kinds[at] == "WSegSpace" and passed > 0


def run_of_ri(line, at):
    """The numbers of the RI that stand before `at`, ignored ones passed over, and `at` itself."""
    run = [at]
    while run[0] > 0 and line.kinds[run[0]] == "RI":
        back, _ = before_ignored(line, run[0])
        if line.kinds[back] != "RI":
            break
        run.insert(0, back)
    return run


def ri_around_ignored(line, at, _):
    run = run_of_ri(line, at)
    return line.kinds[at] == "RI" and len(run) > 1 and any(line.kinds[n + 1] in IGNORED for n in run[:-1])


def zwj_ignored_pictograph(line, at, stated):
    """At the start, or after a newline: the ZWJ stays the previous class."""
    back, passed = before_ignored(line, at)
    return stated and line.marks[at] and line.kinds[back] == "ZWJ" and passed > 0


def ri_after_newline(line, at, _):
    first = run_of_ri(line, at)[0]
    return line.kinds[at] == "RI" and first > 0 and line.kinds[first - 1] in NEWLINES


def ri_as_pictograph(line, at, _):
    """Joined to a ZWJ by WB3c, it does not count."""
    first = run_of_ri(line, at)[0]
    back, _ = before_ignored(line, first)
    return line.kinds[at] == "RI" and first > 0 and line.kinds[back] == "ZWJ" and line.marks[first]


WORD_ENTRIES = {
    "X ZWJ pictograph splits as words": zwj_and_pictograph,
    "look-ahead past Extend, FO, ZWJ": look_ahead_past_ignored,
    "WSegSpace Extend WSegSpace joins": spaces_around_ignored,
    "RI Extend RI: the count starts anew": ri_around_ignored,
    "ZWJ Extend pictograph joins": zwj_ignored_pictograph,
    "RI after a newline is not counted": ri_after_newline,
    "ZWJ RI(pictograph): that RI is not counted": ri_as_pictograph,
}


# LB1, as the crate's table has it
RESOLVED = {"AI": "AL", "SG": "AL", "XX": "AL", "SA": "AL", "CJ": "NS"}
NOTHING_ATTACHES = ("BK", "CR", "LF", "NL", "SP", "ZW")


def seen_before(line, at):
    """The class before `at` as the rules from LB11 on see it: by LB9 what CM and ZWJ are attached to,
    by LB10 AL where there is nothing that they attach to."""
    back = at - 1
    while back >= 0 and line.kinds[back] in ("CM", "ZWJ"):
        back -= 1
    if back < at - 1 and (back < 0 or line.kinds[back] in NOTHING_ATTACHES):
        return "AL"
    return RESOLVED.get(line.kinds[back], line.kinds[back])


def wide_opening(line, at, stated):
    return stated and line.kinds[at] == "OP" and line.is_wide[at] and seen_before(line, at) in ("AL", "HL", "NU")


def before_inseparable(line, at, stated):
    return not stated and line.kinds[at] == "IN"


# of LB25 as it stands, without the file's tailoring
NUMBER_PAIRS = {("IS", "NU"), ("SY", "NU"), ("CL", "PO"), ("CP", "PO"), ("CL", "PR"), ("CP", "PR"), ("PO", "OP"), ("PR", "OP")}


def number_without_digits(line, at, stated):
    return stated and (seen_before(line, at), line.kinds[at]) in NUMBER_PAIRS


def modifier_of_unassigned(line, at, stated):
    return not stated and line.kinds[at] == "EM" and line.is_unassigned_pictograph[at - 1]


LINE_ENTRIES = {
    "LB30: a wide OP after AL, HL, NU": wide_opening,
    "LB22: before IN": before_inseparable,
    "LB25 as the file tailors it: before NU, PO, PR, OP": number_without_digits,
    "LB30b: EM after an unassigned pictograph": modifier_of_unassigned,
}


# ---- The checker ----------------------------------------------------------------------------


def entries_of(line, given, entries):
    """For each boundary that differs, the entry that it falls under, or None."""
    for at, (stated, answered) in enumerate(zip(line.stated, given, strict=True)):
        if stated != answered:
            yield at, next((name for name, rule in entries.items() if rule(line, at, bool(stated))), None)


def check(title, lines, answers, boundaries, is_plain, entries):
    """The number of faults. Of lines that are wrapped none is plain: `is_plain` is None."""
    counts, faults = collections.Counter(), []
    for line, answer in zip(lines, answers, strict=True):
        found = list(entries_of(line, boundaries(line, answer), entries))
        plain = bool(is_plain and is_plain(line))
        counts["plain"] += plain
        counts["agree" if not found else "differ"] += 1
        counts.update({name for _, name in found})
        if found and (plain or any(name is None for _, name in found)):
            faults.append((line, found))
    of_plain = f", {counts['plain']} of them plain" if is_plain else ""
    print(f"{title}: {len(lines)} lines{of_plain}; {counts['agree']} agree, {counts['differ']} differ")
    for name in entries:
        print(f"  {counts[name]:5} {name}")
    for line, found in faults:
        print(f"  NO ENTRY: {line.kinds} marks {line.marks} stated {line.stated}: {found}")
    return len(faults)


def check_all(folder, answers):
    clusters, words = test_lines(folder)
    wrapped = wrapped_lines(folder)
    given = iter(answers)
    faults = check("GraphemeBreakTest", clusters, taken(given, clusters), cluster_boundaries, is_plain_cluster, CLUSTER_ENTRIES)
    faults += check("WordBreakTest", words, taken(given, words), given_boundaries, is_plain_word, WORD_ENTRIES)
    faults += check("LineBreakTest", wrapped, taken(given, wrapped), line_breaks, None, LINE_ENTRIES)
    for engine in ("looking back", "forward"):
        faults += check(f"GraphemeBreakTest by the rules, {engine}", clusters, taken(given, clusters), given_boundaries, None, {})
    return 1 if faults else 0


def taken(answers, lines):
    return list(itertools.islice(answers, len(lines)))


def all_cases(folder):
    clusters, words = test_lines(folder)
    return [*map(cluster_case, clusters), *map(words_case, words), *map(wrapped_case, wrapped_lines(folder)),
            *(grapheme_case(engine, line) for engine in grapheme_cases.ENGINES for line in clusters)]


def parse_options(description, **actions):
    """A folder and one of the actions, each with its sentence; behind `run` a program and all words
    that follow, which may look like options."""
    options = argparse.ArgumentParser(description=description, formatter_class=argparse.RawDescriptionHelpFormatter)
    options.add_argument("folder", help=FOLDER_HELP)
    parsers = options.add_subparsers(dest="action", required=True)
    for action, about in actions.items():
        parser = parsers.add_parser(action, help=about)
        if action == "run":
            parser.add_argument("command", nargs=argparse.PARSER, metavar="COMMAND", help="the program and its words")
    return options.parse_args()


def main():
    options = parse_options(__doc__, cases="prints S lines, then W, L, G and g lines",
                            check="says of each answer in standard input whether it agrees with the file",
                            run="both at once, with a program that reads cases and prints answers")
    if options.action == "cases":
        print("\n".join(all_cases(options.folder)))
        return 0
    if options.action == "check":
        return check_all(options.folder, sys.stdin.read().splitlines())
    return check_all(options.folder, programs.answers(options.command, all_cases(options.folder)))


if __name__ == "__main__":
    sys.exit(main())
