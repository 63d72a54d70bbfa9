#!/usr/bin/env python3
"""Unicode's own property files, GraphemeBreakProperty and WordBreakProperty, by the reading: cut into
blocks of whole lines, read, and the classes of every scalar held against those that tools/property_files.py
finds, which reads the files in another way; with a program that reads cases, the classes that it finds too.
Prints what it found; fails where something is not so.
"""

import argparse
import pathlib
import random
import re
import shlex
import sys

import programs
import property_cases
import property_reading
from property_reading import CLUSTER_CODES, LAST_SCALAR, MOST_BYTES, WORD_CODES
from reading import CLUSTER_BREAK, WORD, Refusal, is_scalar

# the tools read Unicode's files too, in the folder beside this one
sys.path.append(str(pathlib.Path(__file__).resolve().parent.parent / "tools"))
import property_files

FILES = {"G": "auxiliary/GraphemeBreakProperty.txt", "W": "auxiliary/WordBreakProperty.txt"}
CODES = {"G": CLUSTER_CODES, "W": WORD_CODES}
ALIASES, PROPERTIES = "PropertyValueAliases.txt", {"G": "GCB", "W": "WB"}
TOTAL = re.compile(r"# Total code points: (\d+)")
EVERY_SCALAR = range(LAST_SCALAR + 1)
SURROGATES = range(0xD800, 0xE000)


class NotSo(Exception):
    """Says what is not as it has to be."""


def content(folder, file):
    return (pathlib.Path(folder) / FILES[file]).read_bytes()


def whole_lines(data):
    """With their ends."""
    return re.findall(rb"[^\n]*\n|[^\n]+", data)


def cut(data, size=MOST_BYTES):
    """Blocks of whole lines, each as long as the size lets it be."""
    blocks = [b""]
    for line in whole_lines(data):
        if len(blocks[-1]) + len(line) > size:
            blocks.append(b"")
        blocks[-1] += line
    return blocks


def held(blocks, file):
    """The ranges after all blocks."""
    ranges = []
    for number, block in enumerate(blocks, 1):
        ranges = property_reading.read(block, CODES[file], ranges, property_cases.MOST_RANGES)
        if isinstance(ranges, Refusal):
            raise NotSo(f"{FILES[file]}: block {number} is refused: {ranges}")
    return ranges


def touching(ranges):
    return sum(one.last + 1 == other.first for one, other in zip(ranges, ranges[1:]))


def other_cuts(data):
    """The same lines: the last blocks first, one line a block, with CR LF, without the last LF."""
    blocks = cut(data)
    with_cr = data.replace(b"\n", b"\r\n")
    return [blocks[::-1], whole_lines(data), cut(with_cr), cut(data.removesuffix(b"\n")), cut(data, 5_000)]


def stated(data):
    """How many scalars the file says that it has."""
    return sum(map(int, TOTAL.findall(data.decode("utf-8"))))


def read_file(folder, file):
    """The ranges of a file, however it is cut."""
    data = content(folder, file)
    blocks = cut(data)
    ranges = held(blocks, file)
    print(f"{FILES[file]}: {len(data)} bytes in {len(blocks)} blocks, {len(ranges)} ranges, {touching(ranges)} neighbours touch", flush=True)
    scalars = sum(each.last - each.first + 1 for each in ranges)
    if scalars != stated(data):
        raise NotSo(f"{FILES[file]}: {scalars} scalars, and its comments say {stated(data)}")
    for other in other_cuts(data):
        if held(other, file) != ranges:
            raise NotSo(f"{FILES[file]}: other ranges where it is cut into {len(other)} blocks")
    return ranges


def expected_classes(folder):
    """Both classes of every scalar by the other parse, under the names of SCOPE 2.2."""
    breaks, words = property_files.grapheme_breaks(folder), property_files.word_breaks(folder)
    return [(CLUSTER_BREAK.index(breaks.get(scalar, "XX")), WORD.index(words.get(scalar, "Other"))) for scalar in EVERY_SCALAR]


def check_classes(folder, breaks, words):
    """Every scalar by the lookup; a surrogate, which it refuses, by the ranges alone."""
    expected = expected_classes(folder)
    text = list(filter(is_scalar, EVERY_SCALAR))
    found = dict(zip(text, property_reading.lookup(text, breaks, words, len(text))))
    found |= zip(SURROGATES, zip(*(property_reading.found_codes(SURROGATES, ranges) for ranges in (breaks, words))))
    wrong = [scalar for scalar in EVERY_SCALAR if found[scalar] != expected[scalar]]
    if wrong:
        raise NotSo(f"{len(wrong)} scalars have other classes, first U+{wrong[0]:04X}: {found[wrong[0]]}, not {expected[wrong[0]]}")
    counts = [sum(code != property_reading.NO_VALUE for code in column) for column in zip(*found.values())]
    print(f"{len(found)} scalars have the classes of the other parse, {counts[0]} and {counts[1]} of them another than XX and Other; "
          f"{len(text)} were looked up")


def check_names(folder):
    """The long names of each property are those that the reading has."""
    rows = [[field.strip() for field in line.split(";")] for line in property_files.lines(folder, ALIASES)]
    for file, name in PROPERTIES.items():
        published = {row[2] for row in rows if row[0] == name}
        if published != set(CODES[file]):
            raise NotSo(f"the names of {name}: {sorted(published ^ set(CODES[file]))} in one list only")
        print(f"{len(published)} names of {name} are those of {ALIASES}")


# ---- Cases ----------------------------------------------------------------------------------

MOST_ASKED = 65_535


def edges(ranges):
    """The scalars at the edges of ranges and beside them."""
    near = {scalar for first, last, _ in ranges for scalar in (first - 1, first, last, last + 1)}
    return sorted(scalar for scalar in near if 0 <= scalar and is_scalar(scalar))


def as_text(file, blocks):
    return [(file, block.decode("latin-1")) for block in blocks]


def both_files(folder):
    """The blocks of both files, each as long as it may be."""
    return [each for file in FILES for each in as_text(file, cut(content(folder, file)))]


def whole_files(folder):
    """Both files whole: uncut, with cells that suffice and one less, with CR LF, twice, each as the other; then with every scalar."""
    data = {file: content(folder, file) for file in FILES}
    ranges = {file: held(cut(data[file]), file) for file in FILES}
    near = edges(ranges["G"] + ranges["W"])
    both = both_files(folder)
    enough = tuple(map(len, ranges.values()))
    cells = (property_cases.MOST_RANGES,) * 2
    yield property_cases.case([(file, text.decode("latin-1")) for file, text in data.items()], cells)
    yield property_cases.case(both, enough, near)
    for less in ((1, 0), (0, 1)):
        yield property_cases.case(both, [count - fewer for count, fewer in zip(enough, less)], near)
    yield property_cases.case([each for file in FILES for each in as_text(file, cut(data[file].replace(b"\n", b"\r\n")))], enough, near, -1)
    yield property_cases.case(both[::-1] + both, cells)
    yield property_cases.case([("W" if file == "G" else "G", text) for file, text in both], cells)
    yield from (line for _, line in every_scalar(both, enough))


def every_scalar(blocks, cells):
    """Every scalar, in as many cases as it takes: the scalars that a case asks for, and the case."""
    text = list(filter(is_scalar, EVERY_SCALAR))
    for begin in range(0, len(text), MOST_ASKED):
        asked = text[begin:begin + MOST_ASKED]
        yield asked, property_cases.case(blocks, cells, asked)


def damaged(folder, seed, count):
    """Lines of the files, damaged, so many of each."""
    rng = random.Random(f"damaged {seed}")
    for file in FILES:
        lines = content(folder, file).decode("latin-1").split("\n")
        yield from property_cases.damaged_lines(rng, file, lines, count)


def classes_in(answer):
    """The pairs of classes in a program's answer, once it has read all blocks."""
    *verdicts, _, _, looked_up = answer.split("|")
    if set(verdicts) != {"ok"} or looked_up.startswith("R "):
        raise NotSo(f"the program refuses: {' '.join(verdicts)} {looked_up[:20]}")
    return [tuple(map(int, item.split(","))) for item in looked_up.split(" ")]


def check_program(folder, command):
    """The classes of every scalar by a program that reads cases, held against the other parse."""
    expected = expected_classes(folder)
    asked, lines = zip(*every_scalar(both_files(folder), (property_cases.MOST_RANGES,) * 2))
    count = 0
    for scalars, answer in zip(asked, programs.answers(command, lines), strict=True):
        for scalar, classes in zip(scalars, classes_in(answer), strict=True):
            if classes != expected[scalar]:
                raise NotSo(f"the program has other classes of U+{scalar:04X}: {classes}, not {expected[scalar]}")
        count += len(scalars)
    print(f"{count} scalars have the classes of the other parse by the program, {len(lines)} lines, the longest of {max(map(len, lines))} bytes")


def main():
    options = argparse.ArgumentParser(description=__doc__, formatter_class=argparse.RawDescriptionHelpFormatter)
    options.add_argument("folder", type=pathlib.Path, help="has the files as Debian's unicode-data lays them out (/usr/share/unicode)")
    options.add_argument("--with", dest="program", metavar="COMMAND", help="a program which reads cases and prints answers: asked in place "
                         "of the reading")
    options = options.parse_args()
    folder = options.folder
    try:
        if options.program:
            check_program(folder, shlex.split(options.program))
            return 0
        check_names(folder)
        check_classes(folder, *(read_file(folder, file) for file in FILES))
    except NotSo as fault:
        print(f"NOT SO: {fault}")
        return 1
    return 0


if __name__ == "__main__":
    sys.exit(main())
