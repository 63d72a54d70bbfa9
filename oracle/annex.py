#!/usr/bin/env python3
"""The published break test files of Unicode 15.0 as standard input and output of the program `annex`.

A line of the input has G or W, then the class and the mark of each character; a line of the output has what the
file says before each character, ÷ as 1 and × as 0.
"""

import itertools
import pathlib
import sys

import programs
import uax29
import unicode
from reading import CLUSTER_BREAK, WORD

CRATE = pathlib.Path(__file__).resolve().parent.parent / "crates" / "annex"
# lines for one run of the program, which reads 128 KiB
BATCH = 2000


def asked(letter, codes, line):
    return f"{letter};" + " ".join(f"{codes.index(kind)},{mark}" for kind, mark in zip(line.kinds, line.marks))


def pairs(clusters, words):
    """Each text as a line of the input and a line of the output."""
    for letter, codes, texts in (("G", CLUSTER_BREAK, clusters), ("W", WORD, words)):
        for text in texts:
            yield asked(letter, codes, text), "".join(map(str, text.stated))


def stored(folder, action):
    lines = list(pairs(*unicode.test_lines(folder)))
    faults = 0
    for name, part in (("stdin", 0), ("stdout", 1)):
        text = "".join(f"{line[part]}\n" for line in lines)
        if action == "write":
            (CRATE / name).write_text(text)
        elif (CRATE / name).read_text() != text:
            print(f"crates/annex/{name} is not what the published files say")
            faults = 1
    return faults


def ruled(texts, rule):
    return (uax29.Text(items, rule) for items in texts)


def hold(command):
    count = faults = 0
    lines = pairs(ruled(uax29.cluster_texts(), uax29.is_cluster_start), ruled(uax29.word_texts(), uax29.is_word_start))
    while batch := list(itertools.islice(lines, BATCH)):
        answers = programs.answers(command, (question for question, _ in batch))
        for (question, stated), answer in zip(batch, answers, strict=True):
            count += 1
            if answer != stated:
                faults += 1
                print(f"  {question}: {answer}, and the rules say {stated}")
    print(f"{count} texts, {faults} differ")
    return min(faults, 1)


def main():
    options = unicode.parse_options(__doc__, write="writes both to crates/annex",
                                    check="fails where what is stored is not what would be written",
                                    run="holds a program against uax29.py, a second writing of the rules, on its short texts")
    return hold(options.command) if options.action == "run" else stored(options.folder, options.action)


if __name__ == "__main__":
    sys.exit(main())
