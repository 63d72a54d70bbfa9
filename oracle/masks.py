#!/usr/bin/env python3
"""The masks of the Rust's word machine beside the table that is proved alike with our lists of class names (crates/words/specs/Masks.antt):
each test `… & MASK != 0` of analyze.rs by its line and the number that its constants come to, in the codes of SCOPE 2.2. As a command it
prints how many there are, and fails where the table has others. Without the Rust's sources it says that nothing was compared."""

import argparse
import pathlib
import re
import sys

import reading
import rust_judge

TABLE = pathlib.Path(__file__).resolve().parent.parent / "crates/words/specs/Masks.antt"
# what the Rust calls a class otherwise than SCOPE 2.2
RUST_NAMES = {"LE": "ALetter", "MB": "MidNumLet"}
CONSTANT = re.compile(r"\bconst (\w+): u32 = ([^;]+);")
ASKED = re.compile(r"\b(?:\w+_mask|\w+\.mask\(\)) & (\([^)]*(?:\(\)[^)]*)*\)|\w+(?:\.mask\(\))?) != 0")
ROW = re.compile(r"\basks (\d+) 0x([0-9A-F]+) ")


def number(expression, constants):
    """What an expression of masks and constants, joined by |, comes to."""
    total = 0
    for name, is_class in re.findall(r"(\w+)(\.mask\(\))?", expression):
        total |= 1 << reading.WORD.index(RUST_NAMES.get(name, name)) if is_class else constants[name]
    return total


def of_rust(source):
    """(line, number) of each test by a mask, in the order of the file."""
    constants, tests = {}, []
    for line, text in enumerate(source.splitlines(), 1):
        for name, expression in CONSTANT.findall(text):
            constants[name] = number(expression, constants)
        tests += [(line, number(expression, constants)) for expression in ASKED.findall(text)]
    return tests


def of_table(source):
    """(line, number) of each row, in the table's order."""
    return [(int(line), int(bits, 16)) for line, bits in ROW.findall(source)]


def main():
    parser = argparse.ArgumentParser(description=__doc__)
    parser.add_argument("folder", nargs="?", help=f"the Rust's sources; without it they are looked for {rust_judge.PLACES}")
    arguments = parser.parse_args()
    try:
        folder, where = rust_judge.found(arguments.folder)
    except rust_judge.NotFound as reason:
        print(f"masks NOT COMPARED WITH THE RUST: its sources are {reason}")
        return 0
    rust = of_rust((pathlib.Path(folder) / "src/text/analyze.rs").read_text())
    ours = of_table(TABLE.read_text())
    if rust != ours:
        print(f"NOT SO: the Rust ({where}) asks {rust}, the table has {ours}")
        return 1
    print(f"{len(ours)} tests by masks are those of the Rust ({where})")
    return 0


if __name__ == "__main__":
    sys.exit(main())
