#!/usr/bin/env python3
"""Which blocks of the unchanged Rust files the cases take.

A block is one that LLVM makes without optimisation: each arm of a match and each failure of a
`?` is one of its own. Prints, for each file, how many of the blocks that the parsers, `check_word`,
`check_line` and `next` have are taken, and the lines of the others.
"""

import argparse
import collections
import pathlib
import re
import subprocess

import lists
import programs
import rust_judge

FILES = ("simple.rs", "myanmar.rs", "complex.rs", "analyze.rs")
OF_ANALYZE = ("BoundaryState::check_word", "BoundaryState::check_line", "BoundaryState::next")


class Coverage:
    """Runs lines of crate mode through the counting build."""

    def __init__(self, folder):
        self.program = rust_judge.built(folder, "--coverage")
        addresses = self.run([])[0].split()
        self.places = self.located(addresses)

    def run(self, lines):
        return programs.answers([self.program], lines)

    def located(self, addresses):
        """Block number to file and line, for the functions that the cases are about."""
        command = ["addr2line", "-f", "-C", "-e", self.program]
        found = subprocess.run(command, input="\n".join(addresses), stdout=subprocess.PIPE, text=True, check=True)
        lines = found.stdout.splitlines()
        places = {}
        for block, (function, place) in enumerate(zip(lines[::2], lines[1::2])):
            file, _, line = re.sub(r" \(.*", "", place).rpartition(":")
            name = pathlib.PurePath(file).name
            if name in FILES and (name != "analyze.rs" or any(asked in function for asked in OF_ANALYZE)):
                places[block] = name, line
        return places

    def blocks(self, lines):
        """For each line the blocks that it takes."""
        for answer in self.run(lines)[1:]:
            yield frozenset() if answer == "-" else frozenset(map(int, answer.split())).intersection(self.places)


def report(coverage, taken):
    for name in FILES:
        blocks = [block for block, (file, _) in coverage.places.items() if file == name]
        missed = [coverage.places[block][1] for block in blocks if block not in taken]
        lines = collections.Counter(missed)
        shown = " ".join(f"{line}×{count}" for line, count in sorted(lines.items(), key=lambda item: item[0].zfill(6)))
        rest = f"; not taken, by line: {shown}" if shown else ""
        print(f"{name}: {len(blocks) - len(missed)} of {len(blocks)} blocks{rest}")


def main():
    options = argparse.ArgumentParser(description=__doc__, formatter_class=argparse.RawDescriptionHelpFormatter)
    options.add_argument("folder", help="has the Rust's sources (FOLDER/src/text/…)")
    options.add_argument("cases", nargs="*", type=pathlib.Path, default=lists.REPLAYED[:1],
                         help="files of cases, by default the fixed lists")
    options = options.parse_args()
    coverage = Coverage(options.folder)
    taken = set()
    for file in options.cases:
        for blocks in coverage.blocks(file.read_text(encoding="latin-1").split("\n")[:-1]):
            taken |= blocks
    report(coverage, taken)


if __name__ == "__main__":
    main()
