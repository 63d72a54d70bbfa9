"""The real labels: cases with the answers that the whole crate gave (real/README.md)."""

import pathlib

FOLDER = pathlib.Path(__file__).resolve().parent / "real"
NAMES = ("complex", "myanmar", "simple", "words")


def pairs(name):
    """The pairs of case and answer of one file."""
    return [tuple(line.split("\t")) for line in (FOLDER / f"{name}.txt").read_text().splitlines()]


def all_pairs():
    return [pair for name in NAMES for pair in pairs(name)]
