"""Where the fixed lists are: the standard input of the program `replay` and what it must write
(crates/replay/stdin and stdout), so that the gate runs it with no Rust at hand."""

import math
import pathlib

import cases

REPLAY = pathlib.Path(__file__).resolve().parent.parent / "crates/replay"
REPLAYED = (REPLAY / "stdin", REPLAY / "stdout")


def write(pairs, files=REPLAYED):
    """Writes the pairs of case and answer; returns the size of both files."""
    numbered = [(line, f"? {at}" if answer.startswith("?") else answer) for at, (line, answer) in enumerate(pairs, 1)]
    for file, texts in zip(files, zip(*numbered)):
        file.write_text("".join(f"{text}\n" for text in texts))
    return sum(file.stat().st_size for file in files)


def keeping_places(made):
    """Cases that stand in the lists in their old order, then new ones. A case may stand there twice."""
    places = {}
    for at, (line, _) in enumerate(pairs()):
        places.setdefault(line, []).append(at)
    return sorted(made, key=lambda pair: places[pair[0]].pop(0) if places.get(pair[0]) else math.inf)


def pairs():
    """The pairs of case and answer."""
    lines, answers = (file.read_text().split("\n")[:-1] for file in REPLAYED)
    return zip((line for line in lines if not cases.is_skipped(line)), answers, strict=True)
