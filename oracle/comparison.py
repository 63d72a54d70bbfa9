"""How the judges are held against each other, and a third program against both: the Rust, the
reading, and the laws of whole mode, over cases in parts. The command is `compare`."""

import collections
import itertools
import subprocess

import cases
import generate
import laws
import real_labels
import real_properties
import unicode

KINDS = "SMCWwsmclnLFGg"
CHUNK = 20_000
CLUSTER_PARTS = ("S", "M", "C", "exhaustive-S", "exhaustive-M", "exhaustive-C", "exhaustive-partless-C", "newlines-S",
                 "ordered-M", "ordered-C", "places")
RUN_PARTS = ("runs-s", "runs-m", "runs-c", "runs-khmer", "newline-runs", "split-runs", "damaged-runs")
READ_STRIDE = 8  # the Rust answers every full run in crate mode, the reading one in so many: it is slow


class Difference(Exception):
    pass


def expect(name, line, expected, given):
    if expected != given:
        raise Difference(f"{name}\n  case     {line[:4000]}\n  expected {expected[:4000]}\n  given    {given[:4000]}")


class Comparison:
    """The Rust and the third are functions from lines to answers; there need be no third."""

    def __init__(self, rust, third=None, kinds=KINDS):
        self.rust = rust
        self.third = third
        self.kinds = kinds
        self.differences = 0

    def is_chosen(self, line):
        return line[:1] not in KINDS or line[:1] in self.kinds

    def may_have_chosen(self, part):
        """A part of one kind alone says it at the end of its name; it need not be made for nothing."""
        kind = part.rpartition("-")[2]
        return len(kind) > 1 or kind in self.kinds

    def judge_of(self, part):
        if part in RUN_PARTS:
            return self.full_runs
        return self.both_modes if part in CLUSTER_PARTS else self.chunk

    def part(self, name, lines):
        """Compares one part in chunks, up to its first difference; returns the count of cases."""
        judge = self.judge_of(name)
        counts = collections.Counter({"cases": 0, "by the Rust": 0, "refused": 0, "whole": 0})
        lines = filter(self.is_chosen, lines)
        try:
            while chunk := list(itertools.islice(lines, CHUNK)):
                judge(chunk, counts)
        except Difference as difference:
            self.differences += 1
            print(f"{name}: DIFFERS: {difference}")
        if counts["cases"]:
            print(f"{name}: " + ", ".join(f"{count} {what}" for what, count in counts.items()), flush=True)
        return counts["cases"]

    def chunk(self, lines, counts):
        """The reading against the Rust, which answers `-` to what isn't its business. Returns
        the reading's answers."""
        read = list(cases.answers(lines))
        answered = [line for line in lines if not cases.is_skipped(line)]
        judged = self.judged_by_rust(answered)
        for line, reading, rust in zip(answered, read, judged, strict=True):
            is_refused = reading[:2] in ("R ", "? ")
            if rust is not None:
                expect("the reading against the Rust", line, rust, "-" if is_refused else reading)
                counts["by the Rust"] += rust != "-"
            counts["refused"] += is_refused
        expected = [reading if rust in (None, "-") else rust for reading, rust in zip(read, judged)]
        self.hold_third(lines, answered, expected)
        counts["cases"] += len(answered)
        return read

    def judged_by_rust(self, lines):
        """The Rust's answers; None where it has no say. A full run in crate mode is judged by
        the stepping calls that it consists of, once the reading found room for it."""
        asked = [laws.stepping_twin(line) for line in lines]
        answers = self.rust(asked)
        return [laws.rust_judgement(line, answer) for line, answer in zip(lines, answers, strict=True)]

    def both_modes(self, lines, counts):
        self.twins(lines, self.chunk(lines, counts), counts)

    def twins(self, lines, read, counts):
        """The same texts in whole mode: no Rust there, but laws that bind it to crate mode."""
        whole = [generate.whole(line) for line in lines]
        answers = list(cases.answers(whole))
        for line, crate, answer in zip(whole, read, answers, strict=True):
            expect("a law of whole mode", line, "lawful", laws.whole_fault(line, crate, answer) or "lawful")
        self.hold_third(whole, whole, answers)
        counts["whole"] += len(whole)
        counts["cases"] += len(whole)

    def full_runs(self, lines, counts):
        """Full runs in crate mode, and the same in whole mode. The Rust answers crate mode, and by
        a law whole mode where its calls are ordinary. The reading answers whole mode, a share of
        crate mode, and the refusals, which are the same in both where both see the same tokens."""
        whole = [generate.whole(line) for line in lines]
        read = list(cases.answers(whole))
        calls = self.rust(map(laws.stepping_twin, lines))
        crate = [self.crate_run(*each, counts) for each in zip(lines, calls, read, strict=True)]
        share = lines[::READ_STRIDE]
        for line, judged, reading in zip(share, crate[::READ_STRIDE], cases.answers(share), strict=True):
            expect("the reading against the Rust", line, judged, reading)
        self.hold_third(lines, lines, crate)
        self.hold_third(whole, whole, read)
        counts["cases"] += 2 * len(lines)
        counts["whole"] += len(lines)
        counts["read in crate mode"] += len(share)

    def crate_run(self, line, calls, whole, counts):
        """The answer to a full run in crate mode, from the Rust's calls and the reading's answer in
        whole mode, or in crate mode where the modes see other tokens."""
        rust = laws.rust_judgement(line, calls)
        sees_more = laws.sees_more(line)
        reading = cases.answer(line) if sees_more else whole
        is_refused = reading.startswith("R ")
        if is_refused or rust == "-":
            expect("the reading against the Rust", line, rust, "-" if is_refused else reading)
            counts["refused"] += 1
            return reading
        if sees_more:
            expect("the reading against the Rust", line, rust, reading)
        elif laws.is_ordinary(calls):
            expect("a law of whole mode", line, rust, whole)
            counts["equal in whole mode"] += 1
        counts["by the Rust"] += 1
        return rust

    def hold_third(self, lines, answered, expected):
        if not self.third:
            return
        try:
            given = self.third(lines)
        except subprocess.CalledProcessError as failed:
            raise Difference(f"the program failed: {failed}") from failed
        if len(given) != len(expected):
            raise Difference(f"{len(given)} answers to {len(expected)} cases")
        for line, judge, answer in zip(answered, expected, given):
            expect("the program against the judges", line, judge, answer)


def compare_real(comparison):
    """The real labels: the reading against the whole crate's answers, then both judges on them."""
    pairs = real_labels.all_pairs()
    for line, answer in pairs:
        try:
            expect("real labels", line, answer, cases.answer(line))
        except Difference as difference:
            comparison.differences += 1
            print(f"real labels: DIFFERS: {difference}")
            break
    return comparison.part("real labels", (line for line, _ in pairs))


def compare_unicode(comparison, folder):
    """The published break test files: both judges on them, then their answers by the files."""
    lines = unicode.all_cases(folder)
    count = comparison.part("unicode", lines)
    comparison.differences += unicode.check_all(folder, list(cases.answers(lines)))
    return count


def compare_properties(comparison, folder, seed, count):
    """The published property files, whole and as damaged lines, so many of each."""
    return (comparison.part("published-F", real_properties.whole_files(folder))
            + comparison.part("damaged-F", real_properties.damaged(folder, seed, count)))
