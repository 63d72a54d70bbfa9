#!/usr/bin/env python3
"""The layout of cases and answers (the grammar is in README.md) around the reading. As a command
it reads cases from standard input and prints the reading's answers, one line for each case."""

import argparse
import re
import sys
from functools import lru_cache, partial

import grapheme_reading
import line_reading
import property_reading
import reading
from line_reading import LineState, Table
from reading import Part, Record, Refusal, WordState

PARSERS = {"s": "simple", "m": "myanmar", "c": "complex"}
# each file of properties by its letter, in the order of the answers
PROPERTY_FILES = {"G": property_reading.CLUSTER_CODES, "W": property_reading.WORD_CODES}
LARGEST = {"u8": 0xFF, "u16": 0xFFFF, "u32": 0xFFFFFFFF, "ranges": 4096}
DECIMAL = re.compile("[0-9]+")
HEXADECIMAL = re.compile("[0-9A-Fa-f]+")
BYTES = re.compile("([0-9A-Fa-f]{2})*")


class NotOfLayout(Exception):
    pass


def number(digits, kind, pattern=DECIMAL, base=10):
    if not pattern.fullmatch(digits):
        raise NotOfLayout
    significant = digits.lstrip("0") or "0"
    if len(significant) > 10 or int(significant, base) > LARGEST[kind]:
        raise NotOfLayout
    return int(significant, base)


def scalar(digits):
    return number(digits, "u32", HEXADECIMAL, 16)


def fields(item, count):
    all_fields = item.split(",")
    if len(all_fields) != count:
        raise NotOfLayout
    return all_fields


@lru_cache(maxsize=1 << 16)
def record(item):
    first, *codes, first_part, count = fields(item, 14)
    return Record(scalar(first), *[number(code, "u8") for code in codes],
                  number(first_part, "u16"), number(count, "u8"))


@lru_cache(maxsize=1 << 16)
def part(item):
    first, *codes = fields(item, 4)
    return Part(scalar(first), *[number(code, "u8") for code in codes])


@lru_cache(maxsize=1 << 16)
def marked_class(item):
    return tuple(number(code, "u8") for code in fields(item, 2))


@lru_cache(maxsize=1 << 16)
def line_record(item):
    return tuple(number(code, "u8") for code in fields(item, 3))


def items(field, read):
    return [read(item) for item in field.split(" ")] if field else []


def flag(digits):
    value = number(digits, "u8")
    if value > 1:
        raise NotOfLayout
    return value


def word_state(item):
    first, previous, prevent_next, count = fields(item, 4)
    return WordState(flag(first), number(previous, "u8"), flag(prevent_next), number(count, "u8"))


def class_or_none(digits):
    return None if digits == "-" else number(digits, "u8")


def line_state(item):
    row, previous = fields(item, 2)
    return LineState(number(row, "u8"), class_or_none(previous))


def strength(word):
    if word not in line_reading.STRENGTHS:
        raise NotOfLayout
    return word


def run_of_cells(item):
    """`cell` or `COUNT*cell`; a count of 0 is no cells."""
    count, star, cell = item.rpartition("*")
    return bytes([number(cell, "u8")]) * (number(count, "u16") if star else 1)


@lru_cache(maxsize=64)
def table(field):
    return line_reading.crate_table() if field == "crate" else Table(b"".join(items(field, run_of_cells)))


def block(item):
    """The letter of a file and bytes. `X:` is an XML document, which is not of the layout before Req 11."""
    file, colon, digits = item.partition(":")
    if file not in PROPERTY_FILES or not colon or not BYTES.fullmatch(digits):
        raise NotOfLayout
    return file, bytes.fromhex(digits)


def refusal_line(refusal):
    return f"R {refusal.number} {refusal.index} {refusal.side}"


def info_signs(call):
    emoji = {"none": "n", "Default": "D", "Text": "T", "Color": "C"}[call.emoji]
    space = {"none": "-", "newline": "N"}.get(call.space) or f"{call.space:04X}"
    return emoji + space + ("B" if call.broken else ".") + ("Z" if call.normalise else ".")


def call_item(start, call):
    characters = ",".join(["%04X.%d.%d.%d" % tuple(pushed) for pushed in call.pushed])
    return f"{start}>{call.next}:{characters}:{info_signs(call)}"


def stepping_line(answer):
    if isinstance(answer, Refusal):
        return refusal_line(answer)
    tokens, calls = answer
    return "|".join([str(len(tokens))] + [call_item(start, call) for start, call in calls])


def full_run_line(answer):
    if isinstance(answer, Refusal):
        return refusal_line(answer)
    clusters, written = answer
    return f"{clusters} {len(written)}|" + " ".join(["%04X.%d.%d" % cell for cell in written])


def run_line(answer):
    if isinstance(answer, Refusal):
        return refusal_line(answer)
    return " ".join(map(str, answer))


def state_item(state):
    return ",".join("-" if field is None else str(field) for field in state)


def step_line(states, answer):
    """Of a step with its states, which a refusal hands back."""
    boundary, *after = (refusal_line(answer), *states) if isinstance(answer, Refusal) else answer
    return ";".join([str(boundary), *map(state_item, after)])


def ranges_item(held):
    return ",".join(["%04X-%04X.%d" % range_ for range_ in held])


def lookup_item(answer):
    if isinstance(answer, Refusal):
        return refusal_line(answer)
    return " ".join(["%d,%d" % both for both in answer])


def cluster_answer(kind, mode, script, place, records, parts):
    if mode not in (reading.CRATE, reading.WHOLE) or script not in ("-", "K"):
        raise NotOfLayout
    if script == "K" and kind not in "Cc":
        raise NotOfLayout
    text = items(records, record), items(parts, part)
    rest = number(place, "u16"), mode, PARSERS[kind.lower()], script == "K"
    if kind in "SMC":
        return stepping_line(reading.stepping(*text, *rest))
    return full_run_line(reading.full_run(*text, *rest))


def word_run_answer(cells, records):
    return run_line(reading.word_run(items(records, marked_class), number(cells, "u16")))


def word_step_answer(state, record_, following):
    state = word_state(state)
    return step_line([state], reading.word_step(state, *marked_class(record_), class_or_none(following)))


def grapheme_answer(cells, records):
    """The same for both engines."""
    return run_line(grapheme_reading.graphemes(items(records, marked_class), number(cells, "u16")))


def line_step_answer(strength_, table_, state, line_class):
    state = line_state(state)
    return step_line([state], line_reading.line_step(strength(strength_), table(table_), state, number(line_class, "u8")))


def next_step_answer(strength_, table_, line_state_, word_state_, record_, following):
    states = line_state(line_state_), word_state(word_state_)
    given = line_record(record_), class_or_none(following)
    return step_line(states, line_reading.next_step(strength(strength_), table(table_), *states, *given))


def line_run_answer(strength_, table_, cells, records):
    given = items(records, line_record), number(cells, "u16")
    return run_line(line_reading.line_run(strength(strength_), table(table_), *given))


def property_answer(cells, blocks, out, scalars):
    """Blocks one after another into two empty sets; one that is refused changes nothing."""
    cells = dict(zip(PROPERTY_FILES, [number(each, "ranges") for each in fields(cells, 2)]))
    blocks, out, scalars = items(blocks, block), number(out, "u16"), items(scalars, scalar)
    held = {file: [] for file in PROPERTY_FILES}
    verdicts = []
    for file, data in blocks:
        answer_ = property_reading.read(data, PROPERTY_FILES[file], held[file], cells[file])
        if isinstance(answer_, Refusal):
            verdicts.append(refusal_line(answer_))
        else:
            verdicts.append("ok")
            held[file] = answer_
    looked_up = property_reading.lookup(scalars, *held.values(), out)
    return "|".join([*verdicts, *map(ranges_item, held.values()), lookup_item(looked_up)])


# each kind with the number of its fields
ANSWERS = {("W", 2): word_run_answer, ("w", 3): word_step_answer, ("G", 2): grapheme_answer, ("g", 2): grapheme_answer,
           ("l", 4): line_step_answer, ("n", 6): next_step_answer, ("L", 4): line_run_answer, ("F", 4): property_answer,
           **{(kind, 5): partial(cluster_answer, kind) for kind in "SMCsmc"}}


def answer(line):
    """The answer to one case; raises NotOfLayout."""
    kind, *rest = line.split(";")
    answer_of = ANSWERS.get((kind, len(rest)))
    if not answer_of:
        raise NotOfLayout
    return answer_of(*rest)


def is_skipped(line):
    return not line.strip(" ") or line.startswith("#")


def answers(lines):
    """The answers to the lines of a file; the numbers count skipped lines too."""
    for line_number, line in enumerate(lines, 1):
        if is_skipped(line):
            continue
        try:
            yield answer(line)
        except NotOfLayout:
            yield f"? {line_number}"


def main():
    argparse.ArgumentParser(description=__doc__).parse_args()
    lines = (line.decode("latin-1").removesuffix("\n") for line in sys.stdin.buffer)
    sys.stdout.writelines(f"{line}\n" for line in answers(lines))


if __name__ == "__main__":
    main()
