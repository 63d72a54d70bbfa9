"""What binds answers to each other: full runs to the stepping calls that they consist of, and
whole mode, for which there is no Rust, to crate mode."""

import re

NOT_OF_THE_RUST = ("F", "G", "g")  # property files, clusters as UAX #29 has them
CALL = re.compile(r"(\d+)>(\d+):([^:]*):")
PARTLESS = re.compile(r",1,\d+,0(?: |$)")  # the end of a record that is marked and has no parts


def stepping_twin(line):
    """The stepping case whose calls a full run in crate mode consists of; else the line."""
    kind, *rest = line.split(";")
    if kind not in ("s", "m", "c") or len(rest) != 5:
        return line
    rest[2] = "0"
    return ";".join([kind.upper(), *rest])


def rust_judgement(line, answer):
    """The Rust's answer for a line: `-` where the text is refused, None where the Rust has no
    say (whole mode; kinds that it does not have; a full run without room)."""
    kind, *rest = line.split(";")
    if rest[:1] == ["whole"] or kind in NOT_OF_THE_RUST:
        return None
    if kind not in ("s", "m", "c") or answer == "-":
        return answer
    tokens = int(answer.split("|")[0])
    is_number = rest[2].isascii() and rest[2].isdigit()
    return full_run(answer) if is_number and int(rest[2]) >= 2 * tokens else "-"


def full_run(answer):
    """A full run's answer from the answer of the stepping calls from the start."""
    cells = []
    calls = answer.split("|")[1:]
    for number, call in enumerate(calls):
        for character in CALL.match(call)[3].split(","):
            scalar, shape, _, _ = character.split(".")
            cells.append(f"{scalar}.{shape}.{number}")
    return f"{len(calls)} {len(cells)}|" + " ".join(cells)


def passed_and_taken(call):
    """How many tokens a call passed, and how many it pushed or noted."""
    start, following, characters = CALL.match(call).groups()
    each = characters.split(",")
    noted = sum([int(character.rpartition(".")[2]) for character in each])
    return int(following) - int(start), len(each) + noted


def is_ordinary(crate):
    """Whether the calls of crate mode have no cluster of 32 and no repeat (b): whole mode has the
    same ones then, of the same tokens."""
    return all(passed == taken for passed, taken in map(passed_and_taken, crate.split("|")[1:]))


def sees_more(line):
    """Whether whole mode has tokens that crate mode lacks: for complex, a marked record without
    parts (SCOPE 12.3)."""
    kind, *fields = line.split(";")
    return kind in ("C", "c") and len(fields) == 5 and bool(PARTLESS.search(fields[3]))


def missing_records(line, calls):
    """How many records are no pushed character's, and how many tokens are noted."""
    characters = [character.split(".") for call in calls for character in CALL.match(call)[3].split(",")]
    records = line.split(";")[4]
    count = len(records.split(" ")) if records else 0
    return count - len({record for _, _, record, _ in characters}), sum(int(noted) for *_, noted in characters)


def whole_fault(line, crate, whole):
    """What is wrong with an answer in whole mode, or None."""
    is_bound = not sees_more(line)
    if crate[:2] in ("R ", "? ") and (is_bound or crate[:4] != "R 8 " or whole[:4] == "R 8 "):
        return None if crate[:2] == whole[:2] else "refused in one mode only"
    if is_bound and is_ordinary(crate) and whole != crate:
        return "no cluster of 32, no repeat, and still other answers than crate mode: " + whole
    tokens, *calls = whole.split("|")
    if any(passed != taken for passed, taken in map(passed_and_taken, calls)):
        return "a token pushed twice or passed over: " + whole
    place = line.split(";")[3]
    for call in calls:
        start, following, _ = CALL.match(call).groups()
        if start != place:
            return "a gap between calls: " + whole
        place = following
    if place != tokens:
        return "the end is not reached: " + whole
    missing, noted = missing_records(line, calls)
    return "a record that is neither pushed nor noted: " + whole if line.split(";")[3] == "0" and missing > noted else None
