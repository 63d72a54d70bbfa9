#!/usr/bin/env python3
"""Cases, seeded: random texts biased to the corners, exhaustive short texts, all word steps and line
steps, damaged columns and tables, full runs (those of lines are in line_cases.py), property files
(in property_cases.py). Texts are in crate mode; `whole` turns a case into whole mode. Prints the cases
of one part, one a line.
"""

import argparse
import itertools
import random
from functools import lru_cache, partial
from typing import NamedTuple

import grapheme_cases
import line_cases
import property_cases
from reading import CLUSTER_BREAK, KHMER_SIGNS, MYANMAR, USE, WORD, barred_joiner

REST_USE, REST_MYANMAR = USE.index("rest"), MYANMAR.index("rest")
ALLOWED_JOINER_USE = [code for code in range(len(USE)) if not barred_joiner(0x34F, code)]


def record(scalar, cluster_break="XX", use="rest", myanmar="rest", category=0, word=0, simple=0, of_myanmar=0,
           complex_=0, pictograph=0, selector=0, decompose=0, first=0, count=0):
    return (f"{scalar:04X},{CLUSTER_BREAK.index(cluster_break)},{USE.index(use)},{MYANMAR.index(myanmar)},"
            f"{category},{word},{simple},{of_myanmar},{complex_},{pictograph},{selector},{decompose},{first},{count}")


def part(scalar, cluster_break="XX", use="rest", category=0):
    return f"{scalar:04X},{CLUSTER_BREAK.index(cluster_break)},{USE.index(use)},{category}"


def case(kind, place, records, parts=(), script="-", mode="crate"):
    return f"{kind};{mode};{script};{place};{' '.join(records)};{' '.join(parts)}"


def whole(line):
    return line.replace(";crate;", ";whole;", 1)


def emoji_marks(on):
    return dict(simple=on, of_myanmar=on, complex_=on)


# ---- Alphabets: every class and every scalar that the Rust names ----------------------------

EMOJI = record(0x1F600, pictograph=1, **emoji_marks(1))
EMOJI_TAIL = [
    record(0xFE0F, "EX", "VS", "VS", selector=1),
    record(0xFE0E, "EX", "VS", "VS", selector=1),
    record(0x200D, "ZWJ", "ZWJ", "rest", 1),
    record(0x200C, "EX", "ZWNJ", "rest", 1),
    record(0x0301, "EX", "FM", "rest"),
    record(0xFE0F, "XX", "VS", "VS"),
    record(0x034F, "EX"),
]
STANDING_ALONE = [
    record(0x0D, "CR", "O", "O", 2),
    record(0x0A, "LF", "O", "O", 2),
    record(0x0A, "LF", "B", "C", **emoji_marks(1)),
    record(0x0D, "CR", "B", "C"),
    record(0x0D, "CR", "O", "O", **emoji_marks(1)),
    record(0x20, "XX", "O", "O"),
    record(0x85, "CN", "O", "O", 2),
    record(0x200B, "CN", "O", "O", 1),
    record(0x200C, "EX", "O", "O", 1),
    record(0x200D, "ZWJ", "O", "O", 1),
    record(0x200D, "ZWJ", "O", "O", 0),
]
JOINER = record(0x34F, "EX")

KIND_SCALARS = dict(XX=0x61, CN=0x85, CR=0x0D, LF=0x0A, L=0x1100, V=0x1161, T=0x11A8, LV=0xAC00, LVT=0xAC01,
                    RI=0x1F1E6, EX=0x301, SM=0x903, ZWJ=0x200D, PP=0x600)
SIMPLE_KINDS = [record(scalar, kind) for kind, scalar in KIND_SCALARS.items()]
SIMPLE = SIMPLE_KINDS + [EMOJI, JOINER] + EMOJI_TAIL[:4] + [
    record(0xFE00, "EX", selector=1),
    record(0xFE0F, "EX"),
    record(0x200C, "EX", selector=1),
    record(0xFE0F, "XX"),
] + [record(KIND_SCALARS[kind], kind, simple=1) for kind in ("CR", "L", "RI", "EX", "ZWJ", "PP")]

MYANMAR_KINDS = [record(0x1000 + code, myanmar=kind) for code, kind in enumerate(MYANMAR)]
KINZI = [[record(scalar, myanmar="C") for scalar in (0x1004, 0x101B, 0x105A)],
         [record(0x103A, myanmar="As")], [record(0x1039, myanmar="H")]]
MYANMAR_ALL = MYANMAR_KINDS + STANDING_ALONE + [EMOJI, JOINER] + EMOJI_TAIL[:5] + [
    KINZI[0][0], KINZI[0][2], KINZI[1][0], KINZI[2][0],
    record(0x1004, myanmar="S"), record(0x1039, myanmar="C"), record(0x034F, "EX", myanmar="C"),
]

USE_KINDS = [record(0x0900 + code, use=kind) for code, kind in enumerate(USE)]
COENG = record(0x17D2, "EX", "H")
PARTS = [
    part(0x17C1, "SM", "VPre"), part(0x0915, "XX", "B"), part(0x094D, "EX", "H"), part(0x09BE, "EX", "VPst"),
    part(0x034F, "EX"), part(0xFE0F, "EX", "VS"), part(0x200D, "ZWJ", "ZWJ", 1), part(0x0D, "CR", "O", 2),
    part(0x0A, "LF", "O", 2), part(0x1F600, "XX", "O"), part(0x034F, "EX", "O"),
]


def khmer_sign(scalar, first=0, **more):
    return record(scalar, "SM", "VAbv", first=first, count=1, **more)


def marked(first, count, **more):
    return record(0x0958, "XX", "B", decompose=1, first=first, count=count, **more)


COMPLEX_ALL = USE_KINDS + STANDING_ALONE + [EMOJI, JOINER, COENG] + EMOJI_TAIL[:5] + [
    khmer_sign(0x17BE), khmer_sign(0x17C5, complex_=1),
    marked(0, 0), marked(1, 1), marked(1, 3), marked(4, 3), marked(8, 2, complex_=1),
    record(0x034F, "EX", "CMAbv"), record(0x034F, "EX", "VS"), record(0x034F, "EX", "B"),
]


# ---- Random texts ---------------------------------------------------------------------------


def chosen(rng, alphabet, least, most):
    return rng.choices(alphabet, k=rng.randint(least, most))


def emoji_text(rng, alphabet, emoji=EMOJI):
    text = []
    for _ in range(rng.choice([1, 1, 2, 3, 11])):
        text += [emoji] + chosen(rng, EMOJI_TAIL, 0, 3) + [EMOJI_TAIL[2]] * rng.randint(0, 1)
    return text + chosen(rng, alphabet, 0, 2)


def filled(rng, head, fillers, alphabet):
    """A cluster of 30 to 34 characters, more or less, and what follows it."""
    filler = rng.choice(fillers)
    room = rng.randint(30, 34) - len(head)
    body = [filler] * room if rng.random() < 0.7 else rng.choices([filler, rng.choice(fillers)], k=room)
    return head + body + chosen(rng, alphabet, 0, 3)


def noisy(rng, text):
    """One column of one record set to any code of its list."""
    at = rng.randrange(len(text))
    fields = text[at].split(",")
    column = rng.randrange(1, 11)
    if fields[0] == "034F" and column == 2:
        fields[2] = str(rng.choice(ALLOWED_JOINER_USE))
    else:
        longest = [0, len(CLUSTER_BREAK), len(USE), len(MYANMAR), 3, len(WORD), 2, 2, 2, 2, 2][column]
        fields[column] = str(rng.randrange(longest))
    return text[:at] + [",".join(fields)] + text[at + 1:]


def perhaps_noisy(rng, text):
    return noisy(rng, text) if text and rng.random() < 0.2 else text


def place_in(rng, tokens):
    return 0 if rng.random() < 0.6 else rng.randint(0, tokens)


def simple_text(rng):
    shape = rng.random()
    if shape < 0.6:
        return chosen(rng, SIMPLE, 0, 9)
    if shape < 0.8:
        return emoji_text(rng, SIMPLE)
    if shape < 0.9:
        return chosen(rng, SIMPLE_KINDS, 1, 12)
    fillers = [SIMPLE_KINDS[10], SIMPLE_KINDS[11], SIMPLE_KINDS[12], SIMPLE_KINDS[13], JOINER, EMOJI_TAIL[3]]
    return filled(rng, chosen(rng, SIMPLE, 0, 2), fillers, SIMPLE)


MYANMAR_ORDER = """VS H C VS H IV As As MY As MR MW MH As MH As VPre VPre VAbv VBlw A A DB As VPst MH As VAbv A DB As PT
    As A PT A DB As V V J""".split()
USE_ORDER = """VS SMAbv SMBlw CMAbv CMBlw SUB CMAbv CMBlw H B VS CMAbv CMBlw H B MPre MAbv MBlw MBlw MPst VPre VPre
    VAbv VBlw VPst VMPre VMAbv VMBlw VMPst H VMPre FAbv FBlw FPst FM""".split()


def in_order(rng, order, by_kind):
    """A syllable that follows the grammar's order, with gaps and now and then a joiner."""
    keep = rng.choice([0.15, 0.3, 0.6])
    text = []
    for kind in order:
        if rng.random() < keep:
            text += [by_kind[kind]] * (2 if rng.random() < 0.1 else 1)
            if rng.random() < 0.05:
                text.append(JOINER)
    return cut_or_stuffed(rng, text)


def cut_or_stuffed(rng, text):
    """Now and then the text ends in the middle of the syllable, or joiners make the cluster
    full there: every accept meets the end and the limit."""
    chance = rng.random()
    if chance < 0.25:
        return text[:rng.randint(0, len(text))]
    if chance < 0.35:
        at = rng.randint(0, len(text))
        return text[:at] + [JOINER] * max(0, rng.randint(29, 32) - at) + text[at:]
    return text


MYANMAR_BY_KIND = dict(zip(MYANMAR, MYANMAR_KINDS))
USE_BY_KIND = dict(zip(USE, USE_KINDS))


def kinzi_text(rng):
    text = [rng.choice(choices) for choices in KINZI]
    for at in range(3):
        if rng.random() < 0.15:
            fields = text[at].split(",")
            fields[3] = str(rng.randrange(len(MYANMAR)))
            text[at] = ",".join(fields)
    joiner = rng.choice([JOINER, JOINER, record(0x034F, "EX", myanmar=rng.choice(MYANMAR))])
    text += [joiner] * rng.choice([0, 0, 0, 1, 2, 26, 27, 28, 29, 30, 31, 60])
    if rng.random() < 0.05:
        text.insert(rng.randint(0, len(text)), JOINER)
    return chosen(rng, MYANMAR_ALL, 0, 1) + text


def myanmar_text(rng):
    shape = rng.random()
    if shape < 0.35:
        return chosen(rng, MYANMAR_ALL, 0, 9)
    if shape < 0.6:
        base = MYANMAR_BY_KIND[rng.choice(["C", "IV", "D", "DB"])]
        after = chosen(rng, MYANMAR_ALL, 0, 2) if rng.random() < 0.5 else []
        return [base] + in_order(rng, MYANMAR_ORDER, MYANMAR_BY_KIND) + after
    if shape < 0.8:
        return kinzi_text(rng) + chosen(rng, MYANMAR_ALL, 0, 3)
    if shape < 0.9:
        return emoji_text(rng, MYANMAR_ALL)
    fillers = [MYANMAR_BY_KIND[kind] for kind in ("As", "VPre", "VAbv", "VBlw", "A", "V", "PT", "VPst")] + [JOINER]
    return filled(rng, chosen(rng, MYANMAR_ALL, 1, 2), fillers, MYANMAR_ALL)


def complex_parts(rng):
    """The first part is the lent U+17C1, under some class."""
    first = part(0x17C1, "SM", rng.choice(["VPre", "VPre", "VPre", "VAbv", "B", "O", "SUB"]))
    return [first] + chosen(rng, PARTS, 0, 5)


def with_parts(rng, parts):
    """A record that looks into the parts: marked, or a Khmer sign."""
    if rng.random() < 0.4:
        sign = rng.choice(KHMER_SIGNS)
        return khmer_sign(sign, complex_=rng.choice([0, 0, 1]))
    first = rng.randint(0, len(parts))
    count = rng.randint(0, min(3, len(parts) - first))
    scalar = rng.choice([0x0958, 0x17BE, 0x034F])
    return record(scalar, "XX", "B", decompose=1, first=first, count=count, complex_=rng.choice([0, 0, 1]))


def complex_text(rng, parts):
    shape = rng.random()
    if shape < 0.3:
        text = chosen(rng, COMPLEX_ALL[:-10] + COMPLEX_ALL[-3:], 0, 8)
    elif shape < 0.6:
        head = chosen(rng, [USE_BY_KIND[kind] for kind in ("R", "CS", "N", "S", "IND")], 0, 1)
        base = USE_BY_KIND[rng.choice(["B", "GB", "N", "S"])]
        order = USE_ORDER if rng.random() < 0.8 else "HN N VS HN N HN SMAbv SMBlw".split()
        after = chosen(rng, COMPLEX_ALL[:50], 0, 2) if rng.random() < 0.5 else []
        text = head + [base] + in_order(rng, order, USE_BY_KIND) + after
    elif shape < 0.7:
        text = emoji_text(rng, COMPLEX_ALL[:50])
    elif shape < 0.8:
        kinds = "CMAbv CMBlw VPre VAbv VBlw VPst VMPre VMAbv FAbv FBlw FPst SUB SMAbv H HN".split()
        fillers = [USE_BY_KIND[kind] for kind in kinds] + [JOINER, JOINER, JOINER]
        head = [USE_BY_KIND[rng.choice(["B", "GB", "R", "S", "O"])]]
        text = filled(rng, chosen(rng, COMPLEX_ALL[:50], 0, 1) + head, fillers, COMPLEX_ALL[:50])
    else:
        text = chosen(rng, [USE_BY_KIND["B"], COENG, USE_BY_KIND["VPre"], JOINER, EMOJI] + STANDING_ALONE[:2], 0, 4)
    for _ in range(rng.choice([0, 0, 1, 1, 2, 3])):
        text.insert(rng.randint(0, len(text)), with_parts(rng, parts))
    return text


@lru_cache(maxsize=1 << 16)
def width(item, khmer, in_whole_mode):
    """How many tokens of complex a record gives, if a sign has its part."""
    fields = item.split(",")
    is_sign = khmer and int(fields[0], 16) in KHMER_SIGNS
    return max(int(fields[13]), in_whole_mode) if fields[11] == "1" else 2 if is_sign else 1


def token_count(text, khmer, in_whole_mode=False):
    """How many tokens complex sees; every sign in these texts has its part."""
    return sum([width(item, khmer, in_whole_mode) for item in text])


def random_simple(rng, count):
    for _ in range(count):
        text = perhaps_noisy(rng, simple_text(rng))
        yield case("S", place_in(rng, len(text)), text)


def random_myanmar(rng, count):
    for _ in range(count):
        text = perhaps_noisy(rng, myanmar_text(rng))
        yield case("M", place_in(rng, len(text)), text)


def random_complex(rng, count):
    for _ in range(count):
        parts = complex_parts(rng)
        text = perhaps_noisy(rng, complex_text(rng, parts))
        script = rng.choice("-K")
        yield case("C", place_in(rng, token_count(text, script == "K")), text, parts, script)


def random_full_runs(rng, count):
    """Like the stepping cases, from the start, into cells that just suffice, or more, or less."""
    makers = [random_simple(rng, count), random_myanmar(rng, count), random_complex(rng, count)]
    for number in range(count):
        kind, mode, script, _, records, parts = next(makers[number % 3]).split(";")
        text = records.split(" ") if records else []
        spare = rng.choice([0, 0, 1, 9, -1, None])
        mode = rng.choice([mode, "whole"])
        tokens = token_count(text, script == "K", mode == "whole") if kind == "C" else len(text)
        cells = 0 if spare is None else max(0, 2 * tokens + spare)
        yield f"{kind.lower()};{mode};{script};{cells};{records};{parts}"


# ---- Exhaustive short texts -----------------------------------------------------------------


def all_texts(alphabet, longest):
    for length in range(longest + 1):
        yield from itertools.product(alphabet, repeat=length)


def exhaustive_simple():
    for text in all_texts(SIMPLE, 3):
        yield case("S", 0, text)
    for text in itertools.product(SIMPLE_KINDS + [EMOJI, EMOJI_TAIL[0]], repeat=4):
        yield case("S", 0, text)


def exhaustive_myanmar():
    for text in all_texts(MYANMAR_ALL, 3):
        yield case("M", 0, text)
    kinds = "C H As MY MW MH VPst PT A DB V".split()
    alphabet = [MYANMAR_BY_KIND[kind] for kind in kinds] + [KINZI[0][0], KINZI[1][0], KINZI[2][0], JOINER]
    for text in itertools.product(alphabet, repeat=4):
        yield case("M", 0, text)


def exhaustive_complex():
    for text in all_texts(COMPLEX_ALL, 2):
        for script in "-K":
            yield case("C", 0, text, PARTS, script)
    for text in itertools.product(USE_KINDS + [JOINER, EMOJI, COENG, EMOJI_TAIL[0], marked(0, 0)], repeat=3):
        yield case("C", 0, text, PARTS[:1], "K")
    alphabet = [USE_BY_KIND[kind] for kind in "B GB VS H SUB CMBlw MBlw N HN S SMBlw R".split()]
    for text in itertools.product(alphabet + [JOINER, khmer_sign(0x17BE)], repeat=4):
        yield case("C", 0, text, PARTS[:1], "K")


def without_parts(item):
    """The same record, marked and without parts."""
    return ",".join([*item.split(",")[:11], "1", "0", "0"])


# What the rules look at, each as a record that stands for itself in whole mode.
WITHOUT_PARTS = [without_parts(item) for item in (
    USE_BY_KIND["B"], USE_BY_KIND["VPre"], USE_BY_KIND["H"], COENG, khmer_sign(0x17BE), khmer_sign(0x17C5, complex_=1),
    EMOJI, *EMOJI_TAIL[:5], JOINER, *STANDING_ALONE[:3])]


def exhaustive_without_parts():
    """Marked records without parts: every place of texts of up to two, one past the end of both
    modes too, and texts of three from the start."""
    others = [USE_BY_KIND["B"], EMOJI, JOINER, khmer_sign(0x17BE), marked(1, 3)]
    for text in all_texts(WITHOUT_PARTS + others, 2):
        for script in "-K":
            for place in range(token_count(text, script == "K", True) + 2):
                yield case("C", place, text, PARTS, script)
    for text in itertools.product(WITHOUT_PARTS + others, repeat=3):
        yield case("C", 0, text, PARTS, "K")


MYANMAR_PREFIXES = ["C", "IV VS", "D H IV VS", "DB VPst", "C PT"]
USE_PREFIXES = ["B", "GB VS", "R B H B", "CS B SUB", "B H B VS", "N HN N", "S"]


def newline_texts():
    """Prepended characters before CR and LF, about the 31 at which whole mode keeps these two together; each with the emoji mark too, and
    other records in their places."""
    other, cr, lf, mark, prepended = (SIMPLE_KINDS[number] for number in (0, 2, 3, 10, 13))
    firsts = [cr, record(KIND_SCALARS["CR"], "CR", simple=1), other]
    seconds = [[], [lf], [record(KIND_SCALARS["LF"], "LF", simple=1)], [other], [mark], [cr, lf]]
    for count, first, second, tail in itertools.product((0, 29, 30, 31, 32, 33, 62, 63), firsts, seconds, ([], [lf], [mark])):
        yield [prepended] * count + [first] + second + tail


def simple_newlines():
    return (case("S", 0, text) for text in newline_texts())


def newline_runs():
    return (case("s", 2 * len(text), text) for text in newline_texts())


def ordered(kind, by_kind, order, prefixes, joiners):
    """A syllable's start and at most two more of its members, in the grammar's order; with
    joiners between them the cluster is full somewhere behind."""
    for prefix in prefixes:
        start = [by_kind[name] for name in prefix.split()]
        for length in range(3):
            for members in sorted(set(itertools.combinations(order, length))):
                for count in joiners:
                    fill = [JOINER] * max(0, count - len(start))
                    yield case(kind, 0, start + fill + [by_kind[name] for name in members])


def ordered_myanmar(joiners=(0, 30, 31, 32)):
    return ordered("M", MYANMAR_BY_KIND, MYANMAR_ORDER, MYANMAR_PREFIXES, joiners)


def ordered_complex(joiners=(0, 30, 31, 32)):
    return ordered("C", USE_BY_KIND, USE_ORDER + ["HN", "N"], USE_PREFIXES, joiners)


def exhaustive_places():
    """Every place of texts that decompose, in both scripts."""
    alphabet = [marked(0, 0), marked(1, 1), marked(1, 3), marked(4, 3), khmer_sign(0x17C0, complex_=1), EMOJI,
                USE_BY_KIND["B"], JOINER]
    for text in all_texts(alphabet, 3):
        for script in "-K":
            for place in range(token_count(text, script == "K") + 1):
                yield case("C", place, text, PARTS, script)


# ---- Words ----------------------------------------------------------------------------------


def word_steps():
    """Every state and every input."""
    codes = range(len(WORD))
    for state in itertools.product((0, 1), codes, (0, 1), (0, 1, 2)):
        start = "w;" + ",".join(map(str, state)) + ";"
        for word_class, pictograph in itertools.product(codes, (0, 1)):
            for following in ["-", *codes]:
                yield f"{start}{word_class},{pictograph};{following}"


def word_case(records, spare=0):
    return f"W;{len(records) + spare};{' '.join(records)}"


WORD_RECORDS = [f"{word_class},{pictograph}" for word_class in range(len(WORD)) for pictograph in (0, 1)]


def exhaustive_words():
    for text in all_texts(WORD_RECORDS, 3):
        yield word_case(text)


def random_words(rng, count):
    plain = [item for item in WORD_RECORDS if item.endswith(",0")]
    for _ in range(count):
        alphabet = rng.choice([WORD_RECORDS, plain, rng.sample(plain, 4), ["18,0", "18,0", "4,0", "5,0", "2,0"]])
        yield word_case(chosen(rng, alphabet, 0, 14), rng.choice([0, 0, 1, 7]))


# ---- Damaged columns ------------------------------------------------------------------------

SOUND = [0x61] + [0] * 13
SOUND_PART = [0x17C1, 0, USE.index("VPre"), 0]
# Columns and the first value that is outside their list.
RECORD_EDGES = {1: 14, 2: 37, 3: 26, 4: 3, 5: 19, 6: 2, 7: 2, 8: 2, 9: 2, 10: 2, 11: 2}
PART_EDGES = {1: 14, 2: 37, 3: 3}
SCALAR_EDGES = [0, 0xD7FF, 0xD800, 0xDFFF, 0xE000, 0x10FFFF, 0x110000, 0xFFFFFFFF]


def row(values):
    return ",".join([f"{values[0]:04X}", *map(str, values[1:])])


def changed(values, **columns):
    values = list(values)
    for column, value in columns.items():
        values[int(column[1:])] = value
    return values


def record_damages():
    """Records at both edges of refusals 3, 4, 5 and 6, for a text of two parts."""
    for scalar in SCALAR_EDGES:
        yield changed(SOUND, _0=scalar)
    for column, outside in RECORD_EDGES.items():
        for value in (outside - 1, outside, 255):
            if (column, value) != (11, 1):
                yield changed(SOUND, **{f"_{column}": value})
    for decompose, first, count in itertools.product((0, 1), (0, 1, 2, 3, 65533, 65535), (0, 1, 2, 3, 4, 255)):
        yield changed(SOUND, _11=decompose, _12=first, _13=count)
    for use in range(len(USE)):
        yield changed(SOUND, _0=0x34F, _2=use)
        yield changed(SOUND, _0=0x34F, _2=use, _11=1)


def part_damages():
    for scalar in SCALAR_EDGES:
        yield changed(SOUND_PART, _0=scalar)
    for column, outside in PART_EDGES.items():
        for value in (outside - 1, outside, 255):
            yield changed(SOUND_PART, **{f"_{column}": value})
    for use in range(len(USE)):
        yield changed(SOUND_PART, _0=0x34F, _2=use)


def damaged_texts():
    """Each damage alone, first and last of two; then pairs of damages, for the testing order."""
    sound, sound_part = row(SOUND), row(SOUND_PART)
    for damage in map(row, record_damages()):
        yield [damage, sound], [sound_part] * 2
        yield [sound, damage], [sound_part] * 2
    for damage in map(row, part_damages()):
        yield [sound], [damage, sound_part]
        yield [sound], [sound_part, damage]
    for decompose, first, count in itertools.product((0, 1), (0, 3, 4), (0, 3, 4, 255)):
        yield [row(changed(SOUND, _11=decompose, _12=first, _13=count))], [sound_part] * 7
    records = [row(values) for values in (changed(SOUND, _0=0xD800), changed(SOUND, _9=2), changed(SOUND, _13=4),
                                          changed(SOUND, _0=0x34F, _2=9), changed(SOUND, _0=0x17BE))]
    parts = [row(values) for values in (changed(SOUND_PART, _0=0xD800), changed(SOUND_PART, _3=3),
                                        changed(SOUND_PART, _0=0x34F, _2=9))]
    for one, other in itertools.product(records, repeat=2):
        yield [one, other], [sound_part]
    for one, other in itertools.product(records, parts):
        yield [one, sound], [sound_part, other]
    for one, other in itertools.product(parts, repeat=2):
        yield [sound], [one, other]
    for column in (0, 5, 9, 13):
        worst = changed(SOUND, _0=0x110000, _5=19, _9=2, _13=4)
        yield [row(changed(worst, **{f"_{column}": SOUND[column]}))], []


def khmer_texts():
    """Refusal 7: the parts run of the five signs."""
    lent, other = row(SOUND_PART), row(changed(SOUND_PART, _0=0x17C2))
    for scalar, decompose, first, count in itertools.product([*KHMER_SIGNS, 0x17BD, 0x17C6], (0, 1), (0, 1, 2), (0, 1, 2)):
        yield [row(changed(SOUND, _0=scalar, _11=decompose, _12=first, _13=count))], [lent, other, lent]


def damages():
    """Each damaged text for every parser, stepping and full run; the cases of one text together."""
    for text, parts in damaged_texts():
        yield ([case(kind, 0, text, parts) for kind in "SMC"] + [whole(case("C", 0, text, parts, "K"))]
               + [whole(case(kind, 0, text, parts)) for kind in "smc"])


def khmer_damages():
    for text, parts in khmer_texts():
        yield [case("C", 0, text, parts, "K"), case("C", 0, text, parts), case("c", 6, text, parts, "K"),
               case("S", 0, text, parts)]


def refusals():
    for together in itertools.chain(damages(), khmer_damages()):
        yield from together
    yield from room_refusals()
    yield from word_refusals()


def room_refusals():
    """8 and 9 at both edges."""
    sound, part_ = row(SOUND), row(SOUND_PART)
    texts = [[], [sound], [sound] * 3, [row(changed(SOUND, _11=1, _13=count)) for count in (0, 1, 3)]]
    for text, mode in itertools.product(texts, ("crate", "whole")):
        for place in (*range(8), 65535):
            for kind in "SMC":
                yield case(kind, place, text, [part_] * 3, mode=mode)
        for cells in (*range(10), 65535):
            for kind in "smc":
                yield case(kind, cells, text, [part_] * 3, mode=mode)
    bad = row(changed(SOUND, _0=0xD800))
    yield case("S", 9, [bad], [])
    yield case("s", 0, [bad], [])
    yield case("C", 9, [row(changed(SOUND, _0=0x17BE))], [], "K")
    yield case("c", 0, [row(changed(SOUND, _0=0x17BE))], [], "K")


def word_refusals():
    for text in (["18,1"], ["19,0"], ["0,2"], ["255,255"], ["0,0", "19,0"], ["0,0", "0,2", "19,0"], []):
        for cells in range(len(text) + 2):
            yield f"W;{cells};{' '.join(text)}"
    for previous, count in itertools.product((0, 18, 19, 255), (0, 2, 3, 255)):
        for first, record_, following in itertools.product((0, 1), ("0,0", "18,1", "19,0", "0,2"), ("-", "18", "19", "255")):
            yield f"w;{first},{previous},0,{count};{record_};{following}"


def long_refusals():
    """1 at both edges, and before all others. Long lines."""
    sound, part_ = row([0] * 14), row([0] * 4)
    bad, bad_part = row(changed([0] * 14, _0=0xD800)), row([0xD800, 0, 0, 0])
    for length in (4096, 4097):
        yield case("s", 0, [sound] * length)
        yield case("c", 0, [], [part_] * length, mode="whole")
        yield case("m", 0, [bad] + [sound] * (length - 1))
        yield case("S", 0, [bad] + [sound] * (length - 1))
        yield case("C", 0, [], [bad_part] + [part_] * (length - 1), "K")
        yield f"W;0;{' '.join(['0,0'] * length)}"
        yield f"W;65535;{' '.join(['18,0'] * length)}"
        yield f"W;0;{' '.join(['19,0'] + ['0,0'] * (length - 1))}"


def not_of_layout():
    """Lines near the layout and outside it."""
    sound = row(SOUND)
    yield from ["", "# a comment", "   ", " # no comment", "W;0;\r", "S", "S;crate",
                "x;crate;-;0;;", "S;crate;-;0;", "S;crate;-;0;;;", "S;Crate;-;0;;", "S;crate;K;0;;",
                "m;whole;K;0;;", "C;crate;k;0;;", "C;crate;;0;;", "S;crate;-;;;", "S;crate;-;-1;;", "S;crate;-;+0;;",
                "S;crate;-;65536;;", "S;crate;-;00000;;", "S;crate;-;0x0;;", " S;crate;-;0;;", "S;crate;-;0;; ",
                "S;crate;-;0; ;", "W;0;", "W;0; ", "W;0", "W;0;0", "W;1;0,0,0", "W;1;0,0 ", "W;1;0,256", "W;65536;",
                "W;2;0,0  0,0", "w;0,0,0,0;0,0", "w;0,0,0;0,0;-", "w;2,0,0,0;0,0;-", "w;0,0,2,0;0,0;-",
                "w;0,256,0,0;0,0;-", "w;0,0,0,0;0,0;", "w;0,0,0,0;0,0;--", "w;0,0,0,0;0,0;256", "w;01,00,0,0;018,1;018",
                "S;crate;-;0;\u00b2,0;", "\u00e9"]
    for damage in (sound + ",0", sound[:-2], "g" + sound[1:], "100000000" + sound[4:], "0000000061" + sound[4:],
                   sound.replace("0061", "006a"), sound.replace("0061", "006A"), sound[:-3] + "65536,0",
                   sound[:-1] + "256", sound[:-1] + "-", sound[:-1] + "", sound + " ", " " + sound,
                   sound + "  " + sound, sound + "\t" + sound):
        yield f"S;crate;-;0;{damage};"
    for damage in ("17C1,0,0,0,0", "17C1,0,0", "17C1,0,0,256", "17c1,0,0,2", "17C1,0,0,0 "):
        yield f"C;whole;K;0;;{damage}"


# ---- Full runs, for every way through an engine that goes by a table ------------------------
#
# To such an engine a text is regular where classes, marks and scalars agree as they do in real
# texts: an emoji and LF have class O, LF no emoji mark, a letter that can begin a kinzi class C,
# Khmer's U+17D2 class H. Its quickest way is for regular texts without split records, and one
# record can send a whole text another way; so most texts here are regular, or almost.


class Stock(NamedTuple):
    """What the texts of one parser are made of. A piece is a function of (rng, stock)."""
    kind: str
    script: str
    regular: list  # single records
    emoji: list  # regular too
    joiners: list  # U+034F under the classes that are not refused
    long: list  # a cluster's head, and what may follow it in that cluster over and over
    pieces: list
    endings: list  # pieces for which the end of the text matters
    odd: list  # records that are not regular: a list for each cause
    odd_twins: dict  # a regular record's twins that are not


def with_breaks(first, column, names):
    """Each class under the cluster breaks that an emoji's extension takes, and under another."""
    return [record(first + code, kind, **{column: name})
            for code, name in enumerate(names) for kind in ("XX", "EX", "ZWJ")]


def odd_records(column, mark, names):
    others = [name for name in names if name != "O"]
    return [[record(0x1F600, **{column: name, mark: 1}) for name in others],
            [record(0x0A, "LF", **{column: name}) for name in others],
            [record(0x0A, "LF", **{column: "O", mark: 1})]]


def with_kinds(by_kind, *texts):
    return [[by_kind[name] for name in text.split()] for text in texts]


ALONE = [record(scalar, kind, "O", "O", category) for category in (0, 1, 1, 2) for scalar, kind in
         ((0x0D, "CR"), (0x0A, "LF"), (0x20, "XX"), (0x200B, "CN"), (0x200C, "EX"), (0x200D, "ZWJ"))]
REGULAR_EMOJI = [record(scalar, kind, "O", "O", pictograph=1, **emoji_marks(1)) for scalar, kind in
                 ((0x1F600, "XX"), (0x1F600, "XX"), (0x1F600, "XX"), (0x1F3FB, "EX"), (0x0D, "CR"), (0x034F, "EX"))]
ODD_LETTERS = [record(scalar, myanmar=name) for scalar in (0x1004, 0x101B, 0x105A) for name in MYANMAR if name != "C"]
# Its scalars alone make a kinzi.
SECOND_OF_KINZI, THIRD_OF_KINZI = [
    right * 200 + [record(scalar, myanmar=name) for name in MYANMAR] + [record(scalar, myanmar="O", of_myanmar=1)]
    for right, scalar in zip(KINZI[1:], (0x103A, 0x1039))]
# Less than 31, for what a reph or a kinzi stands before.
LONG_SIZES = (29, 30, 31, 31, 32, 32, 33, 33, 34, 64, 65)
NOTED_AT = (30, 31, 32, 33, 64)


def some_regular(rng, stock):
    return chosen(rng, stock.regular, 1, 6)


def some_emoji(rng, stock):
    return emoji_text(rng, stock.regular, rng.choice(stock.emoji))


def long_cluster(rng, stock):
    """A cluster about 32 or 64 characters long, now and then with a stranger inside."""
    head, *followers = rng.choice(stock.long)
    size = rng.choice(LONG_SIZES)
    text = ([head] + followers * size)[:size]
    if rng.random() < 0.2:
        text[rng.randrange(size)] = rng.choice(stock.regular)
    return text


def long_emoji(rng, stock):
    """An emoji's cluster as long, with notes about its 32nd character."""
    emoji = rng.choice(stock.emoji)
    followers = rng.choice(([EMOJI_TAIL[4]], [EMOJI_TAIL[3]], [EMOJI_TAIL[2], emoji], [rng.choice(stock.joiners)]))
    size = rng.choice(LONG_SIZES)
    text = ([emoji] + followers * size)[:size]
    for _ in range(rng.randint(0, 3)):
        at = rng.choice(NOTED_AT)
        text[at:at] = [rng.choice(EMOJI_TAIL[:2])] * rng.choice((1, 1, 1, 2, 40))
    return text


def some_joiners(rng, stock):
    return [rng.choice(stock.joiners)] * rng.choice((1, 1, 1, 2, 3, 30, 32, 33, 65))


def line_end(rng, stock):
    cr, lf = STANDING_ALONE[:2]
    return [cr] + [rng.choice(stock.joiners)] * rng.choice((0, 0, 1, 2)) + [lf]


def some_kinzi(rng, stock):
    joiners = [rng.choice(stock.joiners)] * rng.choice((0, 0, 0, 0, 0, 1, 1, 2, 27, 28, 29, 30))
    return [rng.choice(KINZI[0]), rng.choice(SECOND_OF_KINZI), rng.choice(THIRD_OF_KINZI)] + joiners


def syllable(heads, order, by_kind):
    """The piece of a head and what follows it in the grammar's order, to the end or to a place
    where any record comes instead."""
    heads = [by_kind[name] for name in heads.split()]

    def piece(rng, stock):
        text = [rng.choice(heads)] + in_order(rng, order, by_kind)
        return text if rng.random() < 0.5 else text[:rng.randint(1, len(text))] + [rng.choice(stock.regular)]

    return piece


ENDINGS = [long_cluster, long_emoji, some_joiners, line_end]
PIECES = [some_regular] * 4 + [some_emoji] * 2 + ENDINGS


def simple_stock():
    """Every text of simple is regular; its odd records are all that it can tell apart."""
    by_kind = dict(zip(KIND_SCALARS, SIMPLE_KINDS)) | {"ZWNJ": EMOJI_TAIL[3], "VS": EMOJI_TAIL[0], "034F": JOINER}
    odd = [record(scalar, kind, simple=emoji, selector=selector) for emoji, selector, kind, scalar in
           itertools.product((0, 1), (0, 1), CLUSTER_BREAK, (0x61, 0x200C, 0xFE0E, 0xFE0F, 0x034F))]
    long = with_kinds(by_kind, "XX EX", "RI SM", "LV ZWJ", "CR EX", "XX ZWNJ", "XX VS", "LVT 034F", "PP PP", "T EX SM")
    ordered_ = syllable("XX L V LV RI PP CR", "PP L V LV T LF EX ZWNJ SM VS ZWJ EX".split(), by_kind)
    return Stock("s", "-", SIMPLE * 10 + odd, [EMOJI], [JOINER], long, PIECES + [ordered_] * 4, ENDINGS, [odd], {})


def myanmar_stock():
    by_kind = MYANMAR_BY_KIND | {"034F": JOINER}
    joiners = [JOINER] * 40 + [record(0x034F, "EX", myanmar=name) for name in MYANMAR]
    regular = (with_breaks(0xAA60, "myanmar", MYANMAR) + ALONE + EMOJI_TAIL + [JOINER] + STANDING_ALONE[3:5]
               + KINZI[0] + KINZI[1] + KINZI[2])
    long = with_kinds(by_kind, "C As", "IV VPre", "D VAbv", "DB VBlw", "C A", "C V", "C PT", "C VPst", "C H C",
                      "C VPst A", "C PT A", "C 034F", "O 034F", "S 034F")
    pieces = PIECES + [syllable("C C IV D DB", MYANMAR_ORDER, by_kind)] * 4 + [some_kinzi] * 2
    odd = odd_records("myanmar", "of_myanmar", MYANMAR) + [ODD_LETTERS]
    odd_twins = {STANDING_ALONE[1]: odd[1] + odd[2], **dict.fromkeys(KINZI[0], ODD_LETTERS)}
    return Stock("m", "-", regular, REGULAR_EMOJI, joiners, long, pieces, ENDINGS + [some_kinzi] * 4, odd, odd_twins)


def complex_stock(script):
    by_kind = USE_BY_KIND | {"034F": JOINER} | ({"H": COENG} if script == "K" else {})
    joiners = [JOINER] * 40 + [record(0x034F, "EX", USE[code]) for code in ALLOWED_JOINER_USE]
    regular = with_breaks(0x0900, "use", USE) + ALONE + EMOJI_TAIL + [JOINER, COENG] + STANDING_ALONE[3:5]
    long = with_kinds(by_kind, "B CMAbv", "GB CMBlw", "B SUB", "B SUB CMBlw", "B H B", "B VPre", "B VAbv", "B VBlw",
                      "B VPst", "B VMPre", "B VMAbv VMBlw", "B VMPst H", "B FAbv", "B FBlw", "B FPst", "N HN N",
                      "S SMAbv", "GB SMBlw", "B 034F", "R 034F", "CS 034F", "O 034F")
    pieces = PIECES + [syllable("B B GB R CS", USE_ORDER, by_kind)] * 3 + [
        syllable("N S GB", "HN N VS HN N HN SMAbv SMBlw".split(), by_kind)]
    odd = odd_records("use", "complex_", USE) + [[record(0x17D2, "EX", name) for name in USE if name != "H"]]
    odd_twins = {STANDING_ALONE[1]: odd[1] + odd[2], COENG: odd[3]}
    return Stock("c", script, regular, REGULAR_EMOJI, joiners, long, pieces, ENDINGS, odd, odd_twins)


def run_length(rng):
    """Mostly short. The others have about 256 or 2,048 tokens, at one, two or three a record,
    where an array for them has to grow; or they are about the longest."""
    chance = rng.random()
    if chance < 0.3:
        return rng.randint(1, 20)
    if chance < 0.984:
        return rng.randint(5, 40)
    if chance < 0.9982:
        return rng.choice((86, 128, 256, 256)) + rng.randint(-4, 4)
    if chance < 0.9997:
        return rng.choice((683, 1024, 2048, 2048)) + rng.randint(-4, 4)
    return 4096 - rng.randint(0, 4)


def run_text(rng, stock):
    """Pieces; the end of the text falls inside of one or behind it."""
    length = run_length(rng)
    ending = rng.choice(stock.endings)(rng, stock) if rng.random() < 0.3 else []
    text = []
    while len(text) < length - len(ending):
        text += rng.choice(stock.pieces)(rng, stock)
    if ending or length > 40 or rng.random() < 0.5:
        text = text[:max(0, length - len(ending))]
    return text + ending


def some_places(rng, length, one, few):
    """One place or a few, by these chances; the first and the last more often than others."""
    chance = rng.random()
    if chance < one:
        return [rng.choice((0, length - 1, rng.randrange(length)))]
    return rng.choices(range(length), k=rng.randint(2, 6)) if chance < one + few else []


def with_odd(rng, stock, text):
    """Records that are not regular, in any place; or one for an LF, a kinzi's letter, a U+17D2."""
    places = some_places(rng, len(text), 0.2, 0.08)
    if rng.random() < 0.1:
        twinned = [at for at, item in enumerate(text) if item in stock.odd_twins]
        places = rng.sample(twinned, 1) if twinned else []
    for at in places:
        text[at] = rng.choice(stock.odd_twins.get(text[at]) or rng.choice(stock.odd))
    return text


# Regular, and not.
RARE_PARTS = [part(0x17D2, "EX", "H"), part(0x17D2, "EX", "B"), part(0x0A, "LF", "B"), part(0x0D, "CR", "B")]


def run_parts(rng):
    return complex_parts(rng) + (chosen(rng, RARE_PARTS, 1, 2) if rng.random() < 0.1 else [])


def with_splits(rng, text, parts):
    """Marked records and Khmer signs in no place, in one, a few, or in all."""
    chance = rng.random()
    if chance < 0.04:
        return [with_parts(rng, parts)] * len(text)
    if chance < 0.08:
        return [with_parts(rng, parts) for _ in text]
    for at in some_places(rng, len(text), 0.2, 0.25):
        text[at] = with_parts(rng, parts)
    return text


BAD_CELLS = [(0, "D800"), (0, "DFFF"), (0, "110000"), (0, "FFFFFFFF"), (12, "65535"), (13, "4"), (13, "255")] + [
    (column, str(value)) for column, outside in RECORD_EDGES.items() for value in (outside, 255)]
# Refused by complex, and by Khmer.
BAD_RECORDS = [record(0x034F, "EX", name) for code, name in enumerate(USE) if code not in ALLOWED_JOINER_USE] + [
    record(sign, "SM", "VAbv") for sign in KHMER_SIGNS]


def perhaps_damaged(rng, text):
    """Now and then one bad record or cell, more often the last record's."""
    chance = rng.random()
    at = rng.choice((-1, rng.randrange(len(text))))
    if chance < 0.01:
        text[at] = rng.choice(BAD_RECORDS)
    elif chance < 0.04:
        fields = text[at].split(",")
        column, value = rng.choice(BAD_CELLS)
        fields[column] = value
        text[at] = ",".join(fields)
    return text


ROOM = [0] * 20 + [1, 2, 100, -1]


def random_runs(stock, rng, count):
    """Full runs of one parser, into cells that just suffice, or more, or one less: in crate mode, and
    for every other text in whole mode."""
    for _ in range(count):
        text = perhaps_noisy(rng, with_odd(rng, stock, run_text(rng, stock)))
        parts = run_parts(rng) if stock.kind == "c" else []
        text = perhaps_damaged(rng, with_splits(rng, text, parts) if parts else text)
        tokens = token_count(text, stock.script == "K", len(text) % 2 == 1) if stock.kind == "c" else len(text)
        yield case(stock.kind, max(0, 2 * tokens + rng.choice(ROOM)), text, parts, stock.script)


def split_runs():
    """Nothing but parts, as many as make an array's size and one more, and as many as can be."""
    sizes = ((128, 2), (129, 2), (256, 1), (257, 1), (683, 3), (1024, 2), (2048, 1), (2049, 1), (4096, 3))
    for (records, count), first, script in itertools.product(sizes, (0, 4, 7), "-K"):
        yield case("c", 2 * records * count, [marked(first, count)] * records, PARTS, script)


RUN_PLACES = [(kind, script, at) for kind, script in ("s-", "m-", "c-", "cK") for at in (0, 0.5, 1)]


def damaged_runs():
    """Every damage alone: of a record, in texts of each length up to 20 and in the last record of
    long ones; of a part, among up to 20. Parsers and places come in turn; all of them where a check
    may begin to go by columns, at 15, 16 and 17 records."""
    turn = itertools.cycle(RUN_PLACES)
    records, parts = [list(map(row, damages_())) for damages_ in (record_damages, part_damages)]
    for length, damage in itertools.product(range(1, 21), records):
        for place in RUN_PLACES if length in (15, 16, 17) else [next(turn)]:
            yield damaged_run(place, length, damage)
    for length, step in ((256, 1), (257, 1), (4096, 3)):
        for damage in records[::step]:
            yield damaged_run((*next(turn)[:2], 1), length, damage)
    for length, damage in itertools.product(range(1, 21), parts):
        kind, script, at = next(turn)
        yield case(kind, 6, [row(SOUND)], replaced(row(SOUND_PART), length, at, damage), script)


def damaged_run(place, length, damage):
    """With two parts, or with seven, of which a run of four is there and still too long."""
    kind, script, at = place
    parts = [row(SOUND_PART)] * (7 if length % 2 else 2)
    return case(kind, 6 * length, replaced(row(SOUND), length, at, damage), parts, script)


def replaced(item, length, at, other):
    """Items alike but for one, at 0 the first, at 1 the last."""
    items = [item] * length
    items[int(at * (length - 1))] = other
    return items


RANDOM = {"S": random_simple, "M": random_myanmar, "C": random_complex, "W": random_words, "full": random_full_runs,
          "runs-s": partial(random_runs, simple_stock()), "runs-m": partial(random_runs, myanmar_stock()),
          "runs-c": partial(random_runs, complex_stock("-")), "runs-khmer": partial(random_runs, complex_stock("K")),
          **line_cases.RANDOM, **property_cases.RANDOM, **grapheme_cases.RANDOM}
FIXED = {"exhaustive-S": exhaustive_simple, "exhaustive-M": exhaustive_myanmar, "exhaustive-C": exhaustive_complex,
         "exhaustive-partless-C": exhaustive_without_parts,
         "newlines-S": simple_newlines, "newline-runs": newline_runs,
         "ordered-M": ordered_myanmar, "ordered-C": ordered_complex, "places": exhaustive_places,
         "steps": word_steps, "exhaustive-W": exhaustive_words, "refusals": refusals,
         "long": long_refusals, "layout": not_of_layout, "split-runs": split_runs,
         "damaged-runs": damaged_runs, **line_cases.FIXED, **property_cases.FIXED, **grapheme_cases.FIXED}


def generate(part_, seed, count):
    return RANDOM[part_](random.Random(f"{part_} {seed}"), count) if part_ in RANDOM else FIXED[part_]()


def main():
    options = argparse.ArgumentParser(description=__doc__)
    options.add_argument("part", choices=[*RANDOM, *FIXED], metavar="PART",
                         help=f"random: {', '.join(RANDOM)}; always the same: {', '.join(FIXED)}")
    options.add_argument("--seed", type=int, default=1, metavar="N", help="of a random part, by default %(default)s")
    options.add_argument("--count", type=int, default=1000, metavar="N", help="of texts of a random part, by default %(default)s")
    chosen_ = options.parse_args()
    for line in generate(chosen_.part, chosen_.seed, chosen_.count):
        print(line)


if __name__ == "__main__":
    main()
