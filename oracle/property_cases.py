"""Cases of the property files (Req 02) for generate.py: blocks of lines, damaged ones, sizes; and the
corners whose answers were written down by hand (property_corners.txt)."""

import itertools
import pathlib

from property_reading import CLUSTER_NAMES, LAST_SCALAR, MOST_BYTES, OLD_NAMES, WORD_NAMES

CORNERS = pathlib.Path(__file__).resolve().parent / "property_corners.txt"
NAMES = {"G": CLUSTER_NAMES + OLD_NAMES, "W": WORD_NAMES + OLD_NAMES}
MOST_RANGES = 4096


def block(file, text):
    """A letter is a byte here."""
    return f"{file}:{text.encode('latin-1').hex().upper()}"


def case(blocks, cells=(4, 4), scalars=(), spare=0):
    """Blocks are pairs of a file's letter and its text."""
    return (f"F;{cells[0]},{cells[1]};{' '.join(block(*each) for each in blocks)};{max(0, len(scalars) + spare)};"
            + " ".join(f"{scalar:04X}" for scalar in scalars))


def in_bytes(field):
    """A block of the corners as one of a case."""
    file, _, text = field.partition(":")
    return block(file, text.encode("latin-1").decode("unicode_escape"))


def corners():
    """The pairs of case and answer."""
    for line in CORNERS.read_text().splitlines():
        if not line.startswith("#"):
            cells, *blocks, lookup, answer = line.split("\t")
            yield f"F;{cells};{' '.join(map(in_bytes, blocks))};{lookup}", answer


# ---- Lines ----------------------------------------------------------------------------------

BLANKS = ("", "", "", "", " ", " ", "\t", "  ", " \t", "\t \t", "          ")
COMMENTS = ("", "", "", "#", "# Mn", " # Cf   [6] A..B", "#x;y", "# \xc2\xa9 2022", "#\xff\x00\xfe", "# 0041;L", "##", "#\r#")
SKIPPED = ("", "", " ", "\t ", "# @missing: 0000..10FFFF; Other", "# Total code points: 27", "\t# 0041;Foo", "#\xef\xbb\xbf", "#")
ENDS = ("\n", "\n", "\n", "\r\n", "\r\n")
# from these on a few scalars, about where a scalar gets a digit more, a byte more, or is none any more
WINDOWS = (0, 0x0A, 0x41, 0xF8, 0x0FF8, 0x1100, 0xAC00, 0xD7F8, 0xDFF8, 0xFFF8, 0x1F1E6, 0xFFFF8, 0x10FFE0)
TOO_LARGE = (0x110000, 0x110041, 0x7FFFFFFF, 0x80000041, 0xFFFFFFFF, 0x100000041, 0x200000000, (1 << 64) + 0x41, 1 << 128)


def blanks(rng):
    return rng.choice(BLANKS)


def digits(rng, scalar):
    """Mostly as in the files."""
    written = f"{scalar:04X}"
    chance = rng.random()
    if chance < 0.1:
        return written.lower()
    if chance < 0.15:
        return "".join(rng.choice((sign, sign.lower())) for sign in written)
    if chance < 0.25:
        return "0" * rng.choice((0, 1, 4, 5, 12, 60)) + f"{scalar:X}"
    return written


def scalars_field(rng, first, last):
    return digits(rng, first) if first == last and rng.random() < 0.8 else f"{digits(rng, first)}..{digits(rng, last)}"


def written(rng, first, last, value):
    """A line that is well formed but for its scalars and its value."""
    return (blanks(rng) + scalars_field(rng, first, last) + blanks(rng) + ";" + blanks(rng) + value + blanks(rng)
            + rng.choice(COMMENTS))


def misspelt(rng, name):
    """Another name, or none."""
    at = rng.randrange(len(name))
    return rng.choice((name.lower(), name.upper(), name.swapcase(), name[:-1] or "l", name[:at] or "v", name + "s", name + "_", name * 2,
                       name.replace("_", "") + "x", name.replace("_", "-") + "-", name[:at] + rng.choice("_-.\r\x00\xc3") + name[at:],
                       name[:at] + chr(ord(name[at]) ^ 1) + name[at + 1:]))


SHORT_NAMES = "XX CN EX SM PP RI NL FO LE HL ML MB MN NU SQ DQ KA EB EM GAZ EBG".split()


def unknown_value(rng, file):
    own = set(NAMES[file])
    other = [name for name in NAMES["W" if file == "G" else "G"] if name not in own]
    value = rng.choice((rng.choice(other), rng.choice(SHORT_NAMES), misspelt(rng, rng.choice(NAMES[file])), "Foo", "0041"))
    return value + "?" if value in own else value


BROKEN_LINES = ("x", ";", ";L", "0041", "0041;", "0041 L", "0041;L V", "0041;L;", "0041;L;x", "0041;;L", "0041;Foo bar", "0041#;L", "0041;#L",
                "0041 .. 0042;L", "0041.. 0042;L", "0041.0042;L", "0041...0042;L", "0041..;L", "..0041;L", "0041..0042..0043;L", "0041-0042;L",
                "U+0041;L", "0x41;L", "41h;L", "-41;L", "\xef\xbb\xbf0041;L", "\xef\xbb\xbf", "\r", "\x0c", "\x00", "0041\x0b;L", "0041\xa0;L",
                "0041;L\r0042;L", "\r0041;L", "0041\r;L", "00 41;L", "004G;L", "0041,0042;L", "0041;L \r")


# ---- Random blocks --------------------------------------------------------------------------


def stretch(rng, count):
    """Ranges of a few scalars that touch or lie apart, in any order."""
    at = rng.choice(WINDOWS)
    ranges = []
    for _ in range(count):
        first = at + rng.choice((0, 0, 0, 1, 2, 5))
        last = first + rng.choice((0, 0, 0, 1, 2, 6))
        if last > LAST_SCALAR:
            break
        ranges.append((first, last))
        at = last + 1
    if rng.random() < 0.7:
        rng.shuffle(ranges)
    return ranges


def fault(rng, file, ranges):
    """A line that is refused alone, or beside the others, or that finds no cell; or with two faults."""
    first, last = rng.choice(ranges) if ranges else (0x41, 0x41)
    value = rng.choice(NAMES[file])
    chance = rng.randrange(8)
    if chance == 0:
        return rng.choice(BROKEN_LINES)
    if chance == 1:  # downward, now and then with a value that is unknown
        return written(rng, last + rng.choice((1, 2, 300)), last, rng.choice((value, unknown_value(rng, file))))
    if chance == 2:
        large = rng.choice(TOO_LARGE)
        return written(rng, *rng.choice(((large, large), (first, large), (large, last))), rng.choice((value, unknown_value(rng, file))))
    if chance == 3:  # unknown, where the range is new or meets another
        beyond = min(LAST_SCALAR, max((last for _, last in ranges), default=0) + 1)
        return written(rng, *rng.choice(((first, last), (beyond, beyond))), unknown_value(rng, file))
    if chance == 4:
        return written(rng, first, last, value)
    if chance == 5:  # meets one, or what lies between
        return written(rng, max(0, first - rng.randrange(3)), min(LAST_SCALAR, last + rng.randrange(3)), value)
    if chance == 6:
        at = rng.choice((max(0, first - 1), first, last, min(LAST_SCALAR, last + 1)))
        return written(rng, at, at, value)
    return written(rng, 0, LAST_SCALAR, value)


def with_skipped(rng, lines):
    return [line for each in lines for line in ([rng.choice(SKIPPED)] * rng.choice((0, 0, 0, 1, 2)) + [each])]


def joined(rng, lines):
    """Lines with their ends, all alike or not; the last may have none."""
    end = rng.choice(ENDS)
    ends = [rng.choice(ENDS) if rng.random() < 0.1 else end for _ in lines]
    if ends and rng.random() < 0.4:
        ends[-1] = rng.choice(("", "", "\r"))
    return "".join(line + end for line, end in zip(lines, ends))


def file_blocks(rng, file):
    """The blocks of one file and its ranges: cut anywhere between two lines, with no fault, one or two."""
    ranges = stretch(rng, rng.choice((0, 1, 2, 3, 3, 5, 8, 20)) if rng.random() < 0.98 else rng.choice((64, 150, 256)))
    lines = [written(rng, *each, rng.choice(NAMES[file])) for each in ranges]
    for _ in range(rng.choice((0, 0, 0, 0, 0, 1, 1, 1, 2, 2))):
        lines.insert(rng.choice((0, len(lines), rng.randint(0, len(lines)))), fault(rng, file, ranges))
    lines = with_skipped(rng, lines)
    cuts = sorted(rng.choices(range(len(lines) + 1), k=rng.choice((0, 0, 1, 1, 2, 4))))
    return [(file, joined(rng, lines[begin:end])) for begin, end in zip([0, *cuts], [*cuts, len(lines)])], ranges


def dealt(rng, one, other):
    """Both lists as one, each in its order."""
    one, other = list(one), list(other)
    turns = [one] * len(one) + [other] * len(other)
    rng.shuffle(turns)
    return [turn.pop(0) for turn in turns]


def asked(rng, ranges):
    """Scalars at the edges of ranges and beside them, others, and now and then one that is none."""
    edges = [scalar for first, last in ranges for scalar in (first - 1, first, last, last + 1)]
    edges = [scalar for scalar in edges if 0 <= scalar <= LAST_SCALAR and not 0xD800 <= scalar <= 0xDFFF] + [0, 0x41, LAST_SCALAR]
    scalars = rng.choices(edges, k=rng.choice((0, 1, 3, 6, 12)))
    if scalars and rng.random() < 0.08:
        for _ in range(rng.choice((1, 2))):
            scalars[rng.randrange(len(scalars))] = rng.choice((0xD800, 0xDBFF, 0xDFFF, 0x110000, 0x80000000, 0xFFFFFFFF))
    return scalars


SPARE = [0] * 12 + [1, 3, 50_000, -1, -1]
SPARE_CELLS = [0] * 6 + [1, 1, 9, -1, -1, -2]


def room(rng, ranges):
    """Cells that just suffice, or more, or fewer."""
    return rng.choice((max(0, len(ranges) + rng.choice(SPARE_CELLS)), max(0, len(ranges) + rng.choice(SPARE_CELLS)), MOST_RANGES))


def random_files(rng, count):
    for _ in range(count):
        (clusters, breaks), (words, classes) = file_blocks(rng, "G"), file_blocks(rng, "W")
        if rng.random() < 0.4:
            words, classes = [], []
        blocks = dealt(rng, clusters, words)
        if blocks and rng.random() < 0.1:
            blocks.append(rng.choice(blocks))
        yield case(blocks, (room(rng, breaks), room(rng, classes)), asked(rng, breaks + classes), rng.choice(SPARE))


# ---- Lines of a published file, damaged -----------------------------------------------------

SIGNS = "0123456789ABCDEFabcdef..;;##  \t\t\r\n\nLVTxG_-+\x00\x0b\xa0\xff\xef"


def damaged(rng, text):
    """One sign more, less, or another; two in each other's place; or a piece twice."""
    if not text:
        return rng.choice(SIGNS)
    at = rng.randrange(len(text))
    end = min(len(text), at + rng.choice((1, 1, 2, 5, 20)))
    return rng.choice((text[:at] + rng.choice(SIGNS) + text[at:], text[:at] + text[at + 1:], text[:at] + rng.choice(SIGNS) + text[at + 1:],
                       text[:at] + text[at + 1:at + 2] + text[at] + text[at + 2:], text[:end] + text[at:], text[:at] + text[end:],
                       text[:at] + text[at:end].encode("latin-1").swapcase().decode("latin-1") + text[end:]))


def damaged_lines(rng, file, published, count):
    """Some lines of a published file with up to three damages, in the block or in the line whose number sign lies behind them."""
    for _ in range(count):
        at = rng.randrange(len(published))
        lines = published[at:at + rng.randint(1, 12)] + rng.choices(published, k=rng.choice((0, 0, 1, 3)))
        for _ in range(rng.choice((0, 1, 1, 2, 3))):
            at = rng.randrange(len(lines))
            fields, sign, comment = lines[at].partition("#")
            lines[at] = damaged(rng, fields) + sign + comment if rng.random() < 0.8 else lines[at]
        text = joined(rng, lines)
        text = damaged(rng, text) if rng.random() < 0.3 else text
        blocks = [(file, text), (file, text)][:rng.choice((1, 1, 1, 2))]
        yield case(blocks, rng.choice(((99, 99), (99, 99), (5, 5))), [rng.randrange(0xD800) for _ in range(rng.choice((0, 3)))])


# ---- Always the same ------------------------------------------------------------------------

TOKENS = ("4", "..", ";", "L", " ", "#", "\r", "\n")


def exhaustive_lines():
    """Every text of up to five of these, alone, and of up to four behind a whole line and behind a range."""
    for before, most in (("", 5), ("5;L", 4), ("5..6", 4)):
        for length in range(most + 1):
            for text in itertools.product(TOKENS, repeat=length):
                yield case([("G", before + "".join(text))], scalars=(4, 5))


def every_byte():
    """Each byte in the place of each of a line, and before each."""
    for line, at, sign in itertools.product(("41..42;L", "41 ; ZWJ #x\r\n43;V"), range(19), map(chr, range(256))):
        if at < len(line):
            yield case([("G", line[:at] + sign + line[at + 1:])], scalars=(0x41,))
        if at <= len(line):
            yield case([("G", line[:at] + sign + line[at:])], scalars=(0x41,))


def every_name():
    """The names of both files, short ones, and what is like them, in both files."""
    names = {name for file in NAMES.values() for name in file} | set(SHORT_NAMES)
    names |= {name[:end] for name in names for end in range(1, len(name))}
    names |= {change(name) for name in names for change in (str.lower, str.upper, str.swapcase, str.title)}
    names |= {name.replace("_", other) for name in names for other in ("", "-", "__", ".")}
    names |= {name + end for name in names for end in ("_", "s", "\r", "\x00")} | {name * 2 for name in names}
    for file, name in itertools.product(NAMES, sorted(names)):
        yield case([(file, f"41;{name}\n")], (1, 1), (0x41,))


# right in the first place; then it meets, or finds no cell; or two faults at once
FAULTS = ("41;L\n", "42..43;V\r\n", "43;T\n", "40..41;Other#\n", "42;Foo\n", "43..42;Foo\n", "x\n", "44;E_Base\n", "\n")


def faults_in_order():
    """Every three lines of these with 0 to 3 cells, in one block and each in its own."""
    for lines in itertools.product(FAULTS, repeat=3):
        for cells in range(4):
            yield case([("G", "".join(lines))], (cells, 4), (0x41, 0x43))
            yield case([("G", line) for line in lines], (cells, 0), (0x41, 0x43))


def scattered(count, begin=0, value="L"):
    """So many ranges of a scalar, each touching none, in an order that puts each between others."""
    return "".join(f"{begin + 2 * (at * 1031 % count):X};{value}\n" for at in range(count))


def filled(line, size=MOST_BYTES, filler="#"):
    """A block of that size which begins with a line."""
    return line + filler * (size - len(line))


def too_long():
    """A block that is refused for its length alone, between two that are read."""
    return case([("G", "41;L"), ("G", filled("", MOST_BYTES + 1)), ("G", "42;V")], scalars=(0x41, 0x42))


def sizes():
    """1 at both edges, and before all else; long numbers, names, blanks; many lines; full sets; a lookup longer than a text."""
    for spare in (-1, 0, 1):
        size = MOST_BYTES + spare
        for file, text in (("G", filled("41;L\n", size)), ("W", filled("41;CR\n", size, "\n")), ("G", filled("x\n", size)),
                           ("G", filled("", size - 1, "\n") + "x"), ("W", filled("", size - 5, "0") + "41;LF"),
                           ("G", filled("", size - 5, " ") + "41;LV"), ("G", filled("41;L", size, "V"))):
            yield case([(file, text), (file, "42;LF")], scalars=(0x41, 0x42))
    yield case([("G", filled("41;L\n", MOST_BYTES + 1)), ("W", filled("41;Foo\n", 2 * MOST_BYTES)), ("W", "41;CR")], (0, 0), (0x41,), -1)
    for text in (filled("1", MOST_BYTES - 2, "0") + ";L", filled("41..", MOST_BYTES - 4, "0") + "42;L", filled("41", MOST_BYTES, "\t"),
                 filled("41;L", MOST_BYTES - 2, " ") + "\r\n", filled("41;L", MOST_BYTES - 1, "\r") + "\n", "\n\r" * (MOST_BYTES // 2)):
        yield case([("G", text)], scalars=(0x41, 0x42))
    for count, cells in ((0, 0), (1, 0), (1, 1), (2, 1), (300, 300), (300, 299), (MOST_RANGES, MOST_RANGES), (MOST_RANGES + 1, MOST_RANGES)):
        yield case([("G", scattered(count)), ("G", "0;Foo"), ("G", "0;L"), ("G", "1;L"), ("W", scattered(count % 300, 0x10000, "CR"))],
                   (cells, MOST_RANGES), (0, 1, 2, 3, 2 * count, 0x10000))
    downward = [f"{2 * at:X};L\n" for at in reversed(range(MOST_RANGES))]
    for last in ("1;L", "0;L", "1;V\nx", "x"):
        yield case([("G", "".join(downward) + last), ("G", "".join(downward[::2]))], (MOST_RANGES, 0), (0, 1, 2, 0x1FFE))
    for length in (4095, 4096, 4097, 20_000, 65_535):
        scalars = [at * 7 % 0x3000 for at in range(length)]
        for spare in (0, -1):
            yield case([("G", "41..1041;L\n2000;V"), ("W", "1000..2FFF;CR")], scalars=scalars, spare=spare)
        yield case([("G", "0..10FFFF;L")], scalars=[*scalars[:-1], 0xD800])


def not_of_layout():
    """Lines near the layout and outside it."""
    good = block("G", "41;L")
    yield from ["F", "F;", "F;4,4", "F;4,4;;0", "F;4,4;;0;", "F;4,4;;0;;", "f;4,4;;0;", "F;4;;0;", "F;4,4,4;;0;", "F;4,;;0;", "F;,4;;0;",
                "F;;;0;", "F;4097,4;;0;", "F;4,4097;;0;", "F;4096,4096;;0;", "F;65536,4;;0;", "F;-1,4;;0;", "F;4,+4;;0;",
                "F;004,00004;;000;0041", "F;4,4;;;", "F;4,4;;65535;", "F;4,4;;65536;", "F;4,4;;-;", "F;4,4;;0x0;", "F;4,4;;1;0041 ",
                "F;4,4;;1; 0041", "F;4,4;;2;0041  0042", "F;4,4;;1;0041,0042", "F;4,4;;1;U+0041", "F;4,4;;1;100000000",
                "F;4,4;;1;0000000000000041", "F;4,4;;1;aB", "F;4,4;;1;-", "F;4,4;;1;0041\r", "F;4,4;;1;0041\t", "F; 4,4;;0;", "F;4, 4;;0;",
                " F;4,4;;0;", "F;4,4;;0; ", "F;4,4; ;0;"]
    for blocks in (good, good.lower(), f"{good} {good}", f"{good}  {good}", f"{good} ", f" {good}", "G:", "W:", "G: W:", "G", "G:4", "G:341",
                   "G:3G", "G:0x34", "G:34 31", "G:34,31", "g:34", "w:", "X:", "X:3C722F3E", f"{good} X:", "D:", "GW:", ":", ":34", "G:G:34",
                   "G:34:", "G;34", "-", "G:\u00b2\u00b2", "G:34\r", "G:34\t31", "G:eFbBBf23", "W:2", "G:0a W:0D"):
        yield f"F;4,4;{blocks};1;0041"


RANDOM = {"F": random_files}
FIXED = {"exhaustive-F": exhaustive_lines, "bytes-F": every_byte, "names-F": every_name, "faults-F": faults_in_order, "sizes-F": sizes,
         "layout-F": not_of_layout, "corners-F": lambda: (line for line, _ in corners())}
