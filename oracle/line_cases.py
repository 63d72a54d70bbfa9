"""Cases of line breaks (Req 01) for generate.py: line steps, steps of `next`, runs, over the crate's table
and others; and the corners whose answers were written down by hand (line_corners.txt)."""

import itertools
import pathlib

from line_reading import LINE, NORMAL, STRENGTHS, WIDTH, crate_table
from reading import LONGEST, WORD

CORNERS = pathlib.Path(__file__).resolve().parent / "line_corners.txt"
CRATE_ROWS = 53
MOST_ROWS = 94  # of a table that every program has to hold
NAMEABLE_ROWS = 64
START = "44,-"
WORD_START = "1,0,0,0"


def corners():
    """The pairs of case and answer."""
    return [tuple(line.split("\t")) for line in CORNERS.read_text().splitlines() if not line.startswith("#")]


def line_case(state, line_class, strength=NORMAL, table="crate"):
    return f"l;{strength};{table};{state};{line_class}"


def next_case(line_state, word_state, record, following, strength=NORMAL, table="crate"):
    return f"n;{strength};{table};{line_state};{word_state};{record};{following}"


def run_case(records, strength=NORMAL, table="crate", spare=0):
    return f"L;{strength};{table};{max(0, len(records) + spare)};{' '.join(records)}"


# ---- Tables ---------------------------------------------------------------------------------

BITS = (0x00, 0x00, 0x00, 0x80, 0x80, 0x80, 0x40, 0xC0)


def random_cell(rng, rows):
    return rng.choice(BITS) | rng.randrange(min(rows, NAMEABLE_ROWS))


def random_rows(rng):
    return rng.choice((45, 45, 45, 46, 53, 63, 64, 65, MOST_ROWS, rng.randint(45, MOST_ROWS)))


def run_of_cells(count, cell):
    return str(cell) if count == 1 else f"{count}*{cell}"


def in_runs(rng, rows, size):
    """A table that is short to write: stretches of equal cells."""
    cuts = sorted(rng.sample(range(1, size), rng.choice((0, 1, 2, 5, 12, 30))))
    return [run_of_cells(end - begin, random_cell(rng, rows)) for begin, end in zip([0, *cuts], [*cuts, size])]


def any_cells(rng, rows):
    return [str(random_cell(rng, rows)) for _ in range(rows * WIDTH)]


def sound_table(rng):
    """The number of rows and the table; one in fifty has every cell for itself."""
    rows = random_rows(rng)
    return rows, " ".join(any_cells(rng, rows) if rng.random() < 0.02 else in_runs(rng, rows, rows * WIDTH))


def damaged_table(rng):
    """Refused, all but a few: of another width, a cell too few or too many, too few rows, a cell that
    names a row just past the table's or the last that can be named."""
    rows = random_rows(rng)
    damage = rng.randrange(4)
    if damage == 0:
        return " ".join(in_runs(rng, rows, rows * (WIDTH - 1)))
    if damage == 1:
        return " ".join(in_runs(rng, rows, rows * WIDTH + rng.choice((-1, 1, -WIDTH // 2))))
    if damage == 2:
        fewer = rng.choice((0, 1, 43, 44))
        return " ".join(in_runs(rng, fewer, fewer * WIDTH)) if fewer else rng.choice(("", "0*0", "0*255 0*0"))
    before = rng.choice((0, rows * WIDTH - 1, rng.randrange(rows * WIDTH)))
    outside = min(rng.choice((rows, 63)), 63) | rng.choice(BITS)
    return " ".join([f"{before}*0", str(outside), f"{rows * WIDTH - 1 - before}*0"])


def random_table(rng):
    """The number of rows and the table: mostly the crate's."""
    chance = rng.random()
    if chance < 0.65:
        return CRATE_ROWS, "crate"
    return sound_table(rng) if chance < 0.95 else (CRATE_ROWS, damaged_table(rng))


# ---- Random steps and runs ------------------------------------------------------------------

# what the strengths, the newlines, the spaces and the joiner make a difference to
FAVOURED = "AL AL NU SA ID ZWJ SP BK CR LF NL CM QU OP AI CJ HY H2 H3 JL JV JT HL RI IN PO PR".split()
OUTSIDE = (len(LINE), len(LINE) + 1, 255)


def random_class(rng):
    return LINE.index(rng.choice(FAVOURED)) if rng.random() < 0.7 else rng.randrange(len(LINE))


def random_record(rng):
    return f"{random_class(rng)},{rng.randrange(len(WORD))},{int(rng.random() < 0.3)}"


def perhaps_damaged(rng, item, outside, chance=0.02):
    """Now and then one field of an item is outside its list."""
    if rng.random() >= chance:
        return item
    fields = item.split(",")
    at = rng.randrange(len(fields))
    fields[at] = str(rng.choice(outside[at]))
    return ",".join(fields)


RECORD_OUTSIDE = [OUTSIDE, (len(WORD), 255), (2, 255)]


def random_line_state(rng, rows):
    if rng.random() < 0.1:
        return START
    row = rng.randrange(rows)
    previous = "-" if rng.random() < 0.05 else random_class(rng)
    return perhaps_damaged(rng, f"{row},{previous}", [(rows, rows + 1, 255), OUTSIDE])


def random_word_state(rng):
    state = f"{int(rng.random() < 0.1)},{rng.randrange(len(WORD))},{int(rng.random() < 0.2)},{rng.randrange(3)}"
    return perhaps_damaged(rng, state, [(1,), (len(WORD), 255), (1,), (3, 255)])


def random_steps(rng, count):
    for _ in range(count):
        rows, table = random_table(rng)
        line_class = perhaps_damaged(rng, str(random_class(rng)), [OUTSIDE])
        yield line_case(random_line_state(rng, rows), line_class, rng.choice(STRENGTHS), table)


def random_nexts(rng, count):
    for _ in range(count):
        rows, table = random_table(rng)
        following = "-" if rng.random() < 0.1 else perhaps_damaged(rng, str(rng.randrange(len(WORD))), [(len(WORD), 255)])
        yield next_case(random_line_state(rng, rows), random_word_state(rng),
                        perhaps_damaged(rng, random_record(rng), RECORD_OUTSIDE), following, rng.choice(STRENGTHS), table)


def random_length(rng):
    return rng.randint(0, 12) if rng.random() < 0.97 else rng.choice((40, 256, rng.randint(13, 300)))


SPARE = [0] * 12 + [1, 2, 50_000, -1]


def random_runs(rng, count):
    for _ in range(count):
        alphabet = [random_record(rng) for _ in range(rng.choice((2, 4, 12)))]
        records = rng.choices(alphabet, k=random_length(rng))
        if records and rng.random() < 0.04:
            at = rng.randrange(len(records))
            records[at] = perhaps_damaged(rng, records[at], RECORD_OUTSIDE, chance=1)
        yield run_case(records, rng.choice(STRENGTHS), random_table(rng)[1], rng.choice(SPARE))


# ---- Always the same ------------------------------------------------------------------------


def exhaustive_steps():
    """Every strength, row, previous class and class, on the crate's table."""
    codes = range(len(LINE))
    for strength, row, previous, line_class in itertools.product(STRENGTHS, range(CRATE_ROWS), ["-", *codes], codes):
        yield line_case(f"{row},{previous}", line_class, strength)


def exhaustive_runs():
    """Every text of up to two classes under each strength, and of three under each in turn, on the crate's
    table. The word classes go along with the line classes, so that the four answers are there."""
    alphabet = [f"{code},{code % len(WORD)},0" for code in range(len(LINE))]
    for length, strength in itertools.product(range(3), STRENGTHS):
        for text in itertools.product(alphabet, repeat=length):
            yield run_case(text, strength)
    for text, strength in zip(itertools.product(alphabet, repeat=3), itertools.cycle(STRENGTHS)):
        yield run_case(text, strength)


BAD_TABLES = ["", "0*0", "1980*45", "1979*0 63", "45 1979*0", "1979*0", "1981*0", "1935*0", "1936*0", "44*0", "2772*63",
              "4135*0", "4136*0 0", "255"]
GOOD_TABLES = ["crate", "1980*0", "1980*236", "0*255 1980*44", "990*129 990*66", "2816*63", "4136*255", "4136*191"]


def refusals():
    """Each table with codes and states that are right, and with each that is wrong, for the order of the
    refusals; then rows, cells and indices at their edges."""
    records = ["1,8,0", "43,8,0", "1,19,0", "1,8,2", "255,255,255"]
    states = [START, "0,0", "52,42", "53,42", "255,-", "44,43", "255,255"]
    word_states = [WORD_START, "0,18,1,2", "0,19,0,0", "1,0,0,3"]
    for table, state, word_state, record, following in itertools.product(
            (*BAD_TABLES[:2], *GOOD_TABLES[:2]), states[::2], word_states, records, ("-", "18", "19")):
        yield next_case(state, word_state, record, following, table=table)
    for table in BAD_TABLES + GOOD_TABLES:
        for state, line_class in itertools.product(states, (1, 42, 43, 44, 255)):
            yield line_case(state, line_class, table=table)
        for record, spare in itertools.product(records, (-2, -1, 0, 1)):
            yield run_case(["1,8,0", record], table=table, spare=spare)
        yield run_case([], table=table)
    for rows in (45, 46, 63, 64, 65, MOST_ROWS):
        for row, cell in itertools.product((rows - 1, rows, 255), {rows - 2, rows - 1, rows, 63}):
            if cell < NAMEABLE_ROWS:
                yield line_case(f"{row},1", 1, table=f"{rows * WIDTH}*{cell}")
    for one, other in itertools.product(records[1:], repeat=2):
        yield run_case(["1,8,0", one, "1,8,0", other])


def spelled_out(cells):
    return " ".join(map(str, cells))


def long_cases():
    """1 at both edges, and before all others; tables of 94 rows and of the most cells that one count can
    say, and the crate's own lent cell by cell."""
    crate = spelled_out(crate_table().cells)
    for length in (LONGEST, LONGEST + 1):
        yield run_case(["1,8,0"] * length)
        yield run_case(["37,7,0", "1,8,0"] * (length // 2) + ["43,19,2"] * (length % 2), "BreakAll")
        yield run_case(["1,8,0"] * length, spare=-1)
        yield run_case(["43,0,0"] + ["1,8,0"] * (length - 1), table="")
    for strength in STRENGTHS:
        yield run_case([f"{code},{code % len(WORD)},0" for code in range(len(LINE))] * 3, strength, crate)
        for row in range(0, CRATE_ROWS, 7):
            yield line_case(f"{row},{row % len(LINE)}", (row * 3) % len(LINE), strength, crate)
    most = spelled_out((cell * 37 + cell // 64) % 256 for cell in range(MOST_ROWS * WIDTH))
    for count in (65535, 65535 // WIDTH * WIDTH):
        yield line_case("255,42", 42, table=f"{count}*191")
    yield line_case("93,42", 42, table=most)
    yield run_case([f"{code},0,0" for code in range(len(LINE))], table=most)


def not_of_layout():
    """Lines near the layout and outside it."""
    yield from ["l", "l;Normal", "l;Normal;crate;44,-", "l;Normal;crate;44,-;1;", "l;Normal;crate;44,-;1;1", "l;normal;crate;44,-;1",
                "l;;crate;44,-;1", "l;Break-All;crate;44,-;1", "l;Normal;Crate;44,-;1", "l;Normal;crate ;44,-;1", "l;Normal; crate;44,-;1",
                "l;Normal;crate crate;44,-;1", "l;Normal;crate;44;1", "l;Normal;crate;44,;1", "l;Normal;crate;,-;1", "l;Normal;crate;-,-;1",
                "l;Normal;crate;44,--;1", "l;Normal;crate;44,1,1;1", "l;Normal;crate;256,-;1", "l;Normal;crate;44,256;1",
                "l;Normal;crate;44,-;256", "l;Normal;crate;44,-;-", "l;Normal;crate;44,-;", "l;Normal;crate;044,001;0001",
                "l;Normal;crate;44,-; 1", "l;Normal;crate;+44,-;1", "l;Normal;crate;44,-;0x1",
                "n;Normal;crate;44,-;1,0,0,0;1,8,0", "n;Normal;crate;44,-;1,0,0,0;1,8,0;", "n;Normal;crate;44,-;1,0,0,0;1,8;-",
                "n;Normal;crate;44,-;1,0,0,0;1,8,0,0;-", "n;Normal;crate;44,-;2,0,0,0;1,8,0;-", "n;Normal;crate;44,-;1,0,2,0;1,8,0;-",
                "n;Normal;crate;44,-;1,0,0;1,8,0;-", "n;Normal;crate;44,-;1,-,0,0;1,8,0;-", "n;Normal;crate;1,0,0,0;44,-;1,8,0;-",
                "n;Normal;crate;44,-;1,0,0,0;1,8,256;-", "n;Normal;crate;44,-;1,0,0,0;1,8,0;256", "n;Normal;crate;44,-;01,00,0,0;01,08,0;08",
                "L", "L;Normal;crate;1", "L;Normal;crate;;1,8,0", "L;Normal;crate;65535;", "L;Normal;crate;65536;", "L;Normal;crate;-1;",
                "L;Normal;crate;1;1,8,0 ", "L;Normal;crate;2;1,8,0  1,8,0", "L;Normal;crate;1;1,8", "L;Normal;crate;1;1,8,0,0",
                "L;Normal;crate;1;-,8,0", "L;Normal;crate;1;1,8,0;", "L;KeepAll;crate;1;1,8,0\r", "N;Normal;crate;1;1,8,0"]
    for table in ("1980*0 ", " 1980*0", "990*0  990*0", "1980*", "*0", "*", "1980**0", "1980*0*0", "1980 *0", "1980* 0", "1980*256",
                  "65536*0", "0*256", "-1*0", "01980*000", "1980*0,0", "1980*-", "1980x0", "256", "0" * 20, "1,2",
                  "990*0 crate", "990*0 0*44 990*0", "\u00b2*0"):
        yield line_case(START, 1, table=table)
        yield run_case(["1,8,0"], table=table)


RANDOM = {"l": random_steps, "n": random_nexts, "L": random_runs}
FIXED = {"exhaustive-l": exhaustive_steps, "exhaustive-L": exhaustive_runs, "line-refusals": refusals,
         "line-long": long_cases, "line-layout": not_of_layout, "line-corners": lambda: (line for line, _ in corners())}
