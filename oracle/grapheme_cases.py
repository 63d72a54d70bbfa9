"""Cases of clusters as UAX #29 has them (Req 05) for generate.py: runs of the engine that looks back (G) and of the one that goes forward (g);
and the corners whose answers were written down by hand (grapheme_corners.txt)."""

import itertools
import pathlib
from functools import partial

from reading import CLUSTER_BREAK, LONGEST

CORNERS = pathlib.Path(__file__).resolve().parent / "grapheme_corners.txt"
ENGINES = LOOKING_BACK, FORWARD = "G", "g"


def case(engine, records, spare=0):
    return f"{engine};{max(0, len(records) + spare)};{' '.join(records)}"


def item(name):
    """A record by the name of its cluster break, `(e)` behind a marked one, or by its codes."""
    return name if "," in name else f"{CLUSTER_BREAK.index(name.removesuffix('(e)'))},{int(name.endswith('(e)'))}"


def items(names):
    return list(map(item, names.split()))


def in_codes(line):
    cells, names = line.split(";")
    return f"{cells};{' '.join(items(names))}"


def corners(engine):
    """The pairs of case and answer; each engine gives the same."""
    for line in CORNERS.read_text().splitlines():
        if not line.startswith("#"):
            text, answer = line.split("\t")
            yield f"{engine};{in_codes(text)}", answer


# ---- Random runs ----------------------------------------------------------------------------

ALL = [f"{code},{mark}" for code in range(len(CLUSTER_BREAK)) for mark in (0, 1)]
# what single rules are about, with marks where no real character has one
ALPHABETS = [
    ALL,
    items("XX XX(e) XX(e) EX EX(e) ZWJ ZWJ(e)"),
    items("XX(e) EX ZWJ"),
    items("XX(e) EX ZWJ SM CN CN(e) PP RI(e) L(e)"),
    items("RI RI RI RI(e) EX ZWJ XX"),
    items("RI RI(e)"),
    items("L V T LV LVT L(e) T(e) EX XX"),
    items("CR LF CN CR(e) LF(e) EX ZWJ SM PP XX(e)"),
    items("PP PP XX RI L CN SM EX"),
]
# of records that are looked at together: a joined pair of pictographs, longer ones, flags, syllables, newlines
PIECES = [items(piece) for piece in (
    "XX(e) ZWJ XX(e)", "XX(e) EX ZWJ XX(e)", "XX(e) EX EX EX ZWJ XX(e)", "XX(e) EX(e) ZWJ(e) ZWJ XX(e)", "XX(e) SM ZWJ XX(e)", "XX EX ZWJ XX(e)",
    "XX(e) ZWJ ZWJ XX(e)", "ZWJ(e) ZWJ XX(e)", "EX(e) ZWJ XX(e)", "CN(e) ZWJ XX(e)", "CR(e) EX ZWJ XX(e)", "RI RI", "RI RI RI", "RI EX RI RI",
    "RI(e) ZWJ RI(e) RI", "XX(e) ZWJ RI(e) RI RI", "PP RI RI RI", "L L V V T T", "LV V T", "LVT T V", "L LVT T", "CR LF", "LF CR", "CR CR LF",
    "CN EX", "PP CN", "PP PP XX EX SM", "XX")]
# about where a sweep over a column may take so many cells at once, and the rest
WIDTHS = [size + more for size in (8, 16, 32, 64, 128) for more in (-1, 0, 1)]
OUTSIDE = ((len(CLUSTER_BREAK), 15, 16, 127, 128, 255), (2, 3, 127, 128, 255))
SPARE = [0] * 12 + [1, 2, 50_000, -1]


def random_length(rng):
    chance = rng.random()
    if chance < 0.9:
        return rng.randint(0, 14)
    return rng.choice(WIDTHS) if chance < 0.995 else rng.choice((256, rng.randint(150, 400)))


def random_text(rng):
    length = random_length(rng)
    if rng.random() < 0.5:
        return rng.choices(rng.choice(ALPHABETS), k=length)
    text = []
    while len(text) < length:
        text += rng.choice(PIECES)
    return text[-length:] if length else []


def damaged(rng, text):
    """One record or two with a code outside of its list, in either column."""
    for at in rng.choices(range(len(text)), k=rng.choice((1, 1, 2))):
        codes = text[at].split(",")
        column = rng.randrange(2)
        codes[column] = str(rng.choice(OUTSIDE[column]))
        text[at] = ",".join(codes)
    return text


def random_runs(engine, rng, count):
    for _ in range(count):
        text = random_text(rng)
        yield case(engine, damaged(rng, text) if text and rng.random() < 0.04 else text, rng.choice(SPARE))


# ---- Always the same ------------------------------------------------------------------------

JOINED = items("XX XX(e) EX EX(e) ZWJ ZWJ(e) RI")


def exhaustive(engine):
    """Every text of up to four records, and of five and six over what GB11, GB12 and GB13 look far for."""
    for alphabet, lengths in ((ALL, range(5)), (JOINED, (5, 6))):
        for length in lengths:
            for text in itertools.product(alphabet, repeat=length):
                yield case(engine, text)


def refusals(engine):
    """Every code outside of its list, alone and beside another, in the first and in the last record of texts of each length up to 20 and about
    each width; 9 with right codes and with wrong ones; how long a text may be."""
    wrong = [f"{code},0" for code in OUTSIDE[0]] + [f"0,{code}" for code in OUTSIDE[1]] + ["14,2", "255,255"]
    lengths = [*range(1, 21), *WIDTHS[6:]]
    for length, at, code in itertools.product(lengths, (0, 1), wrong):
        text = ["0,0"] * length
        text[at * (length - 1)] = code
        yield case(engine, text)
    for one, other in itertools.product(wrong, repeat=2):
        yield case(engine, ["0,1", one, "12,0", other])
    for length, last, spare in itertools.product(range(1, 4), ("0,0", "14,0", "0,2"), (-3, -2, -1, 0, 1)):
        yield case(engine, ["10,0"] * (length - 1) + [last], spare)


def long_runs(engine):
    """1 at both edges, and before all others; the rules over as many records as there can be."""
    for length in (LONGEST - 1, LONGEST, LONGEST + 1):
        for text in (["9,0"], ["10,1"], ["12,1"], ["0,1", "12,0"], ["9,0", "9,0", "10,0"], ["0,0"]):
            records = (text * length)[:length]
            yield case(engine, records)
            yield case(engine, records, -1)
        yield case(engine, ["0,1"] + ["10,0"] * (length - 3) + ["12,0", "0,1"])
        yield case(engine, ["0,0"] * (length - 1) + ["0,2"])
        yield case(engine, ["14,0"] + ["0,0"] * (length - 1), -1)


def not_of_layout(engine):
    """Lines near the layout and outside it."""
    for line in ("", ";", ";1", ";1;", ";1;0,0;", ";1;0,0;0", ";;0,0", ";0;", ";00;", ";65535;", ";65536;", ";-1;", ";+1;0,0", "; 1;0,0", ";1 ;0,0",
                 ";1; 0,0", ";1;0,0 ", ";2;0,0  0,0", ";1;0", ";1;0,", ";1;,0", ";1;,", ";1;0,0,0", ";1;0 0", ";1;0.0", ";1;-,0", ";1;0,-",
                 ";1;256,0", ";1;0,256", ";1;255,255", ";1;000013,0001", ";1;0xA,0", ";1;XX,0", ";1;0,e", ";1;0,0\r", ";1;0,0\t", ";1;\u00b2,0",
                 " ;1;0,0", "g;1;0,0", ";crate;-;1;0,0;", ";1;0,0|", ";1;99999999999999999999,0"):
        yield engine + line


def of_both(maker):
    """A random part is a kind, and a fixed part ends with one: compare makes those alone that are asked for."""
    return {engine: partial(maker, engine) for engine in ENGINES}


RANDOM = of_both(random_runs)
FIXED = {f"{name}-{engine}": part
         for name, maker in (("exhaustive", exhaustive), ("refusals", refusals), ("long", long_runs), ("layout", not_of_layout),
                             ("corners", lambda engine: (line for line, _ in corners(engine))))
         for engine, part in of_both(maker).items()}
