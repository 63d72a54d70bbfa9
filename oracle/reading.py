"""A second reading of what is promised: both modes, the words, the refusals.

Written apart from the Rattle code and its definitions, to be held beside docs/SCOPE.md, whose
sections it cites. What each parser accepts is read from the Rust, function by function, which
in crate mode is right by definition (SCOPE 1.1). It knows nothing of the layout of cases and
answers, which is in cases.py; cases.py and marked.py are the commands that ask it.
"""

from functools import lru_cache
from typing import NamedTuple

# ---- The lent text: lists of codes (SCOPE 2.2) ----------------------------------------------

CLUSTER_BREAK = "XX CN CR LF L V T LV LVT RI EX SM ZWJ PP".split()
USE = """B CMAbv CMBlw CS FAbv FBlw FM FPst GB H HN IND MAbv MBlw MPre MPst N O R Rsv S SMAbv
    SMBlw SUB VAbv VBlw VMAbv VMBlw VMPre VMPst VPre VPst VS WJ ZWJ ZWNJ rest""".split()
MYANMAR = """A As C D D0 DB H IV J MH MR MW MY O P PT R S V VAbv VBlw VPre VPst VS WJ
    rest""".split()
CATEGORY = "other Format Control".split()
WORD = """Other CR LF NL Extend ZWJ FO WSegSpace ALetter HL ML MidNumLet MN NU SQ DQ KA EX
    RI""".split()
MARK = "no yes".split()

(BASE, MARK_SHAPE, CONTROL, REPH, KINZI, HALANT, VPRE, VBLW, VMPRE, MEDIAL_RA, ANUSVARA, VS, ZWNJ,
 ZWJ, OTHER) = range(15)

CRATE, WHOLE = "crate", "whole"
LONGEST = 4096
CLUSTER_SIZE = 32
JOINER = 0x34F
KHMER_SIGNS = (0x17BE, 0x17BF, 0x17C0, 0x17C4, 0x17C5)


class Record(NamedTuple):
    scalar: int
    cluster_break: int
    use: int
    myanmar: int
    category: int
    word: int
    emoji_simple: int
    emoji_myanmar: int
    emoji_complex: int
    pictograph: int
    selector: int
    decompose: int
    first: int
    count: int


class Part(NamedTuple):
    scalar: int
    cluster_break: int
    use: int
    category: int


RECORD_LISTS = [CLUSTER_BREAK, USE, MYANMAR, CATEGORY, WORD] + [MARK] * 6
PART_LISTS = [CLUSTER_BREAK, USE, CATEGORY]


class Refusal(NamedTuple):
    number: int
    index: int = 0
    side: str = "-"


# ---- Refusals of the library, in their order (SCOPE 5) --------------------------------------


def lengths_refusal(*sets):
    """1 and 2, over the lengths of the columns of each set."""
    if any(length > LONGEST for lengths in sets for length in lengths):
        return Refusal(1)
    if any(len(set(lengths)) > 1 for lengths in sets):
        return Refusal(2)
    return None


def is_scalar(number):
    return number <= 0x10FFFF and not 0xD800 <= number <= 0xDFFF


def in_lists(codes, lists):
    return all(code < len(names) for code, names in zip(codes, lists))


def barred_joiner(scalar, use):
    """6: a U+034F with one of the USE classes of SCOPE 5.2, here by how their names start."""
    starts = ("FA", "FB", "FP", "M", "VA", "VB", "VP", "VM")
    return scalar == JOINER and (USE[use] in ("CMBlw", "SUB", "H", "FM") or USE[use].startswith(starts))


@lru_cache(maxsize=1 << 16)
def part_refusal(part, parser):
    if not is_scalar(part.scalar):
        return 3
    if not in_lists(part[1:], PART_LISTS):
        return 4
    if parser == "complex" and barred_joiner(part.scalar, part.use):
        return 6
    return None


@lru_cache(maxsize=1 << 16)
def record_refusal(record, part_count, parser):
    if not is_scalar(record.scalar):
        return 3
    if not in_lists(record[1:12], RECORD_LISTS):
        return 4
    if record.count > 3 or record.first + record.count > part_count:
        return 5
    if parser == "complex" and barred_joiner(record.scalar, record.use):
        return 6
    return None


def is_split(record, parser, khmer):
    """One of the five signs of SCOPE 3.1, unmarked, in the script Khmer."""
    return parser == "complex" and khmer and record.scalar in KHMER_SIGNS and not record.decompose


def khmer_part_is_lent(record, parts):
    """Against 7: the parts are a single U+17C1."""
    return record.count == 1 and parts[record.first].scalar == 0x17C1


def check(records, parts, parser, khmer):
    """Refusals 1 to 7 over a whole text, or None."""
    lengths = lengths_refusal([len(records)] * 14, [len(parts)] * 4)
    if lengths:
        return lengths
    for index, part in enumerate(parts):
        number = part_refusal(part, parser)
        if number:
            return Refusal(number, index, "p")
    for index, record in enumerate(records):
        number = record_refusal(record, len(parts), parser)
        if number:
            return Refusal(number, index, "r")
    if khmer and any(is_split(r, parser, khmer) and not khmer_part_is_lent(r, parts) for r in records):
        return Refusal(7)
    return None


# ---- The token stream (SCOPE 3.1) -----------------------------------------------------------


class Token(NamedTuple):
    scalar: int
    kind: str
    cluster_break: str
    category: str
    emoji: int
    selector: int
    record: int


def record_token(record, index, parser):
    kind, emoji = {
        "simple": (CLUSTER_BREAK[record.cluster_break], record.emoji_simple),
        "myanmar": (MYANMAR[record.myanmar], record.emoji_myanmar),
        "complex": (USE[record.use], record.emoji_complex),
    }[parser]
    return Token(record.scalar, kind, CLUSTER_BREAK[record.cluster_break], CATEGORY[record.category],
                 emoji, record.selector, index)


def part_token(part, index):
    """A part has no marks; only the simple parser asks for selectors."""
    return Token(part.scalar, USE[part.use], CLUSTER_BREAK[part.cluster_break],
                 CATEGORY[part.category], 0, 0, index)


def token_stream(records, parts, parser, khmer, mode):
    """In whole mode a marked record without parts stands for itself (SCOPE 12.3)."""
    tokens = []
    for index, record in enumerate(records):
        itself = record_token(record, index, parser)
        own_parts = parts[record.first:record.first + record.count]
        if parser == "complex" and record.decompose and (own_parts or mode == CRATE):
            tokens += [part_token(part, index) for part in own_parts]
        elif is_split(record, parser, khmer):
            tokens += [part_token(own_parts[0], index), itself._replace(emoji=0)]
        else:
            tokens.append(itself)
    return tokens


# ---- The cluster, and a call that builds it -------------------------------------------------


class CallEnds(Exception):
    """The cluster is full, or the text is at its end."""


class Call:
    """One call from a place that is a token. `next` is the place it hands back."""

    def __init__(self, tokens, place, mode, parser, khmer):
        self.tokens = tokens
        self.at = self.next = place
        self.token = tokens[place]
        self.mode = mode
        self.khmer = khmer
        self.steps_over_joiners = parser != "simple"
        self.pushed = []  # lists of scalar, shape class, record, noted
        self.emoji = "none"
        self.space = "none"
        self.broken = False
        self.normalise = False

    def put(self, token, shape):
        self.pushed.append([token.scalar, shape, token.record, 0])

    def push(self, shape):
        """Push, then step (SCOPE 6.1)."""
        self.put(self.token, shape)
        self.step()

    def note(self):
        """Noted directly after the last pushed character, and not pushed (SCOPE 4.1)."""
        self.pushed[-1][3] += 1
        self.step()

    def step(self):
        if len(self.pushed) == CLUSTER_SIZE:
            # Crate: the current token stays where it is (SCOPE 6.7). Whole: it is passed (6.9).
            if self.mode == WHOLE:
                self.next = self.at + 1
            raise CallEnds
        if self.at + 1 == len(self.tokens):
            self.next = self.at + 1
            raise CallEnds
        self.at += 1
        self.next = self.at
        self.token = self.tokens[self.at]
        if self.steps_over_joiners and self.token.scalar == JOINER:
            # it is taken as Other, and so are all that follow it directly, as long as there is
            # room (SCOPE 6.2)
            self.push(OTHER)

    def ends_before(self, kind):
        """In whole mode a token that would be the 32nd is left to the next call where a token of
        this kind follows it, which has no room then (SCOPE 6.9)."""
        following = self.tokens[self.at + 1:self.at + 2]
        if self.mode == WHOLE and len(self.pushed) == CLUSTER_SIZE - 1 and [token.kind for token in following] == [kind]:
            raise CallEnds

    def ignoring_failure(self, action, *arguments):
        """Crate mode goes on after a failure in a few places; whole mode never does: there the
        end of the text ends the call (SCOPE 6.9)."""
        try:
            action(*arguments)
        except CallEnds:
            if self.mode == WHOLE:
                raise

    def accept(self, kind, shape=OTHER):
        if self.token.kind != kind:
            return False
        self.push(shape)
        return True

    def accept_many(self, kind, shape=OTHER):
        while self.token.kind == kind:
            self.push(shape)


# ---- What the parsers share -----------------------------------------------------------------


def emoji_sequence(call):
    call.emoji = "Default"
    while call.token.emoji:
        call.push(BASE)
        if not emoji_extension(call):
            return


def emoji_extension(call):
    """True after a ZWJ: another emoji may follow."""
    while True:
        if call.token.cluster_break == "ZWJ":
            call.push(ZWJ)
            return True
        if call.token.cluster_break != "EX":
            return False
        if call.token.scalar in (0xFE0E, 0xFE0F):
            call.emoji = "Text" if call.token.scalar == 0xFE0E else "Color"
            call.note()
        else:
            call.push(ZWNJ if call.token.scalar == 0x200C else MARK_SHAPE)


def other_class(call):
    """Class O of Myanmar and complex: CR LF by scalar, and characters that stand alone."""
    scalar = call.token.scalar
    if scalar == 0x0D:
        call.space = "newline"
        call.push(CONTROL)
        if call.token.scalar == 0x0A:
            call.push(CONTROL)
    elif scalar == 0x0A:
        call.space = "newline"
        call.push(CONTROL)
    else:
        call.space = scalar
        call.push(standing_alone(call.token))


def standing_alone(token):
    if token.category == "Format":
        return {0x200C: ZWNJ, 0x200D: ZWJ}.get(token.scalar, CONTROL)
    return CONTROL if token.category == "Control" else BASE


# ---- simple.rs ------------------------------------------------------------------------------


def simple(call):
    call.accept_many("PP", BASE)
    if call.token.emoji:
        emoji_sequence(call)
    else:
        simple_core(call)
    while simple_extension(call):
        pass


def simple_core(call):
    kind = call.token.kind
    if kind == "CN":
        call.push(CONTROL)
    elif kind == "LF":
        call.space = "newline"
        call.push(CONTROL)
    elif kind == "CR":
        call.ends_before("LF")
        call.space = "newline"
        call.push(CONTROL)
        call.accept("LF", CONTROL)
    elif kind in HANGUL_FOLLOWERS:
        call.push(BASE)
        if call.token.kind in HANGUL_FOLLOWERS[kind]:
            call.push(BASE)
    elif kind == "RI":
        call.push(BASE)
    elif kind in ("EX", "SM", "ZWJ"):
        call.broken = True
    else:
        call.space = call.token.scalar
        call.push(BASE)


HANGUL_FOLLOWERS = {
    "L": ("L", "V", "LV", "LVT"),
    "LV": ("V", "T"),
    "V": ("V", "T"),
    "LVT": ("T",),
    "T": ("T",),
}


def simple_extension(call):
    kind = call.token.kind
    if kind == "EX" and call.token.scalar == 0x200C:
        call.push(ZWNJ)
    elif kind == "EX" and call.token.selector:
        call.push(VS)
    elif kind in ("EX", "SM"):
        call.normalise = True
        call.push(MARK_SHAPE)
    elif kind == "ZWJ":
        call.push(ZWJ)
    else:
        return False
    return True


# ---- myanmar.rs -----------------------------------------------------------------------------


def myanmar(call):
    if call.token.emoji:
        emoji_sequence(call)
    elif call.token.kind == "O":
        other_class(call)
    elif call.token.kind in ("P", "S", "R", "WJ", "D0"):
        call.push(OTHER)
    else:
        kinzi(call)
        if call.token.kind in ("C", "IV", "D", "DB"):
            myanmar_syllable(call)
        else:
            call.broken = True
            call.push(OTHER)


def kinzi(call):
    """U+1004, U+101B or U+105A, then U+103A, then U+1039 (SCOPE 6.8): three pushes, and three
    steps whose failure the Rust does not look at. Where the text ends there, crate mode goes on
    with the last token: repeat (b)."""
    three = call.tokens[call.at:call.at + 3]
    if three[0].scalar not in (0x1004, 0x101B, 0x105A) or [t.scalar for t in three[1:]] != [0x103A, 0x1039]:
        return
    for token in three:
        call.put(token, KINZI)
    for _ in three:
        call.ignoring_failure(call.step)
    if len(call.pushed) == CLUSTER_SIZE:
        # the call ends with the 32, before the class is looked at (SCOPE 6.8)
        raise CallEnds


def myanmar_syllable(call):
    call.push(BASE)
    call.accept("VS", VS)
    while call.token.kind == "H":
        call.push(HALANT)
        if call.token.kind not in ("C", "IV"):
            return
        call.push(BASE)
        call.accept("VS", VS)
    call.accept_many("As")
    if call.accept("MY"):
        call.accept("As")
    call.accept("MR", MEDIAL_RA)
    if call.accept("MW"):
        call.accept("MH")
        call.accept("As")
    elif call.accept("MH"):
        call.accept("As")
    call.accept_many("VPre", VPRE)
    call.accept_many("VAbv")
    call.accept_many("VBlw", VBLW)
    anusvara_and_dot(call)
    while call.accept("VPst"):
        call.accept("MH")
        call.accept_many("As")
        call.accept_many("VAbv")
        anusvara_and_dot(call)
    while call.accept("PT"):
        pwo_tone_mark(call)
    call.accept_many("V")
    call.accept("J")


def anusvara_and_dot(call):
    call.accept_many("A", ANUSVARA)
    if call.accept("DB"):
        call.accept("As")


def pwo_tone_mark(call):
    if call.accept("As"):
        call.accept("A", ANUSVARA)
    else:
        call.accept_many("A", ANUSVARA)
        call.accept("DB")
        call.accept("As")


# ---- complex.rs -----------------------------------------------------------------------------


def complex_(call):
    kind = call.token.kind
    if call.token.emoji:
        emoji_sequence(call)
    elif kind == "O":
        other_class(call)
    elif kind in ("IND", "Rsv", "WJ"):
        with_selector(call)
    elif kind in ("R", "CS"):
        # R and CS take a syllable, or one token of any class but B and GB, which makes the
        # cluster broken (SCOPE 6.6)
        call.push(REPH if kind == "R" else OTHER)
        standard(call)
    elif kind == "GB":
        standard(call, is_potential_symbol=True)
    elif kind == "N":
        with_selector(call)
        number_joiners(call)
    elif kind == "S":
        with_selector(call)
        symbol_marks(call)
    else:
        standard(call)


def with_selector(call):
    call.push(BASE)
    call.accept("VS", VS)


def number_joiners(call):
    while call.accept("HN", HALANT):
        if call.token.kind != "N":
            return
        with_selector(call)


def symbol_marks(call):
    call.accept_many("SMAbv")
    call.accept_many("SMBlw")


BROKEN_SHAPES = {"B": BASE, "H": HALANT, "VPre": VPRE, "VMPre": VMPRE, "VBlw": VBLW, "R": REPH,
                 "ZWNJ": ZWNJ, "ZWJ": ZWJ}


def standard(call, is_potential_symbol=False):
    if call.token.kind in ("B", "GB"):
        with_selector(call)
        standard_tail(call, is_potential_symbol)
    else:
        call.broken = True
        call.push(BROKEN_SHAPES.get(call.token.kind, OTHER))


def standard_tail(call, is_potential_symbol):
    if is_potential_symbol and call.token.kind in ("SMAbv", "SMBlw"):
        symbol_marks(call)
        return
    # the Rust does not look at the results of the first two runs (SCOPE 6.6)
    call.ignoring_failure(call.accept_many, "CMAbv")
    call.ignoring_failure(call.accept_many, "CMBlw")
    if ends_in_halant(call):
        return
    for medial in ("MPre", "MAbv", "MBlw", "MBlw", "MPst"):
        call.accept(medial)
    call.accept_many("VPre", VPRE)
    for vowel in ("VAbv", "VBlw", "VPst"):
        call.accept_many(vowel)
    while call.token.kind in ("VMPre", "VMAbv", "VMBlw", "VMPst", "H"):
        call.push(VMPRE if call.token.kind == "VMPre" else OTHER)
    for final in ("FAbv", "FBlw", "FPst"):
        call.accept_many(final)
    call.accept("FM")


def ends_in_halant(call):
    """Halant and base, or subjoined, as many as follow; true if a halant comes last."""
    while call.token.kind in ("SUB", "H"):
        if call.accept("SUB"):
            consonant_marks(call)
            continue
        is_coeng = call.khmer and call.token.scalar == 0x17D2
        call.push(OTHER if is_coeng else HALANT)
        if call.token.kind != "B":
            return True
        with_selector(call)
        consonant_marks(call)
    return False


def consonant_marks(call):
    call.accept_many("CMAbv")
    call.accept_many("CMBlw")


# ---- The calls of the library ---------------------------------------------------------------

GRAMMAR = {"simple": simple, "myanmar": myanmar, "complex": complex_}


def one_call(tokens, place, mode, parser, khmer):
    """The cluster from a place that is a token."""
    call = Call(tokens, place, mode, parser, khmer)
    try:
        GRAMMAR[parser](call)
    except CallEnds:
        pass
    return call


def calls_from(tokens, place, mode, parser, khmer):
    calls = []
    while place < len(tokens):
        call = one_call(tokens, place, mode, parser, khmer)
        calls.append((place, call))
        place = call.next
    return calls


def stepping(records, parts, place, mode, parser, khmer):
    """The stepping calls from a place to the end: refusals 1 to 8, or tokens and calls."""
    refusal = check(records, parts, parser, khmer)
    if refusal:
        return refusal
    tokens = token_stream(records, parts, parser, khmer, mode)
    if place > len(tokens):
        return Refusal(8)
    return tokens, calls_from(tokens, place, mode, parser, khmer)


def full_run(records, parts, cells, mode, parser, khmer):
    """Refusals 1 to 7 and 9, or the count of clusters and the written cells."""
    refusal = check(records, parts, parser, khmer)
    if refusal:
        return refusal
    tokens = token_stream(records, parts, parser, khmer, mode)
    if cells < 2 * len(tokens):
        return Refusal(9)
    calls = calls_from(tokens, 0, mode, parser, khmer)
    written = [(scalar, shape, number)
               for number, (_, call) in enumerate(calls)
               for scalar, shape, _, _ in call.pushed]
    return len(calls), written


# ---- Words ----------------------------------------------------------------------------------


class WordState(NamedTuple):
    first: int
    previous: int
    prevent_next: int
    count: int


WORD_START = WordState(1, WORD.index("Other"), 0, 0)
AH_LETTER = ("ALetter", "HL")
MID_NUM_LET_Q = ("MidNumLet", "SQ")
NEWLINES = ("CR", "LF", "NL")
IGNORED = ("Extend", "FO", "ZWJ")


def is_word_state(state):
    """Against 8."""
    return state.previous < len(WORD) and state.count <= 2


def word_step(state, record_class, pictograph, next_class):
    """A refusal, or the answer and the next state. `next_class` is None at the last record."""
    classes = [record_class] + ([] if next_class is None else [next_class])
    if any(code >= len(WORD) for code in classes) or pictograph >= len(MARK):
        return Refusal(4, 0, "r")
    if not is_word_state(state):
        return Refusal(8)
    return checked_word_step(state, record_class, pictograph, next_class)


def checked_word_step(state, record_class, pictograph, next_class):
    b = WORD[record_class]
    if state.first:
        return 1, state._replace(first=0, previous=record_class, count=1 if b == "RI" else state.count)
    if state.prevent_next:
        return 0, state._replace(previous=record_class, prevent_next=0)
    a = WORD[state.previous]
    following = "none" if next_class is None else WORD[next_class]
    answer, prevent_next, count = word_rules(a, b, pictograph, following, state.count)
    is_ignored = b in IGNORED and a not in NEWLINES and not (a == "ZWJ" and pictograph)
    previous = state.previous if is_ignored else record_class
    return answer, WordState(0, previous, prevent_next, count)


def word_rules(a, b, pictograph, following, count):
    """The answer, prevent-next and the count for b after a, by the rules in their order."""
    joined, parted = (0, 0, 0), (1, 0, 0)
    if a == "CR" and b == "LF":  # WB3
        return joined
    if a in NEWLINES or b in NEWLINES:  # WB3a, WB3b
        return parted
    if a == "ZWJ" and pictograph:  # WB3c
        return joined
    if b in IGNORED:  # WB4
        return joined
    if a == b == "WSegSpace":  # WB3d
        return joined
    if opens_triple(a, b, following):
        return 0, 1, 0
    if pair_joins(a, b):
        return joined
    if count == 2:
        return 1, 0, 1 if b == "RI" else 0
    if b == "RI":  # WB15, WB16
        return (0, 0, count + 1) if a == "RI" else (1, 0, 1)
    return parted


def pair_joins(a, b):
    letters_and_digits = AH_LETTER + ("NU",)
    if a in letters_and_digits and b in letters_and_digits:  # WB5, WB8, WB9, WB10
        return True
    if a == "HL" and b == "SQ":  # WB7a
        return True
    if a == b == "KA":  # WB13
        return True
    joined_by_extender = letters_and_digits + ("KA",)
    return (b == "EX" and a in joined_by_extender + ("EX",)  # WB13a
            or a == "EX" and b in joined_by_extender)  # WB13b


def opens_triple(a, b, following):
    """The step looks one record ahead (SCOPE 7.2), and that record is then joined too."""
    return (a in AH_LETTER and b in ("ML",) + MID_NUM_LET_Q and following in AH_LETTER  # WB6, WB7
            or a == "HL" and b == "DQ" and following == "HL"  # WB7b, WB7c
            or a == "NU" and b in ("MN",) + MID_NUM_LET_Q and following == "NU")  # WB11, WB12


def word_run(records, cells):
    """Over (word class, pictograph): 1, 2, 4, 9 (SCOPE 5.5)."""
    lengths = lengths_refusal([len(records)] * 2)
    if lengths:
        return lengths
    for index, record in enumerate(records):
        if not in_lists(record, [WORD, MARK]):
            return Refusal(4, index, "r")
    if cells < len(records):
        return Refusal(9)
    state, answers = WORD_START, []
    following = [word_class for word_class, _ in records[1:]] + [None]
    for (word_class, pictograph), next_class in zip(records, following):
        answer, state = checked_word_step(state, word_class, pictograph, next_class)
        answers.append(answer)
    return answers
