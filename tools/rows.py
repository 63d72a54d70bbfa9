"""The rows of a grammar, the symbols of its tokens, and the cells of both; tools/tables says what these are."""
import itertools
from typing import NamedTuple

from grammar import TRUE, Unreadable, applied, listed, module

BREAK, MYANMAR, USE = module("classes", "ClusterBreak"), module("classes", "MyanmarClass"), module("classes", "UseClass")
CATEGORY, SCALAR, SHAPE = module("classes", "Category"), module("classes", "Scalar"), module("classes", "Shape")
TOKEN, RULE = module("token", "Token"), module("parse", "Rule")
# a scalar that no rule asks for
PLAIN = ord("A")


# ---- Residuals: what a rule does at a token, and the rule that is left ------------------------

SKIP, STOP, NOTE = ("skip",), ("stop",), ("note",)
# a rule that takes no token passes it, or stops the rule around
PASS, HALT = "pass", "halt"


class Step(NamedTuple):
    """A token is taken: NOTE, or the function that gives the character its class; and the rule that is left."""
    act: object
    left: tuple


def first(ask, rule):
    """What a rule does at a token that `ask` answers tests of: `first` of crates/residual, but for marks, which no cell shows. Where a
    `fit` stops, which goes by the room that is left, the loop over the table sees to it."""
    match rule:
        case ("skip",) | ("mark", _):
            return PASS
        case ("stop",):
            return HALT
        case ("note",):
            return Step(NOTE, SKIP)
        case ("push", shape) | ("fit", _, _, shape):
            return Step(shape, SKIP)
        case ("seq", a, b):
            done = first(ask, a)
            return first(ask, b) if done == PASS else before(done, b)
        case ("choose", test, a, b):
            return first(ask, a if ask(test) else b)
        case ("while", test, a):
            return before(first(ask, a), rule) if ask(test) else PASS
        case ("scope", a):
            return within_scope(first(ask, a))
        case ("thrice", shape):
            take = RULE.value("take", shape)
            return Step(take[1], ("seq", take, take))
    raise Unreadable(f"{RULE.where}:{RULE.own[rule[0]]}: what the rule `{rule[0]}` does at a token is not known")


def before(done, rule):
    """What is done, and then a rule, with no skip between."""
    if not isinstance(done, Step):
        return done
    return Step(done.act, rule if done.left == SKIP else ("seq", done.left, rule))


def within_scope(done):
    """A stop ends the scope alone."""
    if not isinstance(done, Step):
        return PASS
    return Step(done.act, SKIP if done.left == SKIP else ("scope", done.left))


# ---- Symbols and their samples ----------------------------------------------------------------


class Symbol(NamedTuple):
    """The fields of a token that a symbol knows, the scalars behind it, and whether the table opens a cluster at it."""
    fields: dict
    behind: tuple = ()
    opens: bool = True


class Sample:
    """A token that has a symbol, or a pair of symbols, with the text that it begins."""

    def __init__(self, symbol, second):
        fields = {"scalar": PLAIN, **second, **symbol.fields}
        cells = (fields.get(name, 0) for name in ("scalar", "kind", "brk", "category", "emoji", "selector", "index"))
        self.token = TOKEN.value("packed", *cells)
        self.text = listed([self.token, *symbol.behind])
        self.opens = symbol.opens
        self.answers = {}

    def ask(self, test):
        if test not in self.answers:
            self.answers[test] = applied(test, [self.text, 0]) == TRUE
        return self.answers[test]

    def shape(self, function):
        return SHAPE.value("shape_code", applied(function, [self.token]))


def simple_symbols():
    kinds = [dict(kind=kind, brk=kind, emoji=emoji) for emoji in (0, 1) for kind in range(BREAK.value("len"))]
    # of EX; the first is one of the symbols above
    rare = list(itertools.product((PLAIN, *extension_scalars()), (0, 1)))[1:]
    ex = dict(kind=BREAK.value("EX"), brk=BREAK.value("EX"))
    marks = [dict(ex, emoji=emoji, scalar=scalar, selector=selector) for emoji in (0, 1) for scalar, selector in rare]
    return [Symbol(fields) for fields in kinds + marks]


def kind_symbols(classes):
    """A symbol for each kind; and of kind O for an emoji, and for each class but Base that a token of it can have."""
    other, form, control = classes.value("O"), CATEGORY.value("Format"), CATEGORY.value("Control")
    kinds = [dict(kind=kind) for kind in range(classes.value("len"))]
    others = [
        dict(kind=other, emoji=1),
        dict(kind=other, scalar=SCALAR.value("CR")),
        dict(kind=other, scalar=SCALAR.value("LF")),
        dict(kind=other, scalar=SCALAR.value("ZWNJ"), category=form),
        dict(kind=other, scalar=SCALAR.value("ZWJ"), category=form),
        dict(kind=other, category=control),
    ]
    return [Symbol(fields) for fields in kinds + others]


def myanmar_symbols():
    """With a kinzi, and with one that the table leaves to the calls."""
    kinzi = Symbol(dict(kind=MYANMAR.value("C"), scalar=SCALAR.value("NGA")), (SCALAR.value("ASAT"), SCALAR.value("VIRAMA")))
    return kind_symbols(MYANMAR) + [kinzi, kinzi._replace(opens=False)]


def complex_symbols():
    """With U+17D2: outside Khmer no test asks for it, and its cells are those of kind H."""
    return kind_symbols(USE) + [Symbol(dict(kind=USE.value("H"), scalar=SCALAR.value("COENG")))]


def extension_scalars():
    return [SCALAR.value(name) for name in ("ZWNJ", "VS15", "VS16")]


def second_symbols():
    """The symbols of an emoji's extension, as the fields of a token that they know."""
    ex, zwj = BREAK.value("EX"), BREAK.value("ZWJ")
    return [{}, dict(brk=ex), *(dict(brk=ex, scalar=scalar) for scalar in extension_scalars()), dict(brk=zwj)]


# for a grammar that has no second symbols: one that knows nothing
NO_SECOND = [{}]


# ---- Rows and cells ---------------------------------------------------------------------------

CHARACTER, OPENING, NOTED, OVER = (16 * what for what in range(4))


class Table:
    """The rows of a grammar, of which those from 1 on are rules that are left, and its cells."""

    # `args` are those of the grammar's `cluster`
    def __init__(self, name, about, crate, args, symbols, seconds):
        self.name, self.about, self.crate = name, about, crate
        self.module = module(crate, "Grammar")
        self.root = self.module.value("cluster", *args)
        # `cluster` with its arguments, not unfolded
        self.cluster = (self.module.find("cluster"), *args)
        self.symbols, self.seconds = symbols, seconds
        # of each symbol a sample for each second symbol
        self.samples = [[Sample(symbol, second) for second in seconds] for symbol in symbols]
        self.rules = self.late_last(self.residuals())
        self.rows = len(self.rules) + 1
        self.cells = [*self.early_cells(), *self.late_cells()]

    @property
    def antt_name(self):
        return f"{self.name.lower()}_table"

    @property
    def is_paired(self):
        return self.seconds != NO_SECOND

    @property
    def width(self):
        """The rows that have a cell for each symbol: all but the late one."""
        return self.rows - 1 if self.is_paired else self.rows

    def every_sample(self):
        return itertools.chain.from_iterable(self.samples)

    def residuals(self):
        """The rules that can be left within a cluster, in the order in which they are found."""
        found = left_by(self.root, (sample for sample in self.every_sample() if sample.opens))
        for rule in found:
            found += [left for left in left_by(rule, self.every_sample()) if left not in found]
        return found

    def late_last(self, rules):
        late = [rule for rule in rules if self.goes_by_second(rule)]
        if len(late) != (1 if self.is_paired else 0):
            raise Unreadable(f"{self.module.where}: {len(late)} rows of {self.about} go by the second symbol")
        return [rule for rule in rules if rule not in late] + late

    def goes_by_second(self, rule):
        return any(len({first(sample.ask, rule) for sample in pair}) > 1 for pair in self.samples)

    def row(self, rule):
        return 64 * (self.rules.index(rule) + 1)

    def opening(self, sample):
        """The cell of row 0."""
        done = first(sample.ask, self.root)
        if not sample.opens or not isinstance(done, Step) or done.act == NOTE:
            return OVER
        return sample.shape(done.act) + OPENING + self.row(done.left)

    def within(self, sample, rule, otherwise):
        """The cell of a rule that is left, or another where it takes no token."""
        done = first(sample.ask, rule)
        if not isinstance(done, Step):
            return otherwise
        if done.act == NOTE:
            return NOTED + self.row(done.left)
        return sample.shape(done.act) + CHARACTER + self.row(done.left)

    def early_cells(self):
        for sample, *_ in self.samples:
            opening = self.opening(sample)
            yield opening
            for rule in self.rules[: self.width - 1]:
                yield self.within(sample, rule, opening)

    def late_cells(self):
        for rule in self.rules[self.width - 1 :]:
            for sample in self.samples[0]:
                yield self.within(sample, rule, OVER)


def left_by(rule, samples):
    """The rules that are left of a rule behind a token of each sample, once each."""
    steps = (first(sample.ask, rule) for sample in samples)
    return list(dict.fromkeys(done.left for done in steps if isinstance(done, Step)))
