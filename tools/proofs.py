"""The text of a table's file of proofs, crates/tables/proofs/..Rules.antt: the rules of its rows, and that its cells are theirs."""
import re
import string

from grammar import argument, bare, foundations, module
from rows import BREAK, NOTE, RULE, SCALAR, SHAPE, SKIP, STOP, TOKEN

# ---- The pieces, in antt ----------------------------------------------------------------------

RULES = """
abbrev pub rules : List Rule
rules = $rules

-- a token of each $sampled
abbrev samples : List ℕ
samples =
$samples

abbrev pub sample_at : ℕ → ℕ
sample_at j = get_or samples j 0
"""

LOOK_AHEAD = """
-- a kinzi's look-ahead
abbrev pub text_at : ℕ → List ℕ
text_at j = sample_at j ∷ cond (ltb j $kinzis) [] ($behind)
"""

ANSWERS = """
abbrev pub answer_at : ℕ → Test → Bool
answer_at j p = p ($text) 0

abbrev cell_in : ℕ → Rule → Cell
cell_in j r = cell_of (sample_at j) (first (answer_at j) r)
"""

RIGHT = """
abbrev pub expected : ℕ → ℕ → Cell
expected j zero = fresh (cell_in j $cluster)
expected j (suc r) = or_fresh (cell_in j (get_or rules r skip)) (cell_in j $cluster)

-- one computed test over the whole table
right : tabulate (λ j. expected (j / $rows) (j % $rows)) 0 $cells ≡ map (decoded_by rules) $table
unfolding $table $grammar $names
right = refl

pub right_at : (j : ℕ) → j < $cells → expected (j / $rows) (j % $rows) ≡ decoded_by rules (get_or $table j 0)
right_at j h = tab_at (λ j. expected (j / $rows) (j % $rows)) (decoded_by rules) $cells $table right j h
"""

RIGHT_OF_PAIRS = """
abbrev opening_in : ℕ → Cell
opening_in j = $opening

abbrev pub expected : ℕ → ℕ → Cell
expected j zero = fresh (opening_in j)
expected j (suc r) = or_fresh (cell_in j (get_or rules r skip)) (cond (eqb r $late) over (opening_in j))

-- the index of a row and a pair
abbrev pub place : ℕ → ℕ → ℕ
place j row = cond (ltb row $width) (j / $seconds * $width + row) ($early + j % $seconds)

-- a scalar that the first symbol says is the one that the second says
abbrev pub feasible : ℕ → ℕ → Bool
feasible a e = cond (member $saying a) (cond (member $others e) false true) (cond (eqb a $zwnj) (cond (member $unlike e) false true) true)

-- one computed test over all pairs and rows
right : tabulate (λ n. cond (feasible (n / $block) (n / $rows % $seconds)) (expected (n / $rows) (n % $rows)) over) 0 $tested
    ≡ tabulate (λ n. cond (feasible (n / $block) (n / $rows % $seconds)) (decoded_by rules (get_or $table (place (n / $rows) (n % $rows)) 0)) over) 0 $tested
unfolding $table $grammar $names
right = refl

pub right_at : (n : ℕ) → n < $tested → feasible (n / $block) (n / $rows % $seconds) ≡ true → expected (n / $rows) (n % $rows) ≡ decoded_by rules (get_or $table (place (n / $rows) (n % $rows)) 0)
right_at n h f =
    ap (λ b. cond b (expected (n / $rows) (n % $rows)) over) (sym f)
    ∙ agree (λ n. cond (feasible (n / $block) (n / $rows % $seconds)) (expected (n / $rows) (n % $rows)) over) (λ n. cond (feasible (n / $block) (n / $rows % $seconds)) (decoded_by rules (get_or $table (place (n / $rows) (n % $rows)) 0)) over) $tested right n h
    ∙ ap (λ b. cond b (decoded_by rules (get_or $table (place (n / $rows) (n % $rows)) 0)) over) f
"""

OKAY = """
all_okay : tabulate (λ j. true) 0 $cells ≡ map (okay $rows) $table
unfolding $table
all_okay = refl

pub okay_at : (j : ℕ) → j < $cells → true ≡ okay $rows (get_or $table j 0)
okay_at j h = tab_at (λ j. true) (okay $rows) $cells $table all_okay j h
"""

CLUSTER_FREE = """
pub cluster_free : free $cluster ≡ true
unfolding $grammar
cluster_free = refl
"""

CLUSTER_SPARE = """
pub cluster_spare : spare false $cluster ≡ true
unfolding $grammar
cluster_spare = refl
"""

SPARE = """
all_spare : all_true (map (spare false) rules) ≡ true
unfolding $names
all_spare = refl

pub spare_at : (j : ℕ) → spare false (get_or rules j skip) ≡ true
spare_at j = map_at (spare false) rules skip j ∙ true_at (map (spare false) rules) all_spare j
"""

# as SPARE, but for the one rule with a `fit`
SPARE_BUT_ONE = """
-- the rule that is left behind prepended characters, in which a `fit` may stop: the grammar itself
pub fitting_is : get_or rules $fitting skip ≡ $cluster
unfolding $grammar $names
fitting_is = refl

all_spare : tabulate (λ j. cond (eqb j $fitting) true (spare false (get_or rules j skip))) 0 $rules_many ≡ tabulate (λ j. true) 0 $rules_many
unfolding $names
all_spare = refl

pub spare_at : (j : ℕ) → j < $rules_many → cond (eqb j $fitting) true (spare false (get_or rules j skip)) ≡ true
spare_at j h = agree (λ j. cond (eqb j $fitting) true (spare false (get_or rules j skip))) (λ j. true) $rules_many all_spare j h
"""

SIMPLE = [RULES, ANSWERS, RIGHT, OKAY, CLUSTER_FREE, SPARE_BUT_ONE]
# its `cluster` is not free: it takes a kinzi's three tokens at once
MYANMAR = [RULES, LOOK_AHEAD, ANSWERS, RIGHT_OF_PAIRS, OKAY, SPARE]
COMPLEX = [RULES, ANSWERS, RIGHT_OF_PAIRS, OKAY, SPARE, CLUSTER_FREE, CLUSTER_SPARE]

# ---- What stands for the names in them --------------------------------------------------------


def chain(items):
    """A list as antt writes it."""
    return " ∷ ".join([*map(str, items), "[]"])


def chain_lines(items, width):
    """A long list, so many items to a line."""
    lines = (items[start : start + width] for start in range(0, len(items), width))
    return "".join(f"    {' ∷ '.join(map(str, line))} ∷\n" for line in lines) + "    []"


def numbers(items, wanted):
    """The numbers of the items that are wanted, as a list in parentheses."""
    return f"({chain(number for number, item in enumerate(items) if wanted(item))})"


class Parts:
    """The rules and what they are built of, each under a name of its own and behind its own parts."""

    def __init__(self, rules):
        self.names = {rule: rule[0] for rule in (SKIP, STOP, NOTE)}
        self.texts = []
        for rule in rules:
            self.name(rule)

    def name(self, rule):
        if rule not in self.names:
            parts = [self.name(part) if is_rule(part) else argument(part) for part in rule[1:]]
            self.names[rule] = f"r{len(self.texts)}"
            self.texts.append(" ".join([rule[0], *parts]))
        return self.names[rule]

    def definitions(self):
        return "".join(f"\nunfoldable pub r{number} : Rule\nr{number} = {text}\n" for number, text in enumerate(self.texts))


def is_rule(term):
    return isinstance(term, tuple) and term[0] in RULE.own


def has_fit(rule):
    return rule[0] == "fit" or any(has_fit(part) for part in rule[1:] if is_rule(part))


def parameters(table, parts):
    """What the pieces of every grammar name."""
    return {
        "rules": chain(parts.name(rule) for rule in table.rules),
        "names": " ".join(f"r{number}" for number in range(len(parts.texts))),
        "rules_many": len(table.rules),
        "fitting": next((number for number, rule in enumerate(table.rules) if has_fit(rule)), None),
        "sampled": "pair of symbols" if table.is_paired else "symbol",
        "samples": chain_lines([sample.token for sample in table.every_sample()], 6),
        "cluster": argument(table.cluster),
        "grammar": " ".join(one.name for one in foundations(table.cluster[0]) if one.unfoldable),
        "table": table.antt_name,
        "rows": table.rows,
        "cells": len(table.cells),
    }


def text_parameters(table):
    """What is said of the text that a sample begins. Only kinzis, the last symbols, have something behind them."""
    kinzis = [number for number, symbol in enumerate(table.symbols) if symbol.behind]
    if not kinzis:
        return {"text": "sample_at j ∷ []"}
    behind = table.symbols[kinzis[0]].behind
    return {"text": "text_at j", "kinzis": kinzis[0] * len(table.seconds), "behind": chain(f"0x{scalar:04X}" for scalar in behind)}


def pair_parameters(table):
    """What the pieces of a grammar with pairs of symbols name beside."""
    symbols, seconds = len(table.symbols), len(table.seconds)
    scalars = [symbol.fields.get("scalar") for symbol in table.symbols]
    ex, zwnj = BREAK.value("EX"), SCALAR.value("ZWNJ")
    return {
        "seconds": seconds,
        "width": table.width,
        "late": table.width - 1,
        "early": symbols * table.width,
        "block": seconds * table.rows,
        "tested": symbols * seconds * table.rows,
        "opening": opening(table),
        # the symbols that say a scalar, and the second symbols that say another one
        "saying": numbers(scalars, lambda scalar: scalar not in (None, zwnj)),
        "others": numbers(table.seconds, lambda fields: "scalar" in fields),
        # ZWNJ is one that a second symbol says too; it is not EX with any other scalar
        "zwnj": scalars.index(zwnj),
        "unlike": numbers(table.seconds, lambda fields: fields.get("brk") == ex and fields.get("scalar") != zwnj),
    }


def opening(table):
    """The cell that begins a cluster; over at a symbol where the table opens none."""
    cell = f"cell_in j {argument(table.cluster)}"
    closed = [number for number, symbol in enumerate(table.symbols) if not symbol.opens]
    return f"cond (eqb (j / {len(table.seconds)}) {closed[0]}) over ({cell})" if closed else cell


# ---- The file ---------------------------------------------------------------------------------


def origins(table):
    """What a file can name, and where it is from."""
    shapes = [clause.patterns[0][0] for clause in SHAPE.find("shape_code").clauses]
    cells = "Cell over cell_of fresh or_fresh decoded_by okay tabulate tab_at agree map_at all_true true_at"
    return [
        ("Prim.Native.Nat", "ℕ zero suc ◌+◌ ◌*◌ ◌/◌ ◌%◌ ◌<◌".split()),
        ("mathlib.Core.Path", "◌≡◌ refl sym ◌∙◌ ap".split()),
        ("mathlib.Core.Bool", "Bool true false cond".split()),
        ("mathlib.Core.List", "List [] ◌∷◌ map".split()),
        ("lib.Dec", "eqb ltb".split()),
        ("lib.ListN", ["get_or"]),
        ("Rattle.basics.specs.Sets", ["member"]),
        ("Rattle.classes.specs.declared.Shape.TheVariants", shapes),
        ("Rattle.parse.specs.declared.Emoji.TheVariants", "Default Text Color".split()),
        ("Rattle.parse.specs.declared.Space.TheVariants", ["Newline"]),
        ("Rattle.token.specs.Token", TOKEN.own),
        ("Rattle.parse.specs.Rule", RULE.own),
        ("Rattle.parse.specs.Shared", module("parse", "Shared").own),
        (f"Rattle.{table.crate}.specs.Grammar", table.module.own),
        (f"Rattle.tables.specs.{table.name}Table", [table.antt_name]),
        ("Rattle.parse.proofs.Free", ["free"]),
        ("Rattle.residual.proofs.Residual", ["spare", "first"]),
        ("Rattle.tables.proofs.Cells", cells.split()),
    ]


def uses(table, text):
    """The `use` lines of a text: of all that it can name what it does name."""
    words = set(re.findall(r"[^\s()]+", re.sub(r"--.*", "", text)))
    named = ((origin, [name for name in names if bare(name) in words]) for origin, names in origins(table))
    return "".join(f"use {origin}.{{{', '.join(names)}}}\n" for origin, names in named if names)


def proof_file(table, pieces):
    parts = Parts(table.rules)
    values = parameters(table, parts) | text_parameters(table) | (pair_parameters(table) if table.is_paired else {})
    text = parts.definitions() + "".join(string.Template(piece).substitute(values) for piece in pieces)
    return f"""-- Written by tools/tables: the rules that can be left within a cluster of {table.about}, and that its table is theirs.
-- Assumes nothing.
{uses(table, text)}{text}"""
