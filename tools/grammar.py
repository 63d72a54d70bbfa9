"""Reads definitions of the crates' specs, as far as the grammars rest on them, and works them out.

Of antt it knows what the grammars are written in: `use` lines, the constructors of a `data`, and definitions by clauses, whose
bodies are built of names, numbers, applications, `λ` and the operators below. A body is read when it is first asked for, so that a
file may hold anything else beside. What cannot be read is an error that names file and line.

A term is a number, a Variable, a Lambda, or a tuple of a head and its arguments. A head is a constructor's name, a Definition or a
Primitive; in a body it may be a Variable too. The value of a term holds no definition that has all of its arguments: `accept_as 6
Base` is unfolded, but `is 6`, which waits for a text and a place, stays. So the value of a grammar is a tree of the constructors of
`Rule`, whose tests can be written down again by name, and are answered by giving them a text and a place.
"""
import functools
import itertools
import pathlib
import re
from dataclasses import dataclass

ROOT = pathlib.Path(__file__).resolve().parent.parent
# how strongly an operator binds, and whether it groups to the right
OPERATORS = {
    "⇒": (1, True), "▸": (2, True), "||": (3, False), "∷": (4, True), "+": (5, False), "*": (6, False), "/": (6, False), "%": (6, False)
}
# the first sign of a row, `◌⇒◌∣◌` or `◌⇒◌▹◌`, and what can be its second, which says which of them it is
ROW, SECOND_SIGNS = "⇒", ("∣", "▹")
# the constructors of antt's libraries
CONSTRUCTORS = {"true", "false", "[]", "∷"}
TRUE, FALSE, EMPTY = ("true",), ("false",), ("[]",)
WORD = re.compile(r"[().]|[^\s().]+")
USE = re.compile(r"use (\S+)\.\{(.*)\}")
DATA = re.compile(r"(?:pub )?data (\S+)")
SIGNATURE = re.compile(r"(unfoldable|abbrev) (?:pub )?(\S+) :")
# a file of specs of a crate; the library `std` is none
SPECS = re.compile(r"Rattle\.(?!std\.)(\w+)\.specs\.(\w+)")


class Unreadable(Exception):
    """What cannot be read, or no table be made of, and where it stands."""


@dataclass(frozen=True)
class Variable:
    name: str


# ---- Lists ------------------------------------------------------------------------------------


def listed(items):
    """The term of a list."""
    return functools.reduce(lambda rest, item: ("∷", item, rest), reversed(items), EMPTY)


def items(term):
    """The items of a list's term."""
    while term != EMPTY:
        _, item, term = term
        yield item


# ---- Functions: with a `λ`, of antt's libraries, and those that a file defines ----------------


@dataclass(frozen=True)
class Lambda:
    variable: Variable
    body: object
    arity = 1

    def call(self, arg):
        return value(self.body, {self.variable: arg})


@dataclass(frozen=True)
class Primitive:
    name: str
    arity: int
    call: object


PRIMITIVES = [
    Primitive("+", 2, lambda a, b: a + b),
    Primitive("*", 2, lambda a, b: a * b),
    Primitive("/", 2, lambda a, b: a // b),
    Primitive("%", 2, lambda a, b: a % b),
    Primitive("eqb", 2, lambda a, b: TRUE if a == b else FALSE),
    Primitive("||", 2, lambda a, b: TRUE if a == TRUE else b),
    Primitive("cond", 3, lambda test, a, b: a if test == TRUE else b),
    Primitive("list_any", 2, lambda test, xs: TRUE if any(applied(test, [x]) == TRUE for x in items(xs)) else FALSE),
    Primitive("get_or", 3, lambda xs, place, default: next(itertools.islice(items(xs), place, None), default)),
]


class Definition:
    def __init__(self, module, name, unfoldable):
        self.module, self.name, self.unfoldable = module, name, unfoldable
        self.statements = []

    @property
    def where(self):
        return f"{self.module.where}:{self.module.own[self.name]}"

    @functools.cached_property
    def clauses(self):
        if not self.statements:
            raise Unreadable(f"{self.where}: `{self.name}` has no clause")
        return [Clause(self.module, statement) for statement in self.statements]

    @property
    def arity(self):
        return len(self.clauses[0].patterns)

    def call(self, *args):
        for clause in self.clauses:
            values = matched(clause.patterns, args)
            if values is not None:
                return value(clause.body, values)
        raise Unreadable(f"{self.where}: no clause of `{self.name}` fits")


class Clause:
    def __init__(self, module, statement):
        self.reader = Reader(module, statement)
        self.patterns = self.reader.patterns()

    @functools.cached_property
    def body(self):
        return self.reader.body()


# ---- Values -----------------------------------------------------------------------------------


def matched(patterns, terms):
    """The values of the patterns' variables, None where a pattern does not fit its term."""
    values = {}
    for pattern, term in zip(patterns, terms):
        if isinstance(pattern, Variable):
            values[pattern] = term
            continue
        inner = matched(pattern[1:], term[1:]) if pattern[0] == term[0] else None
        if inner is None:
            return None
        values.update(inner)
    return values


def value(term, values):
    """The value of a term whose variables have these values."""
    if isinstance(term, int):
        return term
    if isinstance(term, Variable):
        return values[term]
    if isinstance(term, Lambda):
        return filled(term, values)
    head, *args = term
    function = value(head, values) if isinstance(head, (Variable, Lambda)) else (head,)
    return applied(function, [value(arg, values) for arg in args])


def filled(term, values):
    """A term with values for variables, and nothing worked out: what stands behind a `λ` is written down again as it is."""
    if isinstance(term, Variable):
        return values.get(term, term)
    if isinstance(term, Lambda):
        outer = {variable: one for variable, one in values.items() if variable != term.variable}
        return Lambda(term.variable, filled(term.body, outer))
    if isinstance(term, tuple):
        head, *args = (filled(part, values) for part in term)
        return application(head, args)
    return term


def application(function, args):
    """The term of a function with arguments, where it may have some already."""
    return (*function, *args) if isinstance(function, tuple) else (function, *args)


def applied(function, args):
    """The value of a function with arguments: a definition that has all of them now is unfolded."""
    head, *args = application(function, args)
    if isinstance(head, str) or len(args) < head.arity:
        return (head, *args)
    result, rest = head.call(*args[: head.arity]), args[head.arity :]
    return applied(result, rest) if rest else result


# ---- Terms as antt writes them ----------------------------------------------------------------


def shown(term):
    if isinstance(term, int):
        return str(term)
    if isinstance(term, Variable):
        return term.name
    if isinstance(term, Lambda):
        return f"λ {term.variable.name}. {shown(term.body)}"
    head, *args = term
    if head == "∷":
        return f"{argument(args[0])} ∷ {shown(args[1])}"
    return " ".join([head if isinstance(head, str) else head.name, *map(argument, args)])


def argument(term):
    """A term as an argument: in parentheses where it is not one word."""
    text = shown(term)
    return f"({text})" if " " in text else text


# ---- Reading ----------------------------------------------------------------------------------


def statements(text):
    """A file's statements, each a list of (line number, line): one begins at the margin and goes on where lines are indented."""
    found = []
    for number, line in enumerate(text.splitlines(), 1):
        line = line.split("--")[0].rstrip()
        if line and not line[0].isspace():
            found.append([])
        if line:
            found[-1].append((number, line))
    return found


def bare(name):
    """An operator's name without the places before and behind it: ▸ for ◌▸◌, ⇒◌∣ for ◌⇒◌∣◌."""
    return name.strip("◌")


class Module:
    """A file of specs and what its names stand for."""

    def __init__(self, path):
        self.where = path.relative_to(ROOT)
        # a constructor's name, a Definition, or, imported, a pair of the module that it is from and its name there
        self.names = {}
        # the names that are the file's own, in its order, with their lines
        self.own = {}
        # the definition that clauses are read of
        self.current = None
        for statement in statements(path.read_text(encoding="utf-8")):
            self.add(statement)

    def add(self, statement):
        number, line = statement[0]
        if use := USE.match(line):
            self.names.update(imports(*use.groups()))
        elif data := DATA.match(line):
            self.own[data[1]] = number
            for number, constructor in statement[1:]:
                name = constructor.split()[0]
                self.own[name], self.names[name] = number, name
        elif signature := SIGNATURE.match(line):
            name = bare(signature[2])
            self.current = Definition(self, name, signature[1] == "unfoldable")
            self.own[name], self.names[name] = number, self.current
        elif self.current and any("=" in line.split() for _, line in statement):
            self.current.statements.append(statement)
        else:
            self.current = None

    def find(self, name):
        """What a name stands for: a constructor's name, a Definition or a Primitive; None where it is not known."""
        meaning = self.names.get(name)
        return imported(*meaning) if isinstance(meaning, tuple) else meaning

    def value(self, name, *args):
        function = self.find(name)
        if function is None:
            raise Unreadable(f"{self.where}: there is no `{name}`")
        return applied((function,), args)


@functools.cache
def module(crate, name):
    return Module(ROOT / "crates" / crate / "specs" / f"{name}.antt")


def imports(origin, names):
    """For each name of a `use` line, as it is called in the file: the module that it is from and its name there."""
    for words in names.split(", "):
        name, _, here = words.partition(" as ")
        yield bare(here or name), (origin, bare(name))


def imported(origin, name):
    if origin.endswith(".TheVariants") or name in CONSTRUCTORS:
        return name
    if specs := SPECS.fullmatch(origin):
        return module(*specs.groups()).find(name)
    return next((primitive for primitive in PRIMITIVES if primitive.name == name), None)


class Reader:
    """Reads one clause of a definition, word by word."""

    def __init__(self, module, statement):
        self.module = module
        self.words = [(number, word) for number, line in statement for word in WORD.findall(line)]
        # the end
        self.words.append((statement[-1][0], ""))
        # the clause's variables; None as long as the left side is read, which names them
        self.variables = None

    @property
    def next(self):
        return self.words[0][1]

    def take(self):
        return self.words.pop(0)[1]

    def take_if(self, word):
        found = self.next == word
        if found:
            self.take()
        return found

    def expect(self, word):
        if not self.take_if(word):
            self.fail()

    def fail(self):
        why = f"cannot read `{self.next}` here" if self.next else "the definition ends too early"
        raise Unreadable(f"{self.module.where}:{self.words[0][0]}: {why}")

    def patterns(self):
        """The left side's patterns. It is read as a term, whose head is what is defined, a name or an operator."""
        left = self.term()
        self.expect("=")
        patterns = left[1:] if isinstance(left, tuple) else ()
        self.variables = set(variables_of(patterns))
        return patterns

    def body(self):
        body = self.term()
        self.expect("")
        return body

    def term(self, least=0):
        """A term whose operators bind at least so strongly."""
        left = self.application()
        while self.next in OPERATORS and OPERATORS[self.next][0] >= least:
            strength, rightward = OPERATORS[self.next]
            head, *inner = self.row() if self.next == ROW else [self.head(self.next)]
            left = (head, left, *inner, self.term(strength if rightward else strength + 1))
        return left

    def row(self):
        """The operator of a row, and the term between its signs."""
        self.expect(ROW)
        inner = self.term()
        if self.next not in SECOND_SIGNS:
            self.fail()
        return self.head(f"{ROW}◌{self.next}"), inner

    def application(self):
        function, args = self.atom(), []
        while self.next not in OPERATORS and self.next not in ("", ")", "=", *SECOND_SIGNS):
            args.append(self.atom())
        return application(function, args) if args else function

    def atom(self):
        if self.take_if("("):
            term = self.term()
            self.expect(")")
            return term
        if self.take_if("λ"):
            return self.function()
        if self.next[:1].isdigit():
            return int(self.take().replace("_", ""), 0)
        head = self.head(self.next)
        return head if isinstance(head, Variable) else (head,)

    def function(self):
        variable = Variable(self.take())
        self.expect(".")
        outer, self.variables = self.variables, self.variables | {variable}
        body = self.term()
        self.variables = outer
        return Lambda(variable, body)

    def head(self, name):
        """What a name stands for, whose last word is the next. On the left side every name but a constructor's is a variable."""
        known, variable = self.module.find(name), Variable(name)
        if self.variables is None:
            known = known if isinstance(known, str) else variable
        elif variable in self.variables:
            known = variable
        if known is None:
            self.fail()
        self.take()
        return known


def variables_of(patterns):
    for pattern in patterns:
        if isinstance(pattern, Variable):
            yield pattern
        else:
            yield from variables_of(pattern[1:])


# ---- What a definition rests on ---------------------------------------------------------------


def mentioned(term):
    """The definitions that a term names, from left to right; but for those of a mark, which no table shows."""
    if isinstance(term, Definition):
        yield term
    elif isinstance(term, Lambda):
        yield from mentioned(term.body)
    elif isinstance(term, tuple):
        for part in unmarked(term):
            yield from mentioned(part)


def unmarked(term):
    """The parts of a term, but for a mark."""
    match term:
        case ("mark", _):
            return ()
        case ("fit", test, _, shape):
            return (test, shape)
    return term


def foundations(definition, found=None):
    """The definition and all that it rests on, in the order in which they are named."""
    found = [] if found is None else found
    found.append(definition)
    for clause in definition.clauses:
        for one in mentioned(clause.body):
            if one not in found:
                foundations(one, found)
    return found
