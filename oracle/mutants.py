#!/usr/bin/env python3
"""Do the fixed lists notice a wrong reading? Each mutant has one name, one number or one test
of reading.py, line_reading.py, property_reading.py or grapheme_reading.py changed; the lists have to answer otherwise in some
line. Prints each mutant that no list notices, and the count.
"""

import argparse
import ast
import pathlib
import resource
import signal

import cases
import grapheme_reading
import line_reading
import lists
import property_reading
import reading

HERE = pathlib.Path(__file__).resolve().parent
SECONDS, BYTES = 60, 1 << 30  # A mutant that runs on for ever is noticed too.


def sites(tree):
    """What can be changed: constants and comparisons inside functions, and constants in tables."""
    docstrings = {id(node.body[0].value) for node in ast.walk(tree)
                  if isinstance(node, (ast.FunctionDef, ast.ClassDef, ast.Module)) and node.body
                  and isinstance(node.body[0], ast.Expr)}
    for node in ast.walk(tree):
        if isinstance(node, ast.Constant) and id(node) not in docstrings and isinstance(node.value, (int, str)):
            yield node
        elif isinstance(node, ast.Compare):
            yield node


NEGATED = {ast.Eq: ast.NotEq, ast.NotEq: ast.Eq, ast.In: ast.NotIn, ast.NotIn: ast.In, ast.Lt: ast.LtE,
           ast.LtE: ast.Lt, ast.Gt: ast.GtE, ast.GtE: ast.Gt, ast.Is: ast.IsNot, ast.IsNot: ast.Is}


def change(node):
    if isinstance(node, ast.Compare):
        node.ops[0] = NEGATED[type(node.ops[0])]()
    elif isinstance(node.value, bool):
        node.value = not node.value
    elif isinstance(node.value, int):
        node.value += 1
    else:
        node.value += " changed"


# in the order in which they are loaded, each with the types that the layout has under their own names too
MODULES = {reading: ("Part", "Record", "Refusal", "WordState"), line_reading: ("LineState", "Table"), property_reading: (), grapheme_reading: ()}


def file_name(module):
    return f"{module.__name__}.py"


def unchanged(module):
    return ast.parse((HERE / file_name(module)).read_text())


def program(tree, module):
    return compile(ast.fix_missing_locations(tree), file_name(module), "exec")


def reading_itself():
    return {module: program(unchanged(module), module) for module in MODULES}


def mutants():
    """Each change in words, and the modules' programs with it."""
    for module in MODULES:
        for number in range(len(list(sites(unchanged(module))))):
            mutant = unchanged(module)
            changed = list(sites(mutant))[number]
            before = f"{file_name(module)}:{changed.lineno}: {ast.unparse(changed)}"
            change(changed)
            yield before, reading_itself() | {module: program(mutant, module)}


def of_layout():
    return [(line, answer) for line, answer in lists.pairs() if answer[:1] != "?"]


def take_place(programs):
    for module, names in MODULES.items():
        exec(programs[module], module.__dict__)
        for name in names:
            setattr(cases, name, getattr(module, name))
    cases.PROPERTY_FILES = dict(zip(cases.PROPERTY_FILES, (property_reading.CLUSTER_CODES, property_reading.WORD_CODES)))
    for cached in (cases.record, cases.part, cases.table):
        cached.cache_clear()


def out_of_time(*_):
    raise TimeoutError


def is_noticed(programs, pairs):
    """The mutant's functions take the reading's place; anything that goes wrong is noticed."""
    signal.alarm(SECONDS)
    try:
        take_place(programs)
        return any(cases.answer(line) != answer for line, answer in pairs)
    except Exception:
        return True
    finally:
        signal.alarm(0)


def main():
    argparse.ArgumentParser(description=__doc__).parse_args()
    signal.signal(signal.SIGALRM, out_of_time)
    resource.setrlimit(resource.RLIMIT_AS, (BYTES, BYTES))
    pairs = of_layout()
    assert not is_noticed(reading_itself(), pairs), "the unchanged reading has to agree"
    made = missed = 0
    for before, programs in mutants():
        made += 1
        if not is_noticed(programs, pairs):
            missed += 1
            print(f"{before} is not noticed", flush=True)
    print(f"{made} mutants, {missed} not noticed")


if __name__ == "__main__":
    main()
