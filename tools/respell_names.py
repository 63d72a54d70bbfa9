#!/usr/bin/env python3
"""The repository's own definitions and lemmas in today's spelling: snake case for all but types, facts and modules.

usage: tools/respell_names.py      at the top of the repository, once, after the kit's port.py

What is turned: each name that a file of specs/ or proofs/ itself declares with a dash or in lower camel case, wherever it stands in an .antt file or
in a clause or an import of an .rt file, and in a comment's code spans. What Rust declares, strings, and the names that Rattle makes of the source in
the proof of a function (behind a dot there) keep their spelling. Where two names fall together, or one meets another of the file, the lemma gets
`_lem` behind it; BY_HAND names these. A second run finds nothing to turn.
"""

import collections
import pathlib
import re

WORD = re.compile(r'[^\s(){}.;,@"«»]+')
QUIET = re.compile(r'"(?:[^"\\\n]|\\.)*"|(?<![^\s(){}.;,@"«»])--[^\n]*|\{-.*?-\}', re.S)
RUST_QUIET = re.compile(r'"(?:[^"\\\n]|\\.)*"|//[^\n]*', re.S)
SPAN = re.compile(r"`[^`\n]+`")
MARKS = "pub|abbrev|unfoldable|opaque|record|data|ruleset|instance|private|mutual|where|let|in"
DECLARED = re.compile(rf"(?m)^ *(?:(?:{MARKS}) +)*([^\s(){{}}.;,@\"«»]+)(?: \{{[^{{}}\n]*\}})* :(?= |$)")
RULESET = re.compile(r'(?m)^ *(?:pub )?ruleset ([^\s(){}.;,@"«»]+) =')
USE = re.compile(r"(?m)^ *use ([^\s;{]+)(?:\.?\{([^}]*)\})?(?: as ([^\s;]+))?")
LOWER_CAMEL = re.compile(r"^[a-z].*?(?<=[a-z0-9])[A-Z]")
JOINED = re.compile(r"\w-\w")

# a lemma whose spelling would be that of another name of its files
LEMMAS = "before_of noted_more or_word plain_at sign_line".split()
BY_HAND = {"after-of": "after_of_lem", "no-more": "no_more_lem", "one-of": "one_of_lem", "no-link": "no_link_lem", "allListed": "are_all_listed"}


def in_snake_case(name):
    """An abbreviation of two capitals or more keeps them, as GB3 and CR."""
    words = re.sub(r"(?<=[a-z0-9])[A-Z]{2,}", lambda capitals: "_" + capitals[0], name)
    return re.sub(r"(?<=[a-z0-9])[A-Z]", lambda letter: "_" + letter[0].lower(), words).replace("-", "_")


def files(ending):
    return sorted(path for path in pathlib.Path("crates").rglob("*" + ending) if "out" not in path.parts)


def is_library(path):
    """A file of specs/ or proofs/ itself, not of the proof of a function."""
    return len(path.parts) == 4 and path.parts[2] in ("specs", "proofs")


def code_of(path):
    return QUIET.sub(" ", path.read_text())


def table():
    declared, foreign = set(), set()
    crates = {path.name for path in pathlib.Path("crates").iterdir()}
    for path in files(".antt"):
        code = code_of(path)
        if is_library(path):
            declared.update(DECLARED.findall(code) + RULESET.findall(code))
        for module, names, _ in USE.findall(code):
            steps = module.split(".")
            if not (steps[0] == "Rattle" and len(steps) > 1 and steps[1] in crates):
                foreign.update(WORD.findall(names))
    turned = {name for name in declared - foreign if LOWER_CAMEL.search(name) or JOINED.search(name)}
    alike = collections.Counter(map(in_snake_case, turned))
    rows = {name: in_snake_case(name) + ("_lem" if alike[in_snake_case(name)] > 1 and "-" in name else "") for name in turned}
    rows |= {name: new for name, new in BY_HAND.items() if name in turned}
    return rows


def turned_words(text, rows, dotted):
    """With the words of a table; `dotted` says whether a word behind a dot turns."""

    def turn(word):
        before = text[: word.start()]
        if before.endswith(".") and not before.endswith("..") and word[0] in rows and not dotted(word[0], before):
            return word[0]
        return rows.get(word[0], word[0])

    return WORD.sub(turn, text)


def outside(quiet, text, turn):
    """Turns what is code, and the code spans of comments."""
    parts, at = [], 0
    for found in quiet.finditer(text):
        parts.append(turn(text[at : found.start()]))
        parts.append(found[0] if found[0].startswith('"') else SPAN.sub(lambda span: turn(span[0]), found[0]))
        at = found.end()
    return "".join(parts + [turn(text[at:])])


def behind_dot(path):
    made = not is_library(path)

    def may_turn(word, before):
        head = WORD.findall(before)[-1:] or [""]
        return not made or "-" not in word or head[0][:1].isupper()

    return may_turn


def main():
    rows = table()
    # no name of a row may become one that its file has
    lemmas = {name: name + "_lem" for name in LEMMAS if any(old for old, new in rows.items() if new == name)}
    changed = 0
    for path in files(".antt") + files(".rt"):
        text = path.read_text()
        quiet = QUIET if path.suffix == ".antt" else RUST_QUIET
        new = text
        if path.suffix == ".antt" and path.parts[2] == "proofs" and lemmas:
            new = outside(quiet, new, lambda code: turned_words(code, lemmas, lambda word, before: False))
        new = outside(quiet, new, lambda code: turned_words(code, rows, behind_dot(path)))
        if new != text:
            path.write_text(new)
            changed += 1
    print(f"{len(rows)} names, {changed} files")


if __name__ == "__main__":
    main()
