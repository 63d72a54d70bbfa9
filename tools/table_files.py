"""The files of a table that a script writes for a crate: its lists as definitions, and the same as constants of the code."""
import argparse
import pathlib
import sys
import textwrap
from typing import NamedTuple

ROOT = pathlib.Path(__file__).resolve().parent.parent
# `rt fmt` lays an array out in one line if its cells are no longer than this,
SHORT = 60
# or else with as many cells to a line as there is room for, if each is short, or else with one cell to a line
SHORT_CELL = 10
ROOM = 99
INDENT = "    "


class Cells(NamedTuple):
    name: str  # of the definition
    constant: str | None  # of the constant or static in the code, or none
    kind: str | None  # the type of its cells there
    about: str
    cells: list


def spec_file(note, lists, width):
    """As many cells to a line as `width` says."""
    text = f"-- What only private contracts need. {note}\nuse Rattle.std.specs.Prelude.{{ℕ, List, [], ◌∷◌}}\n"
    for one in lists:
        lines = (one.cells[start : start + width] for start in range(0, len(one.cells), width))
        chain = "".join(f"    {' ∷ '.join(map(str, line))} ∷\n" for line in lines)
        text += f"\n-- {one.about}\nunfoldable pub {one.name} : List ℕ\n{one.name} =\n{chain}    []\n"
    return text


def code_file(note, lists, item="const"):
    """Each list as an item of the code: a constant, or a static, which stands in one place and is not copied to where it is read."""
    text = f"// {note}\n"
    for one in lists:
        if one.constant:
            text += f"\n// {one.about}\npub {item} {one.constant}: [{one.kind}; {len(one.cells)}] = {array(one.cells)};\n"
    return text


def array(cells):
    """As `rt fmt` lays it out."""
    line = ", ".join(map(str, cells))
    if len(line) <= SHORT:
        return f"[{line}]"
    if max(len(str(cell)) for cell in cells) > SHORT_CELL:
        lines = [f"{INDENT}{cell}," for cell in cells]
    else:
        lines = textwrap.wrap(line + ",", ROOM, initial_indent=INDENT, subsequent_indent=INDENT)
    return "\n".join(["[", *lines, "]"])


def main(name, about, files):
    """Writes the files, each a path and its text, or looks with --check that they are that."""
    options = argparse.ArgumentParser(description=about, formatter_class=argparse.RawDescriptionHelpFormatter)
    options.add_argument("--check", action="store_true", help="writes nothing, and says where a file differs")
    is_check = options.parse_args().check
    stale = []
    for path, text in files:
        file = ROOT / path
        if not is_check:
            file.write_text(text, encoding="utf-8")
        elif not file.exists() or file.read_text(encoding="utf-8") != text:
            stale.append(path)
    if stale:
        sys.exit(f"{name}: {', '.join(stale)} differ from the steps: run tools/{name}")
