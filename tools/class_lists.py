"""The lists of class codes, as crates/classes has them."""
import pathlib
import re
from typing import NamedTuple

CLASSES = pathlib.Path(__file__).resolve().parent.parent / "crates/classes/src"
ABOUT = re.compile(r"// (.*?\.)\s")
CODE = re.compile(r"^pub const (\w+): u8 = (\d+);", re.MULTILINE)
# the name that has the number of codes and is no code
LENGTH = "LEN"


class ClassList(NamedTuple):
    about: str  # the sentence that begins the list's file
    codes: dict  # each name's code, in the list's order


def class_list(name):
    """The list in the file of that name: `cluster_break` is in cluster_break.rt."""
    return parsed(name, (CLASSES / f"{name}.rt").read_text(encoding="utf-8"))


def parsed(name, text):
    """A list that does not count from 0 to its length is an error: a name that was not read would have no code."""
    codes = {word: int(code) for word, code in CODE.findall(text)}
    length = codes.pop(LENGTH, None)
    if list(codes.values()) != list(range(len(codes))) or len(codes) != length:
        raise SystemExit(f"crates/classes/src/{name}.rt: its codes do not count from 0 to {LENGTH}")
    return ClassList(ABOUT.match(text)[1], codes)
