"""The Rust judge: where the sources are that it is made of, which are no part of this repository, and its building."""

import os
import pathlib
import subprocess

HERE = pathlib.Path(__file__).resolve().parent
VARIABLE = "EZHERBUT_RUST"
# from the repository's top
NEIGHBOUR = "../shared/docs/src"
PLACES = f"in ${VARIABLE}, then in {NEIGHBOUR} as seen from the repository's top"


class NotFound(Exception):
    """The sources are in no place that was looked in; says in which."""


def places(named):
    """Folders with the words for them: the named one alone, or those of PLACES."""
    if named:
        return [(named, named)]
    own = os.environ.get(VARIABLE)
    return [(own, f"${VARIABLE} ({own or 'not set'})"), (HERE.parent / NEIGHBOUR, NEIGHBOUR)]


def has_sources(folder):
    return bool(folder) and (pathlib.Path(folder) / "src/text/analyze.rs").is_file()


def found(named=None):
    """The first folder that has the sources, and where they are and are not, in words."""
    looked = []
    for folder, name in places(named):
        if has_sources(folder):
            return folder, ", ".join([*looked, f"in {name}"])
        looked.append(f"not in {name}")
    raise NotFound(", ".join(looked))


def built(folder, *words):
    """The path of the program."""
    return subprocess.run([HERE / "build", folder, *words], stdout=subprocess.PIPE, text=True, check=True).stdout.strip()
