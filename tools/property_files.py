"""The files of the Unicode Character Database, in a folder as Debian's unicode-data lays them out."""
import bz2
import gzip
import pathlib

# the names of SCOPE 2.2 for values that Unicode names otherwise
GRAPHEME_NAMES = {"Control": "CN", "Extend": "EX", "SpacingMark": "SM", "Regional_Indicator": "RI", "Prepend": "PP"}
WORD_NAMES = {"Newline": "NL", "Format": "FO", "Katakana": "KA", "Hebrew_Letter": "HL", "Single_Quote": "SQ",
              "Double_Quote": "DQ", "MidLetter": "ML", "MidNum": "MN", "Numeric": "NU", "ExtendNumLet": "EX",
              "Regional_Indicator": "RI"}
# the scripts whose consonants and viramas Unicode 15.1 joins
CONJUNCT_SCRIPTS = {"Bengali", "Devanagari", "Gujarati", "Malayalam", "Oriya", "Telugu"}


def lines(folder, name):
    """The lines of a file without comments, compressed or not."""
    for suffix, opening in (("", open), (".gz", gzip.open), (".bz2", bz2.open)):
        path = pathlib.Path(folder) / (name + suffix)
        if path.is_file():
            with opening(path, "rt", encoding="utf-8") as file:
                return [line for line in (line.split("#")[0].strip() for line in file) if line]
    raise SystemExit(f"{name} is not in {folder}")


def rows(folder, name):
    """The scalars and the value of each line `FIRST..LAST ; VALUE` or `SCALAR ; VALUE`."""
    for line in lines(folder, name):
        scalars, value = (field.strip() for field in line.split(";"))
        first, _, last = scalars.partition("..")
        yield range(int(first, 16), int(last or first, 16) + 1), value


def values(folder, name, names=None):
    """Each scalar's value, under the name that `names` has for it."""
    names = names or {}
    return {scalar: names.get(value, value) for scalars, value in rows(folder, name) for scalar in scalars}


def having(folder, name, wanted):
    """The scalars that have a value; a scalar may have several."""
    return {scalar for scalars, value in rows(folder, name) if value == wanted for scalar in scalars}


def assigned(folder, field):
    """Each assigned scalar's value in a field of UnicodeData.txt, in which a range is a line `<…, First>` and a line `<…, Last>`."""
    found, last = {}, -1
    for line in lines(folder, "UnicodeData.txt"):
        fields = line.split(";")
        first, last = last + 1, int(fields[0], 16)
        found.update(dict.fromkeys(range(first if fields[1].endswith(", Last>") else last, last + 1), fields[field]))
    return found


def general_categories(folder):
    return assigned(folder, 2)


def combining_classes(folder):
    return assigned(folder, 3)


def grapheme_breaks(folder):
    return values(folder, "auxiliary/GraphemeBreakProperty.txt", GRAPHEME_NAMES)


def word_breaks(folder):
    return values(folder, "auxiliary/WordBreakProperty.txt", WORD_NAMES)


def line_breaks(folder):
    return values(folder, "LineBreak.txt")


def wide(folder):
    """The scalars whose East Asian width is F, W or H."""
    return {scalar for scalars, value in rows(folder, "EastAsianWidth.txt") if value in ("F", "W", "H") for scalar in scalars}


def pictographs(folder):
    return having(folder, "emoji/emoji-data.txt", "Extended_Pictographic")


def conjuncts(folder):
    """Indic_Conjunct_Break, which Unicode 15.1 derives from older properties: a virama of one of six scripts is a linker, a consonant of
    them is one; ZWJ and every extender that combines (another class than 0) and is no virama of any script is an extend."""
    scripts, syllables = values(folder, "Scripts.txt"), values(folder, "IndicSyllabicCategory.txt")
    combining = combining_classes(folder)
    names = {"Virama": "linker", "Consonant": "consonant"}
    found = {scalar: names[value] for scalar, value in syllables.items() if value in names and scripts.get(scalar) in CONJUNCT_SCRIPTS}
    for scalar, value in grapheme_breaks(folder).items():
        extender = value == "EX" and combining.get(scalar, "0") != "0" and syllables.get(scalar) != "Virama"
        if value == "ZWJ" or extender:
            found[scalar] = "extend"
    return found
