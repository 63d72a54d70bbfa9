"""A second reading of Req 01, line breaks: the line step, the step of `next`, the run of `next`, and
what they refuse (SCOPE 12.1). Written from the request, apart from the Rattle code and its
definitions, as reading.py is; the words are that file's.
"""

import pathlib
from functools import cache, cached_property
from typing import NamedTuple, Optional

import reading
from reading import MARK, WORD, Refusal

LINE = """AI AL B2 BA BB BK CB CJ CL CM CP CR EB EM EX GL H2 H3 HL HY ID IN IS JL JT JV LF NL NS NU OP PO
    PR QU RI SA SG SP SY WJ XX ZW ZWJ""".split()
STRENGTHS = NORMAL, BREAK_ALL, KEEP_ALL = "Normal", "BreakAll", "KeepAll"
NONE, WORD_BOUNDARY, LINE_BREAK, MANDATORY_BREAK = range(4)

# ---- The lent table -------------------------------------------------------------------------

WIDTH = len(LINE) + 1  # a column for each class, and one for the end of the text, which is never asked
FEWEST_ROWS = 45
ALLOWED_BIT, MANDATORY_BIT = 0x80, 0x40
PAIR_TABLE = pathlib.Path(__file__).resolve().parent / "pair_table.txt"


def named_row(cell):
    """What a cell is without its two bits."""
    return cell & ~(ALLOWED_BIT | MANDATORY_BIT)


class Table:
    """Cells lent as one run."""

    def __init__(self, cells):
        self.cells = cells
        self.rows = len(cells) // WIDTH

    @cached_property
    def is_sound(self):
        """Against 10: whole rows, enough of them, and every cell names one."""
        return (len(self.cells) % WIDTH == 0 and self.rows >= FEWEST_ROWS
                and all(named_row(cell) < self.rows for cell in set(self.cells)))

    def cell(self, row, line_class):
        return self.cells[row * WIDTH + line_class]


@cache
def crate_table():
    """The crate's own."""
    rows = [line for line in PAIR_TABLE.read_text().splitlines() if not line.startswith("#")]
    return Table(bytes(int(cell) for row in rows for cell in row.split(",")))


# ---- The line step --------------------------------------------------------------------------


class LineState(NamedTuple):
    row: int
    previous: Optional[int]  # the class of the record before


LINE_START = LineState(44, None)
READ_AS_ID = ("AL", "NU", "SA")  # by BreakAll
KEPT = ("AI", "AL", "ID", "NU", "HY", "H2", "H3", "JL", "JV", "JT", "CJ")  # together by KeepAll


def is_row_and_class(state, table):
    """Against 8."""
    return state.row < table.rows and (state.previous is None or state.previous < len(LINE))


def line_step(strength, table, state, line_class):
    """A refusal, or the answer and the next state."""
    if not table.is_sound:
        return Refusal(10)
    if line_class >= len(LINE):
        return Refusal(4, 0, "r")
    if not is_row_and_class(state, table):
        return Refusal(8)
    return checked_line_step(strength, table, state, line_class)


def checked_line_step(strength, table, state, line_class):
    before = None if state.previous is None else LINE[state.previous]
    after = LINE[line_class]
    asked = asked_cell(strength, table, state, before, line_class)
    answer = NONE if strength == KEEP_ALL and before in KEPT and after in KEPT else broken(asked, before)
    # the state is of the unmodified pair, whatever was asked
    return answer, LineState(named_row(table.cell(state.row, line_class)), line_class)


def asked_cell(strength, table, state, before, line_class):
    if strength != BREAK_ALL:
        return table.cell(state.row, line_class)
    ideograph = LINE.index("ID")
    return table.cell(ideograph if before in READ_AS_ID else state.row,
                      ideograph if LINE[line_class] in READ_AS_ID else line_class)


def broken(cell, before):
    if cell & MANDATORY_BIT:
        return MANDATORY_BREAK
    return LINE_BREAK if cell & ALLOWED_BIT and before != "ZWJ" else NONE


# ---- The step of `next`, and the run --------------------------------------------------------

RECORD_LISTS = [LINE, WORD, MARK]


def merged(line_answer, word_answer):
    """Word stands only where the line answer is none."""
    return WORD_BOUNDARY if line_answer == NONE and word_answer else line_answer


def next_step(strength, table, line_state, word_state, record, next_class):
    """Over (line class, word class, pictograph) and the next record's word class, or None: a refusal,
    or the answer and both next states."""
    if not table.is_sound:
        return Refusal(10)
    if not reading.in_lists(record, RECORD_LISTS) or next_class is not None and next_class >= len(WORD):
        return Refusal(4, 0, "r")
    if not is_row_and_class(line_state, table) or not reading.is_word_state(word_state):
        return Refusal(8)
    return checked_next_step(strength, table, line_state, word_state, record, next_class)


def checked_next_step(strength, table, line_state, word_state, record, next_class):
    line_class, *word_record = record
    line_answer, line_after = checked_line_step(strength, table, line_state, line_class)
    word_answer, word_after = reading.checked_word_step(word_state, *word_record, next_class)
    return merged(line_answer, word_answer), line_after, word_after


def line_run(strength, table, records, cells):
    """Over (line class, word class, pictograph): 1, 2, 10, 4, 9."""
    lengths = reading.lengths_refusal([len(records)] * 3)
    if lengths:
        return lengths
    if not table.is_sound:
        return Refusal(10)
    for index, record in enumerate(records):
        if not reading.in_lists(record, RECORD_LISTS):
            return Refusal(4, index, "r")
    if cells < len(records):
        return Refusal(9)
    line_state, word_state, answers = LINE_START, reading.WORD_START, []
    following = [word_class for _, word_class, _ in records[1:]] + [None]
    for record, next_class in zip(records, following):
        answer, line_state, word_state = checked_next_step(strength, table, line_state, word_state, record, next_class)
        answers.append(answer)
    return answers
