"""An independent reading of document 01 for full runs and point runs: what each call answers, refusals included.

It was written from the document alone, like reading.py, whose solve of one line it uses, and shares nothing with the port or the crate.
A run works on colour sets; binary cells are read as sets before it and written as 0, 1 and 2 after it.
"""

from collections import namedtuple
from functools import lru_cache

from reading import BINARY_SETS, BLACK, LEAST_MEMO, MOST_BLOCKS, Refused, judge_legal, judge_lengths, refuse, solve_sets

LEAST_STACK = 128
ROW, COLUMN = "row", "column"
CROSSING = {ROW: COLUMN, COLUMN: ROW}

# What a run is given. A clue list is (counts, sizes, colours); binary ones have no colours. A full run's point is None, else it is (x, y).
Card = namedtuple("Card", "width height point grid rows columns")
# The lent rooms: entries of the report, bytes of the memo, entries of the stack.
Rooms = namedtuple("Rooms", "report memo stack")
# What a run answers and leaves: the number, the refusing line, report entries written, lines solved, the board, the report's entries.
Ending = namedtuple("Ending", "number line entries lines board report")


def set_of(cell, coloured):
    """A cell as a colour set; a binary cell that is no cell counts as empty."""
    if coloured:
        return cell
    return BINARY_SETS[cell] if cell <= 2 else 0


def room_number(cells, coloured):
    """The sum over all cells of the number of colours less one; an empty cell adds 0."""
    return sum(max(0, bin(set_of(cell, coloured)).count("1") - 1) for cell in cells)


def judge_clues(count_of_lines, clues, coloured):
    """One direction's lists are as long as the sides and the counts say. The sum of the counts is exact."""
    counts, sizes, colours = clues
    refuse(2, len(counts) != count_of_lines)
    refuse(2, len(sizes) != sum(counts) or coloured and len(colours) != sum(counts))


def judge_run(card, rooms, coloured):
    """All refusals but 8, the lowest number first."""
    judge_lengths(card.width, card.height)
    refuse(2, len(card.grid) != card.width * card.height)
    refuse(2, rooms.memo < LEAST_MEMO or rooms.stack < LEAST_STACK)
    judge_clues(card.height, card.rows, coloured)
    judge_clues(card.width, card.columns, coloured)
    refuse(3, any(count > MOST_BLOCKS for count in card.rows[0] + card.columns[0]))
    for _, sizes, colours in card.rows, card.columns:
        judge_legal(sizes, colours if coloured else None)
    refuse(5, not coloured and any(cell > 2 for cell in card.grid))
    refuse(6, card.point is not None and not (card.point[0] < card.width and card.point[1] < card.height))
    refuse(7, rooms.report < room_number(card.grid, coloured))


def split_clues(kind, clues, coloured):
    """Each line of one direction with its sizes and colours."""
    counts, sizes, colours = clues
    colours, at, found = colours if coloured else [BLACK] * len(sizes), 0, {}
    for index, count in enumerate(counts):
        found[kind, index] = tuple(sizes[at : at + count]), tuple(colours[at : at + count])
        at += count
    return found


def order_lines(width, height):
    """Where a full run starts: all columns, then all rows, sorted by distance from the middle. The last is taken first."""
    lines = [(COLUMN, x) for x in range(width)] + [(ROW, y) for y in range(height)]
    middle = {COLUMN: width // 2, ROW: height // 2}
    return sorted(lines, key=lambda line: abs(line[1] - middle[line[0]]))


def first_stack(card):
    """The stack of lines at the start, its top last. A point run has column x, then row y on top."""
    if card.point is None:
        return order_lines(card.width, card.height)
    x, y = card.point
    return [(COLUMN, x), (ROW, y)]


def push(stack, line):
    """A pushed line moves to the top and stands once."""
    if line in stack:
        stack.remove(line)
    stack.append(line)


def cells_of(card, line):
    """The numbers of a line's cells, ascending."""
    kind, index = line
    if kind == ROW:
        return range(index * card.width, (index + 1) * card.width)
    return range(index, card.width * card.height, card.width)


@lru_cache(maxsize=200000)
def solve_line(cells, sizes, colours):
    """The line solved, or None where no placement agrees with it."""
    try:
        return solve_sets(cells, sizes, colours)
    except Refused:
        return None


def run_lines(card, board, clues, stack):
    """Solves lines until the stack is empty or a line refuses: the refusing line, the lines solved, and the report."""
    lines, report = 0, []
    while stack:
        line = stack.pop()
        numbers = cells_of(card, line)
        sets = solve_line(tuple(board[number] for number in numbers), *clues[line])
        if sets is None:
            return line, lines, report
        lines += 1
        changed = [at for at, number in enumerate(numbers) if board[number] != sets[at]]
        for at in changed:
            board[numbers[at]] = sets[at]
            report.append(numbers[at])
        for at in reversed(changed):
            push(stack, (CROSSING[line[0]], at))
    return None, lines, report


def run(card, rooms, coloured):
    """What a run answers and leaves. A refusal by checking leaves everything as it was."""
    try:
        judge_run(card, rooms, coloured)
    except Refused as why:
        return Ending(why.args[0], None, 0, 0, card.grid, [])
    board = [set_of(cell, coloured) for cell in card.grid]
    clues = {**split_clues(ROW, card.rows, coloured), **split_clues(COLUMN, card.columns, coloured)}
    line, lines, report = run_lines(card, board, clues, first_stack(card))
    left = board if coloured else [BINARY_SETS.index(cell) for cell in board]
    return Ending(0 if line is None else 8, line, len(report), lines, left, report)


class RunCall:
    """A full run or a point run: its name, its kind, and the oracle driver's command."""

    def __init__(self, name, coloured, point):
        self.name, self.coloured, self.point = name, coloured, point
        self.request = ("rc" if coloured else "rb") + (" p" if point else " f")

    def answer(self, card, rooms):
        return run(card, rooms, self.coloured)


# The numbering goes on from reading.py's.
RUN_CALLS = {
    16: RunCall("sp_run", True, False),
    17: RunCall("sp_run_point", True, True),
    18: RunCall("sp_run_binary", False, False),
    19: RunCall("sp_run_binary_point", False, True),
}
