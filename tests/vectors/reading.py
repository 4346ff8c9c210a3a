"""An independent reading of document 01, and of request #102 on binary clues, for the calls on blocks, clues and lines: what each call
answers, refusals included.

It was written from the documents alone and shares nothing with the port or the crate. Each call takes the rooms of the lists that it
may write, then its inputs in the port's order, and answers (number, values, written): the document's number, the values that come
with 0, and for each output list the entries written at its front. A refusal has no values and writes nothing.
"""

from functools import reduce
from itertools import groupby
from operator import or_

MOST_LENGTH = 64
MOST_BLOCKS = 64
LEAST_MEMO = 65 * 64
BLANK, BLACK = 1, 2
# The sets that the binary cells 0, 1 and 2 read as.
BINARY_SETS = [BLANK | BLACK, BLANK, BLACK]


class Refused(Exception):
    """A rule is broken; the argument is its number."""


def refuse(number, broken):
    if broken:
        raise Refused(number)


def one_colour(code):
    return code != 1 and bin(code).count("1") == 1


def judge_lengths(*lengths):
    refuse(1, any(not 1 <= n <= MOST_LENGTH for n in lengths))


def judge_blocks(sizes, colours, rooms):
    refuse(2, colours is not None and len(colours) != len(sizes))
    refuse(2, any(room < len(sizes) for room in rooms))
    refuse(3, len(sizes) > MOST_BLOCKS)


def judge_legal(sizes, colours):
    refuse(4, any(size == 0 for size in sizes))
    refuse(4, colours is not None and not all(map(one_colour, colours)))


def pack(sizes, colours):
    """The leftmost packing: where each block starts, and where it ends."""
    starts, ends = [], []
    for i, size in enumerate(sizes):
        gap = i > 0 and (colours is None or colours[i] == colours[i - 1])
        starts.append((ends[-1] if ends else 0) + gap)
        ends.append(starts[-1] + size)
    return starts, ends


def judge_space(length, ends):
    least = ends[-1] if ends else 0
    refuse(10, least > length)
    return length - least


def partial_sums(rooms, sizes, colours=None):
    judge_blocks(sizes, colours, rooms)
    judge_legal(sizes, colours)
    ends = pack(sizes, colours)[1]
    return (len(ends),), (ends,)


def block_starts(rooms, sizes, colours=None):
    judge_blocks(sizes, colours, rooms)
    judge_legal(sizes, colours)
    starts = pack(sizes, colours)[0]
    return (len(starts),), (starts,)


def positions_number(rooms, length, sizes, colours=None):
    judge_lengths(length)
    judge_blocks(sizes, colours, rooms)
    judge_legal(sizes, colours)
    return (judge_space(length, pack(sizes, colours)[1]) + 1,), ()


def color_ranges(rooms, length, sizes, colours):
    judge_lengths(length)
    judge_blocks(sizes, colours, rooms)
    judge_legal(sizes, colours)
    starts, ends = pack(sizes, colours)
    slack = judge_space(length, ends)
    found = list(dict.fromkeys(colours))
    first = [starts[colours.index(c)] for c in found]
    last = [max(e for e, d in zip(ends, colours) if d == c) + slack for c in found]
    return (len(found),), (found, first, last)


def description_new(rooms, sizes, colours=None):
    judge_blocks(sizes, colours, rooms)
    if colours is None:
        kept = [s for s in sizes if s != 0]
        return (len(kept),), (kept,)
    kept = [(s, c) for s, c in zip(sizes, colours) if (s, c) != (0, 0)]
    return (len(kept),), ([s for s, _ in kept], [c for _, c in kept])


def runs(line, blank):
    """The maximal runs of equal codes that are not blank, as (size, code)."""
    found = []
    for i, code in enumerate(line):
        if i > 0 and code == line[i - 1]:
            found[-1][0] += 1
        else:
            found.append([1, code])
    return [(size, code) for size, code in found if code != blank]


def stretches(line, blank):
    """The maximal stretches of codes that are not blank, whatever the codes, as (size, black)."""
    parts = groupby(line, lambda code: code != blank)
    return [(len(list(part)), BLACK) for inked, part in parts if inked]


def clue_of(line, blank, coloured):
    return runs(line, blank) if coloured else stretches(line, blank)


def judge_codes(codes, blank, coloured):
    refuse(9, coloured and not all(one_colour(code) for code in codes if code != blank))


def line_clue(coloured):
    def from_line(rooms, blank, codes):
        judge_lengths(len(codes))
        refuse(2, any(room < len(codes) for room in rooms))
        judge_codes(codes, blank, coloured)
        clue = clue_of(codes, blank, coloured)
        written = [s for s, _ in clue], [c for _, c in clue]
        return (len(clue),), written[: 1 + coloured]

    return from_line


def clue_lists(lines, blank, coloured):
    """One direction: the counts, the sizes and, if coloured, the colours."""
    clues = [clue_of(line, blank, coloured) for line in lines]
    lists = [len(c) for c in clues], [s for c in clues for s, _ in c], [d for c in clues for _, d in c]
    return lists[: 2 + coloured]


def grid_clues(coloured):
    def clues_from_solution(rooms, width, height, blank, codes):
        judge_lengths(width, height)
        cells = width * height
        blocks = [cells] * (1 + coloured)
        needed = [height, *blocks, width, *blocks]
        refuse(2, len(codes) != cells or any(r < n for r, n in zip(rooms, needed)))
        judge_codes(codes, blank, coloured)
        rows = clue_lists([codes[y * width : (y + 1) * width] for y in range(height)], blank, coloured)
        columns = clue_lists([codes[x::width] for x in range(width)], blank, coloured)
        return (len(rows[1]), len(columns[1])), (*rows, *columns)

    return clues_from_solution


def paint(sizes, colours):
    """All placements at once, as ways through states that paint a cell each: what each state paints, and the states that may stand
    before it. State 0 is the blank at the line's start; then come each block's cells and one blank after the block."""
    paints, before = [BLANK], [{0}]
    for k, (size, colour) in enumerate(zip(sizes, colours)):
        blank, first = len(paints) - 1, len(paints)
        touching = k > 0 and colours[k - 1] != colour
        paints += [colour] * size + [BLANK]
        before += [{blank, blank - 1} if touching else {blank}]
        before += [{state - 1} for state in range(first + 1, first + size)]
        before += [{first + size, first + size - 1}]
    return paints, before


def reach(cells, paints, before):
    """For each cell the states that the cells before it lead to and that it can take. A line begins in the first blank or block."""
    ways, states = [], set(range(min(2, len(paints))))
    for cell in cells:
        ways.append({state for state in states if cell & paints[state]})
        states = {state for state in range(len(paints)) if before[state] & ways[-1]}
    return ways


def solve_sets(cells, sizes, colours):
    """Each cell's union over the agreeing placements: what those of its states paint that lead on to the line's end. A line ends in the
    last blank or block."""
    refuse(8, sum(sizes) > len(cells))
    paints, before = paint(sizes, colours)
    ways = reach(cells, paints, before)
    ends = {len(paints) - 1, max(0, len(paints) - 2)}
    for way in reversed(ways):
        way &= ends
        ends = set().union(*(before[state] for state in way))
    refuse(8, not ways[0])
    return [reduce(or_, (paints[state] for state in way)) for way in ways]


def judge_line(rooms, cells, sizes, colours):
    memo, out = rooms
    judge_lengths(len(cells))
    refuse(2, memo < LEAST_MEMO or out != len(cells))
    judge_blocks(sizes, colours, [])
    judge_legal(sizes, colours)


def solve_coloured(rooms, cells, sizes, colours):
    judge_line(rooms, cells, sizes, colours)
    return (), (solve_sets(cells, sizes, colours),)


def solve_binary(rooms, cells, sizes):
    judge_line(rooms, cells, sizes, None)
    refuse(5, any(cell > 2 for cell in cells))
    unions = solve_sets([BINARY_SETS[cell] for cell in cells], sizes, [BLACK] * len(sizes))
    return (), ([BINARY_SETS.index(union) for union in unions],)


class Call:
    """One public call: its name, its inputs (numbers, then lists), the lists it writes, and what the document says it answers."""

    def __init__(self, name, numbers, lists, outputs, says, request):
        self.name, self.numbers, self.lists, self.outputs = name, numbers.split(), lists.split(), outputs.split()
        self.says, self.request = says, request

    def answer(self, rooms, inputs):
        try:
            values, written = self.says(rooms, *inputs)
        except Refused as why:
            return why.args[0], (), ()
        return 0, values, written


# The numbering of the calls in every file of vectors. The last column is the oracle driver's command.
CALLS = {
    1: Call("sp_partial_sums", "", "sizes colours", "sums", partial_sums, "sc"),
    2: Call("sp_block_starts", "", "sizes colours", "starts", block_starts, "bc"),
    3: Call("sp_positions_number", "length", "sizes colours", "", positions_number, "pc"),
    4: Call("sp_color_ranges", "length", "sizes colours", "out_colours out_from out_to", color_ranges, "vc"),
    5: Call("sp_description", "", "sizes colours", "out_sizes out_colours", description_new, "dc"),
    6: Call("sp_clue", "blank", "codes", "sizes colours", line_clue(True), "cc"),
    7: Call(
        "sp_clues",
        "width height blank",
        "codes",
        "row_counts row_sizes row_colours column_counts column_sizes column_colours",
        grid_clues(True),
        "gc",
    ),
    8: Call("sp_binary_partial_sums", "", "sizes", "sums", partial_sums, "sb"),
    9: Call("sp_binary_block_starts", "", "sizes", "starts", block_starts, "bb"),
    10: Call("sp_binary_positions_number", "length", "sizes", "", positions_number, "pb"),
    11: Call("sp_binary_description", "", "sizes", "out_sizes", description_new, "db"),
    12: Call("sp_binary_clue", "blank", "codes", "sizes", line_clue(False), "cb"),
    13: Call(
        "sp_binary_clues",
        "width height blank",
        "codes",
        "row_counts row_sizes column_counts column_sizes",
        grid_clues(False),
        "gb",
    ),
}
# The same for the calls on lines. Their rooms are the memo's and the output's.
LINE_CALLS = {
    14: Call("sp_solve_line", "", "cells sizes colours", "out", solve_coloured, "lc"),
    15: Call("sp_solve_binary_line", "", "cells sizes", "out", solve_binary, "lb"),
}
