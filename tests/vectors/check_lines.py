"""Holds the reading of a line (reading.py) against all placements of small lines, one by one.

Usage: check_lines.py. It goes through every binary line of up to 6 cells and every line of up to 3 cells with two colours and one bit
that no block has, with all lists of blocks that need at most one cell more than there are, and tells how many lines it compared.
"""

from itertools import product

from reading import BINARY_SETS, BLACK, BLANK, LEAST_MEMO, LINE_CALLS


def all_placements(length, blocks, after=None):
    """Every placement in so many cells, as lists of colours, where the cell before them has the colour `after`."""
    if not blocks:
        yield [BLANK] * length
        return
    (size, colour), rest = blocks[0], blocks[1:]
    for gap in range(colour == after, length - size + 1):
        for end in all_placements(length - gap - size, rest, colour):
            yield [BLANK] * gap + [colour] * size + end


def all_blocks(room, colours):
    """Every list of blocks whose sizes sum to at most `room`."""
    yield []
    for size in range(1, room + 1):
        for rest, colour in product(all_blocks(room - size, colours), colours):
            yield [(size, colour), *rest]


def enumerate_answer(cells, placements):
    agreeing = [p for p in placements if all(cell & colour for cell, colour in zip(cells, p))]
    if not agreeing:
        return 8, (), ()
    unions = [0] * len(cells)
    for placement in agreeing:
        unions = [union | colour for union, colour in zip(unions, placement)]
    return 0, (), (unions,)


def check_line(call, length, blocks, sets):
    """All lines of the length whose cells are among the sets; a binary line's cells are the sets' numbers in the list."""
    placements = list(all_placements(length, blocks))
    sizes, colours = [size for size, _ in blocks], [colour for _, colour in blocks]
    for codes in product(range(len(sets)), repeat=length):
        number, values, written = enumerate_answer([sets[code] for code in codes], placements)
        if call == 15 and number == 0:
            written = ([sets.index(union) for union in written[0]],)
        inputs = [list(codes), sizes] if call == 15 else [[sets[code] for code in codes], sizes, colours]
        told = LINE_CALLS[call].answer([LEAST_MEMO, length], inputs)
        assert told == (number, values, written), (call, inputs, told, number, written)
    return len(sets) ** length


def check_call(call, most, colours, sets):
    lines = 0
    for length in range(1, most + 1):
        lines += sum(check_line(call, length, blocks, sets) for blocks in all_blocks(length + 1, colours))
    print(f"{LINE_CALLS[call].name}: {lines} lines, 0 differ")


def main():
    check_call(14, 3, [2, 4], list(range(16)))
    check_call(15, 6, [BLACK], BINARY_SETS)


main()
