"""Makes the fixed sample of the lines: random lines that the crate solves or finds unsolvable, with the crate's answers.

Usage: make_lines.py DRIVER [SEED] > lines.txt, where DRIVER is the oracle's program (tests/oracle). The fixed sample has seed 7302;
another seed makes another sample. Every answer is compared with the independent reading of document 01 (reading.py); a difference ends
the script with an error and no file.
"""

import random
import subprocess
import sys

from drawing import fill_blocks
from reading import BINARY_SETS, BLACK, BLANK, LEAST_MEMO, LINE_CALLS
from usage import need_arguments

SEED = int(sys.argv[2]) if len(sys.argv) > 2 else 7302
COLOURED, BINARY = 14, 15
MOST = 2**32 - 1
RANDOM_CASES = 540

rng = random.Random(SEED)


def draw_palette(call):
    """Colours for the blocks: black, or one to five of low bits or of any."""
    if call == BINARY:
        return [BLACK]
    return [1 << bit for bit in rng.sample(range(1, rng.choice([6, 6, 6, 32])), rng.randint(1, 5))]


def draw_blocks(length, palette):
    """Blocks that fit the length: none, few or many, short or long, at times filling it to the last cell."""
    left = length - rng.choice([0, 0, rng.randint(0, min(3, length)), rng.randint(0, length), rng.randint(0, length)])
    return fill_blocks(rng, left, rng.choice([1, 2, 3, 5, 64]), palette)


def gaps_of(colours):
    """The fewest blanks before each block."""
    return [int(k > 0 and colours[k - 1] == colour) for k, colour in enumerate(colours)]


def draw_gaps(length, sizes, colours):
    """The blanks before each block and after the last: those that are left over go to some of the gaps."""
    gaps = [*gaps_of(colours), 0]
    spots = rng.choices(range(len(gaps)), k=rng.randint(1, len(gaps)))
    for _ in range(length - sum(sizes) - sum(gaps)):
        gaps[rng.choice(spots)] += 1
    return gaps


def draw_placement(length, sizes, colours):
    """A placement, as the colour of each cell."""
    line, gaps = [], draw_gaps(length, sizes, colours)
    for gap, size, colour in zip(gaps, sizes, colours):
        line += [BLANK] * gap + [colour] * size
    return line + [BLANK] * gaps[-1]


def draw_wide(call, palette):
    """What an open cell can be: blank and the palette's colours, at times with bits that no block has."""
    stray = rng.choice([0, 0, rng.randint(0, MOST), 1 << rng.randint(1, 31)])
    return sum(palette) | BLANK | (0 if call == BINARY else stray)


def draw_part(wide):
    return wide & rng.choice([0, rng.randint(0, MOST), rng.randint(0, MOST)])


def draw_known(placement, wide):
    """Cells that the placement agrees with: none, a few, half, most or all are narrower than open."""
    share, whole = rng.choice([0, 0.1, 0.3, 0.5, 0.8, 1]), rng.random() < 0.5
    narrow = lambda colour: colour | (0 if whole else draw_part(wide))
    return [narrow(colour) if rng.random() < share else wide for colour in placement]


def damage(call, cells, placement, wide):
    """Up to three cells set against the placement. A coloured one may be left empty, or with bits alone that no block has."""
    for _ in range(rng.randint(1, 3)):
        at = rng.randrange(len(cells))
        other = wide & ~placement[at]
        cells[at] = other if call == BINARY else rng.choice([other, draw_part(other), draw_part(other)])
    return cells


def widen_block(length, sizes, colours):
    """The blocks with one of them grown so that they need more than the length."""
    slack = length - sum(sizes) - sum(gaps_of(colours))
    at = rng.randrange(len(sizes))
    grown = sizes[at] + slack + rng.choice([1, 1, 2, 64])
    return [*sizes[:at], rng.choice([grown, grown, MOST, rng.randint(grown, MOST)]), *sizes[at + 1 :]]


def draw_line(call, length):
    """Cells, sizes and colours: half-known by a placement, with damage in three of ten cases, and at times too little space."""
    palette = draw_palette(call)
    sizes, colours = draw_blocks(length, palette)
    placement, wide = draw_placement(length, sizes, colours), draw_wide(call, palette)
    cells, chance = draw_known(placement, wide), rng.random()
    if chance < 0.3:
        cells = damage(call, cells, placement, wide)
    elif chance < 0.35 and sizes:
        sizes = widen_block(length, sizes, colours)
    return cells, sizes, colours


def draw_length():
    return rng.choice([rng.randint(1, 6), rng.randint(1, 12), rng.randint(1, 24), rng.randint(1, 64)])


def sets_of(codes):
    return [BINARY_SETS[int(code)] for code in codes]


def binary_examples():
    """Document 01's, then the longest lines."""
    yield sets_of("0"), []
    yield sets_of("1"), [1]
    yield sets_of("000"), [2]
    yield sets_of("000"), [1, 1]
    yield sets_of("00"), [1, 1]
    yield sets_of("0002"), [2]
    yield sets_of("00000"), [3]
    yield sets_of("0200"), [1, 1]
    yield sets_of("0" * 64), [64]
    yield sets_of("0" * 64), [65]
    for sizes in [], [1] * 32, [1] * 64, [31, 32], [32, 32], [63], [1], [MOST], [1] * 31:
        yield sets_of("0" * 64), sizes
    yield sets_of("2" + "0" * 62 + "2"), [1] * 31
    yield sets_of("0" * 63), [1] * 32
    yield sets_of("1" * 64), []
    yield sets_of("1" * 63 + "2"), []
    yield sets_of("2" * 64), [64]


def coloured_examples():
    """Document 01's, then the longest lines, empty cells and bits that no block has."""
    yield [7, 7], [1, 1], [2, 4]
    yield [7, 7, 7], [1, 1], [2, 4]
    yield [7, 7], [1, 1], [2, 2]
    yield [7, 7, 7], [1, 1], [2, 2]
    yield [0], [1], [2]
    yield [7], [], []
    yield [6], [], []
    yield [6, 7], [1], [2]
    yield [MOST] * 64, [64], [2**31]
    yield [MOST] * 64, [65], [2**31]
    yield [7] * 64, [1] * 64, [2, 4] * 32
    yield [7] * 64, [1] * 63, [2, 4] * 31 + [2]
    yield [7] * 64, [1] * 64, [2] * 64
    yield [7] * 64, [1] * 32, [2] * 32
    yield [MOST] * 64, [MOST] * 64, [2] * 64
    yield [MOST] * 64, [], []
    yield [MOST - 1] * 64, [], []
    yield [7, 0, 7], [1], [2]
    yield [8, 7, 15], [1], [2]
    yield [9, 13, 10], [1], [2]
    yield [2**31 | 1] * 5, [2, 1], [2**31] * 2


def draw_cases():
    """All cases, as (call number, inputs): the examples, a line of each length, and lines of any."""
    cases = [(BINARY, cells, sizes, [BLACK] * len(sizes)) for cells, sizes in binary_examples()]
    cases += [(COLOURED, *example) for example in coloured_examples()]
    for call in COLOURED, BINARY:
        lengths = [*range(1, 65), *(draw_length() for _ in range(RANDOM_CASES))]
        cases += [(call, *draw_line(call, length)) for length in lengths]
    return [(call, inputs_of(call, *line)) for call, *line in sorted(cases, key=lambda case: case[0])]


def inputs_of(call, cells, sizes, colours):
    if call == BINARY:
        return [[BINARY_SETS.index(cell) for cell in cells], sizes]
    return [cells, sizes, colours]


def request(call, inputs):
    """The driver's line. It has one count for sizes and colours."""
    cells, sizes, *colours = inputs
    words = [LINE_CALLS[call].request, len(cells), *cells, len(sizes), *sizes, *(colours[0] if colours else [])]
    return " ".join(map(str, words))


def split_answer(line):
    """The driver's answer: the number, and with 0 the cells."""
    number, *cells = map(int, line.split())
    assert number in (0, 8), line
    return number, cells


def ask(driver, cases):
    text = "".join(request(call, inputs) + "\n" for call, inputs in cases)
    lines = subprocess.run([driver], input=text, capture_output=True, text=True, check=True).stdout.splitlines()
    assert len(lines) == len(cases)
    return [split_answer(line) for line in lines]


def compare_with_reading(call, inputs, answer):
    number, _, written = LINE_CALLS[call].answer([LEAST_MEMO, len(inputs[0])], inputs)
    expected = number, written[0] if written else []
    if expected != answer:
        sys.exit(f"document 01 and the crate differ: call {call}, {inputs}: {expected}, {answer}")


def write_case(call, inputs, answer):
    """A case's numbers; a binary line has no colours."""
    cells, sizes, *colours = inputs
    number, out = answer
    lists = [[len(part), *part] for part in (cells, sizes, colours[0] if colours else [], out)]
    return [call, *lists[0], *lists[1], *lists[2], number, *lists[3]]


def main():
    need_arguments(1, __doc__)
    cases = draw_cases()
    answers = ask(sys.argv[1], cases)
    for (call, inputs), answer in zip(cases, answers):
        compare_with_reading(call, inputs, answer)
    print(f"# The sample of the lines, made by make_lines.py with seed {SEED}: {len(cases)} cases that the crate answered.")
    print("# One case a line: the call's number, its inputs, and the answer. [x] is a list: how many entries, and the entries.")
    print("# call [cells] [sizes] [colours] number [out]. A binary line has no colours. With 8 nothing is written: the output is empty.")
    for call in LINE_CALLS:
        numbers = [answer[0] for (c, _), answer in zip(cases, answers) if c == call]
        print(f"# {call} {LINE_CALLS[call].name}: {len(numbers)} cases, {numbers.count(8)} of them unsolvable")
    for (call, inputs), answer in zip(cases, answers):
        print(*write_case(call, inputs, answer))


main()
