"""Makes the fixed sample of the block layer: random inputs that the crate answers, with the crate's answers.

Usage: make_blocks.py DRIVER [SEED] > blocks.txt, where DRIVER is the oracle's program (tests/oracle). The fixed sample has seed 7301;
another seed makes another sample. Every answer is compared with the independent reading of the documents (reading.py); a difference ends
the script with an error and no file. The crate has its own answer to a binary picture of several inks (request #102), so it is asked for such
a picture in black and white, and the reading is given the picture as it is.
"""

import random
import subprocess
import sys

from drawing import fill_blocks
from reading import BLACK, BLANK, CALLS
from usage import need_arguments

SEED = int(sys.argv[2]) if len(sys.argv) > 2 else 7301
MOST_CODE = 2**32 - 1
CASES_OF_LINES = 75
CASES_OF_GRIDS = 50
# The same for binary pictures of several inks: lines whose inks may touch, lines whose inks stand apart, and grids.
TOUCHING_LINES = 24
PARTED_LINES = 12
INKED_GRIDS = 12
# The calls whose cases are pictures; the others' are blocks.
CLUE_CALLS = (6, 7, 12, 13)
BINARY_CLUE_CALLS = (12, 13)
# Rooms that no case of the sample is short of.
ROOMY = [2**20] * 6

rng = random.Random(SEED)


def draw_palette():
    """One to six colours, of low bits or of any."""
    return [1 << bit for bit in rng.sample(range(1, rng.choice([7, 7, 32])), rng.randint(1, 6))]


def draw_count():
    """How many blocks: mostly few, at times up to 64."""
    return rng.randint(0, rng.choice([3, 3, 6, 6, 9, 9, 16, 64]))


def draw_size():
    """A size from 1 to 2^32 - 1, of any number of bits."""
    return rng.randint(1, 2 ** rng.choice([1, 2, 2, 3, 3, 3, 4, 8, 32]) - 1)


def draw_code():
    return rng.choice([0, 1, 2, 3, 6, MOST_CODE, rng.randint(0, MOST_CODE), 1 << rng.randint(0, 31)])


def draw_blocks():
    palette = draw_palette()
    sizes = [draw_size() for _ in range(draw_count())]
    return [sizes, [rng.choice(palette) for _ in sizes]]


def draw_length():
    return rng.choice([rng.randint(1, 6), rng.randint(1, 12), rng.randint(1, 24), rng.randint(1, 64)])


def draw_line():
    """A length, and blocks that fit it; at times they fill it to the last cell."""
    length, palette = draw_length(), draw_palette()
    left = length - rng.choice([0, 0, rng.randint(0, length)])
    return [length, *fill_blocks(rng, left, rng.choice([1, 2, 5, 64]), palette)]


def draw_binary_line():
    """The same for black blocks, each with the gap before it."""
    length = draw_length()
    sizes, left = [], length - rng.choice([0, 0, rng.randint(0, length)])
    longest = rng.choice([1, 2, 5, 64])
    while left > 0:
        sizes.append(rng.randint(1, min(longest, left)))
        left -= sizes[-1] + 1
    return [length, sizes]


def draw_description():
    """Blocks of any kind, with many that are equal to the default or nearly so."""
    count = draw_count()
    draw = lambda: rng.choice([0, 0, 0, 1, 2, draw_code()])
    return [[draw() for _ in range(count)], [draw() for _ in range(count)]]


def draw_codes(count, inks, blank):
    """Codes in runs of the given inks and blank."""
    longest = rng.choice([1, 2, 4, 16])
    codes = []
    while len(codes) < count:
        codes += [rng.choice([blank, *inks])] * rng.randint(1, longest)
    return codes[:count]


def draw_inks(coloured, blank):
    if coloured:
        return [code for code in draw_palette() if code != blank]
    return rng.choice([[], [code for code in [draw_code()] if code != blank]] + [[2 if blank != 2 else 4]] * 4)


def draw_blank():
    return rng.choice([1, 1, draw_code()])


def draw_picture(coloured, count):
    blank = draw_blank()
    return blank, draw_codes(count, draw_inks(coloured, blank), blank)


def draw_clue_line(coloured):
    blank, codes = draw_picture(coloured, draw_length())
    return [blank, codes]


def draw_grid(coloured):
    most = rng.choice([2, 3, 5, 5, 8])
    width, height = rng.randint(1, most), rng.randint(1, most)
    blank, codes = draw_picture(coloured, width * height)
    return [width, height, blank, codes]


def count_inks(blank, codes):
    return len(set(codes) - {blank})


def draw_several_inks(count):
    """A blank code, and so many codes of two inks or more."""
    while True:
        blank = draw_code()
        inks = [code for code in repeat(rng.randint(2, 6), draw_code) if code != blank]
        codes = draw_codes(count, inks, blank)
        if count_inks(blank, codes) > 1:
            return [blank, codes]


def draw_touching_line():
    return draw_several_inks(max(2, draw_length()))


def draw_parted_line():
    """A line of several inks with a blank more wherever the code changes, so that no ink touches another."""
    blank, drawn = draw_several_inks(rng.randint(2, 32))
    codes = drawn[:1]
    for code in drawn[1:]:
        codes += [blank] * (code != codes[-1]) + [code]
    return [blank, codes]


def draw_inked_grid():
    width, height = rng.randint(1, 6), rng.randint(2, 6)
    return [width, height, *draw_several_inks(width * height)]


def smooth_picture(width, height, inks, blank):
    """A picture whose rows and columns have long runs: discs of ink."""
    discs = [
        (rng.randrange(width), rng.randrange(height), rng.randint(3, 14), rng.choice(inks)) for _ in range(9)
    ]
    cover = lambda x, y: [ink for cx, cy, r, ink in discs if (x - cx) ** 2 + (y - cy) ** 2 < r * r]
    return [(cover(x, y) or [blank])[-1] for y in range(height) for x in range(width)]


def large_grids(coloured):
    """The largest sides, each with few cases: discs, one row, one column, and a chequered one, with the most blocks."""
    inks = [2, 4, 8] if coloured else [2]
    width, height = (50, 40) if coloured else (64, 64)
    yield [width, height, 1, smooth_picture(width, height, inks, 1)]
    yield [64, 1, 1, draw_codes(64, inks, 1)]
    yield [1, 64, 1, draw_codes(64, inks, 1)]
    yield [33, 20, 1, smooth_picture(33, 20, inks, 1)]
    if coloured:
        yield [64, 64, 1, [2 << (x + y) % 2 for y in range(64) for x in range(64)]]
    else:
        yield [32, 32, 1, [1 + (x + y) % 2 for y in range(32) for x in range(32)]]


def edge_blocks():
    """No block, one, and 64, with the smallest and the largest sizes and colours."""
    yield [[], []]
    yield [[1], [2]]
    yield [[MOST_CODE], [2**31]]
    yield [[1] * 64, [2] * 64]
    yield [[1] * 64, [2, 4] * 32]
    yield [[MOST_CODE] * 64, [2**31] * 64]
    yield [[MOST_CODE] * 8, [2**31, 2] * 4]


def edge_lines():
    """Document 01's example, lines without blocks, and lines filled to the last cell."""
    yield [5, [1, 1, 1], [2, 4, 2]]
    for length in 1, 2, 63, 64:
        yield [length, [], []]
        yield [length, [length], [2]]
    yield [64, [1] * 64, [2, 4] * 32]
    yield [64, [1] * 32, [8] * 32]


def edge_binary_lines():
    yield [5, [2, 1]]
    yield [4, [2, 1]]
    for length in 1, 2, 63, 64:
        yield [length, []]
        yield [length, [length]]
    yield [64, [1] * 32]


def edge_descriptions():
    yield [[0, 1, 0, 2], [0, 0, 4, 2]]
    yield [[0] * 64, [0] * 64]
    yield [[MOST_CODE] * 3, [MOST_CODE] * 3]


def edge_clues(coloured):
    """Document 01's examples, and lines that are all blank or one run."""
    yield [1, [2, 2, 1, 2]]
    if coloured:
        yield [1, [2, 4]]
    for blank in 0, 1, 6, MOST_CODE:
        yield [blank, [blank] * 5]
        yield [blank, [blank, 2, 2, blank, 2]]
        yield [blank, [2] * 64]


def edge_grids(coloured):
    """The picture of document 01's run, and one cell."""
    yield [2, 1, 1, [2, 1]]
    for blank in 0, 1, 2, MOST_CODE:
        yield [1, 1, blank, [2]]
    yield from large_grids(coloured)


def edge_inks():
    """The request's codes, the limits of codes, and lines in which every code is another, with blank among them and without."""
    yield [1, [2, 3]]
    yield [1, [2, 4]]
    yield [1, [2, 1, 3]]
    yield [2, [1, 3, 2, 3, 1]]
    yield [0, [MOST_CODE, 1, 0, 2, MOST_CODE]]
    yield [MOST_CODE, [0, 1, MOST_CODE, 0]]
    yield [1, [0, MOST_CODE]]
    yield [20, list(range(64))]
    yield [64, list(range(64))]


def edge_inked_grids():
    """Two inks that touch in a row, in a column and in both; at a corner only; apart; and every code another."""
    yield [2, 1, 1, [2, 3]]
    yield [1, 2, 1, [2, 3]]
    yield [2, 2, 1, [2, 3, 3, 2]]
    yield [2, 2, 1, [2, 1, 1, 3]]
    yield [3, 3, 0, [1, 0, 2, 0, 0, 0, 3, 0, MOST_CODE]]
    yield [8, 8, 20, list(range(64))]


def repeat(count, draw, *arguments):
    return [draw(*arguments) for _ in range(count)]


def draw_cases():
    """All cases, as (call number, inputs)."""
    sample = {}
    for call in 1, 2:
        sample[call] = [*edge_blocks(), *repeat(CASES_OF_LINES, draw_blocks)]
    for call in 3, 4:
        sample[call] = [*edge_lines(), *repeat(CASES_OF_LINES, draw_line)]
    sample[5] = [*edge_descriptions(), *repeat(CASES_OF_LINES, draw_description)]
    for call in 8, 9:
        sample[call] = [[b[0]] for b in [*edge_blocks(), *repeat(CASES_OF_LINES, draw_blocks)]]
    sample[10] = [*edge_binary_lines(), *repeat(CASES_OF_LINES, draw_binary_line)]
    sample[11] = [[d[0]] for d in [*edge_descriptions(), *repeat(CASES_OF_LINES, draw_description)]]
    for call, coloured in (6, True), (12, False):
        sample[call] = [*edge_clues(coloured), *repeat(CASES_OF_LINES, draw_clue_line, coloured)]
    for call, coloured in (7, True), (13, False):
        sample[call] = [*edge_grids(coloured), *repeat(CASES_OF_GRIDS, draw_grid, coloured)]
    sample[12] += [*edge_inks(), *repeat(TOUCHING_LINES, draw_touching_line), *repeat(PARTED_LINES, draw_parted_line)]
    sample[13] += [*edge_inked_grids(), *repeat(INKED_GRIDS, draw_inked_grid)]
    return [(call, inputs) for call in sorted(sample) for inputs in sample[call]]


def flatten(inputs, counted):
    words = []
    for part in inputs:
        if isinstance(part, list):
            words += [len(part)] * counted + part
        else:
            words.append(part)
    return words


def request(call, inputs):
    """The driver's line. It has one count for sizes and colours, a blank code first, and no count of a picture's codes."""
    if call in (7, 13):
        width, height, blank, codes = inputs
        words = [blank, width, height, *codes]
    else:
        count = [len(inputs[-1])]
        at = len(CALLS[call].numbers)
        words = [*inputs[:at], *count, *flatten(inputs[at:], False)]
    return " ".join(map(str, [CALLS[call].request, *words]))


def split_blocks(words, coloured):
    """Takes BLOCKS off the front: the sizes and, if coloured, the colours."""
    count = words.pop(0)
    lists = []
    for _ in range(1 + coloured):
        lists.append(words[:count])
        del words[:count]
    return lists


def split_answer(call, inputs, line):
    """The driver's answer as the lists that the port writes, or the one number."""
    words = line.split()
    assert words[0] == "0", (call, inputs, line)
    words, coloured = list(map(int, words[1:])), call < 8
    if call in (1, 2, 8, 9):
        return [words]
    if call in (3, 10):
        return words
    if call == 4:
        return [words[1::3], words[2::3], words[3::3]]
    if call in (5, 11, 6, 12):
        return split_blocks(words, coloured)
    lists = []
    for lines in inputs[1], inputs[0]:
        lists.append(words[:lines])
        del words[:lines]
        lists += split_blocks(words, coloured)
    return lists


def ask(driver, cases):
    text = "".join(request(call, inputs) + "\n" for call, inputs in cases)
    lines = subprocess.run([driver], input=text, capture_output=True, text=True, check=True).stdout.splitlines()
    assert len(lines) == len(cases)
    return [split_answer(call, inputs, line) for (call, inputs), line in zip(cases, lines)]


def as_asked(call, inputs):
    """What the crate is asked: a binary picture of several inks in black and white, everything else as it is."""
    if call not in BINARY_CLUE_CALLS or count_inks(*inputs[-2:]) < 2:
        return inputs
    *sides, blank, codes = inputs
    return [*sides, BLANK, [BLANK if code == blank else BLACK for code in codes]]


def check_difference(driver):
    """The crate's own answer to binary codes 2,3 is 1,1: the difference that is the reason not to ask it so."""
    own = ask(driver, [(12, [1, [2, 3]])])
    if own != [[[1, 1]]]:
        sys.exit(f"the crate answers binary codes 2,3 with {own}, not with 1,1")


def compare_with_reading(call, inputs, answer):
    number, values, written = CALLS[call].answer(ROOMY[: len(CALLS[call].outputs)], inputs)
    expected = list(written) if written else list(values)
    if number != 0 or expected != answer:
        sys.exit(f"the documents and the crate differ: call {call}, {inputs}: {number} {expected}, {answer}")


def write_case(call, inputs, answer):
    """A case's numbers. All calls on blocks have one form, and all calls for clues another; what a call lacks is 0 or empty."""
    if call in CLUE_CALLS:
        sides, (blank, codes) = inputs[:-2] or [0, 0], inputs[-2:]
        lists = list_clues(call, answer)
        totals = [len(lists[1]), len(lists[4])]
        return flatten([call, *sides, blank, codes, *totals, *lists], True)
    length = inputs[0] if CALLS[call].numbers else 0
    given = [part for part in inputs if isinstance(part, list)]
    colours = given[1] if len(given) > 1 else []
    value = answer[0] if CALLS[call].outputs == [] else len(answer[0])
    return flatten([call, length, given[0], colours, value, *list_blocks(call, answer)], True)


def list_blocks(call, answer):
    """The four lists of a case on blocks: two of 32 bits and two of 64."""
    if call in (3, 10):
        return [[], [], [], []]
    if call == 4:
        return [answer[0], [], answer[1], answer[2]]
    if call in (5, 11):
        return [*answer, [], [], []][:2] + [[], []]
    return [[], [], answer[0], []]


def list_clues(call, answer):
    """The six lists of a case for clues: counts, sizes and colours of the rows and of the columns."""
    if call in (6, 12):
        return [[], *answer, [], [], [], []][:3] + [[], [], []]
    half = len(answer) // 2
    return [*answer[:half], [], []][:3] + [*answer[half:], [], []][:3]


def main():
    need_arguments(1, __doc__)
    cases = draw_cases()
    check_difference(sys.argv[1])
    answers = ask(sys.argv[1], [(call, as_asked(call, inputs)) for call, inputs in cases])
    for (call, inputs), answer in zip(cases, answers):
        compare_with_reading(call, inputs, answer)
    print(f"# The block layer's sample, made by make_blocks.py with seed {SEED}: {len(cases)} cases that the crate answered,")
    print("# those of binary pictures of several inks (two or more codes that are not blank) in black and white.")
    print("# One case a line: the call's number, its inputs, and the answer. [x] is a list: how many entries, and the entries.")
    print("# What a call does not have is 0 or empty.")
    print("# Calls on blocks: call length [sizes] [colours] value [codes] [more codes] [sums] [more sums].")
    print("#   The value is the number of positions, or how many entries were written. The lists are what the call wrote:")
    print("#   sums or starts in sums; a description's sizes and colours in codes and more codes;")
    print("#   a range's colour in codes, its first cell in sums and the cell after its last in more sums.")
    print("# Calls for clues: call width height blank [codes] rows columns, then [counts] [sizes] [colours] of the rows and of the columns.")
    print("#   rows and columns are how many blocks each direction has. A line has sides 0, and its clue in the rows' sizes and colours.")
    for call in CALLS:
        print(f"# {call} {CALLS[call].name}: {sum(c == call for c, _ in cases)} cases")
    for (call, inputs), answer in zip(cases, answers):
        print(*write_case(call, inputs, answer))


main()
