"""The examples and limits of the calls that solve a line: cases of the program examples, and the line that it must write for each.

What is written comes from the independent reading of document 01 (reading.py), never from the program.
"""

from example_blocks import counted, show_list
from reading import BINARY_SETS, LEAST_MEMO, LINE_CALLS

COLOURED, BINARY = 14, 15
MOST = 2**32 - 1


class Cases:
    """The cases in order, each (call, inputs, rooms), under comments for whoever reads the input."""

    def __init__(self):
        self.items = []

    def title(self, text):
        self.items.append(text)

    def add(self, cells, sizes, colours, memo=LEAST_MEMO, out=None):
        self.items.append((COLOURED, [cells, sizes, colours], [memo, len(cells) if out is None else out]))

    def add_binary(self, cells, sizes, memo=LEAST_MEMO, out=None):
        """A string has the cells as digits."""
        inputs = [[int(cell) for cell in cells], sizes]
        self.items.append((BINARY, inputs, [memo, len(cells) if out is None else out]))

    def add_both(self, cells, sizes, **rooms):
        """A binary line, and the same as colour sets."""
        self.add_binary(cells, sizes, **rooms)
        self.add([BINARY_SETS[int(cell)] for cell in cells], sizes, [2] * len(sizes), **rooms)


def example_cases(cases):
    cases.title("Document 01's examples")
    for sizes, cells in ([], "0"), ([1], "1"), ([2], "000"), ([1, 1], "000"), ([1, 1], "00"), ([2], "0002"), ([3], "00000"):
        cases.add_binary(cells, sizes)
    cases.add_binary("0200", [1, 1])
    cases.add([7, 7], [1, 1], [2, 4])
    cases.add([7, 7, 7], [1, 1], [2, 4])
    cases.add([7, 7], [1, 1], [2, 2])
    cases.add([7, 7, 7], [1, 1], [2, 2])
    cases.add([0], [1], [2])
    cases.add([7], [], [])
    cases.add([6], [], [])
    cases.add([6, 7], [1], [2])


def length_cases(cases):
    cases.title("Lengths, and how many blocks fit")
    for length in 0, 1, 2, 63, 64, 65, 66:
        cases.add_both("0" * length, [])
        cases.add_both("0" * length, [1])
    cases.add_both("0" * 64, [64])
    cases.add_both("0" * 64, [65])
    cases.add_both("0" * 65, [64])
    cases.add_both("0" * 64, [1] * 32)
    cases.add_both("0" * 64, [1] * 33)
    cases.add_both("0" * 63, [1] * 32)
    cases.add_both("0" * 64, [1] * 64)
    cases.add_both("0" * 64, [1] * 65)
    cases.add_both("0" * 64, [31, 32])
    cases.add_both("0" * 64, [32, 32])
    cases.add_both("0" * 31 + "2" + "0" * 32, [20, 20])
    cases.add([7] * 64, [1] * 64, [2, 4] * 32)
    cases.add([7] * 64, [1] * 65, [2, 4] * 32 + [2])
    cases.add([7] * 64, [32, 32], [2, 4])
    cases.add([7] * 64, [32, 33], [2, 4])


def block_cases(cases):
    cases.title("Sizes and colours at their limits")
    for size in 3, 4, MOST - 1, MOST:
        cases.add_both("000", [size])
    cases.add_both("0" * 64, [MOST] * 64)
    cases.add_both("0" * 64, [1, MOST, 1])
    cases.add_both("000", [0])
    cases.add_both("00000", [1, 0])
    cases.add_both("00000", [0, 9])
    for colour in 0, 1, 2, 3, 4, 6, 2**31, MOST:
        cases.add([MOST] * 3, [1, 1], [2, colour])
    cases.add([2**31 | 1] * 4, [2, 1], [2**31] * 2)
    cases.add([MOST] * 2, [1, 1], [2**31, 2**30])


def cell_cases(cases):
    cases.title("Cells: empty sets, bits that no block has, binary cells")
    cases.add([0, 0, 0], [], [])
    cases.add([3, 0, 3], [1], [2])
    cases.add([3, 3, 0], [3], [2])
    cases.add([8, 3, 3], [1], [2])
    cases.add([9, 11, 10], [1], [2])
    cases.add([MOST] * 3, [], [])
    cases.add([MOST - 1] * 3, [3], [2])
    cases.add([2, 4, 2, 1], [1, 1, 1], [2, 4, 2])
    cases.add([2, 4, 2, 4], [1, 1, 1], [2, 4, 2])
    for cells in [2, 1, 2], [2, 2, 2], [0, 1, 0], [1, 1, 1], [3, 0, 0], [0, 0, MOST], [2, 3, 2]:
        cases.add_binary(cells, [1, 1])


def room_cases(cases):
    cases.title("Unequal lists, the output one short and one long, the memo one short and with more than it needs")
    cases.add([7, 7, 7], [1, 1], [2])
    cases.add([7, 7, 7], [1], [2, 4])
    cases.add([7, 7, 7], [], [2])
    cases.add([7, 7, 7], [1], [])
    for out in 0, 2, 4:
        cases.add_both("000", [1, 1], out=out)
    for memo in 0, LEAST_MEMO - 1, LEAST_MEMO + 64:
        cases.add_both("000", [1, 1], memo=memo)
    cases.add_both("0" * 64, [1], out=65)
    cases.add_both("000", [1, 1], memo=LEAST_MEMO - 1, out=4)


def several_cases(cases):
    cases.title("Several rules at once: the lowest number, but 8 after all others")
    cases.add([0] * 65, [0] * 65, [1] * 66, memo=0, out=0)
    cases.add([], [0] * 65, [1] * 66, memo=0, out=1)
    cases.add([0, 7], [0] * 65, [1] * 66)
    cases.add([0, 7], [0] * 65, [1] * 65, out=1)
    cases.add([0, 7], [0] * 65, [1] * 65)
    cases.add([0, 7], [0], [2])
    cases.add([0, 7], [MOST, 1], [2, 1])
    cases.add_binary([3] * 65, [0] * 65, memo=0, out=0)
    cases.add_binary([], [0] * 65, memo=0, out=1)
    cases.add_binary([3, 3], [0] * 65, memo=LEAST_MEMO - 1)
    cases.add_binary([3, 3], [0] * 65)
    cases.add_binary([3, 3], [0])
    cases.add_binary([3, 3], [9])
    cases.add_binary([1, 1], [9])


def all_cases():
    cases = Cases()
    for part in example_cases, length_cases, block_cases, cell_cases, room_cases, several_cases:
        part(cases)
    return cases.items


def write_input(call, inputs, rooms):
    """A case as the program reads it: two rooms and three lists, the colours empty if it is binary."""
    lists = [*inputs, []][:3]
    return " ".join(str(word) for part in [call, *rooms, *lists] for word in counted(part))


def write_output(call, inputs, rooms):
    """The line that the program must write."""
    memo, out = rooms
    number, _, written = LINE_CALLS[call].answer(rooms, inputs)
    text = LINE_CALLS[call].name
    for name, part in zip(LINE_CALLS[call].lists, inputs):
        text += f" {name}" + show_list(part)
    text += f" memo {memo} -> {number}; out" + (show_list(written[0]) if written else show_kept(out))
    return text + (f"; memo{show_kept(memo)}" if number not in (0, 8) else "")


def show_kept(count):
    return f" ({count} kept)" if count else ""

