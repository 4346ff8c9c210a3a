"""The examples and limits of the calls on blocks and clues: cases of the program examples, and the line that it must write for each.

What is written comes from the independent reading of the documents (reading.py), never from the program.
"""

from reading import CALLS

MOST = 2**32 - 1
CLUE_CALLS = (6, 7, 12, 13)
BINARY_BLOCK_CALLS = (8, 9, 10, 11)
# How much more room a list has than it needs, so that it shows what it keeps.
SPARE = 1


def rooms_of(call, inputs, short=None):
    """Rooms that are one more than needed; the list at the index `short` has one less than needed."""
    if call in (7, 13):
        width, height, _, codes = inputs
        blocks = [width * height] * (2 if call == 7 else 1)
        needed = [height, *blocks, width, *blocks]
    else:
        lists = [part for part in inputs if isinstance(part, list)]
        needed = [len(lists[0])] * len(CALLS[call].outputs)
    return [max(0, n + SPARE - (1 + SPARE) * (i == short)) for i, n in enumerate(needed)]


class Cases:
    """The cases in order, each (call, inputs, rooms), under comments for whoever reads the input."""

    def __init__(self):
        self.items = []

    def title(self, text):
        self.items.append(text)

    def add(self, calls, *inputs, rooms=None):
        """One case for each of the calls; a binary call on blocks leaves the colours out."""
        for call in calls:
            given = list(inputs[:-1] if call in BINARY_BLOCK_CALLS else inputs)
            self.items.append((call, given, rooms or rooms_of(call, given)))

    def add_short(self, call, *inputs):
        """The same with each output list in turn one entry short."""
        for i in range(len(CALLS[call].outputs)):
            self.items.append((call, list(inputs), rooms_of(call, inputs, i)))


def blocks_cases(cases):
    cases.title("Sums: examples, sizes and colours at their limits")
    both, starts = (1, 2, 8, 9), (1, 2)
    cases.add(both, [1, 1, 1], [2, 4, 2])
    cases.add(both, [2, 1], [2, 2])
    cases.add(both, [], [])
    cases.add(both, [1] * 64, [2] * 64)
    cases.add(both, [1] * 65, [2] * 65)
    cases.add(both, [3, MOST, 1], [2, 2, 4])
    cases.add(both, [MOST] * 64, [2**31] * 64)
    cases.add(both, [3, 0, 1], [2, 2, 4])
    for colour in 0, 1, 3, 6, MOST:
        cases.add(starts, [1, 1], [2, colour])
    for colour in 2, 2**31:
        cases.add(starts, [1, 1], [2, colour])
    cases.title("Sums: unequal lists, room, several rules at once")
    cases.add(starts, [3, 1], [2, 2, 4])
    cases.add(starts, [3, 1, 1], [2, 2])
    for call, lists in (1, ([2, 1], [2, 4])), (2, ([2, 1], [2, 4])), (8, ([2, 1],)), (9, ([2, 1],)):
        cases.add_short(call, *lists)
        cases.items.append((call, list(lists), [2]))
    cases.add(starts, [0] * 65, [1] * 66)
    cases.add(both, [0] * 65, [1] * 65, rooms=[64])
    cases.add(both, [0] * 65, [1] * 65)


def line_cases(cases):
    cases.title("Positions and ranges: examples, lengths")
    both = (3, 10)
    for length in 5, 4, 3:
        cases.add(both, length, [2, 1], [2, 2])
    cases.add(both, 7, [], [])
    for length in 0, 1, 64, 65, MOST, 2**64 - 1:
        cases.add((3, 4, 10), length, [1], [2])
    cases.add((3, 4, 10), 64, [64], [2])
    cases.add((3, 4, 10), 64, [65], [2])
    cases.add((3, 4, 10), 64, [MOST, MOST], [2, 4])
    cases.add((3, 4, 10), 64, [1] * 64, [2, 4] * 32)
    cases.add((3, 4, 10), 64, [1] * 65, [2] * 65)
    cases.add((3, 4), 5, [1, 1, 1], [2, 4, 2])
    cases.add((3, 4), 3, [1, 1, 1], [2, 4, 2])
    cases.add((3, 4), 2, [1, 1, 1], [2, 4, 2])
    cases.add((4,), 9, [1, 2, 1, 1], [8, 2, 8, 2**31])
    cases.title("Positions and ranges: blocks, unequal lists, room, several rules at once")
    for size, colour in (0, 2), (1, 0), (1, 1), (1, 3), (1, 6), (1, MOST):
        cases.add((3, 4), 5, [1, size], [2, colour])
    cases.add((10,), 5, [1, 0], [2, 2])
    cases.add((3, 4), 5, [1, 1], [2])
    cases.add((3, 4), 5, [1], [2, 4])
    cases.add_short(4, 5, [1, 1], [2, 4])
    cases.add((4,), 5, [1, 1], [2, 2], rooms=[1, 2, 2])
    cases.add((3, 4), 0, [0] * 65, [1] * 66)
    cases.add((3, 4, 10), 65, [0] * 65, [1] * 65)
    cases.add((3, 4, 10), 5, [0] * 65, [1] * 65)
    cases.add((3, 4, 10), 5, [0, 9], [1, 2])
    cases.add((4,), 5, [9], [2], rooms=[1, 0, 1])


def description_cases(cases):
    cases.title("Description::new: what is dropped, 64 and 65 blocks, unequal lists, room")
    both = (5, 11)
    cases.add(both, [0, 1, 0, 2], [0, 0, 4, 2])
    cases.add(both, [], [])
    cases.add(both, [MOST, 0, 1], [MOST, 0, 1])
    cases.add(both, [0] * 64, [0] * 64)
    cases.add(both, [1] * 64, [6] * 64)
    cases.add(both, [0] * 65, [0] * 65)
    cases.add((5,), [0, 1], [0])
    cases.add((5,), [0], [0, 4])
    cases.add_short(5, [0, 0], [0, 0])
    cases.add_short(11, [0, 0])
    cases.add((5,), [0] * 65, [0] * 66)
    cases.add(both, [1] * 65, [2] * 65, rooms=[64, 65])


def clue_cases(cases):
    cases.title("Clues of a line: examples, lengths, blank codes")
    both = (6, 12)
    cases.add(both, 1, [2, 2, 1, 2])
    cases.add(both, 1, [2, 4])
    cases.add(both, 1, [2, 3])
    for length in 0, 1, 64, 65:
        cases.add(both, 1, [2] * length)
    for blank in 0, 1, 2, 3, 6, 2**31, MOST:
        cases.add(both, blank, [blank, 4, 4, blank, 4])
        cases.add(both, blank, [blank] * 3)
    for code in 0, 1, 3, 6, 2**31, MOST:
        cases.add(both, 2, [2, code])
    cases.title("Clues of a line: room, several rules at once")
    cases.add_short(6, 1, [2, 1, 4])
    cases.add_short(12, 1, [2, 1, 2])
    cases.add(both, 1, [2, 1, 2], rooms=[3, 3])
    cases.add(both, 1, [3] * 64 + [5], rooms=[0, 0])
    cases.add(both, 1, [3, 5], rooms=[1, 2])


def grid_cases(cases):
    cases.title("Clues of a grid: examples, sides")
    both = (7, 13)
    cases.add(both, 2, 1, 1, [2, 1])
    cases.add(both, 3, 2, 1, [2, 4, 1, 1, 4, 4])
    cases.add(both, 3, 2, 1, [2, 2, 1, 1, 2, 2])
    cases.add(both, 1, 1, 0, [2])
    cases.add(both, 1, 1, 2, [2])
    cases.add(both, 2, 2, MOST, [2**31, MOST, 2, 2**31])
    cases.add(both, 64, 64, 1, [2] * 4096)
    cases.add(both, 64, 1, 1, [1, 2] * 32)
    for width, height in (0, 1), (1, 0), (65, 1), (1, 65), (2**32, 2**32), (2**64 - 1, 2):
        cases.add(both, width, height, 1, [2], rooms=[66] * 6)
    cases.title("Clues of a grid: codes, how many codes, room, several rules at once")
    for codes in [2, 1, 1], [2, 1, 1, 2, 1], []:
        cases.add(both, 2, 2, 1, codes)
    for code in 0, 3, 6, MOST:
        cases.add(both, 2, 2, 1, [2, 1, 1, code])
    cases.add(both, 2, 2, 1, [1, 4, 4, 1])
    cases.add_short(7, 2, 3, 1, [2, 1, 4, 1, 1, 2])
    cases.add_short(13, 2, 3, 1, [2, 1, 2, 1, 1, 2])
    cases.add(both, 2, 2, 1, [3, 5, 6], rooms=[1] * 6)
    cases.add(both, 0, 2, 1, [3, 5, 6], rooms=[0] * 6)


def ink_cases(cases):
    cases.title("Clues of several inks, binary: touching, apart, three in a stretch, codes like black and white, every code another")
    for codes in [2, 1, 3], [2, 3, 4], [3, 2, 1, 1, 4, 4, 2, 1, 5], [0, MOST], [2, 3] * 32:
        cases.add((12,), 1, codes)
    for blank in 0, 2, 3, MOST:
        cases.add((12,), blank, [1, 3])
        cases.add((12,), blank, [2, 1, 0, MOST, 3])
    for blank in 9, 64:
        cases.add((12,), blank, list(range(64)))
    for width, height in (2, 1), (1, 2):
        cases.add((13,), width, height, 1, [2, 3])
    for codes in [2, 3, 4, 5], [2, 1, 1, 3], [2, 3, 1, 1], [2, 1, 3, 1]:
        cases.add((13,), 2, 2, 1, codes)
    for blank in 0, 2, 3, MOST:
        cases.add((13,), 3, 2, blank, [1, 3, 2, 0, 1, MOST])
    cases.add((13,), 8, 8, 9, list(range(64)))
    cases.add((13,), 64, 64, 9, [row for row in range(64) for _ in range(64)])
    cases.title("Clues of several inks, binary: room, several rules at once")
    cases.add((12,), 1, [2, 3, 4], rooms=[3])
    cases.add_short(12, 1, [2, 3, 4])
    cases.add((12,), 1, list(range(65)))
    cases.add((12,), 1, list(range(65)), rooms=[64])
    cases.add((13,), 2, 2, 1, [2, 3, 4, 5], rooms=[2, 4, 2, 4])
    cases.add_short(13, 2, 2, 1, [2, 3, 4, 5])
    cases.add((13,), 2, 2, 1, [2, 3, 4])
    cases.add((13,), 65, 1, 1, list(range(65)))
    cases.add((13,), 65, 1, 1, [2, 3, 4], rooms=[0] * 4)


def all_cases():
    cases = Cases()
    for part in blocks_cases, line_cases, description_cases, clue_cases, grid_cases, ink_cases:
        part(cases)
    return cases.items


def counted(part):
    return [len(part), *part] if isinstance(part, list) else [part]


def write_input(call, inputs, rooms):
    """A case as the program reads it: blocks have a length and two lists, pictures two sides; what a call lacks is 0 or empty.
    A grid has six rooms, those of the colours 0 if it is binary."""
    c = CALLS[call]
    if call in CLUE_CALLS:
        parts = inputs if len(c.numbers) == 3 else [0, 0, *inputs]
    else:
        length, lists = (inputs[0], inputs[1:]) if c.numbers else (0, inputs)
        parts = [length, lists[0], lists[1] if len(lists) > 1 else []]
    lent = rooms[: len(c.outputs)]
    if call == 13:
        lent = [*lent[:2], 0, *lent[2:], 0]
    return " ".join(str(word) for part in [call, *parts, lent] for word in counted(part))


def show_list(entries):
    """Entries with a run of equal ones as entry*times."""
    words, i = [], 0
    while i < len(entries):
        times = 1
        while i + times < len(entries) and entries[i + times] == entries[i]:
            times += 1
        words.append(f" {entries[i]}" + (f"*{times}" if times > 1 else ""))
        i += times
    return "".join(words)


def write_output(call, inputs, rooms):
    """The line that the program must write."""
    c = CALLS[call]
    number, values, written = c.answer(rooms[: len(c.outputs)], inputs)
    text = c.name
    for name, part in zip([*c.numbers, *c.lists], inputs):
        text += f" {name}" + (show_list(part) if isinstance(part, list) else f" {part}")
    text += f" -> {number}" + ("," if values else "") + "".join(f" {value}" for value in values)
    for i, name in enumerate(c.outputs):
        entries = written[i] if written else []
        kept = rooms[i] - len(entries)
        wide = name in ("sums", "starts", "out_from", "out_to")
        shown = "".join(f" {entry}" for entry in entries) if wide else show_list(entries)
        text += f"; {name}{shown}" + (f" ({kept} kept)" if kept else "")
    return text

