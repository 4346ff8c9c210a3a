"""The examples and limits of the runs: cases of the program examples, and the line that it must write for each.

What is written comes from the independent reading of document 01 (reading_runs.py), never from the program.
"""

from drawing_runs import join_clues, order_card
from example_blocks import counted, show_list
from example_lines import show_kept
from reading import BINARY_SETS, LEAST_MEMO
from reading_runs import COLUMN, LEAST_STACK, ROW, RUN_CALLS, Card, Rooms, order_lines, room_number

ALL_CALLS, COLOURED, BINARY = (16, 17, 18, 19), (16, 17), (18, 19)
FULL, POINT = (16, 18), (17, 19)
MOST, MOST_SIDE = 2**32 - 1, 2**64 - 1
# More entries than these are shown by their sums.
MOST_SHOWN = 64
# The picture of document 01's run: width 2, height 1, a black cell on the left.
OPEN, ONE, NONE = 3, [(1, 2)], []


def black(*sizes):
    return [(size, 2) for size in sizes]


def card(cells, rows, columns, point=(0, 0)):
    """A card of the sides that the clues have. Cells are colour sets."""
    return Card(len(columns), len(rows), point, cells, join_clues(rows), join_clues(columns))


def open_card(rows, columns, point=(0, 0)):
    """The same with open cells."""
    return card([OPEN] * (len(rows) * len(columns)), rows, columns, point)


class Cases:
    """The cases in order, each (call, card, rooms), under comments for whoever reads the input."""

    def __init__(self):
        self.items = []

    def title(self, text):
        self.items.append(text)

    def add(self, calls, given, spare=1, memo=LEAST_MEMO, stack=LEAST_STACK, cells=None):
        """One case for each of the calls; full runs leave out the point, and binary ones the colours. The report has spare entries.
        Binary cells that are no cells are named by themselves."""
        for call in calls:
            own = given if RUN_CALLS[call].point else given._replace(point=None)
            if not RUN_CALLS[call].coloured:
                own = binary_card(own)
            own = own._replace(grid=cells or own.grid)
            room = max(0, room_number(own.grid, RUN_CALLS[call].coloured) + spare)
            self.items.append((call, own, Rooms(room, memo, stack)))


def binary_card(given):
    """The card with its cells as 0, 1 and 2, where they are such sets, and no colours."""
    grid = [BINARY_SETS.index(cell) if cell in BINARY_SETS else cell for cell in given.grid]
    return given._replace(grid=grid, rows=(*given.rows[:2], []), columns=(*given.columns[:2], []))


def worked_cases(cases):
    cases.title("Document 01's runs, and the point runs on the same cards")
    for row in ONE, NONE:
        cases.add(ALL_CALLS, open_card([row], [ONE, NONE]))
        cases.add(POINT, open_card([row], [ONE, NONE], (1, 0)))


def refuse_at(width, height, line):
    """Only the given line refuses: the lines solved tell its place in the order."""
    return order_card(width, height, line)._replace(point=(1, 1))


def order_cases(cases):
    cases.title("The order of lines: one line after the other refuses, at 3 by 3, 4 by 3 and 2 by 5")
    for line in reversed(order_lines(3, 3)):
        cases.add(FULL, refuse_at(3, 3, line))
    for sides in (4, 3), (2, 5):
        for line in reversed(order_lines(*sides)):
            cases.add((18,), refuse_at(*sides, line))
    cases.title("A point: row y, then column x, and no other line unless a cell changes")
    for line in (ROW, 1), (COLUMN, 1), (ROW, 0), (COLUMN, 2):
        cases.add(POINT, refuse_at(3, 3, line))
    cases.title("Pushed lines: the lowest index on top, and a line that waits moves up")
    for point in (2, 0), (0, 1):
        cases.add(ALL_CALLS, open_card([black(1, 1), ONE], [ONE, ONE, ONE], point))
    cases.add(ALL_CALLS, open_card([black(2), black(3), black(1)], [black(2), black(3), black(1)], (1, 2)))
    cases.add(COLOURED, card([15] * 6, [[(1, 2), (2, 4)], [(2, 8)]], [[(1, 2), (1, 8)], [(1, 4), (1, 8)], [(1, 4)]], (2, 1)))


def board_cases(cases):
    cases.title("Boards that stay: settled, unfinished; cells that are wrong, empty, or have bits that no clue has")
    two = [ONE, ONE]
    cases.add(ALL_CALLS, card([2, 1, 1, 2], two, two), spare=0)
    cases.add(ALL_CALLS, open_card(two, two, (1, 1)))
    cases.add(ALL_CALLS, card([3, 3, 3, 2], two, two, (1, 1)))
    cases.add(ALL_CALLS, card([3, 3, 3, 2], two, two, (0, 0)))
    cases.add(ALL_CALLS, card([2, 3, 3, 1], two, two, (0, 0)))
    cases.add(ALL_CALLS, card([2, 2, 3, 3], two, two, (0, 1)))
    cases.add(COLOURED, card([3, 0, 3, 3], two, two, (0, 1)))
    cases.add(COLOURED, card([0], [NONE], [NONE]))
    cases.add(COLOURED, card([MOST, 11, 9, MOST - 1], two, two))
    cases.add(COLOURED, card([2**31 | 1, 2**31 | 3], [[(1, 2**31)]], [[(1, 2**31)], NONE], (1, 0)))
    cases.add(ALL_CALLS, card([1], [NONE], [NONE]), spare=0)
    cases.add(ALL_CALLS, card([3], [ONE], [NONE]))


def limit_cases(cases):
    cases.title("The largest sides, the most blocks, the longest report")
    full = [black(64)] * 64
    cases.add(ALL_CALLS, open_card(full, full, (63, 63)))
    cases.add((16,), card([MOST] * 4096, full, full), spare=0)
    cases.add((18,), open_card([*full[:63], black(65)], full))
    cases.add((18,), open_card([NONE] * 64, [NONE] * 64))
    for rows, columns in ([black(64)], [ONE] * 64), ([ONE] * 64, [black(64)]):
        cases.add(ALL_CALLS, open_card(rows, columns))
    cases.add(BINARY, open_card([black(*[1] * 32)], [ONE, NONE] * 32, (63, 0)))
    cases.add(BINARY, open_card([black(*[1] * 64)], [ONE] * 64))
    cases.add(COLOURED, card([7] * 64, [[(1, 2), (1, 4)] * 32], [[(1, 2)], [(1, 4)]] * 32, (63, 0)))
    cases.add(ALL_CALLS, open_card([black(MOST)], [black(1)]))


def side_cases(cases):
    cases.title("1: sides of 0, 65 and far above")
    sides = (0, 1), (1, 0), (0, 0), (65, 1), (1, 65), (64, 65), (2**32, 2**32), (MOST_SIDE, MOST_SIDE)
    for width, height in sides:
        cases.add(ALL_CALLS, open_card([ONE], [ONE])._replace(width=width, height=height))
    cases.add(ALL_CALLS, open_card([ONE] * 65, [black(65)]))
    cases.add(ALL_CALLS, card([], [], []))


def longer(part, by):
    """A list with an entry more, or with one less."""
    return [*part, 1] if by > 0 else part[:-1]


def length_cases(cases):
    cases.title("2: each list one entry short and one long, memo and stack short")
    given = open_card([ONE, ONE], [ONE, ONE])
    for by in -1, 1:
        cases.add(ALL_CALLS, given._replace(grid=longer(given.grid, by)))
        for name in "rows", "columns":
            for at in range(3):
                lists = list(getattr(given, name))
                lists[at] = longer(lists[at], by)
                cases.add(COLOURED if at == 2 else ALL_CALLS, given._replace(**{name: tuple(lists)}))
    for memo, stack in (LEAST_MEMO - 1, LEAST_STACK), (LEAST_MEMO, LEAST_STACK - 1), (0, LEAST_STACK), (LEAST_MEMO, 0):
        cases.add(ALL_CALLS, given, memo=memo, stack=stack)
    cases.title("2: counts whose sum is right only in 32 bits")
    for counts, blocks in ([2**31, 2**31], 0), ([MOST, 1], 0), ([MOST, 3], 2), ([1, MOST], 0):
        wrong = counts, [1] * blocks, [2] * blocks
        cases.add(ALL_CALLS, given._replace(rows=wrong))
        cases.add(ALL_CALLS, given._replace(columns=wrong))
    cases.title("More room than a run needs")
    cases.add(ALL_CALLS, given, spare=9, memo=LEAST_MEMO + 64, stack=LEAST_STACK + 2)


def block_cases(cases):
    cases.title("3: 64 and 65 blocks in a line; 4: sizes and colours; 5: binary cells")
    for count in 64, 65:
        cases.add(ALL_CALLS, open_card([ONE, black(*[1] * count)], [ONE]))
        cases.add(ALL_CALLS, open_card([ONE], [ONE, black(*[1] * count)]))
    for block in (0, 2), (1, 0), (1, 1), (1, 3), (1, 6), (1, MOST):
        calls = ALL_CALLS if block == (0, 2) else COLOURED
        cases.add(calls, open_card([ONE, [block]], [ONE]))
        cases.add(calls, open_card([ONE], [ONE, [block]]))
    for cells in [0, 3], [3, 3], [4, 0], [0, MOST]:
        cases.add(BINARY, open_card([ONE], [ONE, ONE]), cells=cells)


def point_cases(cases):
    cases.title("6: points outside, and at the last cell; 7: the report's least room, and one entry less")
    for point in (2, 0), (0, 1), (2, 1), (MOST_SIDE, 0), (0, MOST_SIDE), (2**32, 2**32), (1, 0):
        cases.add(POINT, open_card([ONE], [ONE, NONE], point))
    for cells in [3, 3], [3, 1], [2, 3], [1, 3]:
        for spare in -1, 0:
            cases.add(ALL_CALLS, card(cells, [ONE], [ONE, NONE]), spare=spare)
    for cells in [MOST, MOST], [0, MOST], [0, 7], [2**31, 2**31 + 1]:
        for spare in -1, 0:
            cases.add(COLOURED, card(cells, [ONE], [ONE, NONE]), spare=spare)


def several_cases(cases):
    cases.title("Several rules at once, one less from case to case: the lowest number, but 8 after all others")
    bad = Card(65, 1, (9, 9), [4, 3], ([1, 65], [0] * 66, [1] * 66), ([2], [9, 1], [2, 2]))
    cases.add(ALL_CALLS, bad, spare=-1, memo=0, stack=0)
    for memo, stack in (LEAST_MEMO - 1, LEAST_STACK), (LEAST_MEMO, LEAST_STACK - 1), (LEAST_MEMO, LEAST_STACK):
        cases.add(ALL_CALLS, bad._replace(width=1, height=2), spare=-1, memo=memo, stack=stack)
    rows = [1, 1], [0, 1], [1, 2]
    cases.add(ALL_CALLS, bad._replace(width=1, height=2, rows=rows), spare=-1)
    legal = bad._replace(width=1, height=2, rows=([1, 1], [1, 1], [2, 2]))
    cases.add(ALL_CALLS, legal, spare=-1)
    cases.add(ALL_CALLS, legal._replace(grid=[1, 3]), spare=-1)
    cases.add(ALL_CALLS, legal._replace(grid=[1, 3], point=(0, 1)), spare=-1)
    cases.add(ALL_CALLS, legal._replace(grid=[1, 3], point=(0, 1)), spare=0)
    cases.add(ALL_CALLS, legal._replace(grid=[2, 3], point=(0, 1), columns=([1], [2], [2])), spare=0)


def all_cases():
    cases = Cases()
    for part in worked_cases, order_cases, board_cases, limit_cases, side_cases, length_cases, block_cases, point_cases, several_cases:
        part(cases)
    return cases.items


def write_input(call, given, rooms):
    """A case as the program reads it: the rooms of memo and stack, then the card with the report's room."""
    numbers = [call, rooms.memo, rooms.stack, given.width, given.height, *(given.point or (0, 0)), rooms.report]
    return " ".join(str(word) for part in [*numbers, given.grid, *given.rows, *given.columns] for word in counted(part))


def show_given(call, given, rooms):
    """What the call is given, each thing by its name."""
    text = f"{RUN_CALLS[call].name} width {given.width} height {given.height}"
    if given.point:
        text += f" x {given.point[0]} y {given.point[1]}"
    text += " grid" + show_list(given.grid)
    for kind, lists in (ROW, given.rows), (COLUMN, given.columns):
        for name, part in list(zip(("counts", "sizes", "colours"), lists))[: 2 + RUN_CALLS[call].coloured]:
            text += f" {kind}_{name}" + show_list(part)
    return text + f" report {rooms.report} memo {rooms.memo} stack {rooms.stack}"


def show_report(report):
    """The entries, or where they are many how many, their sum, and the sum of all sums up to an entry."""
    if len(report) <= MOST_SHOWN:
        return show_list(report)
    running = sum(entry * (len(report) - at) for at, entry in enumerate(report))
    return f" {len(report)} entries, sums {sum(report)} {running}"


def write_output(call, given, rooms):
    """The line that the program must write."""
    end = RUN_CALLS[call].answer(given, rooms)
    text = show_given(call, given, rooms) + f" -> {end.number}"
    text += f" at {end.line[0]} {end.line[1]}" if end.line else ""
    text += f", {end.entries} {end.lines}" if end.number in (0, 8) else ""
    text += "; grid" + show_list(end.board) + "; report" + show_report(end.report) + show_kept(rooms.report - len(end.report))
    if end.number in (0, 8):
        return text
    return text + f"; memo{show_kept(rooms.memo)}; stack{show_kept(rooms.stack)}"
