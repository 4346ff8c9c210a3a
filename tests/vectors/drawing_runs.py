"""Cards drawn at random, for the runs: clues of pictures, starts that are half known or damaged, clues that contradict, and points.

Cells are colour sets here for both kinds; `finish` writes binary ones as 0, 1 and 2. A clue is a list of blocks (size, colour).
"""

import random
from collections import namedtuple

from reading import BINARY_SETS, BLACK, BLANK, runs
from reading_runs import COLUMN, ROW, RUN_CALLS, Card, Rooms, order_lines, room_number, run

MOST = 2**32 - 1
ALL_CALLS = tuple(RUN_CALLS)
# How many random cards each call has of each sort.
PLAIN, DAMAGED, SPOILED, SETTLED = 32, 15, 11, 36

rng = random.Random()

# A picture with what an open cell can be.
Drawn = namedtuple("Drawn", "width height picture wide palette")


def draw_palette(coloured):
    """Colours for the picture: black, or one to four of low bits or of any."""
    if not coloured:
        return [BLACK]
    return [1 << bit for bit in rng.sample(range(1, rng.choice([5, 5, 5, 32])), rng.randint(1, 4))]


def draw_wide(coloured, palette):
    """What an open cell can be: blank and the palette's colours, at times with bits that no block has."""
    stray = rng.choice([0, 0, 0, rng.randint(0, MOST), 1 << rng.randint(1, 31)])
    return sum(palette) | BLANK | (stray if coloured else 0)


def draw_noise(width, height, palette):
    """Cells inked one by one."""
    share = rng.choice([0.1, 0.2, 0.3, 0.5, 0.7, 0.9])
    return [rng.choice(palette) if rng.random() < share else BLANK for _ in range(width * height)]


def draw_dots(width, height, palette):
    """At most one cell of ink in each line, which many pictures show: a run is left unfinished unless it knows more."""
    ink, places = rng.choice(palette), rng.sample(range(max(width, height)), height)
    return [ink if places[y] == x else BLANK for y in range(height) for x in range(width)]


def draw_discs(width, height, palette):
    """Discs of ink and holes in them: long runs, mostly solved line by line."""
    far = max(2, max(width, height) // 2)
    draw = lambda: (rng.randrange(width), rng.randrange(height), rng.randint(1, far), rng.choice([BLANK, *palette * 2]))
    discs = [draw() for _ in range(rng.randint(1, 9))]
    cover = lambda x, y: [ink for cx, cy, r, ink in discs if (x - cx) ** 2 + (y - cy) ** 2 < r * r]
    return [(cover(x, y) or [BLANK])[-1] for y in range(height) for x in range(width)]


def draw_sides():
    """Mostly small; at times a long and narrow board."""
    most = rng.choice([3, 5, 8, 8, 12, 16])
    sides = rng.randint(2, most), rng.randint(2, most)
    narrow = rng.randint(1, 64), rng.randint(1, 2)
    return rng.choice([sides] * 9 + [narrow, narrow[::-1]])


def draw_picture(coloured, sides=None, draw=None):
    """A picture of any or of the given sides, by any or by the given way to draw."""
    width, height = sides or draw_sides()
    palette = draw_palette(coloured)
    draw = draw or rng.choice([draw_discs, draw_discs, draw_noise, draw_dots])
    return Drawn(width, height, draw(width, height, palette), draw_wide(coloured, palette), palette)


def clues_of(drawn):
    """The clues of all rows and of all columns."""
    rows = [drawn.picture[y * drawn.width : (y + 1) * drawn.width] for y in range(drawn.height)]
    columns = [drawn.picture[x :: drawn.width] for x in range(drawn.width)]
    return [runs(row, BLANK) for row in rows], [runs(column, BLANK) for column in columns]


def draw_part(wide):
    return wide & rng.choice([0, rng.randint(0, MOST), rng.randint(0, MOST)])


def draw_known(drawn):
    """Cells that the picture lies within: none, few, half or most are narrower than open."""
    share, whole = rng.choice([0, 0, 0, 0.1, 0.1, 0.3, 0.7]), rng.random() < 0.5
    narrow = lambda colour: colour | (0 if whole else draw_part(drawn.wide))
    return [narrow(colour) if rng.random() < share else drawn.wide for colour in drawn.picture]


def set_against(coloured, drawn, at):
    """A cell that the picture does not lie within. A coloured one may be empty, or have only bits that no block has."""
    other = drawn.wide & ~drawn.picture[at]
    return rng.choice([other, draw_part(other), draw_part(other)]) if coloured else other


def damage(coloured, drawn, cells):
    """Up to three cells set against the picture."""
    for _ in range(rng.randint(1, 3)):
        at = rng.randrange(len(cells))
        cells[at] = set_against(coloured, drawn, at)
    return cells


def spoil_clue(clue, palette):
    """A line's clue with a block grown, dropped, added or of another colour."""
    at, (size, colour) = rng.randrange(len(clue)), rng.choice(clue)
    new = rng.choice([[], [(size + 1, colour)], [(MOST, colour)], [(size, rng.choice(palette))], [(1, colour), (size, colour)]])
    return clue[:at] + new + clue[at + 1 :]


def spoil(clues, palette):
    """One clue of a direction changed, or two of its lines exchanged."""
    at, other = rng.randrange(len(clues)), rng.randrange(len(clues))
    if rng.random() < 0.5 and clues[at]:
        clues[at] = spoil_clue(clues[at], palette)
    else:
        clues[at], clues[other] = clues[other], clues[at]


def join_clues(clues):
    """One direction's lists: counts, sizes and colours."""
    blocks = [block for clue in clues for block in clue]
    return [len(clue) for clue in clues], [size for size, _ in blocks], [colour for _, colour in blocks]


def card_of(drawn, cells, clues, point=None):
    return Card(drawn.width, drawn.height, point, cells, *map(join_clues, clues))


def finish(call, card):
    """A case: the call's number and the card, whose binary cells are 0, 1 and 2 and whose binary blocks have no colours."""
    if not RUN_CALLS[call].coloured:
        grid = [BINARY_SETS.index(cell) for cell in card.grid]
        card = card._replace(grid=grid, rows=(*card.rows[:2], []), columns=(*card.columns[:2], []))
    return call, card


def draw_point(call, width, height):
    return (rng.randrange(width), rng.randrange(height)) if RUN_CALLS[call].point else None


def draw_card(call, sort, *form):
    """Any start: plain, damaged, or with spoiled clues."""
    coloured = RUN_CALLS[call].coloured
    drawn = draw_picture(coloured, *form)
    cells, clues = draw_known(drawn), clues_of(drawn)
    if sort == DAMAGED:
        cells = damage(coloured, drawn, cells)
    if sort == SPOILED:
        spoil(rng.choice(clues), drawn.palette)
    return finish(call, card_of(drawn, cells, clues, draw_point(call, drawn.width, drawn.height)))


def roomy(card):
    return Rooms(room_number(card.grid, True), 65 * 64, 128)


def disturb(coloured, drawn, cells, at):
    """A cell of a settled board narrowed to the picture's colour or to another, opened again, or set against the picture."""
    cell = cells[at]
    narrower = [1 << bit for bit in range(32) if cell >> bit & 1]
    cells[at] = rng.choice([drawn.picture[at], rng.choice(narrower), drawn.wide, set_against(coloured, drawn, at)])
    return cells


def draw_open(cells):
    """The number of a cell, an open one where there is any."""
    several = [number for number, cell in enumerate(cells) if cell & (cell - 1)]
    return rng.choice(several or range(len(cells)))


def draw_settled(call, *form):
    """A board that a full run has settled, disturbed in one cell: the point, but in a few cases. A full run starts there as well."""
    coloured = RUN_CALLS[call].coloured
    drawn = draw_picture(coloured, *form)
    card = card_of(drawn, draw_known(drawn), clues_of(drawn))
    cells = list(run(card, roomy(card), True).board)
    at = draw_open(cells)
    point = (at % drawn.width, at // drawn.width) if rng.random() < 0.9 else draw_point(call, drawn.width, drawn.height)
    point = point if RUN_CALLS[call].point else None
    return finish(call, card._replace(grid=disturb(coloured, drawn, cells, at), point=point))


def worked_runs():
    """Document 01's two runs, and the point runs on the same cards."""
    for rows in [[(1, BLACK)]], [[]]:
        card = Card(2, 1, None, [3, 3], join_clues(rows), join_clues([[(1, BLACK)], []]))
        for call in ALL_CALLS:
            for x in (0, 1) if RUN_CALLS[call].point else (0,):
                yield finish(call, card._replace(point=(x, 0) if RUN_CALLS[call].point else None))


def order_card(width, height, refusing):
    """A card of which all lines are stable but the given one, which has no placement: the lines solved tell its place in the order."""
    clue = lambda kind, index, length: [(length + 1, BLACK)] if (kind, index) == refusing else [(1, BLACK)]
    rows = [clue(ROW, y, width) for y in range(height)]
    columns = [clue(COLUMN, x, height) for x in range(width)]
    return Card(width, height, None, [3] * (width * height), join_clues(rows), join_clues(columns))


def order_runs():
    """Each line of the order in turn at 3 by 3, and at other sides the lines of one kind of run; then the two lines of a point."""
    for call, sides in (16, (3, 3)), (18, (3, 3)), (16, (4, 2)), (18, (2, 5)):
        for line in reversed(order_lines(*sides)):
            yield finish(call, order_card(*sides, line))
    for call in 17, 19:
        for line in (ROW, 1), (COLUMN, 2), (ROW, 0):
            yield finish(call, order_card(3, 3, line)._replace(point=(2, 1)))


def small_runs():
    """Boards of one cell, of one row and of one column."""
    for call in ALL_CALLS:
        for sides in (1, 1), (1, 1), (1, 1), (64, 1), (1, 64), (1, rng.randint(2, 63)), (rng.randint(2, 63), 1):
            yield draw_card(call, rng.choice([PLAIN, DAMAGED, SPOILED]), sides)


def large_runs():
    """The largest sides and some between, few of each, since they are long."""
    for call in 16, 18:
        yield draw_card(call, PLAIN, (64, 64), draw_discs)
        yield draw_card(call, DAMAGED, (64, 64), draw_discs)
        yield draw_card(call, PLAIN, (64, 64), draw_noise)
        yield draw_card(call, SPOILED, (40, 50), draw_discs)
        yield draw_settled(call, (20, 33))
    for call in 17, 19:
        yield draw_settled(call, (64, 64), draw_discs)
        yield draw_settled(call, (33, 20))
        yield draw_card(call, PLAIN, (21, 34))


def draw_cases(seed):
    """All cases in the order of their calls, each (call number, card)."""
    rng.seed(seed)
    cases = [*worked_runs(), *order_runs(), *small_runs(), *large_runs()]
    for call in ALL_CALLS:
        for sort in PLAIN, DAMAGED, SPOILED:
            cases += [draw_card(call, sort) for _ in range(sort)]
        cases += [draw_settled(call) for _ in range(SETTLED if RUN_CALLS[call].point else SETTLED // 3)]
    return sorted(cases, key=lambda case: case[0])
