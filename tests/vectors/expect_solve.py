"""Writes what the program solve must print for cards: another reading of their format, and the independent one of document 01's runs.

Usage: expect_solve.py FOLDER < args > stdout. The names of the cards, which are files of the folder, stand one a line on standard input, as
the program's arguments. `-` is the program's standard input: the file `stdin` beside the folder, and empty where there is none.
With one name alone, it does not stand above its answer.

A card is read as cards/README.md says, byte by byte. README.md says how far this is independent of the program's own reader.
"""

import os
import re
import sys

from reading import LEAST_MEMO
from reading_runs import LEAST_STACK, ROW, Card, Rooms, room_number, run
from usage import need_arguments

BLACK_WORD = "#"
BLANKS, MARK = b" \t\r", b"\xef\xbb\xbf"
SIDE_OF = {"rows": "height", "columns": "width"}
# What stands before a line, where it matters: a list's last line, or a goal. Else it is a number, the line of a word alone, or None.
LIST, GOAL = "list", "goal"
MOST_SIDE, MOST_BLOCKS, MOST_COLOURS, MOST_NUMBER, MOST_BYTES = 64, 64, 31, 2**32 - 1, 4096


class Fault(Exception):
    """What is wrong with a card, and the line that is at fault where it is not the one at hand."""

    def __init__(self, text, place=None):
        super().__init__(text)
        self.place = place


def join_words(line):
    """A line without its comment, and without blanks but one between two words."""
    words = re.sub(rb"[ \t\r]+", b" ", line.split(b"#")[0])
    return re.sub(rb"(?<![A-Za-z0-9]) | (?![A-Za-z0-9])", b"", words)


def read_number(digits):
    digits = digits.lstrip(b"0") or b"0"
    if len(digits) > len(str(MOST_NUMBER)) or int(digits) > MOST_NUMBER:
        raise Fault("a number is too large")
    return int(digits)


class Reading:
    """A card as far as it was read: its sides, each list's clues with the lines of the file where they stand, and its colours' words.

    With these go what stands before the next line, and how many empty lines are at the front of the list that was begun last.
    """

    def __init__(self):
        self.sides = {}
        self.lists = {}
        self.places = {"rows": [], "columns": []}
        self.words = []
        self.before = None
        self.front = 0

    def wanted(self):
        """The list that has begun and wants lines."""
        names = [name for name in self.lists if len(self.lists[name]) < self.sides[SIDE_OF[name]]]
        return names[0] if names else None

    def make_room(self, text):
        """The full list that takes a line of sizes right after its last: an empty line at its front was none, and is taken out."""
        if not self.front or self.before != LIST or not text[:1].isdigit():
            return None
        name = list(self.lists)[-1]
        self.front -= 1
        del self.lists[name][0], self.places[name][0]
        return name

    def take_side(self, key, rest, cut):
        if key in self.sides:
            raise Fault("this side was given before")
        if cut:
            raise Fault("the line is too long")
        found = re.fullmatch(rb" (\d+)(.*)", rest)
        if not found:
            raise Fault("a number is missing")
        side = read_number(found[1])
        if found[2]:
            raise Fault("this text is not understood")
        if not 1 <= side <= MOST_SIDE:
            raise Fault("a side is from 1 to 64 (1)")
        self.sides[key] = side

    def begin_list(self, key, rest):
        if rest:
            raise Fault("this text is not understood")
        if key in self.lists:
            raise Fault("this list was given before")
        if SIDE_OF[key] not in self.sides:
            raise Fault("height must stand before rows, and width before columns")
        self.lists[key] = []
        self.front = 0

    def refuse_sizes(self):
        if self.before in (None, LIST, GOAL):
            raise Fault("sizes stand outside the lists: a line too many")
        raise Fault("this line begins no list, and sizes follow it", self.before)

    def take_heading(self, text, cut, place):
        if text[:1].isdigit():
            self.refuse_sizes()
        key = re.match(rb"[A-Za-z]*", text)[0].lower().decode()
        if not key:
            raise Fault("this text is not understood")
        if key in SIDE_OF.values():
            self.take_side(key, text[len(key) :], cut)
        elif key in SIDE_OF:
            self.begin_list(key, text[len(key) :])
        self.before = GOAL if key == "goal" else place if text.isalpha() else None

    def colour_of(self, word):
        if word not in self.words:
            if len(self.words) == MOST_COLOURS:
                raise Fault("the card has more than 31 colours")
            self.words.append(word)
        return 2 << self.words.index(word)

    def take_block(self, text):
        """The block at the front of a text, and what stands after it."""
        digits = re.match(rb"\d*", text)[0]
        if not digits:
            if text[:1].isalpha():
                raise Fault("a list has too few lines")
            raise Fault("a size is missing" if text[:1] in (b"", b",", b":") else "this text is not understood")
        size = read_number(digits)
        if size == 0:
            raise Fault("a block has size 0 (4)")
        rest, word = text[len(digits) :], BLACK_WORD
        if rest.startswith(b":"):
            word = re.match(rb"[A-Za-z0-9]*", rest[1:])[0].decode()
            rest = rest[1 + len(word) :]
            if not word:
                raise Fault("a colour is missing after a colon")
            if len(word) > 8:
                raise Fault("a colour has more than 8 letters and digits")
        return (size, self.colour_of(word)), rest

    def take_clue(self, name, text, place):
        if len(text) > MOST_BYTES:
            raise Fault("the line is too long")
        blocks, rest = [], b"" if text == b"0" else text
        while rest:
            if len(blocks) == MOST_BLOCKS:
                raise Fault("the line has more than 64 blocks (3)")
            block, rest = self.take_block(rest)
            blocks.append(block)
            if not rest:
                break
            if rest[:1] != b",":
                raise Fault("a comma is missing" if rest[:1] == b" " else "this text is not understood")
            if len(blocks) == MOST_BLOCKS:
                raise Fault("the line has more than 64 blocks (3)")
            rest = rest[1:] or self.take_block(b"")
        self.front += not text and self.front == len(self.lists[name])
        self.lists[name].append(blocks)
        self.places[name].append(place)

    def take_line(self, text, place):
        name = self.wanted() or self.make_room(text)
        if name:
            self.take_clue(name, text, place)
            self.before = LIST
        elif not text:
            self.before = None if self.before == LIST else self.before
        elif self.before != GOAL or not re.fullmatch(rb'[0-9" ]*', text[:MOST_BYTES]):
            self.take_heading(text[:MOST_BYTES], len(text) > MOST_BYTES, place)

    def judge_end(self):
        for side in "width", "height":
            if side not in self.sides:
                raise Fault(f"there is no {side}")
        for name in "rows", "columns":
            if name not in self.lists:
                raise Fault(f"there are no {name}")
        if self.wanted():
            raise Fault("a list has too few lines")


def read_card(name, content):
    """The card in the bytes of a file, or in its place the line that says what is wrong."""
    reading, lines = Reading(), content.removeprefix(MARK).split(b"\n")
    if not lines[-1]:
        lines.pop()
    for number, line in enumerate(lines, 1):
        if line.strip(BLANKS).startswith(b"#"):
            continue
        try:
            reading.take_line(join_words(line), number)
        except Fault as fault:
            return f"bad card, {name}, line {fault.place or number}: {fault}"
    try:
        reading.judge_end()
    except Fault as fault:
        return f"bad card, {name}, end of the file after line {len(lines)}: {fault}"
    return reading


def flat(clues):
    blocks = [block for clue in clues for block in clue]
    return [len(clue) for clue in clues], [size for size, _ in blocks], [colour for _, colour in blocks]


def show_board(board, reading, coloured):
    """One line a row; a cell as wide as the longest word. The number of open cells comes with it."""
    sets = board if coloured else [(3, 1, 2)[cell] for cell in board]
    words = [".", *(reading.words if coloured else [BLACK_WORD])]
    shown = [words[cell.bit_length() - 1] if bin(cell).count("1") == 1 else "?" for cell in sets]
    width, wide = reading.sides["width"], max(map(len, words))
    rows = [shown[at : at + width] for at in range(0, len(shown), width)]
    return [" ".join(word.rjust(wide) for word in row) for row in rows], shown.count("?")


def solve(reading):
    """What is printed of a card."""
    coloured = any(word != BLACK_WORD for word in reading.words)
    cells = reading.sides["width"] * reading.sides["height"]
    grid = [(2 << len(reading.words)) - 1 if coloured else 0] * cells
    lists = flat(reading.lists["rows"]), flat(reading.lists["columns"])
    card = Card(reading.sides["width"], reading.sides["height"], None, grid, *lists)
    end = run(card, Rooms(room_number(grid, coloured), LEAST_MEMO, LEAST_STACK), coloured)
    text, count = show_board(end.board, reading, coloured)
    told = f"{count} of {cells} cells are open, {end.lines} lines solved"
    if end.number == 8:
        kind, index = end.line
        place = reading.places["rows" if kind == ROW else "columns"][index]
        head = f"unsolvable (8): {kind} {index + 1} cannot be filled, its clue is in line {place} of the file"
        return [head, "half-solved board:", *text, told]
    return [*text, told if count else f"solved: every cell is known, {end.lines} lines solved"]


def name_shown(name):
    return "standard input" if name == "-" else name


def file_bytes(folder, name):
    path = os.path.join(folder, os.pardir, "stdin") if name == "-" else os.path.join(folder, name)
    if name == "-" and not os.path.exists(path):
        return b""
    with open(path, "rb") as file:
        return file.read()


def answer(folder, name):
    """What is printed of a file: a card's board, or what is wrong."""
    try:
        reading = read_card(name_shown(name), file_bytes(folder, name))
    except FileNotFoundError:
        return [f"bad card, {name}: there is no such file"]
    except IsADirectoryError:
        return [f"bad card, {name}: the file cannot be read"]
    return [reading] if isinstance(reading, str) else solve(reading)


def show(answers):
    """All that is printed of files, each given by its name and lines: where there are several, the name stands above the lines."""
    head = lambda name: [f"== {name_shown(name)} =="] if len(answers) > 1 else []
    return "".join(f"{line}\n" for name, lines in answers for line in [*head(name), *lines])


def main():
    need_arguments(1, __doc__)
    names = sys.stdin.read().split()
    print(show([(name, answer(sys.argv[1], name)) for name in names]), end="")


if __name__ == "__main__":
    main()
