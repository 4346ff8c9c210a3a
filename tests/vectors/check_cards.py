"""Holds the program solve to the reading of .non cards (expect_solve.py), over cards that are drawn at random, most of them damaged.

Usage: check_cards.py PROGRAM [SEED] [COUNT]. It draws COUNT cards (3000) from SEED (7305), has PROGRAM print them in batches, and compares
every byte. Up to three that differ are shown, and their files kept. It tells how many cards came to each end, and of those that were taken
how many needed a rule of cards/README.md; the status is 1 if any differ.
"""

import os
import re
import shutil
import subprocess
import sys
import tempfile
from collections import Counter

from drawing_runs import clues_of, draw_picture, rng, spoil
from expect_solve import BLANKS, MARK, answer, join_words, read_card, show
from reading import BLANK
from usage import need_arguments

FIRST_SEED, FIRST_COUNT = 7305, 3000
# Cards in a batch, and the seconds that it may take; after how many cards it is told how far it is; how many differences are shown.
BATCH, SECONDS, TOLD, SHOWN = 100, 60, 500, 3

# Colours, lines that are passed over, and what may stand after a line's text.
WORDS = ["r", "green", "7", "B", "b", "x2", "lilac123"]
NOTES = ['title "Fish"', "by Scorepuddle", 'catalogue "webpbn.com #1"', "title", "Colour black 0 0 0", "", " \t", "# 1,1"]
TAILS = [""] * 20 + [" ", "\t", " # 3", "#"]

# What a damaged card has in place of a byte, of a key, of a side.
BYTES = b"0123456789" * 2 + b"\x0b\x0c\x1c\x85\xa0\xb2\xb3" * 2 + b',,,,,,::  \t\r##""\n\n\n\xef\xbb\xbf\x00aR;-'
SPELLINGS = {
    b"rows": [b"row", b"ROWSS", b"the rows", b"horizontally", b"rows 2", b"Columns"],
    b"columns": [b"colums", b"Column", b"the columns", b"vertically", b"columns:", b"ROWS"],
    b"width": [b"WIDHT", b"widths", b"Width", b"width,"],
    b"height": [b"heigth", b"heights", b"Height", b"1height"],
    b"goal": [b"goals", b"gaol", b"GOAL", b"goal1,1"],
}
SIDES = [b"0", b"64", b"65", b"4294967296", b"00002", b"", b"two", b"2 2", b"\xb3", b"-1", b"0" * 4080 + b"2", b"0" * 5000 + b"1"]
# Lines of sizes at a limit, past one, and of each thing that can be wrong with a block.
CLUES = [
    *[b",".join([b"1"] * 64), b",".join([b"1"] * 65), b"1," * 64, b"1," * 63 + b"0"],
    *[b"0" * 4095 + b"1", b"0" * 4096 + b"1", b" 1" + b" , 1" * 50],
    *[b",".join(b"1:c%d" % number for number in range(count)) for count in (30, 31, 32, 33)],
    *[b"1:abcdefgh", b"1:abcdefghi", b"1:", b"1:,1", b"1::r", b":r", b"1:r r", b"1:r\xa0"],
    *[b"4294967295", b"4294967296", b"00", b"0,1", b"1,0", b"0:r", b"1,,1", b",1", b"1,", b"1 1", b"1;1", b"-1", b"r"],
    *[b"1\x0b1", b"\xb2", b"\x1c", b"\x0c#", b"\xa0# 1", b"\r#"],
]


def write_key(word):
    """A key, at times with capitals."""
    mixed = "".join(rng.choice([letter, letter.upper()]) for letter in word)
    return rng.choice([word] * 6 + [word.upper(), word.title(), mixed])


def write_clue(clue, words):
    """A line of sizes: 0 or nothing where there is no block."""
    blocks = [f"{size}:{words[colour]}" if words[colour] else str(size) for size, colour in clue]
    return rng.choice([",", ",", ",", " ,\t"]).join(blocks) or rng.choice(["", "", "0"])


def write_list(name, clues, words):
    """A list with its heading, and at times empty lines right after it."""
    return [write_key(name), *[""] * rng.choice([0, 0, 0, 0, 1, 1, 2]), *[write_clue(clue, words) for clue in clues]]


def write_goal(drawn):
    """The picture as a goal in one line or in several, with quotes or without."""
    cells = "".join("01"[cell != BLANK] for cell in drawn.picture)
    rows = [cells[at : at + drawn.width] for at in range(0, len(cells), drawn.width)]
    quote, glue = rng.choice(['"', '"', ""]), rng.choice(["", " ", "\n", "\n", "\n\n", " # a row\n"])
    return (write_key("goal") + rng.choice([" ", "\n"]) + quote + glue.join(rows) + quote).split("\n")


def draw_words(palette, coloured):
    """A word for each colour; black has none."""
    words = rng.sample(WORDS, len(palette))
    return {colour: word if coloured and rng.random() < 0.9 else "" for colour, word in zip(palette, words)}


def order_parts(sides, lists):
    """The sides before both lists in any order, or each right before its list."""
    pairs = list(zip(sides, lists))
    rng.shuffle(pairs)
    if rng.random() < 0.3:
        return [part for pair in pairs for part in pair]
    return rng.sample(sides, 2) + [part for _, part in pairs]


def draw_lines():
    """The lines of a card, which at times has no solution."""
    coloured = rng.random() < 0.4
    drawn = draw_picture(coloured, (rng.randint(1, 6), rng.randint(1, 6)))
    clues, words = clues_of(drawn), draw_words(drawn.palette, coloured)
    if rng.random() < 0.3:
        spoil(rng.choice(clues), drawn.palette)
    lists = [write_list("rows", clues[0], words), write_list("columns", clues[1], words)]
    sides = [[f"{write_key('height')} {drawn.height}"], [f"{write_key('width')} {drawn.width}"]]
    parts = order_parts(sides, lists)
    for _ in range(rng.choice([0, 0, 1, 2, 3])):
        parts.insert(rng.randint(0, len(parts)), rng.choice([[rng.choice(NOTES)], write_goal(drawn)]))
    return [line for part in parts for line in part]


def draw_card():
    """The bytes of a card, with comments, as on Windows at times, and with a byte order mark at times."""
    lines = [line and line + rng.choice(TAILS) for line in draw_lines()]
    if rng.random() < 0.3:
        lines.insert(rng.randint(0, len(lines)), rng.choice(["# 1,1", "\t# rows", "#"]))
    end = rng.choice(["\n"] * 4 + ["\r\n"])
    text = end.join(lines) + rng.choice([end, end, ""])
    return rng.choice([b""] * 5 + [MARK]) + text.encode()


def change_byte(content):
    """A byte dropped, doubled, replaced, or another put before it."""
    at, new = rng.randrange(len(content) + 1), bytes([rng.choice(BYTES)])
    old = content[at : at + 1]
    return content[:at] + rng.choice([b"", old * 2, new, new + old]) + content[at + 1 :]


def change_line(content):
    """A line dropped, doubled, with empty lines beside it, exchanged with another, or also elsewhere."""
    lines = content.split(b"\n")
    at, other = rng.randrange(len(lines)), rng.randrange(len(lines))
    line, how = lines[at], rng.randrange(6)
    if how == 0:
        lines[at], lines[other] = lines[other], line
    elif how == 1:
        lines.insert(other, line)
    else:
        lines[at : at + 1] = [[], [line, line], [b"", line], [line, b"", b""]][how - 2]
    return b"\n".join(lines)


def change_end(content):
    """The file cut short."""
    return content[: rng.randrange(len(content) + 1)]


def change_side(content):
    """One side a little smaller or larger, or something else in its place."""
    change = lambda found: found[1] + rng.choice([b"%d" % (int(found[2]) + rng.choice([-1, 1])), rng.choice(SIDES)])
    return re.sub(rb"(?i)(%s +)([0-9]{1,9})" % rng.choice([b"width", b"height"]), change, content, count=1)


def change_word(content):
    """One key misspelt."""
    key = rng.choice(list(SPELLINGS))
    return re.sub(rb"(?i)" + key, rng.choice(SPELLINGS[key]), content, count=1)


def change_clue(content):
    """A line that begins with a digit replaced by another."""
    lines = content.split(b"\n")
    places = [at for at, line in enumerate(lines) if line[:1].isdigit()]
    if places:
        lines[rng.choice(places)] = rng.choice(CLUES)
    return b"\n".join(lines)


CHANGES = [change_byte] * 6 + [change_line] * 6 + [change_side, change_side, change_word, change_clue, change_clue, change_end]


def draw_damaged():
    """A card with none to three changes."""
    content = draw_card()
    for _ in range(rng.choice([0, 1, 1, 1, 2, 2, 3])):
        content = rng.choice(CHANGES)(content)
    return content


def end_of(lines):
    """What an answer comes to: a fault's text, or how far the card is solved."""
    if lines[0].startswith("bad card"):
        return lines[0].split(": ", 1)[1]
    return "unsolvable" if lines[0].startswith("unsolvable") else "solved" if lines[-1].startswith("solved") else "open"


def first_is_out(lines, reading, name):
    """Whether a list's first line in the file was taken out: a line that is none of it stands after the heading."""
    heading = [join_words(line).lower() for line in lines].index(name.encode())
    between = lines[heading + 1 : reading.places[name][0] - 1]
    return any(not line.strip(BLANKS).startswith(b"#") for line in between)


def rules_of(content):
    """The rules without which a card would be none."""
    reading, lines = read_card("", content), content.removeprefix(MARK).split(b"\n")
    if isinstance(reading, str):
        return
    joined = b"\n".join(map(join_words, lines))
    if content.startswith(MARK):
        yield "byte order mark"
    if re.search(rb"(?m)^(?!width|height|rows|columns)(?i:width|height|rows|columns)\b", joined):
        yield "key in capitals"
    if re.search(rb'(?mi)^goal(?![a-z]).*\n+[0-9"]', joined):
        yield "goal over several lines"
    if any(first_is_out(lines, reading, name) for name in reading.lists):
        yield "empty first line taken out"


def run_program(program, folder, names):
    """All that the program prints of files, in the folder where they are."""
    pipes = {"stdin": subprocess.DEVNULL, "stdout": subprocess.PIPE, "stderr": subprocess.STDOUT}
    try:
        return subprocess.run([program, *names], cwd=folder, timeout=SECONDS, **pipes).stdout
    except subprocess.TimeoutExpired:
        return b"no end after %d seconds\n" % SECONDS


def write_batch(folder, first, count):
    """So many cards as files of the folder; their names, and what the reading tells of each."""
    names = [f"card{number}.non" for number in range(first, first + count)]
    for name in names:
        with open(os.path.join(folder, name), "wb") as file:
            file.write(draw_damaged())
    return [(name, answer(folder, name)) for name in names]


def compare(program, folder, answers):
    """The answers that differ from the program's: of a batch those that differ alone, or all where none does."""
    if run_program(program, folder, [name for name, _ in answers]) == show(answers).encode():
        return []
    if len(answers) == 1:
        return answers
    alone = [one for one in answers if compare(program, folder, [one])]
    if not alone:
        print(f"{answers[0][0]} to {answers[-1][0]} differ in a batch, but none of them alone")
    return alone or answers


def tell_difference(program, folder, name, lines):
    """Shows an answer and the program's, and keeps the card."""
    path = shutil.copy(os.path.join(folder, name), tempfile.mkdtemp(prefix="card-"))
    print(f"{path} differs. The reading tells:", *lines, "and the program:", sep="\n")
    print(run_program(program, folder, [name]).decode("latin-1"), flush=True)


def count_card(folder, name, lines, ends, rules):
    """Counts a card's end, and the rules that it needed."""
    ends[end_of(lines)] += 1
    with open(os.path.join(folder, name), "rb") as file:
        rules.update(rules_of(file.read()))


def check_all(program, folder, count, ends, rules):
    """How many cards differ; the first are shown."""
    differ = 0
    for first in range(0, count, BATCH):
        if first % TOLD == 0:
            print(f"{first} of {count} cards", file=sys.stderr)
        answers = write_batch(folder, first, min(BATCH, count - first))
        for name, lines in compare(program, folder, answers):
            differ += 1
            if differ <= SHOWN:
                tell_difference(program, folder, name, lines)
        for name, lines in answers:
            count_card(folder, name, lines, ends, rules)
    return differ


def write_counts(counts):
    return "; ".join(f"{what} {count}" for what, count in counts.most_common())


def main():
    need_arguments(1, __doc__)
    seed = int(sys.argv[2]) if len(sys.argv) > 2 else FIRST_SEED
    count = int(sys.argv[3]) if len(sys.argv) > 3 else FIRST_COUNT
    print(f"seed {seed}", flush=True)
    rng.seed(seed)
    ends, rules = Counter(), Counter()
    with tempfile.TemporaryDirectory() as folder:
        differ = check_all(os.path.abspath(sys.argv[1]), folder, count, ends, rules)
    print(f"ends: {write_counts(ends)}", f"rules: {write_counts(rules)}", f"{count} cards, {differ} differ", sep="\n")
    sys.exit(differ > 0)


if __name__ == "__main__":
    main()
