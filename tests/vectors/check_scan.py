"""Holds the program scan to the reading of pictures (expect_scan.py), over texts that are drawn at random, and its cards to the program solve.

Usage: check_scan.py SCAN SOLVE [SEED] [COUNT]. It draws COUNT texts (3000) from SEED (7314): pictures up to 64 × 64 in every form that is
read, damaged ones, other formats and texts about as long as the most that are read; their files have odd names at times. SCAN makes cards of
them, in batches and from standard input, and every byte is compared. What is told of a text that is too long is also held to the reading of all
of it. Then SOLVE solves every card: each cell that it knows must be the picture's. Up to three differences are shown, and their files kept.
It tells how many texts came to each end; the status is 1 if there is a difference.
"""

import os
import re
import shutil
import subprocess
import sys
import tempfile
from collections import Counter, namedtuple

import drawing_runs
from check_cards import run_program, write_counts
from drawing_pbm import draw_damaged, draw_sides, draw_text, rng
from expect_scan import LONG, MEANINGS, MOST_BYTES, MOST_CODES, ODD, RAW, UNOPENED, is_opened, read_text, tell, tell_file
from reading import BLACK, BLANK
from reading_pbm import read_pbm
from usage import need_arguments

FIRST_SEED, FIRST_COUNT = 7314, 3000
# Texts in a batch, how many texts of it go by standard input too, and how many differences are shown.
BATCH, PIPED, SHOWN = 100, 3, 3
INPUT, OTHER = b"standard input", "other"
# Formats that are none of ours, with what may stand in such files.
BEGINNINGS = [b"P4\n8 1\n\xff", b"P4 2 2\n", b"P2\n1 1\n1\n1\n", b"P5 1 1 255\n\x00", b"\x89PNG\r\n", b"p1 1 1 1", b"\xef\xbb\xbfP1 1 1 1", b"P", b""]
# Bytes of odd names, with some of UTF-8 that stay.
LETTERS = [b"%c" % byte for byte in ODD if byte > 0] + [b" ", b"'", b"$", b"\xc3\xa9", b"\xff", b"-", b":", b"title"]
FOLDERS = [b"", b"", b"./", b"deep/", b'deep/"odd #1"/']
# Long texts: a beginning, what is repeated, and the end. They are long by whitespace, comments, zeros of a size, or their raster.
LONG_PARTS = [
    (b"P1 2 1 1", b" \n\t\r", b"0"),
    (b"P1 #", b"x1 ", b"\n2 1 10"),
    (b"P1\n", b"#65 65\n", b"2 1 10"),
    (b"P1 ", b"0", b"2 1 10"),
    (b"P1\n1 ", b"0", b"2 10"),
    (b"P1\n1 1", b"0", b"\n1"),
    (b"P1 65 ", b"0", b"2 10"),
    (b"P1 65\n", b"\n", b"2 10"),
    (b"P1\n300 300\n", b"0110", b"1\n"),
    (b"P1\r300 300\r", b"0110\n", b"1\r"),
    (b"P1 300 300 ", b"0110 ", b"1"),
    (b"P1\n64 64\n", b"01", b"\n"),
    (b"P1 1 1 x", b" ", b"1"),
    (b"P1 1 1 1", b" ", b"x"),
]
# A text, where it stands, its reading, and what must be printed of the file.
Text = namedtuple("Text", "path content reading told")


def draw_picture():
    """A text of a picture that may be large."""
    sides = rng.choice([None, None, (rng.randint(1, 64), rng.randint(1, 64)), (64, 64)])
    drawn = drawing_runs.draw_picture(False, sides)
    return draw_text(drawn.width, drawn.height, drawn.picture)


def draw_other():
    """A text in another format, at times a long one."""
    return rng.choice(BEGINNINGS) + bytes(rng.randrange(256) for _ in range(9)) * rng.choice([0, 1, 9000])


def draw_long():
    """A text about as long as the most that are read."""
    length = MOST_BYTES + rng.choice([-1, 0, 1, 2, 1000])
    beginning, filler, end = rng.choice(LONG_PARTS)
    room = length - len(beginning) - len(end)
    return beginning + (filler * room)[:room] + end


def draw_content():
    draw = rng.choice([draw_picture] * 8 + [lambda: draw_damaged(*draw_sides())] * 10 + [draw_other, draw_long])
    return draw()


def draw_path(number):
    """A path that no other text has; at times with folders or an odd name."""
    odd = b"".join(rng.choice(LETTERS) for _ in range(rng.choice([0, 0, 0, 1, 3, 9])))
    return rng.choice(FOLDERS) + odd + b"%d.pbm" % number


def draw_one(number):
    path, content = draw_path(number), draw_content()
    reading = read_text(content)
    return Text(path, content, reading, tell_file(path, content, reading))


def write_file(folder, path, content):
    place = os.path.join(folder, path)
    os.makedirs(os.path.dirname(place), exist_ok=True)
    with open(place, "wb") as file:
        file.write(content)


def differing(scan, folder, texts):
    """The texts of which the program prints otherwise: of a batch those that differ alone, or all where none does."""
    if run_program(scan, folder, [text.path for text in texts]) == b"".join(text.told for text in texts):
        return []
    if len(texts) == 1:
        return texts
    return [text for text in texts if differing(scan, folder, [text])] or texts


def differing_piped(scan, texts):
    """The same of texts on standard input."""
    printed = lambda content: subprocess.run([scan], input=content, stdout=subprocess.PIPE).stdout
    return [text for text in texts if printed(text.content) != tell(INPUT, text.content, text.reading)]


def misjudged(texts):
    """The long texts whose number is not that of the reading of all of them."""
    numbered = [text for text in texts if len(text.content) > MOST_BYTES and text.reading[0] != LONG]
    return [text for text in numbered if text.reading[0] != read_pbm(text.content, MOST_CODES)[0]]


def solve_cards(solve, folder, texts):
    """What solve prints of the cards of pictures, which are files of the folder then."""
    names = [b"card%d.non" % at for at in range(len(texts))]
    for name, text in zip(names, texts):
        write_file(folder, name, tell(text.path, text.content, text.reading))
    printed = run_program(solve, folder, names)
    return re.split(rb"(?m)^== card[0-9]+\.non ==\n", printed)[1:] if len(names) > 1 else [printed]


def end_of_board(board, width, height, codes):
    """How far a card was solved; other where what solve prints is no board, or one on which a known cell is not the picture's."""
    *rows, last = board.decode().splitlines()[: height + 1] or [""]
    cells = [cell for row in rows for cell in row.split(" ")]
    known = {BLACK: "#?", BLANK: ".?"}
    if len(cells) != width * height or not all(cell in known[code] for cell, code in zip(cells, codes)):
        return OTHER
    end = "open" if "?" in cells else "solved"
    return end if last.startswith("solved: " if end == "solved" else f"{cells.count('?')} of ") else OTHER


def unsolved(solve, folder, texts, solutions):
    """The pictures of whose cards solve makes anything else."""
    pictures = [text for text in texts if text.reading[0] == 0]
    boards = solve_cards(solve, folder, pictures) if pictures else []
    boards += [b""] * (len(pictures) - len(boards))
    ends = [end_of_board(board, *text.reading[1:]) for text, board in zip(pictures, boards)]
    solutions.update(ends)
    return [text for text, end in zip(pictures, ends) if end == OTHER]


def end_of(text):
    """What a text comes to."""
    number = text.reading[0]
    if not is_opened(text.path):
        return UNOPENED.decode()
    return "card" if number == 0 else (RAW if RAW in text.told else MEANINGS[number]).decode()


def tell_difference(what, folder, path):
    """Names a difference, and keeps its file."""
    kept = os.path.join(tempfile.mkdtemp(prefix="picture-"), "picture.pbm")
    shutil.copy(os.path.join(folder, path), kept)
    print(f"{what}: {path}, kept as {kept}", flush=True)


def check_batch(scan, solve, folder, texts, solutions):
    """Each difference of a batch: what differs, and the text."""
    for text in texts:
        write_file(folder, text.path, text.content)
    yield from (("scan differs", text) for text in differing(scan, folder, texts))
    yield from (("scan differs on standard input", text) for text in differing_piped(scan, texts[:PIPED]))
    yield from (("a long text has another number", text) for text in misjudged(texts))
    yield from (("solve differs from the picture", text) for text in unsolved(solve, folder, texts, solutions))


def check_all(scan, solve, folder, count, ends, solutions):
    """How many differences there are; the first are shown."""
    differ = 0
    for first in range(0, count, BATCH):
        texts = [draw_one(number) for number in range(first, min(first + BATCH, count))]
        ends.update(map(end_of, texts))
        for what, text in check_batch(scan, solve, folder, texts, solutions):
            differ += 1
            if differ <= SHOWN:
                tell_difference(what, folder, text.path)
    return differ


def main():
    need_arguments(2, __doc__)
    scan, solve = map(os.path.abspath, sys.argv[1:3])
    seed = int(sys.argv[3]) if len(sys.argv) > 3 else FIRST_SEED
    count = int(sys.argv[4]) if len(sys.argv) > 4 else FIRST_COUNT
    print(f"seed {seed}", flush=True)
    rng.seed(seed)
    drawing_runs.rng.seed(seed)
    ends, solutions = Counter(), Counter()
    with tempfile.TemporaryDirectory() as folder:
        differ = check_all(scan, solve, os.fsencode(folder), count, ends, solutions)
    print(f"ends: {write_counts(ends)}", f"cards: {write_counts(solutions)}", f"{count} texts, {differ} differ", sep="\n")
    sys.exit(differ > 0)


if __name__ == "__main__":
    main()
