"""Writes what the program scan must print of pictures: their cards, by the independent readings of plain PBM and of clues.

Usage: expect_scan.py FOLDER < args > stdout. The names of the pictures, which are files of the folder, stand one a line on standard input, as
the program's arguments. How a card is written, and what is told of a text that is no picture, is as cards/README.md says.
"""

import os
import sys

from reading import BLANK, runs
from reading_pbm import read_pbm
from usage import need_arguments

MOST_BYTES, MOST_CODES = 65535, 64 * 64
ODD = bytes([*range(32), *b'"#\\', 127])
LONG = "long"
UNOPENED = b"the file cannot be opened"
RAW = b"this is raw PBM, which pnmtoplainpnm makes plain (11)"
MEANINGS = {
    1: b"a side is 0 or above 64 (1)",
    11: b"the text is not plain PBM as it is read here (11)",
    LONG: b"the text is longer than 65,535 bytes",
}


def title_of(path):
    """A file's name without folders, in which `_` stands for what could end a title or its line."""
    return path.rsplit(b"/", 1)[-1].translate(bytes.maketrans(ODD, b"_" * len(ODD)))


def write_list(name, lines):
    """A list of clues with its heading."""
    clues = [[b"%d" % size for size, _ in runs(line, BLANK)] for line in lines]
    return [b"", name, *[b",".join(clue) or b"0" for clue in clues]]


def write_card(path, width, height, codes):
    """The lines of a picture's card."""
    rows = [codes[at : at + width] for at in range(0, len(codes), width)]
    columns = [codes[x::width] for x in range(width)]
    heading = [b'title "%s"' % title_of(path), b"width %d" % width, b"height %d" % height]
    return heading + write_list(b"rows", rows) + write_list(b"columns", columns)


def judge_long(text):
    """What the beginning of a long text tells of it: that its format is another, or that a side is bad in the lines that stand there whole."""
    front = text[: MOST_BYTES + 1]
    if not front.startswith(b"P1"):
        return 11
    return 1 if read_pbm(front[: front.rfind(b"\n") + 1], MOST_CODES)[0] == 1 else LONG


def read_text(text):
    """Number, width, height and codes of a text."""
    return (judge_long(text), 0, 0, []) if len(text) > MOST_BYTES else read_pbm(text, MOST_CODES)


def tell(path, text, reading):
    """What is printed of a text by its reading: its card, or why it is no picture."""
    number, *picture = reading
    if number == 0:
        return b"".join(line + b"\n" for line in write_card(path, *picture))
    raw = number == 11 and text.startswith(b"P4")
    return b"no picture, %s: %s\n" % (path, RAW if raw else MEANINGS[number])


def is_opened(path):
    """Whether a file's name is UTF-8: no other can be opened (cards/README.md)."""
    try:
        return path.decode() is not None
    except UnicodeDecodeError:
        return False


def tell_file(path, text, reading):
    """What is printed of a file with a text, by the text's reading."""
    return tell(path, text, reading) if is_opened(path) else b"no picture, %s: %s\n" % (path, UNOPENED)


def answer(folder, path):
    """What is printed of a file in a folder."""
    try:
        with open(os.path.join(os.fsencode(folder), path), "rb") as file:
            text = file.read()
        return tell_file(path, text, read_text(text))
    except FileNotFoundError:
        return b"no picture, %s: there is no such file\n" % path
    except IsADirectoryError:
        return b"no picture, %s: the file cannot be read\n" % path


def main():
    need_arguments(1, __doc__)
    for path in sys.stdin.buffer.read().split(b"\n")[:-1]:
        sys.stdout.buffer.write(answer(sys.argv[1], path))


if __name__ == "__main__":
    main()
