"""Plain PBM texts, for the sample and the comparison with netpbm: pictures in every form that is read, and texts damaged in every place."""

import random
import re

from reading import BLACK, BLANK

rng = random.Random()

SPACES = [b" ", b"\t", b"\n", b"\v", b"\f", b"\r"]
# Comments with each end: empty, with digits and other whitespace, with another's sign, and several in a row.
COMMENTS = [b"#\n", b"#\r", b"# 2\v2\f2\n", b"#P1 #1\r", b"#a\r\n#b\n", b"#\r#\n#0\r"]
# What a damaged text gets: bytes that have a meaning, and those beside them or like them in seven bits.
BYTES = [*SPACES, *[b"%c" % byte for byte in b"0011234589PPp##xX-\x00\x08\x0e\x1c\x1f!\"$/:\x85\x8a\xa0\xa3\xb0\xb1\xff"]]
PIECES = [*COMMENTS, b"#", b"#c", b"\r\n", b"P1", b"P1 1 1 1\n", b" 1", b"00"]
# Sizes about the least and the most, some that wrap to a legal one in 8, 32 or 64 bits, and one with too many digits for any.
SIZES = [0, 1, 2, 63, 64, 65, 70, 99, 256, 257, 2**32, 2**32 + 1, 2**63, 2**64 - 1, 2**64, 2**64 + 1, 2**64 + 64, 2**65 + 2, 10**40]


def draw_codes(count):
    """The codes of a picture, with few or many black ones."""
    share = rng.choice([0, 0.1, 0.5, 0.5, 0.9, 1])
    return [BLACK if rng.random() < share else BLANK for _ in range(count)]


def draw_spaces(least, most):
    """So much whitespace, of any kinds."""
    return b"".join(rng.choice(SPACES) for _ in range(rng.randint(least, most)))


def draw_gap():
    """What stands before a size: whitespace, at times with comments."""
    pieces = [rng.choice(rng.choice([SPACES, SPACES, COMMENTS])) for _ in range(rng.choice([0, 0, 0, 1, 2, 3]))]
    return rng.choice(SPACES) + b"".join(pieces)


def draw_size(size):
    """A size's digits, at times after zeros."""
    return b"0" * rng.choice([0, 0, 0, 0, 1, 2, 25]) + b"%d" % size


def draw_raster(width, codes):
    """The digits: bare, one from the other by a space, in rows, or with whitespace anywhere."""
    digits = [b"1" if code == BLACK else b"0" for code in codes]
    how = rng.randrange(4)
    if how < 2:
        return [b"", b" "][how].join(digits)
    if how == 2:
        return b"\n".join(b"".join(digits[at : at + width]) for at in range(0, len(digits), width))
    return b"".join(digit + draw_spaces(0, rng.choice([0, 0, 1, 2])) for digit in digits)


def draw_text(width, height, codes):
    """A text that is read as this picture."""
    head = b"P1" + draw_gap() + draw_size(width) + draw_gap() + draw_size(height)
    return head + draw_spaces(1, rng.choice([1, 1, 3])) + draw_raster(width, codes) + draw_spaces(0, 2)


def draw_sides():
    """Mostly small ones, at times one of up to 64 cells."""
    most = rng.choice([1, 2, 3, 3, 4])
    width, height = rng.randint(1, most), rng.randint(1, most)
    return rng.choice([(width, height)] * 30 + [(rng.randint(1, 64), 1), (1, rng.randint(1, 64))])


def cut_each(text):
    """The text cut at every length, the whole one among them."""
    return [text[:end] for end in range(len(text) + 1)]


def drop_each(text):
    """The text without each of its bytes in turn."""
    return [text[:at] + text[at + 1 :] for at in range(len(text))]


def replace_each(text, pieces):
    """The text with each byte replaced by each of the pieces."""
    return [text[:at] + piece + text[at + 1 :] for at in range(len(text)) for piece in pieces]


def insert_each(text, pieces):
    """The text with each of the pieces put in at each place."""
    return [text[:at] + piece + text[at:] for at in range(len(text) + 1) for piece in pieces]


def change_byte(text):
    """A byte replaced, dropped, doubled, or another put before it."""
    at, new = rng.randrange(len(text) + 1), rng.choice(BYTES)
    old = text[at : at + 1]
    return text[:at] + rng.choice([new, new, b"", old * 2, new + old]) + text[at + 1 :]


def change_piece(text):
    """A comment, or another piece, put in anywhere."""
    at = rng.randrange(len(text) + 1)
    return text[:at] + rng.choice(PIECES) + text[at:]


def change_size(text):
    """A run of digits, often a size, replaced by another size."""
    runs = list(re.finditer(rb"[0-9]+", text))
    if not runs:
        return text
    run = rng.choice(runs)
    return text[: run.start()] + draw_size(rng.choice(SIZES)) + text[run.end() :]


def change_end(text):
    """The text cut short."""
    return text[: rng.randrange(len(text) + 1)]


CHANGES = [change_byte] * 6 + [change_piece] * 3 + [change_size, change_end]


def draw_damaged(width, height):
    """A text of this size with none to three changes."""
    text = draw_text(width, height, draw_codes(width * height))
    for _ in range(rng.choice([0, 1, 1, 1, 1, 2, 2, 3])):
        text = rng.choice(CHANGES)(text)
    return text
