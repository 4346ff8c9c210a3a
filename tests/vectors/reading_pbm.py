"""An independent reading of document 02 for the two calls on plain PBM: what each call answers, refusals included.

It was written from the document, its rulings and Debian's page pbm(5) alone, and shares nothing with the port. A text is not gone through
byte by byte: one expression takes its head, up to the last digit of the height, and another the rest.
"""

import re
from functools import reduce

from reading import BLACK, BLANK, Call, judge_lengths, refuse

WHITE = b" \t\n\v\f\r"
# Before a size: whitespace, then more of it and comments. A comment's line end counts as whitespace, so another may follow at once.
GAP = rb"[%s](?:[%s]|#[^\n\r]*[\n\r])*" % (WHITE, WHITE)
HEAD = re.compile(rb"P1%s([0-9]+)%s([0-9]+)" % (GAP, GAP))
RASTER = re.compile(rb"[%s][01%s]*" % (WHITE, WHITE))
CODES = {ord("0"): BLANK, ord("1"): BLACK}
DIGITS = {BLANK: "0", BLACK: "1"}


def read_size(digits):
    """The number that digits of any length write."""
    return reduce(lambda size, digit: 10 * size + digit - ord("0"), digits, 0)


def read_picture(rooms, text):
    """The sizes are found, then judged with the room, and only then the rest is read: a break before or after that is 11."""
    head = HEAD.match(text)
    refuse(11, head is None)
    width, height = map(read_size, head.groups())
    judge_lengths(width, height)
    refuse(2, rooms[0] < width * height)
    rest = text[head.end() :]
    digits = rest.translate(None, WHITE)
    refuse(11, RASTER.fullmatch(rest) is None or len(digits) != width * height)
    return (width, height), ([CODES[digit] for digit in digits],)


def write_picture(rooms, width, height, codes):
    """The one form. A code that has no digit is written as a question mark until the room is judged."""
    judge_lengths(width, height)
    refuse(2, len(codes) != width * height)
    digits = "".join(DIGITS.get(code, "?") for code in codes)
    rows = [digits[at : at + width] for at in range(0, len(digits), width)]
    text = "".join(line + "\n" for line in ["P1", f"{width} {height}", *rows])
    refuse(2, rooms[0] < len(text))
    refuse(9, "?" in text)
    return (len(text),), (text.encode(),)


# The numbering goes on from that of the other calls. The oracle has no command for these: the crate reads no PBM.
PBM_CALLS = {
    20: Call("sp_read_pbm", "", "text", "codes", read_picture, ""),
    21: Call("sp_write_pbm", "width height", "codes", "text", write_picture, ""),
}


def read_pbm(text, room):
    """Number, width, height and the codes written; a refusal has sizes of 0 and no codes."""
    number, sides, written = PBM_CALLS[20].answer([room], [text])
    return (number, *sides, *written) if number == 0 else (number, 0, 0, [])


def write_pbm(width, height, codes, room):
    """Number and the bytes written; a refusal has none."""
    number, _, written = PBM_CALLS[21].answer([room], [width, height, codes])
    return number, written[0] if number == 0 else b""
