"""The examples and limits of the calls on plain PBM: cases of the program examples, and the line that it must write for each.

What is written comes from the independent reading of document 02 (reading_pbm.py), never from the program.
"""

from example_blocks import show_list
from example_lines import show_kept
from make_pbm import READ, WRITE, give_picture, give_text, length_of
from reading import BLACK, BLANK
from reading_pbm import PBM_CALLS, read_pbm, write_pbm

MOST, MOST_SIDE = 2**32 - 1, 2**64 - 1
# A picture's digits and codes, as many as it has: every third cell is black, so that no row of 64 is as the one before.
DIGITS, CODES = (b"100" * 1366)[:4096], ([BLACK, BLANK, BLANK] * 1366)[:4096]


def reading(room, *texts):
    """A case for each of the texts, with as much room for codes."""
    return [(READ, text, room) for text in texts]


def writing(width, height, codes=None, spare=1):
    """The case of a picture, of the codes above if it has no others. The text has spare bytes of room."""
    return [(WRITE, width, height, CODES[: width * height] if codes is None else codes, max(0, length_of(width, height) + spare))]


def ruled_cases():
    yield "The texts of document 02's rulings: 11 before both sizes are read, then 1, then 2, then 11"
    yield from reading(99, b"P1 65", b"P1 70 x", b"P1 65 1", b"P1 65 1x")
    for room in 3, 4:
        yield from reading(room, b"P1 2 2")
    for room in 10, 11:
        yield from reading(room, b"P1 1 11", b"P1 1 11 10101010101")


def formed_cases():
    yield "What is read: each whitespace, digits with and without it, leading zeros, comments before the sizes"
    for space in b" ", b"\t", b"\n", b"\v", b"\f", b"\r":
        yield from reading(5, space.join([b"P1", b"2", b"2", b"1", b"0", b"1", b"1", b""]))
    yield from reading(5, b"P1\n2 2\n10\n11\n", b"P1 2 2 1011", b"P1 2 2 1 011", b"P1\r\n\t2  2\n\n1\v\f0 1\r\n1\r\n ")
    yield from reading(5, b"P1 02 0002 1011", b"P1 %s2 %s2 1011" % (b"0" * 30, b"0" * 30))
    for comment in b"#\n", b"#c\r", b"# 1\v\f\t\n", b"#P1 #c\r\n", b"#a\n#b\r #c\n":
        yield from reading(5, b"P1 %s2 2 1011" % comment, b"P1 2\n%s2 1011" % comment)


def broken_cases():
    yield "11: texts cut short, other beginnings, no whitespace where it has to be, no number"
    yield from reading(5, *[b"P1 2 1 10"[:end] for end in range(9)])
    yield from reading(5, b"P4 2 1 10", b"p1 2 1 10", b"1 2 1 10", b" P1 2 1 10", b"\xef\xbb\xbfP1 2 1 10", b"P12 1 10", b"P1x2 1 10")
    yield from reading(5, b"P1 2x1 10", b"P1 2,1 10", b"P1 2 1x10", b"P1 -2 1 10", b"P1 +2 1 10", b"P1 2 x 10")
    yield "11: a comment in each other place, and one without an end"
    yield from reading(5, b"#c\nP1 2 1 10", b"P#c\n1 2 1 10", b"P1#c\n2 1 10", b"P1 2#c\n1 10", b"P1 2 1#c\n10", b"P1 2 1 #c\n10")
    yield from reading(5, b"P1 2 1 1#c\n0", b"P1 2 1 1 #c\n0", b"P1 2 1 10#c\n", b"P1 2 1 10 #c\n")
    yield from reading(5, b"P1 #c", b"P1 #c\v2 1 10", b"P1 2 #c", b"P1 2 #c 1 10")
    yield "11: a digit too few and too many, other digits, bytes that are nearly whitespace, another picture"
    yield from reading(5, b"P1 2 1 1\n", b"P1 2 1 101", b"P1 2 1 10 0", b"P1 2 1 12", b"P1 2 1 1x0", b"P1 2 1 10x", b"P1 2 1 10 P1 2 1 10")
    yield from reading(5, *[b"P1 2 1 10%c" % byte for byte in (0x00, 0x08, 0x0E, 0x1F, 0x21, 0x85, 0xA0, 0xB1, 0xFF)])


def sized_cases():
    yield "1: sizes of 0, 65 and far above, some of which wrap to a legal one; 64"
    for size in 0, 64, 65, 99, 256 + 2, 2**32 + 2, 2**64 - 1, 2**64, 2**64 + 2, 10**40:
        digits = DIGITS[:64] if size == 64 else b"10"
        yield from reading(65, b"P1 %d 1 %s" % (size, digits), b"P1 1 %d %s" % (size, digits))
    yield from reading(5, b"P1 0 0", b"P1 00 1 1", b"P1 65 0#", b"P1 0 65 x")
    yield "2: no room, one code short, just enough and to spare; the same before a break; 64 by 64"
    for room in 0, 5, 6, 7:
        yield from reading(room, b"P1 3 2 100101", b"P1 3 2 100x")
    for room in 4096, 4095:
        yield from reading(room, b"P1 64 64 " + DIGITS)


def written_cases():
    yield "Writing: sides of 1, 9, 10 and 64, with room to spare, with just enough, with one byte less and with none"
    for width, height in (1, 1), (2, 3), (9, 1), (10, 1), (1, 9), (1, 10), (64, 1), (1, 64):
        for spare in 1, 0, -1, -999:
            yield from writing(width, height, spare=spare)
    for spare in 0, -1:
        yield from writing(64, 64, spare=spare)
    yield from [*writing(2, 1, [BLANK, BLANK]), *writing(2, 1, [BLACK, BLACK])]


def unwritten_cases():
    yield "Writing: 1, sides of 0, 65 and far above; 2, how many codes; 9, codes; several rules at once"
    for size in 0, 65, 99, 2**32 + 2, MOST_SIDE:
        yield from [(WRITE, size, 1, [BLACK], 99), (WRITE, 1, size, [BLACK], 99)]
    yield from [(WRITE, 0, 0, [], 99), (WRITE, 2**32, 2**32, [], 99), (WRITE, 2**63, 2, [], 99)]
    for codes in [], [BLACK] * 3, [BLACK] * 5:
        yield from writing(2, 2, codes, spare=9)
    for code in 0, 3, 4, 48, 49, 256 + BLANK, MOST:
        yield from [*writing(2, 1, [code, BLANK]), *writing(2, 1, [BLACK, code])]
    yield WRITE, 65, 1, [0], 0
    for codes in [0], [0, 0]:
        yield from [*writing(2, 1, codes, spare=-1), *writing(2, 1, codes)]


def all_cases():
    return [*ruled_cases(), *formed_cases(), *broken_cases(), *sized_cases(), *written_cases(), *unwritten_cases()]


def write_input(call, *given):
    """A case as the program reads it, which is how the sample has what is given too."""
    words = give_text(*given) if call == READ else give_picture(*given)
    return " ".join(map(str, words))


def quote(text):
    """A text with what cannot be printed, and the sign that begins it here, by its number."""
    return '"' + "".join(chr(byte) if 32 <= byte <= 126 and byte != ord("<") else f"<{byte}>" for byte in text) + '"'


def show_reading(text, room):
    number, width, height, codes = read_pbm(text, room)
    sides = f", {width} {height}" if number == 0 else ""
    return f" text {quote(text)} -> {number}{sides}; codes" + show_list(codes) + show_kept(room - len(codes))


def show_writing(width, height, codes, room):
    number, text = write_pbm(width, height, codes, room)
    count = f", {len(text)}" if number == 0 else ""
    given = f" width {width} height {height} codes" + show_list(codes)
    return f"{given} -> {number}{count}; text {quote(text)}" + show_kept(room - len(text))


def write_output(call, *given):
    """The line that the program must write."""
    return PBM_CALLS[call].name + (show_reading(*given) if call == READ else show_writing(*given))
