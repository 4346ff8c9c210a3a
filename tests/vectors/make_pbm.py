"""Makes the fixed sample of plain PBM: texts that are read and pictures that are written, most of them refused, with the answers.

Usage: make_pbm.py [SEED] > pbm.txt. The fixed sample has seed 7313; another seed makes another sample. The crate reads no PBM, so the
answers are those of the independent reading of document 02 (reading_pbm.py).
"""

import sys
from collections import Counter

from drawing_pbm import COMMENTS, SIZES, SPACES, cut_each, draw_codes, draw_damaged, draw_sides, draw_text, drop_each, insert_each
from drawing_pbm import replace_each, rng
from reading import BLACK, BLANK
from reading_pbm import PBM_CALLS, read_pbm, write_pbm

FIRST_SEED = 7313
READ, WRITE = PBM_CALLS
MOST_SIDE = 64
MOST_CODES = MOST_SIDE**2
RANDOM_TEXTS, RANDOM_PICTURES = 40, 12
# The texts that are damaged in every place: the form that is written, and one with a comment before each size and all whitespace.
SHORT = b"P1\n2 1\n10\n"
LONG = b"P1 #a\r\n02\v#3\r#\n\t2\f1 0\n11\r"


def ruled_texts():
    """The examples of document 02's rulings, with rooms."""
    yield from [(b"P1 65", 99), (b"P1 65 1x", 99), (b"P1 65 1", 99), (b"P1 70 x", 99), (b"P1 70", 99)]
    yield from [(b"P1 2 2", 3), (b"P1 2 2", 4), (b"P1 1 11", 10), (b"P1 1 11", 11), (b"P1 1 11 10101010101", 11)]
    for text in b"P1 1 1 #c\n1", b"P1 1 1#c\n1", b"P1 2 1 1 #c\n0", b"P1 1 1 1 #c\n", b"P1 1 1 1#c\n", b"P1 #c", b"P1 1 #c":
        yield text, 2


def formed_texts():
    """Each whitespace alone in every place, each comment before each size, leading zeros, and digits with or without whitespace."""
    for space in SPACES:
        yield space.join([b"P1", b"2", b"2", b"1", b"0", b"0", b"1", b""])
        yield b"P1%s2%s2%s1001" % (space, space, space)
    for comment in COMMENTS:
        yield b"P1 %s1 1 0" % comment
        yield b"P1\n1\t%s1 1" % comment
    yield b"P1 " + b"".join(COMMENTS) + b"1 " + b"".join(COMMENTS) + b"1 1"
    for zeros in 1, 2, 30:
        yield b"P1 %s2 %s1 01" % (b"0" * zeros, b"0" * zeros)
    yield from [b"P1 3 2 101010", b"P1 3 2 1 0 1 0 1 0", b"P1 3 2 101\n010", b"P1 3 2 10\n10\r\n1\t\v0\f\f", b"P1 2 3   1 01 010  "]


def refused_texts():
    """A digit too few, too many or none, other digits, other magic numbers, a second image, and bytes that are nearly whitespace."""
    yield from [b"", b"P", b"P1", b"1", b"P4 1 1 1", b"P2 1 1 1", b"p1 1 1 1", b" P1 1 1 1", b"\xef\xbb\xbfP1 1 1 1", b"1P 1 1 1"]
    yield from [b"P1 2 1 1", b"P1 2 1 101", b"P1 2 1 1 0 1", b"P1 2 1", b"P1 2 1 ", b"P1 1 12 1", b"P1 1 1 2", b"P1 1 1 x", b"P1 1 1 1 x"]
    yield from [b"P11 1 1", b"P1 11 1", b"P1x1 1 1", b"P1 1x1 1", b"P1 1 1x1", b"P1 -1 1 1", b"P1 +1 1 1", b"P1 1.0 1 1", b"P1 0x1 1 1"]
    yield from [b"P1 1 1 1P1 1 1 1", b"P1 1 1 1\nP1 1 1 1\n"]
    for byte in 0x00, 0x08, 0x0E, 0x1A, 0x1C, 0x1F, 0x21, 0x85, 0x8A, 0xA0:
        yield from [b"P1%c1 1 1" % byte, b"P1 1 1 1%c" % byte]


def damaged_texts():
    """Both texts cut at every length, with each byte dropped, with a comment and whitespace in every place; one with each byte replaced."""
    yield from replace_each(SHORT, [b"0", b"x", b"#"])
    for text, space in (SHORT, b"\v"), (LONG, b" "):
        yield from cut_each(text)
        yield from drop_each(text)
        yield from insert_each(text, [b"#1\n", space])


def sized_texts():
    """Each size as the width and as the height, with at most 64 digits, and with a break right after the height."""
    for size in SIZES:
        cells = b"1" * min(size, MOST_SIDE)
        yield from [b"P1 %d 1 %s" % (size, cells), b"P1 1 %d %s" % (size, cells), b"P1 %d 1x" % size]
    yield from [b"P1 0 0 ", b"P1 65 65 1", b"P1 0 65", b"P1 65 0#", b"P1 00 1 1", b"P1 0065 1 1"]


def roomed_texts():
    """Rooms that are enough, too small by one, and none; and rooms before a later break."""
    for width, height in (1, 1), (3, 2), (64, 1), (1, 64):
        codes = draw_codes(width * height)
        text = draw_text(width, height, codes)
        for room in 0, len(codes) - 1, len(codes), len(codes) + 1:
            yield text, room
        yield text + b"x", len(codes) - 1


def large_texts():
    """A picture of 64 x 64, and the same without its last digit."""
    text = write_pbm(MOST_SIDE, MOST_SIDE, draw_codes(MOST_CODES), MOST_CODES * 2)[1]
    yield text, MOST_CODES
    yield text[:-2], MOST_CODES


def draw_texts():
    """All texts, with the room that each has."""
    yield from ruled_texts()
    for texts in formed_texts(), refused_texts(), damaged_texts(), sized_texts():
        for text in texts:
            yield text, 70
    yield from roomed_texts()
    for _ in range(RANDOM_TEXTS):
        width, height = draw_sides()
        yield draw_damaged(width, height), width * height + rng.choice([-1, 0, 0, 1])
    yield from large_texts()


def length_of(width, height):
    """The room that a picture's text needs."""
    return len(f"P1\n{width} {height}\n") + height * (width + 1)


def framed_pictures():
    """Rooms, counts of codes and sizes at their limits, alone and several at once."""
    for width, height in (1, 1), (2, 3), (10, 1), (1, 10), (64, 1), (1, 64):
        codes, need = draw_codes(width * height), length_of(width, height)
        for room in need, need - 1, need + 5:
            yield width, height, codes, room
        yield width, height, codes[1:], need
        yield width, height, [*codes, BLANK], need + 2
    for size in [size for size in SIZES if not 1 <= size <= MOST_SIDE and size < 2**64]:
        yield size, 1, [BLACK], 99
        yield 1, size, [BLACK], 99
    yield from [(0, 0, [], 99), (2**32, 2**32, [], 99), (2**63, 2, [], 99), (65, 1, [7], 0), (0, 1, [7], 0), (2, 1, [7], 99)]
    yield from [(2, 2, [BLACK] * 4, 0), (2, 2, [0] * 4, 12), (2, 2, [0] * 4, 13), (2, 2, [0] * 3, 13), (2, 2, [0] * 5, 99), (1, 1, [], 99)]


def coded_pictures():
    """A code that is neither, first, in the middle and last."""
    for code in 0, 3, 4, 48, 49, 256 + BLANK, 2**31, 2**32 - 1:
        for at in 0, 2, 5:
            codes = [BLACK, BLANK] * 3
            codes[at] = code
            yield 3, 2, codes, 30


def draw_pictures():
    """All pictures that are written or refused: sides, codes and room."""
    yield from framed_pictures()
    yield from coded_pictures()
    for _ in range(RANDOM_PICTURES):
        width, height = rng.randint(1, 12), rng.randint(1, 12)
        yield width, height, draw_codes(width * height), length_of(width, height) + rng.randint(0, 3)
    codes, need = draw_codes(MOST_CODES), length_of(MOST_SIDE, MOST_SIDE)
    for room in need, need - 1:
        yield MOST_SIDE, MOST_SIDE, codes, room


def counted(part):
    """A list with how many entries it has before it."""
    return [len(part), *part]


def give_text(text, room):
    """The words of a call that reads."""
    return [READ, room, *counted(text)]


def tell_text(text, room):
    """What it answers, by the reading."""
    number, width, height, codes = read_pbm(text, room)
    return [number, width, height, *counted(codes)]


def give_picture(width, height, codes, room):
    """The words of a call that writes."""
    return [WRITE, width, height, room, *counted(codes)]


def tell_picture(width, height, codes, room):
    """What it answers, by the reading."""
    number, text = write_pbm(width, height, codes, room)
    return [number, *counted(text)]


def write_header(seed, cases):
    """What the lines of the sample hold, and how many cases come to each number."""
    print(f"# The sample of plain PBM, made by make_pbm.py with seed {seed}: {len(cases)} cases, with the answers of reading_pbm.py.")
    print("# One case a line: the call's number, its inputs, and the answer. [x] is a list: how many entries, and the entries.")
    print(f"# {READ} room [text] number width height [codes]: the text is bytes, the room is codes. A refusal has sizes of 0 and no codes.")
    print(f"# {WRITE} width height room [codes] number [text]: the room is bytes. A refusal has no text.")
    for call in PBM_CALLS:
        numbers = Counter(told[0] for given, told in cases if given[0] == call)
        ends = ", ".join(f"{count} with {number}" for number, count in sorted(numbers.items()))
        print(f"# {call} {PBM_CALLS[call].name}: {sum(numbers.values())} cases, {ends}")


def main():
    seed = int(sys.argv[1]) if len(sys.argv) > 1 else FIRST_SEED
    rng.seed(seed)
    cases = [(give_text(*case), tell_text(*case)) for case in dict.fromkeys(draw_texts())]
    cases += [(give_picture(*case), tell_picture(*case)) for case in draw_pictures()]
    write_header(seed, cases)
    for given, told in cases:
        print(*given, *told)


if __name__ == "__main__":
    main()
