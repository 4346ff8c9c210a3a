"""Holds sp_read_pbm and sp_write_pbm to Debian's netpbm, both ways, and to an independent reading of the rules (reading_pbm.py).

Usage: compare.py PROGRAM [SEED] [COUNT], with tests/vectors on Python's path. PROGRAM is pbm.c over the device library. Pictures and texts
are drawn from SEED (7313), COUNT (100000) damaged texts beside those damaged in every place. Of each part up to three differences are
shown; the status is 1 if there is one.
"""

import re
import subprocess
import sys
from collections import Counter
from itertools import islice, product

from drawing_pbm import PIECES, SIZES, cut_each, draw_codes, draw_damaged, draw_sides, drop_each, insert_each, replace_each, rng
from make_pbm import FIRST_SEED, LONG, MOST_CODES, MOST_SIDE, READ, SHORT, draw_pictures, draw_texts, give_picture, give_text, length_of
from make_pbm import tell_picture, tell_text
from reading import BLACK
from usage import need_arguments

FIRST_COUNT = 100000
# Requests in a batch, how many differences of a part are shown, and how much of each.
BATCH, SHOWN, MOST_SHOWN = 20000, 3, 2000
# For one text that netpbm judges and for one picture that is written, how many texts are read.
PER_JUDGED, PER_WRITTEN = 10, 5
TOOL = "pamtopnm"
LARGE_TEXTS = 200
# The texts that are damaged in every place, and the cells that they have.
BASES = {
    b"P1 1 1 1": 1,
    SHORT: 2,
    LONG: 4,
    b"P1\n3 2\n1 0 1\n0 1 0\n": 6,
    b"P1\r\n# by hand\r\n2 2\r\n10\r\n01\r\n": 4,
}
ALL_BYTES = [b"%c" % byte for byte in range(256)]
# Beginnings that every text of up to so many of these bytes follows.
TRIED = [(b"P1", b" \n#012x", 6), (b"P1 2 1", b" \r#01x", 6)]

# What pamtopnm takes beyond our rules, besides sizes above 64 and other formats: a comment anywhere from P1 to the raster's last digit; no
# whitespace after P1; any one byte that is no digit after a size; and another image after the raster. Anything else after the raster it
# refuses as we do. It takes VT and FF right after a size and after the raster alone, so none are in the texts that it judges.
SPACE = rb"(?:[ \t\n\r]|#[^\n\r]*[\n\r])"
SIZE = SPACE + rb"*([0-9]+)(?:[^0-9#]|#[^\n\r]*[\n\r])"
WIDER = re.compile(rb"P1" + SIZE + SIZE + rb"((?:" + SPACE + rb"*[01])+)[ \t\n\r]*(P[1-7].*)?", re.DOTALL)
COMMENT = re.compile(rb"#[^\n\r]*")


def run_tool(words, content):
    """What the tool writes, or nothing where it fails."""
    ran = subprocess.run([TOOL, *words], input=content, stdout=subprocess.PIPE, stderr=subprocess.DEVNULL)
    return ran.stdout if ran.returncode == 0 else None


def ask(program, requests):
    """The program's answer to each request; none where it has ended before."""
    text = "".join(" ".join(map(str, request)) + "\n" for request in requests)
    answers = subprocess.run([program], input=text, stdout=subprocess.PIPE, text=True).stdout.splitlines()
    return answers + ["no answer"] * (len(requests) - len(answers))


def show_request(given):
    """A request for a person: a text as bytes."""
    return f"the text {bytes(given[3:])} with room for {given[1]}" if given[0] == READ else f"the request {given}"


class Part:
    """A part of the comparison: how many cases came to each end, and how many differ. The first that differ are shown."""

    def __init__(self, name):
        self.name, self.ends, self.differ = name, Counter(), 0

    def add(self, end, difference):
        """One case more, which differs where a difference is told."""
        self.ends[end] += 1
        if difference:
            self.fail(difference)

    def fail(self, difference):
        """One difference more."""
        self.differ += 1
        if self.differ <= SHOWN:
            print(f"{self.name}: {difference[:MOST_SHOWN]}")

    def close(self):
        """Tells the counts, and gives how many differ."""
        print(f"{self.name}: {sum(self.ends.values())} ({write_counts(self.ends)}), {self.differ} differ", flush=True)
        return self.differ


def write_counts(counts):
    """Each end with its count."""
    return ", ".join(f"{what} {count}" for what, count in sorted(counts.items()))


def hold(program, name, cases, numbers):
    """Asks the program for the answer to each case, a request and what it must be told. Each number must occur that the call can answer."""
    part, cases = Part(name), iter(cases)
    while batch := list(islice(cases, BATCH)):
        print(f"{name}: {sum(part.ends.values())} so far", file=sys.stderr)
        for (given, told), answer in zip(batch, ask(program, [given for given, _ in batch])):
            same = answer == " ".join(map(str, told))
            part.add(told[0], None if same else f"{show_request(given)} must be told {told}, but is told {answer}")
    for number in set(numbers) - set(part.ends):
        part.fail(f"no case must be told {number}")
    return part.close()


def draw_sizes():
    """A picture of every size: sides and codes."""
    sides = range(1, MOST_SIDE + 1)
    return [(width, height, draw_codes(width * height)) for height in sides for width in sides]


def write_raw(width, height, codes):
    """The picture as raw PBM, in which a row is whole bytes."""
    digits = "".join("01"[int(code) == BLACK] for code in codes)
    bytes_wide = (width + 7) // 8
    rows = [digits[at : at + width].ljust(8 * bytes_wide, "0") for at in range(0, len(digits), width)]
    return b"P4\n%d %d\n" % (width, height) + b"".join(int(row, 2).to_bytes(bytes_wide, "big") for row in rows)


def make_plain(pictures):
    """The plain texts that netpbm makes of the pictures, out of one stream of raw ones."""
    stream = run_tool(["-plain"], b"".join(write_raw(*picture) for picture in pictures)) or b""
    texts = [b"P1" + rest for rest in stream.split(b"P1")[1:]]
    if len(texts) != len(pictures):
        sys.exit(f"{TOOL} makes {len(texts)} texts of {len(pictures)} pictures")
    return texts


def hold_reading(program, name, texts, pictures):
    """The texts must be read as the pictures that were drawn."""
    cases = [(give_text(text, len(codes)), [0, w, h, len(codes), *codes]) for text, (w, h, codes) in zip(texts, pictures)]
    return hold(program, name, cases, [0])


def find_text(answer):
    """The text in an answer; none with a refusal, or where memory is spoilt."""
    words = answer.split()
    return bytes(map(int, words[2:])) if words[0] == "0" and words[-1] != "spoilt" else b""


def write_all(program, pictures):
    """The texts that are written of the pictures, each with no byte to spare."""
    return [find_text(answer) for answer in ask(program, [give_picture(*picture, length_of(*picture[:2])) for picture in pictures])]


def convert_otherwise(texts, words, expected):
    """The texts that the tool makes something else of: it gets all as one stream, and one by one where that comes out otherwise."""
    if run_tool(words, b"".join(texts)) == b"".join(expected):
        return []
    alone = [text for text, made in zip(texts, expected) if run_tool(words, text) != made]
    return alone or texts


def hold_written(texts, plain, pictures):
    """netpbm must make the drawn pictures, raw and plain, of the texts that are written."""
    part = Part("texts written, by netpbm")
    for text, made in zip(texts, plain):
        part.add("as it writes them" if text == made else "in another form", None)
    for text in convert_otherwise(texts, [], [write_raw(*picture) for picture in pictures]):
        part.fail(f"the raw picture of {text} is another")
    for text in convert_otherwise(texts, ["-plain"], plain):
        part.fail(f"the plain picture of {text} is another")
    return part.close()


def place_texts():
    """Each base cut, with each byte dropped, with each replaced by every other, and with every byte and some pieces put in everywhere."""
    for base, cells in BASES.items():
        damaged = cut_each(base) + drop_each(base) + replace_each(base, ALL_BYTES) + insert_each(base, ALL_BYTES + PIECES)
        yield from ((text, room) for text in damaged for room in (cells, cells - 1))


def try_texts():
    """Every short text over a few bytes, after each beginning."""
    for beginning, letters, most in TRIED:
        for length in range(most + 1):
            yield from ((beginning + bytes(rest), 2) for rest in product(letters, repeat=length))


def draw_many(count):
    """Damaged texts drawn at random, with rooms; some of them large."""
    for _ in range(count):
        width, height = draw_sides()
        cells = width * height
        yield draw_damaged(width, height), rng.choice([cells] * 6 + [cells - 1, cells + 1, 0, MOST_CODES])
    for _ in range(LARGE_TEXTS):
        yield draw_damaged(MOST_SIDE, MOST_SIDE), MOST_CODES - rng.choice([0, 0, 0, 1])


def hold_texts(program, count):
    """All answers of the call that reads, by the reading."""
    texts = (case for cases in (draw_texts(), place_texts(), try_texts(), draw_many(count)) for case in cases)
    return hold(program, "texts, by the reading", ((give_text(*case), tell_text(*case)) for case in texts), [0, 1, 2, 11])


def draw_writing():
    """A picture whose sides, codes or room are at times wrong."""
    width, height = draw_sides()
    codes = draw_codes(width * height + rng.choice([0] * 8 + [-1, 1]))
    if codes and rng.random() < 0.2:
        codes[rng.randrange(len(codes))] = rng.choice([0, 3, 4, 2**32 - 1])
    room = length_of(width, height) + rng.choice([0] * 6 + [-1, 1, 50])
    if rng.random() < 0.1:
        width = rng.choice([size for size in SIZES if size < 2**64])
    return width, height, codes, room


def hold_pictures(program, count):
    """All answers of the call that writes, by the reading."""
    pictures = [*draw_pictures(), *(draw_writing() for _ in range(count))]
    return hold(program, "pictures, by the reading", ((give_picture(*case), tell_picture(*case)) for case in pictures), [0, 1, 2, 9])


def widened_by(text):
    """Which of pamtopnm's wider rules it needs for a text that we refuse with 11; none where it must refuse it too."""
    wide = WIDER.fullmatch(text)
    if not wide or int(wide[1]) * int(wide[2]) != len(COMMENT.sub(b"", wide[3]).translate(None, b" \t\n\r")):
        return None
    if wide[4]:
        return "another image"
    if b"#" in text:
        return "a comment elsewhere"
    return "no whitespace after P1" if text[2:3].isdigit() else "another byte after a size"


def left_out(text, answer):
    """Why the rules are not meant to agree about a text, if they are not."""
    if re.match(rb"P[2-7]", text):
        return "another format"
    if answer == "1 0 0 0":
        return "a size of 0 or above 64"
    return widened_by(text) if answer == "11 0 0 0" else None


def read_raw(answer):
    """The picture of an answer as raw PBM; none with a refusal."""
    words = answer.split()
    return write_raw(int(words[1]), int(words[2]), words[4 : 4 + int(words[3])]) if words[0] == "0" else None


def draw_judged(count):
    """Texts for netpbm to judge: damaged ones, without VT and FF."""
    swapped = bytes.maketrans(b"\v\f", b" \n")
    placed = [text for text, _ in place_texts()]
    tried = [text for text, _ in try_texts()]
    drawn = [draw_damaged(*draw_sides()) for _ in range(count)]
    return [text.translate(swapped) for text in drawn + rng.choices(placed, k=count // 4) + rng.choices(tried, k=count // 4)]


def hold_verdicts(program, count):
    """netpbm must take the texts that we read, as the same picture, and no others, but for those that are left out."""
    part, out, texts = Part("texts, by netpbm"), Part("texts left out there"), draw_judged(count)
    print(f"{part.name}: {len(texts)} in all", file=sys.stderr)
    for text, answer in zip(texts, ask(program, [give_text(text, MOST_CODES) for text in texts])):
        made = run_tool([], text)
        end, why = "taken" if made else "refused", left_out(text, answer)
        if why:
            out.add(f"{why} {end}", None)
        else:
            part.add(end, None if made == read_raw(answer) else f"{text} is told {answer}, and {TOOL} makes {made} of it")
    return out.close() + part.close()


def main():
    need_arguments(1, __doc__)
    program = sys.argv[1]
    seed = int(sys.argv[2]) if len(sys.argv) > 2 else FIRST_SEED
    count = int(sys.argv[3]) if len(sys.argv) > 3 else FIRST_COUNT
    print(f"seed {seed}", flush=True)
    rng.seed(seed)
    pictures = draw_sizes()
    plain = make_plain(pictures)
    written = write_all(program, pictures)
    differ = hold_reading(program, "texts of netpbm, read", plain, pictures) + hold_written(written, plain, pictures)
    differ += hold_reading(program, "texts written, read", written, pictures)
    differ += hold_texts(program, count) + hold_pictures(program, count // PER_WRITTEN) + hold_verdicts(program, count // PER_JUDGED)
    print(f"all parts: {differ} differ")
    sys.exit(differ > 0)


main()
