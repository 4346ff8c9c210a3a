"""Makes the fixed sample of the runs: full runs and point runs that the crate finishes or finds unsolvable, with the crate's answers.

Usage: make_runs.py DRIVER [SEED] > runs.txt, where DRIVER is the oracle's program with the stable sort (tests/oracle). The fixed sample
has seed 7303; another seed makes another sample. Every answer is compared with the independent reading of document 01
(reading_runs.py); a difference ends the script with an error and no file.
"""

import subprocess
import sys

from drawing_runs import draw_cases
from reading import LEAST_MEMO
from reading_runs import COLUMN, LEAST_STACK, ROW, RUN_CALLS, Ending, Rooms, room_number
from usage import need_arguments

FIRST_SEED = 7303
# How the driver and the file write a kind of line.
LETTERS = {"r": ROW, "c": COLUMN}
KINDS = {ROW: 0, COLUMN: 1}
NO_LINE = 2


def request(call, card):
    """The driver's line. It has no counts of cells and blocks."""
    words = [RUN_CALLS[call].request, *(card.point or []), card.width, card.height, *card.grid]
    for lists in card.rows, card.columns:
        words += [word for part in lists for word in part]
    return " ".join(map(str, words))


def split_answer(line):
    """The driver's answer: number, refusing line, lines solved, report and board."""
    words = line.split()
    assert words[0] in ("0", "8"), line
    number, lines, entries = int(words[0]), int(words[3]), int(words[4])
    refusing = (LETTERS[words[1]], int(words[2])) if number == 8 else None
    numbers = list(map(int, words[5:]))
    return Ending(number, refusing, entries, lines, numbers[entries:], numbers[:entries])


def ask(driver, cases):
    text = "".join(request(*case) + "\n" for case in cases)
    lines = subprocess.run([driver], input=text, capture_output=True, text=True, check=True).stdout.splitlines()
    assert len(lines) == len(cases)
    return [split_answer(line) for line in lines]


def least_room(call, card):
    return room_number(card.grid, RUN_CALLS[call].coloured)


def read_answer(call, card):
    """What the reading says, with the least room."""
    return RUN_CALLS[call].answer(card, Rooms(least_room(call, card), LEAST_MEMO, LEAST_STACK))


def compare_with_reading(call, card, answer):
    expected = read_answer(call, card)
    if expected != answer:
        sys.exit(f"document 01 and the crate differ: call {call}, {card}: {expected}, {answer}")


def counted(part):
    return [len(part), *part]


def write_case(call, card, answer):
    """A case's numbers. A full run's point is 0 0."""
    kind, index = (KINDS[answer.line[0]], answer.line[1]) if answer.line else (NO_LINE, 0)
    words = [call, card.width, card.height, *(card.point or (0, 0)), least_room(call, card)]
    for part in card.grid, *card.rows, *card.columns:
        words += counted(part)
    words += [answer.number, kind, index, answer.entries, answer.lines]
    return words + counted(answer.board) + counted(answer.report)


def is_finished(call, answer):
    """Whether every cell has one colour left."""
    return answer.number == 0 and room_number(answer.board, RUN_CALLS[call].coloured) == 0


def write_header(seed, cases, answers):
    print(f"# The sample of the runs, made by make_runs.py with seed {seed}: {len(cases)} cases that the crate answered.")
    print("# One case a line: the call's number, its inputs, and the answer. [x] is a list: how many entries, and the entries.")
    print("# call width height x y room [grid], then [counts] [sizes] [colours] of the rows and of the columns. x and y are 0 in a full")
    print("#   run, room is the report's least room, and binary blocks have no colours. Then number kind index entries lines [grid] [report]:")
    print("#   the refusing line's kind, 0 a row, 1 a column, 2 none, and its index; report entries and lines solved; what is left.")
    for call in RUN_CALLS:
        own = [answer for (c, _), answer in zip(cases, answers) if c == call]
        unsolvable = sum(answer.number == 8 for answer in own)
        finished = sum(is_finished(call, answer) for answer in own)
        print(f"# {call} {RUN_CALLS[call].name}: {len(own)} cases, {finished} end with a finished picture, {unsolvable} are unsolvable")


def main():
    need_arguments(1, __doc__)
    seed = int(sys.argv[2]) if len(sys.argv) > 2 else FIRST_SEED
    cases = draw_cases(seed)
    answers = ask(sys.argv[1], cases)
    for case, answer in zip(cases, answers):
        compare_with_reading(*case, answer)
    write_header(seed, cases, answers)
    for case, answer in zip(cases, answers):
        print(*write_case(*case, answer))


if __name__ == "__main__":
    main()
