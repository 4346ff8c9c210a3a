"""Holds the reading of the runs (reading_runs.py) against both drivers of the oracle: the order of lines, and many samples.

Usage: check_runs.py STABLE UNTOUCHED FIRST LAST. First it asks for the order of lines of every pair of sides. Then for each seed from FIRST
to LAST it draws the cases as make_runs.py does. The driver with the stable sort has to agree with the reading in everything, the untouched
one in the number and, with 0, in the board: its full runs may take the lines in another order. A difference ends the script; it tells how
many orders and runs it compared.
"""

import subprocess
import sys
from collections import Counter

from drawing_runs import draw_cases
from make_runs import ask, compare_with_reading
from reading import MOST_LENGTH
from reading_runs import RUN_CALLS, order_lines
from usage import need_arguments


def ask_orders(driver, sides):
    """The order of lines of each board, which is blank and has no blocks: no line changes."""
    words = lambda width, height: ["rb fo", width, height, *[1] * (width * height), *[0] * (height + width)]
    text = "".join(" ".join(map(str, words(*pair))) + "\n" for pair in sides)
    lines = subprocess.run([driver], input=text, capture_output=True, text=True, check=True).stdout.splitlines()
    return [line.split()[-width - height :] for line, (width, height) in zip(lines, sides)]


def check_orders(stable_driver, untouched_driver):
    """Compares the order of lines at all sides."""
    sides = [(width, height) for width in range(1, MOST_LENGTH + 1) for height in range(1, MOST_LENGTH + 1)]
    told = [[kind[0] + str(index) for kind, index in reversed(order_lines(*pair))] for pair in sides]
    stable, untouched = ask_orders(stable_driver, sides), ask_orders(untouched_driver, sides)
    if stable != told:
        sys.exit("the order of lines differs")
    other = [sum(pair) for pair, first, second in zip(sides, stable, untouched) if first != second]
    print(f"orders: {len(sides)}, 0 differ; the untouched driver has {len(other)} others, all with {min(other)} lines or more")


def compare_settled(call, card, stable, untouched):
    """The number, and the board where the run is done. Tells whether everything else is equal too."""
    if stable.number != untouched.number or stable.number == 0 and stable.board != untouched.board:
        sys.exit(f"the drivers differ: call {call}, {card}: {stable}, {untouched}")
    return stable == untouched


def check_seed(seed, stable_driver, untouched_driver, counts):
    """Compares one sample, and counts its runs by call and number."""
    cases = draw_cases(seed)
    stable, untouched = ask(stable_driver, cases), ask(untouched_driver, cases)
    for case, answer, other in zip(cases, stable, untouched):
        compare_with_reading(*case, answer)
        counts[case[0], answer.number] += 1
        counts[case[0], "same"] += compare_settled(*case, answer, other)


def main():
    need_arguments(4, __doc__)
    stable_driver, untouched_driver = sys.argv[1:3]
    print("asking for the orders of lines", file=sys.stderr)
    check_orders(stable_driver, untouched_driver)
    counts = Counter()
    for seed in range(int(sys.argv[3]), int(sys.argv[4]) + 1):
        print(f"seed {seed}", file=sys.stderr)
        check_seed(seed, stable_driver, untouched_driver, counts)
    for call, told in RUN_CALLS.items():
        done, unsolvable, same = counts[call, 0], counts[call, 8], counts[call, "same"]
        print(f"{told.name}: {done} done, {unsolvable} unsolvable, 0 differ; the untouched driver has {same} alike in everything")


main()
