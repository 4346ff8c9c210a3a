"""Writes what a replay of samples must write: how many cases each call has in the files, none of them different.

Usage: expect_replay.py SAMPLE > stdout
"""

import sys
from collections import Counter

from reading import CALLS, LINE_CALLS
from reading_pbm import PBM_CALLS
from reading_runs import RUN_CALLS
from usage import need_arguments


def main():
    need_arguments(1, __doc__)
    with open(sys.argv[1]) as sample:
        lines = [line.split("#")[0].split() for line in sample]
    cases = Counter(int(words[0]) for words in lines if words)
    for call, told in {**CALLS, **LINE_CALLS, **RUN_CALLS, **PBM_CALLS}.items():
        print(f"{told.name}: {cases[call]} cases, 0 differ")
    print(f"all calls: {sum(cases.values())} cases, 0 differ")
    print("the input was read to its end")


main()
