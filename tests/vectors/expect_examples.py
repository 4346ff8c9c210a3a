"""The examples and limits of all calls: the cases that the program examples runs, and what it must write.

Usage: expect_examples.py stdin > FILE, or expect_examples.py stdout > FILE.
"""

import sys

import example_blocks
import example_lines
import example_pbm
import example_runs
from usage import need_arguments


def main():
    need_arguments(1, __doc__)
    what = sys.argv[1]
    for layer in example_blocks, example_lines, example_runs, example_pbm:
        for item in layer.all_cases():
            if isinstance(item, str):
                if what == "stdin":
                    print(f"# {item}")
            else:
                print(layer.write_input(*item) if what == "stdin" else layer.write_output(*item))
    if what == "stdout":
        print("the input was read to its end")


main()
