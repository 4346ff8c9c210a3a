"""What a script says where it is given fewer arguments than it needs."""

import sys


def need_arguments(least, usage):
    """Ends the script with its usage where it has fewer arguments."""
    if len(sys.argv) <= least:
        print(usage.strip(), file=sys.stderr)
        sys.exit(2)
