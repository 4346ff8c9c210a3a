#!/bin/bash
# Holds the two calls on plain PBM to Debian's netpbm, both ways and at every size, and to an independent reading of the rules, over damaged
# texts (compare.py). It needs gcc, python3 and netpbm. The device library is proved and built first, unless it is as it was.
# The last line is 'all parts: N differ'; it fails if N is not 0.
# Usage: run.sh OUT [SEED] [COUNT]
set -eu
if [ $# -lt 1 ] || [ $# -gt 3 ]; then
  echo "usage: $0 OUT [SEED] [COUNT]" >&2
  exit 2
fi
here=$(cd "$(dirname "$0")" && pwd)
root=$(cd "$here/../.." && pwd)
mkdir -p "$1"
out=$(cd "$1" && pwd)
shift
. "$root/scripts/proving.sh"

need rt gcc python3 pamtopnm
build_device
gcc -std=c11 -Wall -Wextra -Werror -O2 "-I$root/include" "$here/pbm.c" "$root/target/staticlib/libdevice.a" -o "$out/pbm"
PYTHONPATH=$root/tests/vectors python3 "$here/compare.py" "$out/pbm" "$@"
