#!/bin/bash
# Times the two calls on plain PBM beside netpbm's own library, in one process and by turns (speed.c). It needs gcc and libnetpbm-dev. The device
# library is proved and built first, unless it is as it was. Nothing here is a test.
# Usage: speed.sh OUT [ROUNDS]
set -eu
if [ $# -lt 1 ] || [ $# -gt 2 ]; then
  echo "usage: $0 OUT [ROUNDS]" >&2
  exit 2
fi
here=$(cd "$(dirname "$0")" && pwd)
root=$(cd "$here/../.." && pwd)
mkdir -p "$1"
out=$(cd "$1" && pwd)
shift
. "$root/scripts/proving.sh"

need rt gcc
build_device
gcc -std=c11 -Wall -Wextra -Werror -O2 "-I$root/include" "$here/speed.c" "$root/target/staticlib/libdevice.a" -lnetpbm -o "$out/speed"
"$out/speed" "$@"
