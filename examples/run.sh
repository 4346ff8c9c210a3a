#!/bin/bash
# Builds the two programs over the device library, runs them, and compares what they print with the file beside each. The header is also
# compiled as C++. It needs gcc, g++ and rustc. The device library is proved and built first, unless it is as it was.
# Usage: run.sh OUT
set -eu
if [ $# -ne 1 ]; then
  echo "usage: $0 OUT" >&2
  exit 2
fi
here=$(cd "$(dirname "$0")" && pwd)
mkdir -p "$1"
out=$(cd "$1" && pwd)
root=$(cd "$here/.." && pwd)
. "$root/scripts/proving.sh"
flags=(-Wall -Wextra -Werror -pedantic)

need rt gcc g++ rustc
build_device
gcc -std=c11 "${flags[@]}" "-I$root/include" "$here/c/solve_card.c" "$root/target/staticlib/libdevice.a" -o "$out/solve_card_c"
g++ -std=c++17 "${flags[@]}" -fsyntax-only -x c++ "$root/include/scorepuddle.h"
rustc --edition 2021 -D warnings -L "native=$root/target/staticlib" "$here/rust/solve_card.rs" -o "$out/solve_card_rust"
"$out/solve_card_c" | diff "$here/c/solve_card.txt" -
"$out/solve_card_rust" | diff "$here/rust/solve_card.txt" -
echo "both programs print what they must"
