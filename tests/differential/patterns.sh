#!/bin/bash
# Runs cards of Debian's sgt-pattern (package sgt-puzzles) through sp_run_binary: each must end with 0 and one colour in each cell. COUNT cards
# of each of twelve sizes from 5 x 5 to 30 x 30, by the seeds 1 to COUNT. The last line is 'N cards, M failed'; it fails if M is not 0.
# The device library is proved and built first, unless it is as it was.
# Usage: patterns.sh OUT [COUNT]
set -eu
if [ $# -lt 1 ]; then
  echo "usage: $0 OUT [COUNT]" >&2
  exit 2
fi
here=$(cd "$(dirname "$0")" && pwd)
root=$(cd "$here/../.." && pwd)
mkdir -p "$1"
out=$(cd "$1" && pwd)
count=${2:-40}
. "$root/scripts/proving.sh"

need rt rustc /usr/games/sgt-pattern
build_device
rustc --edition 2021 -O -L "native=$root/target/staticlib" "$here/patterns.rs" -o "$out/patterns"
for sides in 5x5 6x9 8x5 10x10 15x10 12x16 20x20 25x20 16x30 30x5 25x25 30x30; do
  say "making $count cards of $sides"
  for seed in $(seq "$count"); do /usr/games/sgt-pattern --generate 1 "$sides#$seed"; done
done > "$out/cards"
"$out/patterns" < "$out/cards"
