#!/bin/bash
# Measures the port beside the crate, in one process and on the same inputs, and prints the table of docs/SPEED.md with its means.
# CRATE_DIR holds the crate's src/; the packages are those of tests/oracle. The device library is proved and built first, unless it is as it was.
# Usage: run.sh CRATE_DIR OUT [ROUNDS]
set -eu
if [ $# -lt 2 ]; then
  echo "usage: $0 CRATE_DIR OUT [ROUNDS]" >&2
  exit 2
fi
here=$(cd "$(dirname "$0")" && pwd)
root=$(cd "$here/../.." && pwd)
crate=$(cd "$1" && pwd)/src
mkdir -p "$2"
out=$(cd "$2" && pwd)
rounds=${3:-150}
. "$here/../oracle/lay_out.sh"
. "$root/scripts/proving.sh"

need rt cargo rustc
build_device
for name in lines runs clues; do
  lay_out "$crate" "$out/$name" "$here/$name.rs"
  build_over_library "$out/$name" nonogrid
done
echo "| what | cells | kind | blocks, or picture | start | crate, µs | with its cache, µs | port, µs | crate / port | with its cache / port |"
echo "|---|---|---|---|---|---|---|---|---|---|"
for name in lines runs clues; do "$out/$name/target/release/$name" "$rounds"; done > "$out/told"
grep '^|' "$out/told"
echo
grep -v '^|' "$out/told"
