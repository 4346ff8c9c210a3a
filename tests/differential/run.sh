#!/bin/bash
# Holds the port against the crate, in one process and on the same inputs: every small one, then inputs at random from SEED, SCALE times as
# many as with 1. The last line is 'N comparisons, M differ'; it fails if M is not 0.
# CRATE_DIR holds the crate's src/; the packages are those of tests/oracle. The device library is proved and built first, unless it is as it was.
# Usage: run.sh CRATE_DIR OUT [SEED] [SCALE]
set -eu
if [ $# -lt 2 ]; then
  echo "usage: $0 CRATE_DIR OUT [SEED] [SCALE]" >&2
  exit 2
fi
here=$(cd "$(dirname "$0")" && pwd)
root=$(cd "$here/../.." && pwd)
crate=$(cd "$1" && pwd)/src
mkdir -p "$2"
out=$(cd "$2" && pwd)
shift 2
. "$here/../oracle/lay_out.sh"
. "$root/scripts/proving.sh"

need rt cargo rustc
build_device
lay_out_crate "$crate" "$out/untouched" nonogrid
lay_out_crate "$crate" "$out/stable" nonogrid_stable
make_stable "$out/stable"
mkdir -p "$out/program"
cp "$here/Cargo.toml" "$out/program/"
add_program "$out/program" "$here/differential.rs"
build_over_library "$out/program" differential
"$out/program/target/release/differential" "$@"
