#!/bin/bash
# Builds the oracle from the crate's own sources, twice: OUT/driver-untouched, and OUT/driver-stable, in which the one unstable
# sort of propagation.rs is made stable. CRATE_DIR holds the crate's src/. README.md names the packages that this needs.
# Usage: build.sh CRATE_DIR OUT
set -eu
if [ $# -ne 2 ]; then
  echo "usage: $0 CRATE_DIR OUT" >&2
  exit 2
fi
here=$(cd "$(dirname "$0")" && pwd)
crate=$(cd "$1" && pwd)/src
mkdir -p "$2"
out=$(cd "$2" && pwd)
. "$here/lay_out.sh"

for kind in untouched stable; do
  work=$out/build-$kind
  lay_out "$crate" "$work" "$here/driver.rs"
  if [ $kind = stable ]; then make_stable "$work"; fi
  (cd "$work" && cargo build --release --offline -j1)
  cp "$work/target/release/driver" "$out/driver-$kind"
done
