# Lays out cargo projects of the crate's own files. To be sourced.
# lay_out_crate CRATE_SRC DIR PACKAGE: the crate as a library of that name.
# lay_out CRATE_SRC DIR PROGRAM.rs: the crate as nonogrid, and the program over it.
# add_program DIR PROGRAM.rs: adds a program to a project; cargo takes other crates from Debian's folder.
# make_stable DIR: the one unstable sort of a crate that is laid out made stable.
# build_over_library DIR PACKAGE: builds the package's program and links it anew with the device library, which cargo does not watch.
oracle=$(cd "$(dirname "${BASH_SOURCE[0]}")" && pwd)
registry=${DEBIAN_CARGO_REGISTRY:-/usr/share/cargo/registry}
crate_files="block.rs block/base.rs block/binary.rs block/multicolor.rs board.rs cache.rs utils.rs solver/line.rs solver/propagation.rs"

lay_out_crate() {
  local from=$1 to=$2 package=$3
  mkdir -p "$to/src/block" "$to/src/solver"
  sed "s/@PACKAGE@/$package/" "$oracle/Cargo.toml" > "$to/Cargo.toml"
  cp "$oracle/lib.rs" "$oracle/solver.rs" "$to/src/"
  for f in $crate_files; do cp "$from/$f" "$to/src/$f"; done
}

lay_out() {
  lay_out_crate "$1" "$2" nonogrid
  add_program "$2" "$3"
}

make_stable() {
  local sorts=$1/src/solver/propagation.rs
  if [ "$(grep -c 'sort_unstable' "$sorts")" -ne 1 ]; then
    echo "$0: $sorts has not exactly one unstable sort" >&2
    exit 1
  fi
  sed -i 's/sort_unstable_by_key(/sort_by_key(/' "$sorts"
}

add_program() {
  printf '\n[[bin]]\nname = "%s"\npath = "%s"\n' "$(basename "$2" .rs)" "$2" >> "$1/Cargo.toml"
  mkdir -p "$1/.cargo"
  cat > "$1/.cargo/config.toml" <<CONFIG
[source.crates-io]
replace-with = "debian"

[source.debian]
directory = "$registry"

[net]
offline = true
CONFIG
}

build_over_library() {
  (
    cd "$1"
    export RUSTFLAGS="-L native=$oracle/../../target/staticlib"
    cargo clean --release --offline -p "$2"
    cargo build --release --offline -j1
  ) >&2
}
