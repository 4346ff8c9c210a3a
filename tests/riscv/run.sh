#!/bin/bash
# The port on riscv64, compiled from the same modules as for x86-64, under qemu-user: the programs `replay` and `examples` must print what the
# gate holds them to, and COUNT random calls of every call of the device library must leave the same on both machines (compare.c).
# build.sh names the packages. Any difference fails it; 'riscv64: equal' is the last line.
# Usage: run.sh OUT [SEED] [COUNT]
set -eu
if [ $# -lt 1 ] || [ $# -gt 3 ]; then
  echo "usage: $0 OUT [SEED] [COUNT]" >&2
  exit 2
fi
here=$(cd "$(dirname "$0")" && pwd)
root=$(cd "$here/../.." && pwd)
. "$root/scripts/proving.sh"
need rt gcc riscv64-linux-gnu-gcc qemu-riscv64
mkdir -p "$1"
out=$(cd "$1" && pwd)
seed=${2:-7303}
count=${3:-20000}
flags=(-std=c11 -Wall -Wextra -Werror -O2 -I "$root/include")

# Runs a program on its own stdin, args and data/, and holds what it prints to its stdout.
run_program() { # NAME
  local dir=$root/crates/$1 room=$out/data input=/dev/null words=()
  riscv64-linux-gnu-gcc "${flags[@]}" -static "$here/host.c" "$out/$1.o" -o "$out/$1"
  rm -rf "$room"
  mkdir "$room"
  if [ -d "$dir/data" ]; then cp -R "$dir/data/." "$room/"; fi
  if [ -f "$dir/args" ]; then mapfile -t words < "$dir/args"; fi
  if [ -f "$dir/stdin" ]; then input=$dir/stdin; fi
  (cd "$room" && qemu-riscv64 "$out/$1" "${words[@]}" < "$input") > "$out/$1.stdout"
  cmp "$out/$1.stdout" "$dir/stdout"
  echo "$1: prints its file stdout, $(wc -l < "$dir/stdout") lines"
}

# Keeps what compare.c tells on a machine; what it finds wrong there is its last line.
told() { # MACHINE COMMAND
  local file=$out/$1.told
  say "$count calls of each on $1"
  shift
  if ! "$@" "$seed" "$count" > "$file"; then
    tail -n 1 "$file"
    exit 1
  fi
}

# Every call that the library exports, and no other, is compared.
check_names() {
  riscv64-linux-gnu-nm "$out/libdevice.a" | awk '$2 == "T" { print $3 }' | sort > "$out/exported"
  awk '{ print $1 }' "$out/riscv64.told" | sort > "$out/compared"
  diff "$out/exported" "$out/compared"
}

compare_calls() {
  gcc "${flags[@]}" "$here/compare.c" "$root/target/staticlib/libdevice.a" -o "$out/compare-x86_64"
  riscv64-linux-gnu-gcc "${flags[@]}" -static "$here/compare.c" "$out/libdevice.a" -o "$out/compare-riscv64"
  told x86_64 "$out/compare-x86_64"
  told riscv64 qemu-riscv64 "$out/compare-riscv64"
  if ! diff "$out/x86_64.told" "$out/riscv64.told"; then
    echo "riscv64: DIFFERENT; to find the case: $out/compare-x86_64 $seed $count CALL [CASE], and qemu-riscv64 $out/compare-riscv64 likewise"
    exit 1
  fi
  check_names
  cat "$out/riscv64.told"
}

"$here/build.sh" "$out" replay examples
run_program replay
run_program examples
compare_calls
echo "riscv64: equal, $count calls of each from seed $seed"
