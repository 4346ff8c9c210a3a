#!/bin/bash
# Measures what the device library takes, as docs/DEVICE.md tells it: code and data, what it needs from outside, and each call's code and
# stack. build.sh names the packages.
# Usage: measure.sh OUT
set -eu
if [ $# -ne 1 ]; then
  echo "usage: $0 OUT" >&2
  exit 2
fi
here=$(cd "$(dirname "$0")" && pwd)
root=$(cd "$here/../.." && pwd)
. "$root/scripts/proving.sh"
need rt gcc riscv64-linux-gnu-gcc qemu-riscv64
mkdir -p "$1"
out=$(cd "$1" && pwd)

tell_sections() { # MACHINE FILE
  size -A "$2" | awk -v machine="$1" '
    /^\.text/ { code += $2 }
    /^\.s?rodata/ { fixed += $2 }
    /^\.(s?data|s?bss|tdata|tbss)/ { writable += $2 }
    END { printf "%s: code %d bytes, read-only data %d, writable data %d\n", machine, code, fixed, writable }'
}

"$here/build.sh" "$out"
flags=(-std=c11 -Wall -Wextra -Werror -O2 -I "$root/include" -pthread)
gcc "${flags[@]}" "$here/stack.c" "$root/target/staticlib/libdevice.a" -o "$out/stack-x86_64"
riscv64-linux-gnu-gcc "${flags[@]}" -static "$here/stack.c" "$out/libdevice.a" -o "$out/stack-riscv64"
"$out/stack-x86_64" > "$out/x86_64.stack"
qemu-riscv64 "$out/stack-riscv64" > "$out/riscv64.stack"
riscv64-linux-gnu-nm -S -t d "$out/device.o" > "$out/sizes"
riscv64-linux-gnu-objdump -dr "$out/device.o" > "$out/code"

tell_sections "x86-64" "$root/target/staticlib/libdevice.a"
tell_sections "riscv64" "$out/device.o"
echo "riscv64, needed from outside:" $(riscv64-linux-gnu-nm -u "$out/device.o" | awk '{ print $2 }')
echo
echo "| call | code | stack by frames | stack measured | measured on x86-64 |"
echo "|---|---|---|---|---|"
awk -f "$here/needs.awk" read=frames "$out/device.su" read=sizes "$out/sizes" read=code "$out/code" \
  read=riscv64 "$out/riscv64.stack" read=x86_64 "$out/x86_64.stack"
