#!/bin/bash
# Proves the device library, and the programs that are named, and builds them for riscv64 from the same modules as for x86-64:
# OUT/libdevice.a and, for each program, OUT/PROGRAM.o. What x86-64 gets is left under target/ as always.
# It needs the Rattle kit alone. To link and run: gcc-riscv64-linux-gnu, libc6-dev-riscv64-cross, qemu-user.
# Usage: build.sh OUT [PROGRAM ...]
set -eu
if [ $# -lt 1 ]; then
  echo "usage: $0 OUT [PROGRAM ...]" >&2
  exit 2
fi
here=$(cd "$(dirname "$0")" && pwd)
root=$(cd "$here/../.." && pwd)
. "$root/scripts/proving.sh"
need rt
kit=$(cd "$(dirname "$(readlink -f "$(command -v rt)")")/.." && pwd)
mkdir -p "$1"
out=$(cd "$1" && pwd)
shift
tools=$out/kit/toolchain

# What was made by another compiler than the one to come is made anew.
sed -e "s,@KIT@,$kit,g" -e "s,@OUT@,$out,g" "$here/compiler.sh" > "$out/compiler.new"
if ! cmp -s "$out/compiler.new" "$out/compiler"; then rm -f "$out"/*.sum; fi
mv "$out/compiler.new" "$out/compiler"

# Links all of a folder but what is named.
link_all() { # FOLDER TO NAME ...
  local from=$1 to=$2 file
  shift 2
  mkdir -p "$to"
  for file in "$from"/*; do
    case " $* " in
    *" ${file##*/} "*) ;;
    *) ln -s "$file" "$to/" ;;
    esac
  done
}

# A second home for rt: links into the kit, but for the compiler. rt takes for its kit what its own two files lie in, so these are copies. It
# goes again at the end, since rt ci refuses a checkout with links in it, and so does what rt notes beside its kit.
leave_home() { rm -rf "$out/kit" "$out/rattle-kept"; }
trap leave_home EXIT
leave_home
link_all "$kit" "$out/kit" bin toolchain
link_all "$kit/bin" "$out/kit/bin" rt rtlib.py
link_all "$kit/toolchain" "$tools" bin
link_all "$kit/toolchain/bin" "$tools/bin" clang
cp "$kit/bin/rt" "$kit/bin/rtlib.py" "$out/kit/bin/"
cp "$out/compiler" "$tools/bin/clang"
chmod +x "$tools/bin/clang"

# Runs rt on a crate, and keeps under a name what the compiler made: the module for both machines, the object and the frames.
build() { # CRATE VERB NAME
  local part
  rm -f "$out"/module.* "$out/$3".*
  # A program that rt has proved already is not compiled again: it is told to forget that.
  rm -f "$root/crates/$1/out/$1.stamp"
  PATH=$out/kit/bin:$PATH run_rt "$1" "$2" || return
  for part in x86_64.ll riscv64.ll o su; do mv "$out/module.$part" "$out/$3.$part" || return; done
}

build_device
build_once device_c "$out/device.o" build device_c lib device
rm -f "$out/libdevice.a"
"$tools/bin/llvm-ar" rcs "$out/libdevice.a" "$out/device.o"
for program in "$@"; do
  build_program "$program"
  build_once "$program" "$out/$program.o" build "$program" run "$program"
done
