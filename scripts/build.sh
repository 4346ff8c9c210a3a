#!/bin/bash
# Proves and builds what is named, unless it is as it was. device is the library for C and Rust, target/staticlib/libdevice.a, which programs
# are linked with (C programs are compiled with include/); any other name is a program's, target/bin/NAME. All is for x86-64. It needs the
# Rattle kit alone; how far it is stands on standard error.
# Usage: build.sh NAME ...
set -eu
if [ $# -eq 0 ]; then
  echo "usage: $0 NAME ..." >&2
  exit 2
fi
root=$(cd "$(dirname "$0")/.." && pwd)
. "$root/scripts/proving.sh"

need rt
for name; do
  if [ "$name" = device ]; then
    build_device
  elif [ -f "$root/crates/$name/src/main.rt" ]; then
    build_program "$name"
  else
    say "$name is neither device nor a program"
    exit 2
  fi
done
