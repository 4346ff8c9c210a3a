#!/bin/sh
# The kit's compiler, which also compiles the module that it is handed for riscv64. @KIT@ and @OUT@ are filled in by build.sh.
# The x86-64 object is made as asked. From the same module, with the triple, the data layout and the processor of RISC-V, @OUT@/module.o is
# made, with the same options but the one that is x86-64's alone, and @OUT@/module.su, its functions' frames. docs/DEVICE.md says why no more
# than the 32-bit results and arguments has to change.
real=@KIT@/toolchain/bin/clang
module=
for word in "$@"; do case $word in *.bc) module=$word ;; esac; done
if [ -n "$module" ]; then
  "$real" --target=x86_64-unknown-linux-gnu --no-default-config -x ir "$module" -S -emit-llvm -O0 -Xclang -disable-llvm-passes \
    -o "@OUT@/module.x86_64.ll" || exit 1
  sed -E \
    -e 's/^target datalayout = .*/target datalayout = "e-m:e-p:64:64-i64:64-i128:128-n32:64-S128"/' \
    -e 's/^target triple = .*/target triple = "riscv64-unknown-linux-gnu"/' \
    -e 's/"target-cpu"="x86-64-v2"/"target-cpu"="generic-rv64"/' \
    -e '/^define internal/!s/^define (noundef )?i32 @/define signext \1i32 @/' \
    -e '/@(read|write|__write|lseek|__sysv_signal|__xpg_strerror_r)\(/s/([(,] ?)i32 /\1i32 signext /g' \
    "@OUT@/module.x86_64.ll" > "@OUT@/module.riscv64.ll" || exit 1
  "$real" --target=riscv64-unknown-linux-gnu -march=rv64gc -mabi=lp64d -ffunction-sections -fdata-sections \
    -mllvm -trap-unreachable -mllvm -no-trap-after-noreturn -mllvm -disable-machine-licm -mllvm -disable-postra-machine-licm \
    -mllvm -sink-common-insts=false --no-default-config -no-canonical-prefixes -Werror -fstack-usage \
    -c -x ir "@OUT@/module.riscv64.ll" -o "@OUT@/module.o" -fPIC -O3 || exit 1
fi
exec "$real" "$@"
