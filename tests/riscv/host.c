/* What a program for riscv64 calls beside glibc, which the kit has for x86-64 alone. */
#include <errno.h>
#include <stdint.h>

int rattle_errno(void) { return errno; }

/* A program asks as it starts whether an x86-64 processor has what it was compiled for, and ends with 127 where a bit is lacking. On riscv64
 * every such bit is there: what is compiled for riscv64 needs none of them. glibc has the function on x86-64: eight words for each of some numbers. */
const void *__x86_get_cpuid_feature_leaf(unsigned leaf) {
  static const uint32_t all[8] = {UINT32_MAX, UINT32_MAX, UINT32_MAX, UINT32_MAX, UINT32_MAX, UINT32_MAX, UINT32_MAX, UINT32_MAX};
  (void)leaf;
  return all;
}
