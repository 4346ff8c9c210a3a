// How much stack each call takes, a line for each. Just before a call the stack below is filled with a pattern, and how far down the call went
// is where the pattern has changed. Lines, runs and blocks are tried with every number of equal blocks that fits 64 open cells, in a run for
// all 64 rows and columns, so that the recursion goes as deep as it can; clues and texts with such a picture of 64 by 64.
#define _XOPEN_SOURCE 700
#include <pthread.h>
#include <stdio.h>
#include <stdlib.h>
#include <string.h>

#include "scorepuddle.h"

enum { STACK = 1 << 17, PATTERN = 0xa5, LENGTH = SP_MOST_CELLS, CELLS = LENGTH * LENGTH };

static uint32_t cells[CELLS], codes[CELLS], counts[LENGTH], sizes[CELLS], colours[CELLS], out[LENGTH], report[CELLS], lines[SP_STACK_ENTRIES];
static uint32_t row_counts[LENGTH], row_sizes[CELLS], row_colours[CELLS], column_counts[LENGTH], column_sizes[CELLS], column_colours[CELLS];
static uint64_t wide[LENGTH], wider[LENGTH];
static uint8_t memo[SP_MEMO_BYTES], text[SP_PBM_BYTES], *stack;
static size_t depth;

// ---- The stack below

static inline __attribute__((always_inline)) volatile uint8_t *stack_pointer(void) {
  volatile uint8_t *at;
#ifdef __riscv
  __asm__ volatile("mv %0, sp" : "=r"(at));
#else
  __asm__ volatile("mov %%rsp, %0" : "=r"(at));
#endif
  return at;
}

static inline __attribute__((always_inline)) void fill(void) {
  volatile uint8_t *top = stack_pointer();
  for (volatile uint8_t *p = stack; p < top; p++) *p = PATTERN;
}

static inline __attribute__((always_inline)) void scan(void) {
  volatile uint8_t *top = stack_pointer(), *p = stack;
  while (p < top && *p == PATTERN) p++;
  if ((size_t)(top - p) > depth) depth = (size_t)(top - p);
}

// ---- The calls, on so many blocks in each line

#define CARD_ROW counts, LENGTH, sizes, LENGTH *count
#define COLOURS colours, LENGTH *count
#define MEMORY memo, SP_MEMO_BYTES, lines, SP_STACK_ENTRIES
#define BLOCKS sizes, count, colours, count
#define PROBE(number, name, ...)              \
  static uint32_t probe_##name(size_t count) { \
    (void)count;                              \
    fill();                                   \
    uint32_t told = name(__VA_ARGS__) number; \
    scan();                                   \
    return told;                              \
  }

PROBE(, sp_solve_line, cells, LENGTH, BLOCKS, memo, SP_MEMO_BYTES, out, LENGTH)
PROBE(, sp_solve_binary_line, cells, LENGTH, sizes, count, memo, SP_MEMO_BYTES, out, LENGTH)
PROBE(.number, sp_run, LENGTH, LENGTH, cells, CELLS, CARD_ROW, COLOURS, CARD_ROW, COLOURS, report, CELLS, MEMORY)
PROBE(.number, sp_run_point, LENGTH, LENGTH, 0, 0, cells, CELLS, CARD_ROW, COLOURS, CARD_ROW, COLOURS, report, CELLS, MEMORY)
PROBE(.number, sp_run_binary, LENGTH, LENGTH, cells, CELLS, CARD_ROW, CARD_ROW, report, CELLS, MEMORY)
PROBE(.number, sp_run_binary_point, LENGTH, LENGTH, 0, 0, cells, CELLS, CARD_ROW, CARD_ROW, report, CELLS, MEMORY)
PROBE(.number, sp_clue, codes, LENGTH, 1, row_sizes, CELLS, row_colours, CELLS)
PROBE(.number, sp_binary_clue, codes, LENGTH, 1, row_sizes, CELLS)
PROBE(.number, sp_clues, LENGTH, LENGTH, codes, CELLS, 1, row_counts, LENGTH, row_sizes, CELLS, row_colours, CELLS, column_counts, LENGTH,
      column_sizes, CELLS, column_colours, CELLS)
PROBE(.number, sp_binary_clues, LENGTH, LENGTH, codes, CELLS, 1, row_counts, LENGTH, row_sizes, CELLS, column_counts, LENGTH, column_sizes,
      CELLS)
PROBE(.number, sp_read_pbm, text, SP_PBM_BYTES, codes, CELLS)
PROBE(.number, sp_write_pbm, LENGTH, LENGTH, codes, CELLS, text, SP_PBM_BYTES)
PROBE(.number, sp_partial_sums, BLOCKS, wide, LENGTH)
PROBE(.number, sp_binary_partial_sums, sizes, count, wide, LENGTH)
PROBE(.number, sp_block_starts, BLOCKS, wide, LENGTH)
PROBE(.number, sp_binary_block_starts, sizes, count, wide, LENGTH)
PROBE(.number, sp_color_ranges, LENGTH, BLOCKS, out, LENGTH, wide, LENGTH, wider, LENGTH)
PROBE(.number, sp_description, BLOCKS, out, LENGTH, row_colours, LENGTH)
PROBE(.number, sp_binary_description, sizes, count, out, LENGTH)
PROBE(.number, sp_positions_number, LENGTH, BLOCKS)
PROBE(.number, sp_binary_positions_number, LENGTH, sizes, count)

// Each with the number of an open cell, and whether its lines may have no placement together.
#define ENTRY(name, open, may_refuse) {#name, probe_##name, open, may_refuse}

static const struct call {
  const char *name;
  uint32_t (*probe)(size_t count);
  uint32_t open, may_refuse;
} calls[] = {
    ENTRY(sp_solve_line, 3, 0),
    ENTRY(sp_solve_binary_line, 0, 0),
    ENTRY(sp_run, 3, 1),
    ENTRY(sp_run_point, 3, 1),
    ENTRY(sp_run_binary, 0, 1),
    ENTRY(sp_run_binary_point, 0, 1),
    ENTRY(sp_clue, 0, 0),
    ENTRY(sp_binary_clue, 0, 0),
    ENTRY(sp_clues, 0, 0),
    ENTRY(sp_binary_clues, 0, 0),
    ENTRY(sp_read_pbm, 0, 0),
    ENTRY(sp_write_pbm, 0, 0),
    ENTRY(sp_partial_sums, 0, 0),
    ENTRY(sp_binary_partial_sums, 0, 0),
    ENTRY(sp_block_starts, 0, 0),
    ENTRY(sp_binary_block_starts, 0, 0),
    ENTRY(sp_color_ranges, 0, 0),
    ENTRY(sp_description, 0, 0),
    ENTRY(sp_binary_description, 0, 0),
    ENTRY(sp_positions_number, 0, 0),
    ENTRY(sp_binary_positions_number, 0, 0),
};

// Open cells, so many blocks of one size in each line, and a picture of such blocks, as codes and as text.
static void prepare(const struct call *call, uint32_t size, uint32_t count) {
  for (size_t i = 0; i < CELLS; i++) {
    cells[i] = call->open;
    sizes[i] = size;
    colours[i] = 2;
    codes[i] = i % LENGTH % (size + 1) < size ? 2 : 1;
  }
  for (size_t i = 0; i < LENGTH; i++) counts[i] = count;
  sp_write_pbm(LENGTH, LENGTH, codes, CELLS, text, SP_PBM_BYTES);
  memset(memo, PATTERN, SP_MEMO_BYTES);
}

static void try_blocks(const struct call *call, uint32_t size, uint32_t count) {
  prepare(call, size, count);
  uint32_t number = call->probe(count);
  if (number != SP_DONE && (number != SP_UNSOLVABLE || !call->may_refuse)) {
    printf("%s: %u blocks of %u were answered with %u\n", call->name, count, size, number);
    exit(1);
  }
}

static void try_call(const struct call *call) {
  depth = 0;
  for (uint32_t size = 1; size <= LENGTH; size++) {
    for (uint32_t count = 0; count * (size + 1) <= LENGTH + 1; count++) try_blocks(call, size, count);
  }
  printf("%s %zu\n", call->name, depth);
}

static void *try_calls(void *unused) {
  for (size_t i = 0; i < sizeof calls / sizeof *calls; i++) try_call(&calls[i]);
  return unused;
}

int main(void) {
  pthread_attr_t attributes;
  pthread_t thread;
  stack = aligned_alloc(4096, STACK);
  if (stack == NULL || pthread_attr_init(&attributes) || pthread_attr_setstack(&attributes, stack, STACK) ||
      pthread_create(&thread, &attributes, try_calls, NULL) || pthread_join(thread, NULL)) {
    puts("stack: no thread");
    return 1;
  }
  free(stack);
  return 0;
}
