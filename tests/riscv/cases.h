// Random cases for compare.c: the lists and numbers that a call is given. Each is made legal, or nearly so, and then spoilt or not.
#ifndef CASES_H
#define CASES_H

#include <stdbool.h>
#include <stdio.h>
#include <stdlib.h>
#include <string.h>

#include "scorepuddle.h"

enum { ARENA = 1 << 22, SIDE = SP_MOST_CELLS, CELLS = SIDE * SIDE, SPARE = SP_MOST_BLOCKS + 4, LISTS = 10, MOST_INKS = 4 };
enum { READ, WRITTEN, WORKING };

typedef struct {
  const char *name;
  int use;
  size_t width, count, room; // bytes of an entry, entries lent, entries that there are
  unsigned char *at;
} list;

// The case at hand: the lists in the order of the call, and its other arguments. The lists lie in the arena, and every byte of it that is in no
// list is random, and watched.
static list lists[LISTS];
static size_t list_count, numbers[4], number_count, used;
static uint32_t blank;
static unsigned char *arena;

// ---- Chance: the same on every machine, since no expression draws twice

static uint64_t state;

static uint64_t draw(void) {
  uint64_t z = state += 0x9e3779b97f4a7c15u;
  z = (z ^ z >> 30) * 0xbf58476d1ce4e5b9u;
  z = (z ^ z >> 27) * 0x94d049bb133111ebu;
  return z ^ z >> 31;
}

static size_t below(size_t n) { return draw() % n; }

static bool one_in(size_t n) { return below(n) == 0; }

static size_t draw_length(void) { return one_in(4) ? 1 + below(6) : 1 + below(SIDE); }

// Mostly small.
static size_t draw_side(void) {
  if (one_in(2)) return 1 + below(6);
  if (!one_in(8)) return 1 + below(20);
  return one_in(2) ? SIDE : 1 + below(SIDE);
}

// A number in the place of another, mostly one that is not allowed.
static size_t odd_number(size_t value) {
  switch (below(6)) {
    case 0:
      return 0;
    case 1:
      return value + 1;
    case 2:
      return SIDE + 1;
    case 3:
      return (size_t)1 << 32;
    case 4:
      return SIZE_MAX;
    default:
      return draw();
  }
}

// ---- Lists

// A list of so many entries of so many bytes, at any place that its type allows, its content dirty.
static void *lend(const char *name, int use, size_t width, size_t count) {
  size_t from = used;
  size_t start = from + 16 + width * below(16 / width);
  size_t end = start + width * (count + SPARE);
  used = (end + 31) / 16 * 16;
  if (used > ARENA || list_count == LISTS) {
    puts("compare: too little memory for a case");
    exit(1);
  }
  for (size_t i = from; i < used; i += 8) {
    uint64_t dirt = draw();
    memcpy(arena + i, &dirt, 8);
  }
  lists[list_count++] = (list){name, use, width, count, count + SPARE, arena + start};
  return arena + start;
}

static void lend_copy(const char *name, const uint32_t *values, size_t count) {
  memcpy(lend(name, READ, 4, count), values, 4 * count);
}

// As much room as is asked, or more.
static void lend_room(const char *name, int use, size_t width, size_t count) {
  size_t more = one_in(2) ? 0 : below(4);
  lend(name, use, width, count + more);
}

static uint64_t entry(const list *l, size_t i) {
  if (l->width == 1) return l->at[i];
  if (l->width == 4) return ((const uint32_t *)l->at)[i];
  return ((const uint64_t *)l->at)[i];
}

// ---- Pictures, their blocks, and cells that show a part of them

static uint32_t inks[MOST_INKS], picture[CELLS], counts[SIDE], sizes[CELLS + SPARE], colours[CELLS + SPARE];
static size_t ink_count;

static void choose_inks(bool black) {
  ink_count = black ? 1 : 1 + below(MOST_INKS);
  for (size_t i = 0; i < ink_count; i++) {
    size_t bit = 1 + below(31);
    inks[i] = black ? 2 : (uint32_t)1 << bit;
  }
}

static uint32_t draw_ink(void) { return inks[below(ink_count)]; }

// Blank is 1. A cell is mostly its left neighbour's.
static void paint(size_t count) {
  size_t ink = 1 + below(4);
  for (size_t i = 0; i < count; i++) {
    if (i > 0 && !one_in(3)) {
      picture[i] = picture[i - 1];
    } else {
      picture[i] = one_in(1 + ink) ? 1 : draw_ink();
    }
  }
}

// Paints a line, and tells its length.
static size_t paint_line(bool black) {
  size_t length = draw_length();
  choose_inks(black);
  paint(length);
  return length;
}

// Paints a board, its sides the first two numbers, and tells how many cells it has.
static size_t paint_board(bool black) {
  numbers[0] = draw_side();
  numbers[1] = draw_side();
  number_count = 2;
  choose_inks(black);
  paint(numbers[0] * numbers[1]);
  return numbers[0] * numbers[1];
}

// Adds the blocks of a line of the picture after those that there are, and tells how many there are then.
static size_t add_blocks(size_t blocks, size_t from, size_t step, size_t length) {
  uint32_t last = 1;
  for (size_t i = 0; i < length; i++) {
    uint32_t code = picture[from + i * step];
    if (code != 1 && code == last) {
      sizes[blocks - 1]++;
    } else if (code != 1) {
      sizes[blocks] = 1;
      colours[blocks++] = code;
    }
    last = code;
  }
  return blocks;
}

// So many blocks of no picture, after those that there are.
static size_t draw_blocks(size_t blocks, size_t more, size_t largest) {
  for (size_t i = blocks; i < blocks + more; i++) {
    sizes[i] = (uint32_t)(1 + below(largest));
    colours[i] = draw_ink();
  }
  return blocks + more;
}

static uint32_t hide_black(uint32_t code, bool open) {
  if (open) return 0;
  return code == 1 ? 1 : 2;
}

static uint32_t hide_colour(uint32_t code, bool open) {
  uint32_t all = 1;
  for (size_t i = 0; i < ink_count; i++) all |= inks[i];
  uint32_t some = (uint32_t)draw() & all;
  if (one_in(200)) return (uint32_t)draw();
  return code | (open ? all : some);
}

// The picture's cells, some of them open.
static uint32_t *lend_cells(const char *name, int use, size_t count, bool black) {
  uint32_t *cells = lend(name, use, 4, count);
  size_t known = one_in(3) ? 1 : 2 + below(8);
  for (size_t i = 0; i < count; i++) {
    bool open = known == 1 || !one_in(known);
    cells[i] = black ? hide_black(picture[i], open) : hide_colour(picture[i], open);
  }
  return cells;
}

static void lend_blocks(const char *size_name, const char *colour_name, size_t blocks, bool black) {
  lend_copy(size_name, sizes, blocks);
  if (!black) lend_copy(colour_name, colours, blocks);
}

// ---- A legal case of each kind of call

static void make_line(bool black) {
  size_t length = paint_line(black);
  size_t any = below(SP_MOST_BLOCKS + 3);
  size_t blocks = one_in(8) ? draw_blocks(0, any, 2) : add_blocks(0, 0, 1, length);
  lend_cells("cells", READ, length, black);
  lend_blocks("sizes", "colours", blocks, black);
  lend_room("memo", WORKING, 1, SP_MEMO_BYTES);
  lend("out", WRITTEN, 4, length);
}

// The counts and blocks of all lines of a direction; now and then the last has more than 64.
static void lend_direction(const char *const names[3], size_t lines, size_t next, size_t step, size_t length, bool black) {
  size_t blocks = 0;
  for (size_t i = 0; i < lines; i++) {
    size_t first = blocks;
    blocks = add_blocks(blocks, i * next, step, length);
    counts[i] = (uint32_t)(blocks - first);
  }
  size_t more = one_in(32) ? SP_MOST_BLOCKS + below(2) : 0;
  blocks = draw_blocks(blocks, more, 1);
  counts[lines - 1] += (uint32_t)more;
  lend_copy(names[0], counts, lines);
  lend_blocks(names[1], names[2], blocks, black);
}

// The room number of the grid.
static size_t room_of(const uint32_t *grid, size_t count, bool black) {
  size_t room = 0;
  for (size_t i = 0; i < count; i++) {
    uint32_t bits = black ? (grid[i] == 0 ? 3 : 1) : grid[i];
    if (bits != 0) room += (size_t)__builtin_popcount(bits) - 1;
  }
  return room;
}

static void make_run(bool black) {
  static const char *const rows[] = {"row_counts", "row_sizes", "row_colours"};
  static const char *const columns[] = {"column_counts", "column_sizes", "column_colours"};
  size_t cells = paint_board(black), width = numbers[0], height = numbers[1];
  size_t room = room_of(lend_cells("grid", WRITTEN, cells, black), cells, black);
  lend_direction(rows, height, width, 1, width, black);
  lend_direction(columns, width, 1, width, height, black);
  lend_room("report", WRITTEN, 4, room > 0 && one_in(32) ? room - 1 : room);
  lend_room("memo", WORKING, 1, SP_MEMO_BYTES);
  lend_room("stack", WORKING, 4, SP_STACK_ENTRIES);
}

static void make_point_run(bool black) {
  make_run(black);
  numbers[2] = below(numbers[0] + 1);
  numbers[3] = below(numbers[1] + 1);
  number_count = 4;
}

// Inks of any codes: one or, half of the time, several.
static void choose_codes(void) {
  ink_count = one_in(2) ? 1 : MOST_INKS;
  for (size_t i = 0; i < ink_count; i++) inks[i] = (uint32_t)draw();
}

// The picture's codes, under any number for blank. The inks of a binary picture are any numbers too, each cell's by itself.
static void lend_codes(size_t count, bool black) {
  if (black) choose_codes();
  blank = one_in(3) ? 1 : (uint32_t)draw();
  uint32_t *codes = lend("codes", READ, 4, count);
  for (size_t i = 0; i < count; i++) {
    uint32_t ink = black ? draw_ink() : picture[i];
    codes[i] = picture[i] == 1 ? blank : ink;
  }
}

static void make_clue(bool black) {
  size_t length = paint_line(black);
  lend_codes(length, black);
  lend_room("sizes", WRITTEN, 4, length);
  if (!black) lend_room("colours", WRITTEN, 4, length);
}

static void make_clues(bool black) {
  size_t cells = paint_board(black);
  lend_codes(cells, black);
  lend_room("row_counts", WRITTEN, 4, numbers[1]);
  lend_room("row_sizes", WRITTEN, 4, cells);
  if (!black) lend_room("row_colours", WRITTEN, 4, cells);
  lend_room("column_counts", WRITTEN, 4, numbers[0]);
  lend_room("column_sizes", WRITTEN, 4, cells);
  if (!black) lend_room("column_colours", WRITTEN, 4, cells);
}

static size_t make_blocks(bool black) {
  choose_inks(black);
  size_t most = one_in(4) ? SP_MOST_BLOCKS + 2 : 20;
  size_t largest = one_in(4) ? UINT32_MAX : 4;
  size_t blocks = draw_blocks(0, below(most + 1), largest);
  lend_blocks("sizes", "colours", blocks, black);
  return blocks;
}

static void make_sums(bool black) { lend_room("sums", WRITTEN, 8, make_blocks(black)); }

static void make_positions(bool black) {
  numbers[0] = 1 + below(SIDE);
  number_count = 1;
  make_blocks(black);
}

static void make_ranges(bool black) {
  numbers[0] = 1 + below(SIDE);
  number_count = 1;
  size_t blocks = make_blocks(black);
  lend_room("out_colours", WRITTEN, 4, blocks);
  lend_room("out_from", WRITTEN, 8, blocks);
  lend_room("out_to", WRITTEN, 8, blocks);
}

// Blocks of any numbers, many of them 0.
static void make_description(bool black) {
  size_t blocks = below(SP_MOST_BLOCKS + 2);
  uint32_t *taken[2] = {lend("sizes", READ, 4, blocks), NULL};
  if (!black) taken[1] = lend("colours", READ, 4, blocks);
  for (size_t i = 0; i < blocks; i++) {
    size_t zeros = below(4);
    if (zeros & 1) taken[0][i] = 0;
    if (!black && zeros & 2) taken[1][i] = 0;
  }
  lend_room("out_sizes", WRITTEN, 4, blocks);
  if (!black) lend_room("out_colours", WRITTEN, 4, blocks);
}

// ---- Pictures as text

static char text[4 * CELLS];
static size_t text_count;

static void add_text(const char *more) {
  size_t count = strlen(more);
  memcpy(text + text_count, more, count);
  text_count += count;
}

// Mostly a space or a line feed.
static void add_space(void) {
  static const char *const spaces[] = {" ", "\n", "\t", "\v", "\f", "\r"};
  add_text(spaces[one_in(3) ? below(6) : below(2)]);
}

// What stands before a size: whitespace, often with comments.
static void add_gap(void) {
  static const char *const comments[] = {"#\n", "# 1 #\r", "#a\r\n#b\n"};
  add_space();
  for (size_t more = below(4); more > 1; more--) {
    if (one_in(2)) add_text(comments[below(3)]);
    add_space();
  }
}

// A size, at times with leading zeros, now and then another.
static void add_size(size_t size) {
  char digits[40];
  int least = one_in(4) ? 1 + (int)below(25) : 1;
  snprintf(digits, sizeof digits, "%0*zu", least, one_in(16) ? odd_number(size) : size);
  add_gap();
  add_text(digits);
}

// The digits of the picture, with whitespace between all of them, between some or between few.
static void add_digits(size_t count) {
  size_t often = 1 + below(8);
  for (size_t i = 0; i < count; i++) {
    add_text(picture[i] == 1 ? "0" : "1");
    if (one_in(often)) add_space();
  }
}

static void make_text(bool black) {
  size_t cells = paint_board(black);
  text_count = number_count = 0;
  add_text("P1");
  add_size(numbers[0]);
  add_size(numbers[1]);
  add_space();
  add_digits(cells);
  memcpy(lend("text", READ, 1, text_count), text, text_count);
  lend_room("codes", WRITTEN, 4, cells);
}

static void make_drawing(bool black) {
  size_t cells = paint_board(black);
  size_t heading = (size_t)snprintf(NULL, 0, "P1\n%zu %zu\n", numbers[0], numbers[1]);
  lend_copy("codes", picture, cells);
  lend_room("text", WRITTEN, 1, heading + cells + numbers[1]);
}

// ---- Illegal cases

// A list that is too short, or too long.
static void spoil_count(list *l) {
  switch (below(4)) {
    case 0:
      l->count = 0;
      return;
    case 1:
      l->count = l->room;
      return;
    case 2:
      l->count += l->count < l->room;
      return;
    default:
      l->count -= l->count > 0;
  }
}

static void spoil_byte(const list *l) {
  static const char odd[] = " \n\r\v#P01257x/:";
  uint8_t byte = (uint8_t)draw();
  if (!one_in(4)) byte = (uint8_t)odd[below(sizeof odd)];
  l->at[below(l->count)] = byte;
}

static void spoil_entry(const list *l) {
  static const uint32_t odd[] = {0, 1, 2, 3, 4, 6, SIDE + 1, 0x7fffffff, 0x80000000, 0xffffffff};
  if (l->width == 1 && l->use == READ && l->count > 0) spoil_byte(l);
  if (l->width != 4 || l->count == 0) return;
  uint32_t value = odd[below(sizeof odd / sizeof *odd)];
  ((uint32_t *)l->at)[below(l->count)] = value;
}

static void spoil_once(void) {
  list *l = &lists[below(list_count)];
  switch (below(number_count > 0 ? 3 : 2)) {
    case 0:
      spoil_count(l);
      return;
    case 1:
      spoil_entry(l);
      return;
    default: {
      size_t *number = &numbers[below(number_count)];
      *number = odd_number(*number);
    }
  }
}

// The case of a call by its number: the same from the same seed, whatever was made before.
static void make_case(void (*make)(bool), bool black, uint64_t seed) {
  state = seed;
  state = draw();
  used = list_count = number_count = blank = 0;
  make(black);
  for (size_t times = below(4); times > 1; times--) spoil_once();
}

#endif
