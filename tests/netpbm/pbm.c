// Answers requests for the two calls on plain PBM, for compare.py. A request is a line of numbers and so is its answer, in the form of the
// sample that tests/vectors/make_pbm.py makes:
//   20 ROOM COUNT byte ..                NUMBER WIDTH HEIGHT COUNT code ..
//   21 WIDTH HEIGHT ROOM COUNT code ..   NUMBER COUNT byte ..
// 64 entries before and after each list are watched, and so are the list that is read and the entries after those written: where any of
// them changes, the answer ends with 'spoilt'.
#include <inttypes.h>
#include <stdbool.h>
#include <stdio.h>
#include <stdlib.h>
#include <string.h>

#include "scorepuddle.h"

enum { READ = 20, WRITE = 21, AROUND = 64, MOST = 1 << 14, ALL = MOST + 2 * AROUND };

// The text and the codes, each with what lies around it, and as they were before the call; and how many entries of each are lent.
static uint8_t text[ALL], text_before[ALL];
static uint32_t codes[ALL], codes_before[ALL];
static size_t text_count, codes_count;

static uint32_t state = 7313;

static uint32_t draw(void) {
  state ^= state << 13;
  state ^= state >> 17;
  return state ^= state << 5;
}

// The next number of the requests.
static size_t take(void) {
  size_t number;
  if (scanf("%zu", &number) == 1) return number;
  fputs("a request is cut short\n", stderr);
  exit(2);
}

// The next number, which counts the entries of a list.
static size_t take_count(void) {
  size_t count = take();
  if (count <= MOST) return count;
  fputs("a list is too long\n", stderr);
  exit(2);
}

// Fills the text and what lies around it: with what could be a part of it where it is read, else with anything.
static void fill_text(bool reading) {
  for (size_t i = 0; i < text_count + 2 * AROUND; i++) text[i] = reading ? "01 \n#P"[draw() % 6] : (uint8_t)draw();
}

// The same of the codes, which are read where a picture is written.
static void fill_codes(bool reading) {
  for (size_t i = 0; i < codes_count + 2 * AROUND; i++) codes[i] = reading ? 1 + draw() % 2 : draw();
}

static void take_text(void) {
  for (size_t i = 0; i < text_count; i++) text[AROUND + i] = take();
}

static void take_codes(void) {
  for (size_t i = 0; i < codes_count; i++) codes[AROUND + i] = take();
}

// Keeps both lists as they are before the call.
static void keep(void) {
  memcpy(text_before, text, (text_count + 2 * AROUND) * sizeof *text);
  memcpy(codes_before, codes, (codes_count + 2 * AROUND) * sizeof *codes);
}

// Whether a list and what lies around it are as they were, but for the entries written at its front.
static bool stayed(const void *now, const void *before, size_t width, size_t count, size_t written) {
  size_t front = AROUND * width, rest = front + written * width, end = (count + 2 * AROUND) * width;
  return memcmp(now, before, front) == 0 && memcmp((const char *)now + rest, (const char *)before + rest, end - rest) == 0;
}

// Ends an answer, and tells whether memory is as it must be.
static void finish(size_t bytes_written, size_t codes_written) {
  bool same = stayed(text, text_before, sizeof *text, text_count, bytes_written);
  same = stayed(codes, codes_before, sizeof *codes, codes_count, codes_written) && same;
  puts(same ? "" : " spoilt");
}

static void answer_read(void) {
  codes_count = take_count();
  text_count = take_count();
  fill_codes(false);
  fill_text(true);
  take_text();
  keep();
  sp_pbm_answer answer = sp_read_pbm(text + AROUND, text_count, codes + AROUND, codes_count);
  size_t cells = answer.number == 0 ? answer.width * answer.height : 0;
  size_t written = cells <= codes_count ? cells : 0;
  printf("%" PRIu32 " %zu %zu %zu", answer.number, answer.width, answer.height, cells);
  for (size_t i = 0; i < written; i++) printf(" %" PRIu32, codes[AROUND + i]);
  finish(0, written);
}

static void answer_write(void) {
  size_t width = take(), height = take();
  text_count = take_count();
  codes_count = take_count();
  fill_text(false);
  fill_codes(true);
  take_codes();
  keep();
  sp_count answer = sp_write_pbm(width, height, codes + AROUND, codes_count, text + AROUND, text_count);
  size_t written = answer.count <= text_count ? answer.count : 0;
  printf("%" PRIu32 " %zu", answer.number, answer.count);
  for (size_t i = 0; i < written; i++) printf(" %d", text[AROUND + i]);
  finish(written, 0);
}

int main(void) {
  size_t call;
  setvbuf(stdout, NULL, _IOLBF, BUFSIZ); // a call that crashes is the first without an answer
  while (scanf("%zu", &call) == 1) {
    if (call == READ) {
      answer_read();
    } else if (call == WRITE) {
      answer_write();
    } else {
      fputs("no such call\n", stderr);
      return 2;
    }
  }
  return 0;
}
