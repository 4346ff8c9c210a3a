// Makes random calls of every call of the device library and prints what they leave. Run on two machines from one seed, the outputs must be
// equal. On each machine alone it fails where a byte changes that the call may not write (around each list lie others that are watched), where
// a refusal other than 8 changes anything or tells more than its number, and where a call answers a number that its header does not list, or
// never answers one that it does.
// Usage: compare SEED COUNT              a line for each call: how often it answered each number, and a checksum of all that it left
//        compare SEED COUNT CALL         a line for each case of one call: the number and the checksum
//        compare SEED COUNT CALL CASE    one case in whole: the lists before the call, the answer, the lists after it
#include "cases.h"

typedef struct {
  uint32_t number, line_kind;
  uint64_t values[3];
} answer;

static answer of_number(uint32_t number) { return (answer){number, 0, {0, 0, 0}}; }
static answer of_count(sp_count c) { return (answer){c.number, 0, {c.count, 0, 0}}; }
static answer of_positions(sp_positions p) { return (answer){p.number, 0, {p.positions, 0, 0}}; }
static answer of_clues(sp_clues_answer c) { return (answer){c.number, 0, {c.rows, c.columns, 0}}; }
static answer of_pbm(sp_pbm_answer p) { return (answer){p.number, 0, {p.width, p.height, 0}}; }
static answer of_run(sp_run_answer r) { return (answer){r.number, r.line_kind, {r.line_index, r.entries, r.lines}}; }

// ---- The calls, with the case's lists (W of 32-bit numbers, D of 64-bit numbers, B of bytes) and numbers (N)

#define N(i) numbers[i]
#define W(i) (uint32_t *)lists[i].at, lists[i].count
#define D(i) (uint64_t *)lists[i].at, lists[i].count
#define B(i) lists[i].at, lists[i].count
#define CALL(of, name, ...) \
  static answer call_##name(void) { return of(name(__VA_ARGS__)); }

CALL(of_number, sp_solve_line, W(0), W(1), W(2), B(3), W(4))
CALL(of_number, sp_solve_binary_line, W(0), W(1), B(2), W(3))
CALL(of_run, sp_run, N(0), N(1), W(0), W(1), W(2), W(3), W(4), W(5), W(6), W(7), B(8), W(9))
CALL(of_run, sp_run_point, N(0), N(1), N(2), N(3), W(0), W(1), W(2), W(3), W(4), W(5), W(6), W(7), B(8), W(9))
CALL(of_run, sp_run_binary, N(0), N(1), W(0), W(1), W(2), W(3), W(4), W(5), B(6), W(7))
CALL(of_run, sp_run_binary_point, N(0), N(1), N(2), N(3), W(0), W(1), W(2), W(3), W(4), W(5), B(6), W(7))
CALL(of_count, sp_clue, W(0), blank, W(1), W(2))
CALL(of_count, sp_binary_clue, W(0), blank, W(1))
CALL(of_clues, sp_clues, N(0), N(1), W(0), blank, W(1), W(2), W(3), W(4), W(5), W(6))
CALL(of_clues, sp_binary_clues, N(0), N(1), W(0), blank, W(1), W(2), W(3), W(4))
CALL(of_pbm, sp_read_pbm, B(0), W(1))
CALL(of_count, sp_write_pbm, N(0), N(1), W(0), B(1))
CALL(of_count, sp_partial_sums, W(0), W(1), D(2))
CALL(of_count, sp_binary_partial_sums, W(0), D(1))
CALL(of_count, sp_block_starts, W(0), W(1), D(2))
CALL(of_count, sp_binary_block_starts, W(0), D(1))
CALL(of_count, sp_color_ranges, N(0), W(0), W(1), W(2), D(3), D(4))
CALL(of_count, sp_description, W(0), W(1), W(2), W(3))
CALL(of_count, sp_binary_description, W(0), W(1))
CALL(of_positions, sp_positions_number, N(0), W(0), W(1))
CALL(of_positions, sp_binary_positions_number, N(0), W(0))

#define COLOURED(name, make, numbers) {#name, numbers, make, false, call_##name}
#define BINARY(name, make, numbers) {#name, numbers, make, true, call_##name}

// Each with the numbers that it answers.
static const struct {
  const char *name, *numbers;
  void (*make)(bool black);
  bool black;
  answer (*call)(void);
} calls[] = {
    COLOURED(sp_solve_line, make_line, "0 1 2 3 4 8"),
    BINARY(sp_solve_binary_line, make_line, "0 1 2 3 4 5 8"),
    COLOURED(sp_run, make_run, "0 1 2 3 4 7 8"),
    COLOURED(sp_run_point, make_point_run, "0 1 2 3 4 6 7 8"),
    BINARY(sp_run_binary, make_run, "0 1 2 3 4 5 7 8"),
    BINARY(sp_run_binary_point, make_point_run, "0 1 2 3 4 5 6 7 8"),
    COLOURED(sp_clue, make_clue, "0 1 2 9"),
    BINARY(sp_binary_clue, make_clue, "0 1 2"),
    COLOURED(sp_clues, make_clues, "0 1 2 9"),
    BINARY(sp_binary_clues, make_clues, "0 1 2"),
    BINARY(sp_read_pbm, make_text, "0 1 2 11"),
    BINARY(sp_write_pbm, make_drawing, "0 1 2 9"),
    COLOURED(sp_partial_sums, make_sums, "0 2 3 4"),
    BINARY(sp_binary_partial_sums, make_sums, "0 2 3 4"),
    COLOURED(sp_block_starts, make_sums, "0 2 3 4"),
    BINARY(sp_binary_block_starts, make_sums, "0 2 3 4"),
    COLOURED(sp_color_ranges, make_ranges, "0 1 2 3 4 10"),
    COLOURED(sp_description, make_description, "0 2 3"),
    BINARY(sp_binary_description, make_description, "0 2 3"),
    COLOURED(sp_positions_number, make_positions, "0 1 2 3 4 10"),
    BINARY(sp_binary_positions_number, make_positions, "0 1 3 4 10"),
};

enum { CALLS = sizeof calls / sizeof *calls, MOST_NUMBER = SP_BAD_TEXT };

// ---- What a case leaves

static unsigned char *before;

static void fail(size_t call, uint64_t number, const char *what) {
  printf("%s, case %llu: %s\n", calls[call].name, (unsigned long long)number, what);
  exit(1);
}

static uint64_t add(uint64_t sum, uint64_t value) {
  sum = (sum ^ value) * 0x9e3779b97f4a7c15u;
  return sum ^ sum >> 29;
}

static uint64_t add_list(uint64_t sum, const list *l) {
  sum = add(sum, l->count);
  for (size_t i = 0; i < l->count; i++) sum = add(sum, entry(l, i));
  return sum;
}

static bool solved(answer a) { return a.number == SP_DONE || a.number == SP_UNSOLVABLE; }

// Over the answer and every list in whole, but for working memory where the call leaves it open.
static uint64_t checksum(answer a) {
  uint64_t sum = add(add(1, a.number), a.line_kind);
  for (size_t i = 0; i < 3; i++) sum = add(sum, a.values[i]);
  for (size_t i = 0; i < list_count; i++) {
    if (lists[i].use != WORKING || !solved(a)) sum = add_list(sum, &lists[i]);
  }
  return sum;
}

// Whether all is as it was but for what the call may write: nothing at a refusal by checking.
static bool kept(answer a) {
  for (size_t i = 0; i < list_count; i++) {
    const list *l = &lists[i];
    if (solved(a) && l->use != READ) memcpy(before + (l->at - arena), l->at, l->width * l->count);
  }
  return memcmp(before, arena, used) == 0;
}

static bool bare(answer a) {
  return a.line_kind == 0 && a.values[0] == 0 && a.values[1] == 0 && a.values[2] == 0;
}

// Makes the case and the call.
static answer try_case(size_t call, uint64_t seed, uint64_t number) {
  make_case(calls[call].make, calls[call].black, add(add(seed, call), number));
  memcpy(before, arena, used);
  answer a = calls[call].call();
  if (!kept(a)) fail(call, number, "memory was changed that the call may not write");
  bool run = calls[call].make == make_run || calls[call].make == make_point_run;
  bool lineless = run && a.number != SP_UNSOLVABLE;
  if (lineless && a.line_kind != SP_NO_LINE) fail(call, number, "a line is told that did not refuse");
  if (lineless) a.line_kind = 0;
  if (!solved(a) && !bare(a)) fail(call, number, "a refusal tells more than its number");
  return a;
}

// ---- Telling

static void tell_entries(const list *l) {
  for (size_t i = 0; i < l->count; i++) printf(" %llu", (unsigned long long)entry(l, i));
}

// Working memory by its checksum alone.
static void tell_lists(const char *when) {
  for (size_t i = 0; i < list_count; i++) {
    const list *l = &lists[i];
    printf("%s, %s, %zu:", l->name, when, l->count);
    if (l->use == WORKING) printf(" checksum %016llx", (unsigned long long)add_list(0, l));
    if (l->use != WORKING) tell_entries(l);
    putchar('\n');
  }
}

static void tell_case(size_t call, uint64_t seed, uint64_t number) {
  make_case(calls[call].make, calls[call].black, add(add(seed, call), number));
  printf("numbers:");
  for (size_t i = 0; i < number_count; i++) printf(" %zu", numbers[i]);
  printf("\nblank: %lu\n", (unsigned long)blank);
  tell_lists("before");
  answer a = calls[call].call();
  printf("answer: %lu %lu", (unsigned long)a.number, (unsigned long)a.line_kind);
  for (size_t i = 0; i < 3; i++) printf(" %llu", (unsigned long long)a.values[i]);
  putchar('\n');
  tell_lists("after");
}

static void tell_cases(size_t call, uint64_t seed, uint64_t count) {
  for (uint64_t i = 0; i < count; i++) {
    answer a = try_case(call, seed, i);
    printf("%llu: %lu %016llx\n", (unsigned long long)i, (unsigned long)a.number, (unsigned long long)checksum(a));
  }
}

// The numbers that the call was seen to answer, in the form of its table.
static void check_numbers(size_t call, const uint64_t seen[]) {
  char text[40] = "";
  for (int i = 0; i <= MOST_NUMBER; i++) {
    size_t end = strlen(text);
    if (seen[i] > 0) snprintf(text + end, sizeof text - end, end == 0 ? "%d" : " %d", i);
  }
  if (strcmp(text, calls[call].numbers) != 0) {
    printf("%s: the numbers answered are %s, those of the header %s\n", calls[call].name, text, calls[call].numbers);
    exit(1);
  }
}

static void tell_call(size_t call, uint64_t seed, uint64_t count) {
  uint64_t sum = 0, seen[MOST_NUMBER + 1] = {0};
  for (uint64_t i = 0; i < count; i++) {
    answer a = try_case(call, seed, i);
    if (a.number > MOST_NUMBER) fail(call, i, "the number is none of the header's");
    seen[a.number]++;
    sum = add(sum, checksum(a));
  }
  printf("%s %016llx", calls[call].name, (unsigned long long)sum);
  for (int i = 0; i <= MOST_NUMBER; i++) {
    if (seen[i] > 0) printf(" %d:%llu", i, (unsigned long long)seen[i]);
  }
  putchar('\n');
  check_numbers(call, seen);
}

int main(int argc, char **argv) {
  if (argc < 3 || argc > 5) {
    fputs("usage: compare SEED COUNT [CALL [CASE]]\n", stderr);
    return 2;
  }
  uint64_t seed = strtoull(argv[1], NULL, 10), count = strtoull(argv[2], NULL, 10);
  arena = malloc(ARENA);
  before = malloc(ARENA);
  if (arena == NULL || before == NULL) return 1;
  for (size_t call = 0; call < CALLS; call++) {
    if (argc == 3) {
      fprintf(stderr, "  %s\n", calls[call].name);
      tell_call(call, seed, count);
    } else if (strcmp(calls[call].name, argv[3]) == 0) {
      if (argc == 4) tell_cases(call, seed, count);
      if (argc == 5) tell_case(call, seed, strtoull(argv[4], NULL, 10));
    }
  }
  return 0;
}
