/* A black card, as a device would play it: a picture read from a text, its clues, a row in two inks, a full run, a right mark, a wrong
 * mark, a refusal, and the solved board written as a text.
 *
 * Build: scripts/build.sh device, then cc -I include examples/c/solve_card.c target/staticlib/libdevice.a */
#include <stdio.h>
#include <string.h>

#include "scorepuddle.h"

enum { WIDTH = 5, HEIGHT = 5, CELLS = WIDTH * HEIGHT };
enum { OPEN = 0, WHITE = 1, BLACK = 2, PEN = 3 };

/* All memory is the program's own: the library allocates nothing and keeps nothing. Memo and stack may hold anything before a call, so
 * one of each serves every call. */
static uint8_t memo[SP_MEMO_BYTES];
static uint32_t stack[SP_STACK_ENTRIES];

/* A card's clues: how many blocks each line has, and all blocks, line after line. A line of 5 cells has at most 3 blocks; room for a block a
 * cell is what sp_binary_clues asks for. */
static uint32_t row_counts[HEIGHT], row_sizes[CELLS], column_counts[WIDTH], column_sizes[CELLS];
static size_t row_blocks, column_blocks;

/* The cells that a run changed. A black card never has more entries than cells. */
static uint32_t report[CELLS];

/* The picture as a scanner writes it, in plain PBM: 1 is black. */
static const char scan[] =
    "P1\n"
    "# width and height\n"
    "5 5\n"
    "1 0 1 1 0\n"
    "1 1 1 1 1\n"
    "1 0 1 0 0\n"
    "0 0 0 1 0\n"
    "1 0 0 0 1\n";

/* Its codes: 2 stands for black, 1 for blank. */
static uint32_t picture[CELLS];

static void print_clues(const char *name, const uint32_t *counts, size_t lines, const uint32_t *sizes) {
    printf("%s:", name);
    for (size_t line = 0; line < lines; line++) {
        printf(line == 0 ? " " : ", ");
        for (uint32_t block = 0; block < counts[line]; block++) printf(block == 0 ? "%u" : " %u", (unsigned)*sizes++);
    }
    printf("\n");
}

static void print_board(const uint32_t *grid) {
    for (size_t cell = 0; cell < CELLS; cell++) {
        putchar("?.#"[grid[cell]]);
        if (cell % WIDTH == WIDTH - 1) putchar('\n');
    }
}

static void print_answer(const char *name, sp_run_answer answer) {
    printf("%s: number %u", name, (unsigned)answer.number);
    if (answer.line_kind != SP_NO_LINE) printf(" at %s %zu", answer.line_kind == SP_ROW ? "row" : "column", answer.line_index);
    printf(", %zu lines solved, %zu cells changed:", answer.lines, answer.entries);
    for (size_t entry = 0; entry < answer.entries; entry++) printf(" %u", (unsigned)report[entry]);
    printf("\n");
}

/* A board without open cells is a picture: white and black are its codes. The text has no 0 byte at its end. */
static void print_picture(const char *name, const uint32_t *grid) {
    uint8_t text[SP_PBM_BYTES];
    sp_count answer = sp_write_pbm(WIDTH, HEIGHT, grid, CELLS, text, sizeof text);
    printf("%s: number %u, %zu bytes\n%.*s", name, (unsigned)answer.number, answer.count, (int)answer.count, (const char *)text);
}

/* Reads the scan. The lists above are for one size of card, so a picture of another size is turned down. */
static int read_scan(void) {
    sp_pbm_answer answer = sp_read_pbm((const uint8_t *)scan, strlen(scan), picture, CELLS);
    printf("scan: number %u, %zu by %zu\n", (unsigned)answer.number, answer.width, answer.height);
    return answer.number == SP_DONE && answer.width == WIDTH && answer.height == HEIGHT;
}

/* A row whose black was mended with a pen, of another code. Every code but the blank one is black, and what touches is one block. */
static void print_mended_row(void) {
    const uint32_t codes[WIDTH] = {BLACK, PEN, PEN, WHITE, BLACK};
    uint32_t sizes[WIDTH];
    sp_count answer = sp_binary_clue(codes, WIDTH, WHITE, sizes, WIDTH);
    uint32_t blocks = (uint32_t)answer.count;
    print_clues("a row in two inks", &blocks, 1, sizes);
}

/* Solves lines of the whole card until none can say more. */
static sp_run_answer run(uint32_t *grid) {
    return sp_run_binary(WIDTH, HEIGHT, grid, CELLS, row_counts, HEIGHT, row_sizes, row_blocks, column_counts, WIDTH, column_sizes,
                         column_blocks, report, CELLS, memo, sizeof memo, stack, SP_STACK_ENTRIES);
}

/* The same where only cell (x, y) has changed since the board was settled: its row and its column come first, other lines as needed. */
static sp_run_answer run_point(uint32_t *grid, size_t x, size_t y) {
    return sp_run_binary_point(WIDTH, HEIGHT, x, y, grid, CELLS, row_counts, HEIGHT, row_sizes, row_blocks, column_counts, WIDTH,
                               column_sizes, column_blocks, report, CELLS, memo, sizeof memo, stack, SP_STACK_ENTRIES);
}

/* The player marks a cell, and the card is worked out from there. With 8 the mark was wrong: no picture of the card has it. The board then
 * holds what the lines before the refusing one have shown, so a device that wants the old board back keeps a copy. */
static void mark(const char *name, uint32_t *grid, size_t x, size_t y, uint32_t cell) {
    uint32_t before[CELLS];
    memcpy(before, grid, sizeof before);
    grid[y * WIDTH + x] = cell;
    sp_run_answer answer = run_point(grid, x, y);
    print_answer(name, answer);
    print_board(grid);
    if (answer.number == SP_UNSOLVABLE) memcpy(grid, before, sizeof before);
}

int main(void) {
    if (!read_scan()) return 1;
    sp_clues_answer clues = sp_binary_clues(WIDTH, HEIGHT, picture, CELLS, 1, row_counts, HEIGHT, row_sizes, CELLS, column_counts, WIDTH,
                                            column_sizes, CELLS);
    if (clues.number != SP_DONE) return 1;
    row_blocks = clues.rows;
    column_blocks = clues.columns;
    print_clues("rows", row_counts, HEIGHT, row_sizes);
    print_clues("columns", column_counts, WIDTH, column_sizes);
    print_mended_row();

    /* A wrong mark at the very beginning, when every cell is open. */
    uint32_t grid[CELLS] = {OPEN};
    mark("black at (1, 0)", grid, 1, 0, BLACK);

    /* The whole card. The run leaves open what no line can decide: the ends of the last two rows could also be the other way round. */
    print_answer("full run", run(grid));
    print_board(grid);
    print_picture("with open cells it is no picture", grid);

    /* One mark decides them. */
    mark("black at (3, 3)", grid, 3, 3, BLACK);

    /* 3 is no binary cell. A refusal found by checking changes nothing, and tells nothing but its number. */
    grid[7] = 3;
    print_answer("a cell of 3", run(grid));
    grid[7] = BLACK;

    /* A settled board stays as it is. */
    print_answer("full run again", run(grid));
    print_picture("the board as a picture", grid);
    return 0;
}
