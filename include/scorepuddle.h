/* Scorepuddle for C and C++: the calls of the device library.
 *
 * Build it with `scripts/build.sh device` and link target/staticlib/libdevice.a. What each call promises is proved of it, for every input;
 * docs/STATEMENTS.md says where. Nothing checks this header itself but the programs under examples/ and tests/.
 *
 * LISTS. A list is a pointer and a count of entries, in this order. With a count of 0 the pointer must still not be null. Lists that a
 * call writes must not overlap any other list of the call; lists that it only reads may overlap each other. Pointers are aligned as
 * their type asks. Nothing is allocated, kept or shared between calls: calls on different memory may run at the same time.
 *
 * NUMBERS. Every answer holds one of these:
 *
 *    0  done
 *    1  a width, height or length is 0 or above 64
 *    2  a list has the wrong length, or too little room
 *    3  a line has more than 64 blocks
 *    4  a block has size 0, or a colour that is 1 or has not exactly one bit
 *    5  a binary cell is above 2
 *    6  the point lies outside the grid
 *    7  the report has too little room
 *    8  a line has no agreeing placement
 *    9  a picture code is not allowed
 *   10  the blocks need more than the length
 *   11  a text is not a picture in plain PBM
 *
 * If several apply, the lowest is given, but 8 after all others; sp_read_pbm judges in an order of its own. A refusal other than 8 changes
 * no lent memory, and the other fields of the answer are 0 (line_kind 2). Every call takes any input and ends.
 *
 * CELLS. A binary cell is 0 undefined, 1 white, 2 black. A coloured cell is a set of colours, one bit each; bit 0 (the number 1) is blank.
 * A block has a size of at least 1 and, if coloured, a colour with one bit, not 1. A grid is row after row: cell (x, y) is y * width + x.
 *
 * ROOM. Where a list has room to spare, the entries after those written stay as they were. */
#ifndef SCOREPUDDLE_H
#define SCOREPUDDLE_H

#include <stddef.h>
#include <stdint.h>

#ifdef __cplusplus
extern "C" {
#endif

/* The number of each answer, by name. */
enum {
    SP_DONE = 0,
    SP_BAD_LENGTH = 1,
    SP_BAD_ROOM = 2,
    SP_TOO_MANY_BLOCKS = 3,
    SP_BAD_BLOCK = 4,
    SP_BAD_CELL = 5,
    SP_OUTSIDE_GRID = 6,
    SP_SHORT_REPORT = 7,
    SP_UNSOLVABLE = 8,
    SP_BAD_CODE = 9,
    SP_NO_SPACE = 10,
    SP_BAD_TEXT = 11
};

/* Sides and lengths, and blocks of a line, are at most this. */
enum { SP_MOST_CELLS = 64, SP_MOST_BLOCKS = 64 };

/* What the working memory of a call needs: bytes of memo, entries of stack. What it holds before a call matters to no answer; after 0 and
 * 8 what it holds is not specified. */
enum { SP_MEMO_BYTES = 4160, SP_STACK_ENTRIES = 128 };

/* ---- One line solved ---------------------------------------------------------------------------------------------------------------
 *
 * cells: the line, 1 to 64 cells. sizes, colours: its blocks, lists of equal length. memo: at least SP_MEMO_BYTES. out: exactly as long as
 * cells. With 0, out is the line in which each coloured cell has exactly the colours that agreeing placements give it, and each binary
 * cell is 1 or 2 if they all say so, else 0. With 8 no placement agrees, and out is as it was.
 * Numbers: 0 1 2 3 4 8, for binary cells also 5. */

uint32_t sp_solve_line(const uint32_t *cells, size_t cells_count,
                       const uint32_t *sizes, size_t sizes_count,
                       const uint32_t *colours, size_t colours_count,
                       uint8_t *memo, size_t memo_count,
                       uint32_t *out, size_t out_count);

uint32_t sp_solve_binary_line(const uint32_t *cells, size_t cells_count,
                              const uint32_t *sizes, size_t sizes_count,
                              uint8_t *memo, size_t memo_count,
                              uint32_t *out, size_t out_count);

/* ---- Runs --------------------------------------------------------------------------------------------------------------------------
 *
 * A full run solves lines until none can say more: sp_run, sp_run_binary. A run from a point does so from column x and row y:
 * sp_run_point, sp_run_binary_point.
 *
 * grid: exactly width * height cells, which the run narrows. row_counts: the number of blocks of each row, height entries; row_sizes (and
 * row_colours): the rows' blocks, row after row, exactly as many as the counts add up to. The columns' lists likewise, with width counts.
 * report: at least as many entries as the room number, the sum over all cells of the number of their colours less one (an empty cell adds
 * 0; an undefined binary cell has two colours); width * height is always enough for binary cells. memo: at least SP_MEMO_BYTES.
 * stack: at least SP_STACK_ENTRIES.
 *
 * With 0 a full run leaves the widest settled board within the start. With 8 there is none: the refusing line is told, and the grid and the
 * report hold exactly the updates of the lines solved before it.
 * Numbers: 0 1 2 3 4 7 8, for binary cells also 5, for a point also 6. */

/* line_kind of an answer. */
enum { SP_ROW = 0, SP_COLUMN = 1, SP_NO_LINE = 2 };

typedef struct sp_run_answer {
    uint32_t number;
    uint32_t line_kind; /* with 8, the line that refused: SP_ROW or SP_COLUMN; else SP_NO_LINE */
    size_t line_index;  /* its index; else 0 */
    size_t entries;     /* with 0 and 8: entries of report written: changed cells, line by line as solved, ascending within a line */
    size_t lines;       /* with 0 and 8: lines solved, a refusing line not counted */
} sp_run_answer;

sp_run_answer sp_run(size_t width, size_t height,
                     uint32_t *grid, size_t grid_count,
                     const uint32_t *row_counts, size_t row_counts_count,
                     const uint32_t *row_sizes, size_t row_sizes_count,
                     const uint32_t *row_colours, size_t row_colours_count,
                     const uint32_t *column_counts, size_t column_counts_count,
                     const uint32_t *column_sizes, size_t column_sizes_count,
                     const uint32_t *column_colours, size_t column_colours_count,
                     uint32_t *report, size_t report_count,
                     uint8_t *memo, size_t memo_count,
                     uint32_t *stack, size_t stack_count);

sp_run_answer sp_run_point(size_t width, size_t height, size_t x, size_t y,
                           uint32_t *grid, size_t grid_count,
                           const uint32_t *row_counts, size_t row_counts_count,
                           const uint32_t *row_sizes, size_t row_sizes_count,
                           const uint32_t *row_colours, size_t row_colours_count,
                           const uint32_t *column_counts, size_t column_counts_count,
                           const uint32_t *column_sizes, size_t column_sizes_count,
                           const uint32_t *column_colours, size_t column_colours_count,
                           uint32_t *report, size_t report_count,
                           uint8_t *memo, size_t memo_count,
                           uint32_t *stack, size_t stack_count);

sp_run_answer sp_run_binary(size_t width, size_t height,
                            uint32_t *grid, size_t grid_count,
                            const uint32_t *row_counts, size_t row_counts_count,
                            const uint32_t *row_sizes, size_t row_sizes_count,
                            const uint32_t *column_counts, size_t column_counts_count,
                            const uint32_t *column_sizes, size_t column_sizes_count,
                            uint32_t *report, size_t report_count,
                            uint8_t *memo, size_t memo_count,
                            uint32_t *stack, size_t stack_count);

sp_run_answer sp_run_binary_point(size_t width, size_t height, size_t x, size_t y,
                                  uint32_t *grid, size_t grid_count,
                                  const uint32_t *row_counts, size_t row_counts_count,
                                  const uint32_t *row_sizes, size_t row_sizes_count,
                                  const uint32_t *column_counts, size_t column_counts_count,
                                  const uint32_t *column_sizes, size_t column_sizes_count,
                                  uint32_t *report, size_t report_count,
                                  uint8_t *memo, size_t memo_count,
                                  uint32_t *stack, size_t stack_count);

/* ---- Clues of pictures -------------------------------------------------------------------------------------------------------------
 *
 * A picture holds a code for each cell; blank is the code that stands for no block, any number. Coloured: a clue is the maximal runs of equal
 * codes that are not blank, and such a code is a colour, one bit and not 1 (else 9). Numbers: 0 1 2 9. Binary: a clue is the maximal stretches
 * of codes that are not blank; any code will do, and codes that differ and touch are one block (2,3 with blank 1: one of 2). Numbers: 0 1 2. */

typedef struct sp_count {
    uint32_t number;
    size_t count; /* with 0: entries written to each list */
} sp_count;

/* The clue of a line of 1 to 64 codes. sizes, colours: each at least as long as codes. */

sp_count sp_clue(const uint32_t *codes, size_t codes_count, uint32_t blank,
                 uint32_t *sizes, size_t sizes_count,
                 uint32_t *colours, size_t colours_count);

sp_count sp_binary_clue(const uint32_t *codes, size_t codes_count, uint32_t blank,
                        uint32_t *sizes, size_t sizes_count);

typedef struct sp_clues_answer {
    uint32_t number;
    size_t rows;    /* with 0: blocks written for the rows */
    size_t columns; /* with 0: blocks written for the columns */
} sp_clues_answer;

/* The clues of a grid. codes: exactly width * height. row_counts: at least height; column_counts: at least width; the lists of sizes and
 * colours: at least width * height each. Cut to what was written, the lists are those of a run. */

sp_clues_answer sp_clues(size_t width, size_t height,
                         const uint32_t *codes, size_t codes_count, uint32_t blank,
                         uint32_t *row_counts, size_t row_counts_count,
                         uint32_t *row_sizes, size_t row_sizes_count,
                         uint32_t *row_colours, size_t row_colours_count,
                         uint32_t *column_counts, size_t column_counts_count,
                         uint32_t *column_sizes, size_t column_sizes_count,
                         uint32_t *column_colours, size_t column_colours_count);

sp_clues_answer sp_binary_clues(size_t width, size_t height,
                                const uint32_t *codes, size_t codes_count, uint32_t blank,
                                uint32_t *row_counts, size_t row_counts_count,
                                uint32_t *row_sizes, size_t row_sizes_count,
                                uint32_t *column_counts, size_t column_counts_count,
                                uint32_t *column_sizes, size_t column_sizes_count);

/* ---- Pictures as text --------------------------------------------------------------------------------------------------------------
 *
 * The text of a plain PBM file, and the codes of its picture, row after row: 1 for white, 2 for black. Its clues are those with blank 1. */

typedef struct sp_pbm_answer {
    uint32_t number;
    size_t width;  /* with 0: the picture's sides */
    size_t height;
} sp_pbm_answer;

/* Reads a picture. text: the whole file. codes: room for at least width * height; 4,096 is always enough.
 *
 * The text is `P1`, the width, the height, and a digit for each cell, 0 for white and 1 for black. Whitespace (space, TAB, LF, VT, FF, CR)
 * stands after `P1` and after each size, and may stand between the digits and after them. A comment, from `#` to the next LF or CR, may
 * stand after whitespace and before a size. Nothing else may stand anywhere. A size is a longest run of decimal digits, leading zeros allowed.
 *
 * Judged in this order: 11 for a break before both sizes are read, 1 for the sizes, 2 for the room, 11 for any other break.
 * Numbers: 0 1 2 11. */

sp_pbm_answer sp_read_pbm(const uint8_t *text, size_t text_count,
                          uint32_t *codes, size_t codes_count);

/* The most bytes that sp_write_pbm writes, those of a picture of 64 by 64. */
enum { SP_PBM_BYTES = 4169 };

/* Writes a picture. codes: exactly width * height, each 1 or 2 (else 9). text: room for at least
 * 5 + (digits of the width) + (digits of the height) + height * (width + 1) bytes, which is how many are written.
 *
 * There is one form: `P1`; the width, one space, the height; then each row without spaces; each of these lines ended by one LF. No 0 byte
 * is put after it. Numbers: 0 1 2 9. */

sp_count sp_write_pbm(size_t width, size_t height,
                      const uint32_t *codes, size_t codes_count,
                      uint8_t *text, size_t text_count);

/* ---- A line's blocks ---------------------------------------------------------------------------------------------------------------
 *
 * sizes, colours: lists of equal length, at most 64 blocks. Every list that is written has room for as many entries as there are blocks.
 * The leftmost packing has a gap of 1 before a block of its left neighbour's colour, else none. */

/* The cell after each block in the leftmost packing. Numbers: 0 2 3 4. */

sp_count sp_partial_sums(const uint32_t *sizes, size_t sizes_count,
                         const uint32_t *colours, size_t colours_count,
                         uint64_t *sums, size_t sums_count);

sp_count sp_binary_partial_sums(const uint32_t *sizes, size_t sizes_count,
                                uint64_t *sums, size_t sums_count);

/* The first cell of each block in the leftmost packing. Numbers: 0 2 3 4. */

sp_count sp_block_starts(const uint32_t *sizes, size_t sizes_count,
                         const uint32_t *colours, size_t colours_count,
                         uint64_t *starts, size_t starts_count);

sp_count sp_binary_block_starts(const uint32_t *sizes, size_t sizes_count,
                                uint64_t *starts, size_t starts_count);

/* For each colour, by first appearance, the range of cells in which its blocks can lie: the first cell, and the cell after the last, at a
 * line of the given length. Numbers: 0 1 2 3 4 10. */

sp_count sp_color_ranges(size_t length,
                         const uint32_t *sizes, size_t sizes_count,
                         const uint32_t *colours, size_t colours_count,
                         uint32_t *out_colours, size_t out_colours_count,
                         uint64_t *out_from, size_t out_from_count,
                         uint64_t *out_to, size_t out_to_count);

/* The blocks that are not the default (size 0 and, if coloured, colour 0), in order. Numbers: 0 2 3. */

sp_count sp_description(const uint32_t *sizes, size_t sizes_count,
                        const uint32_t *colours, size_t colours_count,
                        uint32_t *out_sizes, size_t out_sizes_count,
                        uint32_t *out_colours, size_t out_colours_count);

sp_count sp_binary_description(const uint32_t *sizes, size_t sizes_count,
                               uint32_t *out_sizes, size_t out_sizes_count);

typedef struct sp_positions {
    uint32_t number;
    uint64_t positions; /* with 0: the length less the room that the leftmost packing takes, plus 1 */
} sp_positions;

/* In how many places the leftmost packing, moved as a whole, lies in a line of the given length. Numbers: 0 1 2 3 4 10. */

sp_positions sp_positions_number(size_t length,
                                 const uint32_t *sizes, size_t sizes_count,
                                 const uint32_t *colours, size_t colours_count);

/* The same of black blocks. Numbers: 0 1 3 4 10. */

sp_positions sp_binary_positions_number(size_t length,
                                        const uint32_t *sizes, size_t sizes_count);

#ifdef __cplusplus
}
#endif

#endif
