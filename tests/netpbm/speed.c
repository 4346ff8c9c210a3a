/* Times sp_read_pbm and sp_write_pbm beside netpbm's own library, by turns on the same pictures: the least of the rounds. netpbm reads from and
 * writes to a stream over memory, which is opened and closed within its time, as are the rows that it allocates. */
#define _GNU_SOURCE
#include <netpbm/pbm.h>
#include <stdio.h>
#include <stdlib.h>
#include <string.h>
#include <time.h>

#include "scorepuddle.h"

enum { MOST = SP_MOST_CELLS * SP_MOST_CELLS, BYTES = 5000 };

static uint32_t codes[MOST], back[MOST];
static uint8_t text[BYTES], again[BYTES];
static size_t text_count;

static double now(void) {
    struct timespec t;
    clock_gettime(CLOCK_MONOTONIC, &t);
    return (double)t.tv_sec * 1e6 + (double)t.tv_nsec / 1e3;
}

static void fail(const char *what, size_t side) {
    fprintf(stderr, "speed: %s differs at %zu x %zu\n", what, side, side);
    exit(1);
}

static void read_ours(size_t side) {
    sp_pbm_answer a = sp_read_pbm(text, text_count, back, MOST);
    if (a.number != SP_DONE || a.width != side || a.height != side) fail("sp_read_pbm", side);
}

static void read_theirs(size_t side) {
    int cols, rows;
    FILE *stream = fmemopen(text, text_count, "r");
    bit **cells = pbm_readpbm(stream, &cols, &rows);
    if ((size_t)cols != side || (size_t)rows != side) fail("pbm_readpbm", side);
    for (size_t i = 0; i < side * side; i++)
        back[i] = cells[i / side][i % side] == PBM_BLACK ? 2 : 1;
    pbm_freearray(cells, rows);
    fclose(stream);
}

static void write_ours(size_t side) {
    sp_count a = sp_write_pbm(side, side, codes, side * side, again, BYTES);
    if (a.number != SP_DONE || a.count != text_count) fail("sp_write_pbm", side);
}

static void write_theirs(size_t side) {
    FILE *stream = fmemopen(again, BYTES, "w");
    bit **cells = pbm_allocarray((int)side, (int)side);
    for (size_t i = 0; i < side * side; i++)
        cells[i / side][i % side] = codes[i] == 2 ? PBM_BLACK : PBM_WHITE;
    pbm_writepbm(stream, cells, (int)side, (int)side, 1);
    pbm_freearray(cells, side);
    fclose(stream);
}

static double least(void (*call)(size_t), size_t side, double so_far) {
    double start = now();
    for (int i = 0; i < 20; i++) call(side);
    double took = (now() - start) / 20;
    return took < so_far ? took : so_far;
}

static void measure(size_t side, int rounds) {
    double t[4] = {1e9, 1e9, 1e9, 1e9};
    for (size_t i = 0; i < side * side; i++) codes[i] = 1 + (uint32_t)(rand() >> 7) % 2;
    text_count = sp_write_pbm(side, side, codes, side * side, text, BYTES).count;
    for (int i = 0; i < rounds; i++) {
        t[0] = least(read_theirs, side, t[0]);
        if (memcmp(back, codes, side * side * sizeof *codes)) fail("pbm_readpbm", side);
        t[1] = least(read_ours, side, t[1]);
        if (memcmp(back, codes, side * side * sizeof *codes)) fail("sp_read_pbm", side);
        t[2] = least(write_theirs, side, t[2]);
        if (memcmp(again, text, text_count)) fail("pbm_writepbm", side);
        t[3] = least(write_ours, side, t[3]);
        if (memcmp(again, text, text_count)) fail("sp_write_pbm", side);
    }
    printf("| %zu x %zu | %.3f | %.3f | %.1f | %.3f | %.3f | %.1f |\n", side, side, t[0], t[1], t[0] / t[1], t[2], t[3], t[2] / t[3]);
}

int main(int argc, char **argv) {
    int rounds = argc > 1 ? atoi(argv[1]) : 500;
    pm_init(argv[0], 0);
    srand(7314);
    printf("| picture | netpbm reads, µs | port reads, µs | factor | netpbm writes, µs | port writes, µs | factor |\n|---|---|---|---|---|---|---|\n");
    for (size_t side = 8; side <= 64; side *= 2) measure(side, rounds);
    printf("\nSeed 7314, the least of %d rounds of 20 calls.\n", rounds);
    return 0;
}
