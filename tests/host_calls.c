/*
 * Hand-made calls of the C exports: answers with their signs, part cells, short runs, and the bytes that must stay. Every
 * run stands between guard bytes, in memory of its own length, at an odd place. Prints what is wrong.
 */
#include <inttypes.h>
#include <stdint.h>
#include <stdio.h>
#include <stdlib.h>
#include <string.h>

#include "board.h"

#define NO BOARD_NO_ARC

static int bad;

/* a run of len bytes with its bytes before the call */
struct run {
    uint8_t *memory, *bytes, *before;
    size_t len;
};

static struct run made(size_t len, int fill)
{
    struct run r = {malloc(len + 2), NULL, malloc(len + 1), len};
    memset(r.memory, fill, len + 2);
    r.bytes = r.memory + 1;
    return r;
}

static void keep(struct run *r)
{
    memcpy(r->before, r->bytes, r->len);
}

static void release(struct run *r, int fill, const char *what)
{
    if (r->memory[0] != fill || r->memory[r->len + 1] != fill) {
        printf("%s: a byte outside its run\n", what);
        bad = 1;
    }
    free(r->memory);
    free(r->before);
}

static void put(uint8_t *p, int width, int64_t x)
{
    for (int i = 0; i < width; i++)
        p[i] = (uint8_t)((uint64_t)x >> (8 * i));
}

enum call { MATRIX, SHRINK, PRUNE };

struct expected {
    const char *what;
    enum call call;
    uint64_t m, n, vertices, k;
    size_t table_len, scratch_len, matrix_len;
    int64_t answer;
    int cells;            /* how many cells of the table are given; the others' bytes are 0xa5 */
    const int32_t *table; /* the cells given */
    int after_cells;      /* how many cells of the table or the matrix are new; none: all bytes stay */
    const int64_t *after; /* those cells */
};

static void run(const struct expected *e)
{
    struct run table = made(e->table_len, 0xa5), scratch = made(e->scratch_len, 0x5a), matrix = made(e->matrix_len, 0x3c);
    for (int i = 0; i < e->cells; i++)
        put(table.bytes + 4 * i, 4, e->table[i]);
    keep(&table);
    keep(&scratch);
    keep(&matrix);
    int64_t answer = 0;
    switch (e->call) {
    case MATRIX:
        answer = board_matrix(e->m, e->n, e->vertices, table.bytes, table.len, scratch.bytes, scratch.len, matrix.bytes, matrix.len);
        for (int i = 0; i < e->after_cells; i++)
            put(matrix.before + 8 * i, 8, e->after[i]);
        break;
    case SHRINK:
    case PRUNE:
        answer = e->call == PRUNE ? board_prune(e->m, e->n, e->vertices, table.bytes, table.len, scratch.bytes, scratch.len)
                                  : board_shrink(e->m, e->n, e->vertices, table.bytes, table.len, scratch.bytes, scratch.len, e->k);
        for (int i = 0; i < e->after_cells; i++)
            put(table.before + 4 * i, 4, e->after[i]);
        break;
    }
    if (answer != e->answer) {
        printf("%s: answered %" PRId64 ", not %" PRId64 "\n", e->what, answer, e->answer);
        bad = 1;
    }
    if (memcmp(table.bytes, table.before, table.len) || memcmp(scratch.bytes, scratch.before, scratch.len) || memcmp(matrix.bytes, matrix.before, matrix.len)) {
        printf("%s: other bytes than expected\n", e->what);
        bad = 1;
    }
    release(&table, 0xa5, e->what);
    release(&scratch, 0x5a, e->what);
    release(&matrix, 0x3c, e->what);
}

/* m 1, n 1, N 3: 0 to 2 and 2 to 1, and 0 to 1 */
static const int32_t relay[] = {NO, -3, -5, NO, NO, NO, NO, 9, NO};
static const int64_t relay_shrunk[] = {NO, 4, NO, NO, NO, NO, NO, NO, NO};
static const int64_t relay_pruned[] = {NO, NO, -5, NO, NO, NO, NO, 9, NO};
static const int64_t relay_matrix[] = {4};
/* P1, and the same with an odd cell, an arc into the input, a loop */
static const int32_t bare[] = {NO, NO, NO, NO};
static const int64_t bare_matrix[] = {BOARD_NO_PATH};
static const int32_t odd[] = {NO, 1000000001, NO, NO};
static const int32_t low[] = {NO, -1000000001, NO, NO};
static const int32_t into_input[] = {NO, NO, 1, NO};
static const int32_t loop[] = {NO, NO, NO, 1};
static const int32_t least[] = {NO, -1000000000, NO, NO};
static const int64_t least_matrix[] = {-1000000000};
/* P8 */
static const int32_t sum_fits[] = {NO, NO, 600000000, NO, NO, NO, NO, 400000000, NO};
static const int64_t sum[] = {NO, 1000000000, NO, NO, NO, NO, NO, NO, NO};
static const int32_t sum_does_not[] = {NO, NO, 600000000, NO, NO, NO, NO, 400000001, NO};

static const struct expected calls[] = {
    {"matrix", MATRIX, 1, 1, 3, 0, 36, 96, 8, 0, 9, relay, 1, relay_matrix},
    {"matrix, part cells after all runs", MATRIX, 1, 1, 3, 0, 39, 103, 15, 0, 9, relay, 1, relay_matrix},
    {"matrix, whole cells after all runs", MATRIX, 1, 1, 3, 0, 48, 104, 24, 0, 9, relay, 1, relay_matrix},
    {"matrix without a path", MATRIX, 1, 1, 2, 0, 16, 64, 8, 0, 4, bare, 1, bare_matrix},
    {"matrix of the least delay", MATRIX, 1, 1, 2, 0, 16, 64, 8, 0, 4, least, 1, least_matrix},
    {"no inputs", MATRIX, 0, 1, 2, 0, 16, 64, 8, -1, 4, bare, 0, NULL},
    {"no outputs", MATRIX, 1, 0, 2, 0, 16, 64, 8, -1, 4, bare, 0, NULL},
    {"too many roles", MATRIX, 1, 2, 2, 0, 16, 64, 16, -1, 4, bare, 0, NULL},
    {"91 vertices", MATRIX, 1, 1, 91, 0, 33124, 2912, 8, -1, 4, bare, 0, NULL},
    {"sizes that wrap", MATRIX, UINT64_MAX, 2, 2, 0, 16, 64, 8, -1, 4, bare, 0, NULL},
    {"vertices that wrap", MATRIX, 1, 1, (uint64_t)1 << 32, 0, 16, 64, 8, -1, 4, bare, 0, NULL},
    {"a table a byte short", MATRIX, 1, 1, 2, 0, 15, 64, 8, -2, 3, bare, 0, NULL},
    {"no table", MATRIX, 1, 1, 2, 0, 0, 64, 8, -2, 0, bare, 0, NULL},
    {"a scratch a byte short", MATRIX, 1, 1, 2, 0, 16, 63, 8, -3, 4, bare, 0, NULL},
    {"a scratch of N * N cells", MATRIX, 1, 1, 3, 0, 36, 72, 8, -3, 9, relay, 0, NULL},
    {"an odd cell", MATRIX, 1, 1, 2, 0, 16, 64, 8, -4, 4, odd, 0, NULL},
    {"a low cell", MATRIX, 1, 1, 2, 0, 16, 64, 8, -4, 4, low, 0, NULL},
    {"an arc into an input", MATRIX, 1, 1, 2, 0, 16, 64, 8, -5, 4, into_input, 0, NULL},
    {"a loop", MATRIX, 1, 1, 2, 0, 16, 64, 8, -6, 4, loop, 0, NULL},
    {"a matrix a byte short", MATRIX, 1, 1, 2, 0, 16, 64, 7, -21, 4, bare, 0, NULL},
    {"6 before 21", MATRIX, 1, 1, 2, 0, 16, 64, 7, -6, 4, loop, 0, NULL},
    {"shrink", SHRINK, 1, 1, 3, 2, 36, 96, 0, 1, 9, relay, 9, relay_shrunk},
    {"shrink, part cells after all runs", SHRINK, 1, 1, 3, 2, 37, 97, 0, 1, 9, relay, 9, relay_shrunk},
    {"shrink, whole cells after all runs", SHRINK, 1, 1, 3, 2, 47, 112, 0, 1, 9, relay, 9, relay_shrunk},
    {"shrink no vertex", SHRINK, 1, 1, 3, 3, 36, 96, 0, -7, 9, relay, 0, NULL},
    {"shrink no vertex at all", SHRINK, 1, 1, 3, UINT64_MAX, 36, 96, 0, -7, 9, relay, 0, NULL},
    {"shrink an output", SHRINK, 1, 1, 3, 1, 36, 96, 0, -7, 9, relay, 0, NULL},
    {"shrink with a short table", SHRINK, 1, 1, 3, 2, 35, 96, 0, -2, 8, relay, 0, NULL},
    {"shrink with a short scratch", SHRINK, 1, 1, 3, 2, 36, 95, 0, -3, 9, relay, 0, NULL},
    {"shrink to the limit", SHRINK, 1, 1, 3, 2, 36, 96, 0, 1, 9, sum_fits, 9, sum},
    {"shrink past the limit", SHRINK, 1, 1, 3, 2, 36, 96, 0, -14, 9, sum_does_not, 0, NULL},
    {"prune", PRUNE, 1, 1, 3, 0, 38, 99, 0, 2, 9, relay, 9, relay_pruned},
    {"prune nothing", PRUNE, 1, 1, 2, 0, 16, 64, 0, -13, 4, bare, 0, NULL},
    {"prune a loop", PRUNE, 1, 1, 2, 0, 16, 64, 0, -6, 4, loop, 0, NULL},
};

/* 45 inputs and 45 outputs, the largest matrix: input i drives output i alone, by i - 20 */
static void largest(void)
{
    static int32_t table[8100];
    static int64_t after[2025];
    for (int c = 0; c < 8100; c++)
        table[c] = NO;
    for (int c = 0; c < 2025; c++)
        after[c] = BOARD_NO_PATH;
    for (int i = 0; i < 45; i++) {
        table[90 * i + 45 + i] = i - 20;
        after[45 * i + i] = i - 20;
    }
    struct expected e = {"the largest board", MATRIX, 45, 45, 90, 0, 32403, 2887, 16207, 0, 8100, table, 2025, after};
    run(&e);
    struct expected nothing = {"the largest board, pruned", PRUNE, 45, 45, 90, 0, 32401, 2881, 0, -13, 8100, table, 0, NULL};
    run(&nothing);
}

int main(void)
{
    for (size_t i = 0; i < sizeof calls / sizeof *calls; i++)
        run(&calls[i]);
    largest();
    return bad;
}
