/*
 * A marking host. The board is a jacquard loom controller whose card reader's line is late: a candidate may reduce the
 * board as he likes, but no greatest delay from an input to an output may change.
 *
 *     tools/build host
 *     gcc -O2 -Iinclude examples/host.c target/staticlib/libhost.a -o host
 */
#include <inttypes.h>
#include <stdint.h>
#include <stdio.h>
#include <stdlib.h>
#include <string.h>

#include "board.h"

enum { INPUTS = 2, OUTPUTS = 3, VERTICES = 8, CELLS = VERTICES * VERTICES, SCRATCH = 4 * VERTICES, PAIRS = INPUTS * OUTPUTS };

enum { CARD_READER, LOOM_CLOCK, HOOK_DRIVE, WEFT_BRAKE, RUN_LAMP, LATCH, LEVEL_SHIFTER, DECODER };

static const char *const names[VERTICES] = {
    "card reader", "loom clock", "hook drive", "weft brake", "run lamp", "latch", "level shifter", "decoder",
};

struct arc {
    int from, to;
    int32_t delay;
};

static const struct arc arcs[] = {
    {CARD_READER, LEVEL_SHIFTER, 7}, /* the late line */
    {CARD_READER, HOOK_DRIVE, 5},    /* early: the way through the latch decides */
    {LOOM_CLOCK, LATCH, 3},
    {LOOM_CLOCK, RUN_LAMP, 6},
    {LOOM_CLOCK, DECODER, 1},
    {LATCH, HOOK_DRIVE, 2},
    {LATCH, WEFT_BRAKE, 4},
    {LEVEL_SHIFTER, LATCH, 2},
    {DECODER, WEFT_BRAKE, 2},
};

struct board {
    uint8_t table[4 * CELLS];
};

struct matrix {
    uint8_t bytes[8 * PAIRS];
};

/* lent to every call */
static uint8_t scratch[8 * SCRATCH];

/* cells, low byte first on every machine */
static void put_cell(uint8_t *p, int32_t x)
{
    for (int i = 0; i < 4; i++)
        p[i] = (uint8_t)((uint32_t)x >> (8 * i));
}

static int64_t wide_cell(const uint8_t *p)
{
    uint64_t x = 0;
    for (int i = 0; i < 8; i++)
        x |= (uint64_t)p[i] << (8 * i);
    return (int64_t)x;
}

static void set_arc(struct board *b, int from, int to, int32_t delay)
{
    put_cell(b->table + 4 * (VERTICES * from + to), delay);
}

static void load(struct board *b)
{
    for (int i = 0; i < CELLS; i++)
        put_cell(b->table + 4 * i, BOARD_NO_ARC);
    for (size_t i = 0; i < sizeof arcs / sizeof *arcs; i++)
        set_arc(b, arcs[i].from, arcs[i].to, arcs[i].delay);
}

static const char *reason(int64_t number)
{
    switch (number) {
    case 1: return "the sizes are outside the limits";
    case 2: return "the table is short";
    case 3: return "the scratch is short";
    case 4: return "a cell is neither absent nor in range";
    case 5: return "an arc leads into an input";
    case 6: return "there is a cycle";
    case 7: return "no inner vertex";
    case 10: return "neither one arc in nor one arc out";
    case 13: return "nothing to prune";
    case 14: return "a new delay is out of range";
    case 21: return "the matrix is short";
    default: return "unknown";
    }
}

static void report(const char *step, int64_t answer)
{
    if (answer < 0)
        printf("  %s: refused %" PRId64 ", %s\n", step, -answer, reason(-answer));
    else
        printf("  %s: %" PRId64 " arcs left\n", step, answer);
}

static int64_t shrink(struct board *b, int k)
{
    return board_shrink(INPUTS, OUTPUTS, VERTICES, b->table, sizeof b->table, scratch, sizeof scratch, (uint64_t)k);
}

static int64_t prune(struct board *b)
{
    return board_prune(INPUTS, OUTPUTS, VERTICES, b->table, sizeof b->table, scratch, sizeof scratch);
}

/* a board that came this far has a matrix */
static void matrix_of(const struct board *b, struct matrix *m)
{
    int64_t answer = board_matrix(INPUTS, OUTPUTS, VERTICES, b->table, sizeof b->table, scratch, sizeof scratch,
                                  m->bytes, sizeof m->bytes);
    if (answer < 0) {
        fprintf(stderr, "matrix: refused %" PRId64 ", %s\n", -answer, reason(-answer));
        exit(1);
    }
}

static void delay_text(int64_t delay, char *text, size_t size)
{
    if (delay == BOARD_NO_PATH)
        snprintf(text, size, "none");
    else
        snprintf(text, size, "%" PRId64, delay);
}

/* compares the matrices cell by cell */
static void mark(const struct board *b, const struct matrix *wanted)
{
    struct matrix got;
    int wrong = 0;
    matrix_of(b, &got);
    for (int i = 0; i < INPUTS; i++) {
        for (int j = 0; j < OUTPUTS; j++) {
            int64_t is = wide_cell(got.bytes + 8 * (OUTPUTS * i + j));
            int64_t was = wide_cell(wanted->bytes + 8 * (OUTPUTS * i + j));
            if (is != was) {
                char is_text[24], was_text[24];
                delay_text(is, is_text, sizeof is_text);
                delay_text(was, was_text, sizeof was_text);
                printf("  %s to %s: %s, not %s\n", names[i], names[INPUTS + j], is_text, was_text);
                wrong++;
            }
        }
    }
    printf("  %s\n", wrong ? "failed" : "passed");
}

int main(void)
{
    struct board board, candidate;
    struct matrix wanted;

    load(&board);
    matrix_of(&board, &wanted);
    printf("the board\n");
    for (int i = 0; i < INPUTS; i++) {
        printf("  %s:", names[i]);
        for (int j = 0; j < OUTPUTS; j++) {
            char text[24];
            delay_text(wide_cell(wanted.bytes + 8 * (OUTPUTS * i + j)), text, sizeof text);
            printf(" %s %s%s", names[INPUTS + j], text, j + 1 < OUTPUTS ? "," : "\n");
        }
    }

    printf("candidate 1\n");
    candidate = board;
    report("shrink the level shifter", shrink(&candidate, LEVEL_SHIFTER));
    report("prune", prune(&candidate));
    mark(&candidate, &wanted);

    printf("candidate 2, whose card reader's line is a tick short\n");
    candidate = board;
    set_arc(&candidate, CARD_READER, LEVEL_SHIFTER, 6);
    report("shrink the level shifter", shrink(&candidate, LEVEL_SHIFTER));
    report("prune", prune(&candidate));
    mark(&candidate, &wanted);

    /* a refusal changes nothing, so that the candidate may go on */
    printf("candidate 3\n");
    candidate = board;
    report("shrink the latch", shrink(&candidate, LATCH));
    printf("  the table is %s\n", memcmp(&candidate, &board, sizeof board) == 0 ? "as it was" : "CHANGED");
    report("prune", prune(&candidate));
    report("prune", prune(&candidate));
    mark(&candidate, &wanted);

    /* seven bytes are no cell */
    printf("a matrix that is a byte short\n");
    report("matrix", board_matrix(INPUTS, OUTPUTS, VERTICES, board.table, sizeof board.table, scratch, sizeof scratch,
                                  wanted.bytes, sizeof wanted.bytes - 1));
    return 0;
}
