/*
 * stack CALL: the deepest stack of a call in bytes, over boards of 90 vertices. Each call runs on a painted stack of its
 * own; what an empty call takes there is not counted.
 */
#define _GNU_SOURCE
#include <pthread.h>
#include <stdint.h>
#include <stdio.h>
#include <stdlib.h>
#include <string.h>
#include <sys/mman.h>

#include "board.h"

enum { N = 90, ENDS = 30, CELLS = N * N, SCRATCH = 4 * N, ROOM = 1 << 21, PAINT = 0xa5 };

/* the exports of crates/meter: cells, and a length in cells after each pointer */
uint64_t meter_matrix(uint64_t, uint64_t, uint64_t, const int32_t *, uint64_t, int64_t *, uint64_t, int64_t *, uint64_t);
uint64_t meter_margins(uint64_t, uint64_t, uint64_t, const int32_t *, uint64_t, const int64_t *, uint64_t, const int64_t *, uint64_t, const int64_t *, uint64_t,
                       int64_t *, uint64_t, int64_t *, uint64_t, int64_t *, uint64_t);
uint64_t meter_prune(uint64_t, uint64_t, uint64_t, int32_t *, uint64_t, int64_t *, uint64_t);
uint64_t meter_run(uint64_t, uint64_t, uint64_t, int32_t *, uint64_t, int64_t *, uint64_t);

/* x86-64 keeps a number's low byte first, so that a run of cells is a run of their bytes */
static int32_t table[CELLS];
static int64_t scratch[SCRATCH], matrix[CELLS];
static int64_t given[ENDS], due[ENDS], times[3][N];

#define SIZES ENDS, ENDS, N
#define BYTES(run) (uint8_t *)(run), sizeof(run)

static void none(void) {}
static void matrix_call(void) { meter_matrix(SIZES, table, CELLS, scratch, SCRATCH, matrix, CELLS); }
static void margins_call(void)
{
    meter_margins(SIZES, table, CELLS, scratch, SCRATCH, given, ENDS, due, ENDS, times[0], N, times[1], N, times[2], N);
}
static void prune_call(void) { meter_prune(SIZES, table, CELLS, scratch, SCRATCH); }
static void run_call(void) { meter_run(SIZES, table, CELLS, scratch, SCRATCH); }
static void board_matrix_call(void) { board_matrix(SIZES, BYTES(table), BYTES(scratch), BYTES(matrix)); }
static void board_prune_call(void) { board_prune(SIZES, BYTES(table), BYTES(scratch)); }
static void board_shrink_call(void)
{
    for (int k = 2 * ENDS; k < N; k++)
        board_shrink(SIZES, BYTES(table), BYTES(scratch), (uint64_t)k);
}

static const struct {
    const char *name;
    void (*call)(void);
} calls[] = {
    {"matrix", matrix_call}, {"margins", margins_call}, {"prune", prune_call}, {"run", run_call},
    {"board_matrix", board_matrix_call}, {"board_shrink", board_shrink_call}, {"board_prune", board_prune_call},
};

/* 0: every arc to a higher number, all of delay 1; 1: a few arcs of many delays; 2: each inner vertex between two others */
static void fill(int board)
{
    uint32_t random = 20261116;
    for (int u = 0; u < N; u++) {
        for (int v = 0; v < N; v++) {
            int32_t *cell = &table[N * u + v];
            random = random * 1664525 + 1013904223;
            *cell = BOARD_NO_ARC;
            if (v < ENDS || u >= v)
                continue;
            if (board == 0)
                *cell = 1;
            else if (board == 1 && random >> 28 == 0)
                *cell = (int32_t)(random >> 8 & 1023);
        }
    }
    if (board == 2) {
        for (int k = 2 * ENDS; k < N; k++) {
            table[N * (k - 2 * ENDS) + k] = k;
            table[N * k + k - ENDS] = k;
        }
    }
}

static void *made(void *call)
{
    ((void (*)(void))call)();
    return NULL;
}

/* the bytes of a stack that were written */
static long written(void (*call)(void))
{
    unsigned char *stack = mmap(NULL, ROOM, PROT_READ | PROT_WRITE, MAP_PRIVATE | MAP_ANONYMOUS | MAP_STACK, -1, 0);
    pthread_attr_t attributes;
    pthread_t thread;
    long low = 0;
    if (stack == MAP_FAILED)
        exit(1);
    memset(stack, PAINT, ROOM);
    pthread_attr_init(&attributes);
    if (pthread_attr_setstack(&attributes, stack, ROOM) || pthread_create(&thread, &attributes, made, (void *)call) || pthread_join(thread, NULL))
        exit(1);
    while (stack[low] == PAINT)
        low++;
    munmap(stack, ROOM);
    return ROOM - low;
}

int main(int argc, char **argv)
{
    for (size_t i = 0; argc == 2 && i < sizeof calls / sizeof *calls; i++) {
        if (strcmp(argv[1], calls[i].name) == 0) {
            long most = 0;
            for (int board = 0; board < 3; board++) {
                fill(board);
                long bytes = written(calls[i].call);
                most = bytes > most ? bytes : most;
            }
            printf("%ld\n", most - written(none));
            return 0;
        }
    }
    return 2;
}
