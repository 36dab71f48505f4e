/*
 * Timing models of controller boards, for a host in C: the delay matrix, shrink and prune.
 * Link with target/staticlib/libhost.a, which `tools/build host` writes (x86-64).
 *
 * A board has m inputs, n outputs and N vertices: m and n are at least 1, and m + n <= N <= 90. Vertices 0 to m - 1 are
 * inputs, the next n outputs, the others inner.
 *
 * Every run of bytes is a run of cells, each in two's complement with its low byte first:
 *
 *   table     cells of 4 bytes. Cell N * u + v is the delay of the arc from u to v in ticks, from -1000000000 to
 *             1000000000, or BOARD_NO_ARC. The first N * N cells are used.
 *   scratch   cells of 8 bytes, at least 4 * N of them; what they hold does not matter, and stays.
 *   matrix    cells of 8 bytes. Cell n * i + j is the greatest delay of a path from input i to output j, or
 *             BOARD_NO_PATH. The first m * n cells are written.
 *
 * Lengths are in bytes. Cells past those named here stay as they were, and so do bytes after the last whole cell of a
 * run, which don't count. A run needs no alignment. No pointer may be NULL, not even with length 0, and no two runs of
 * one call may overlap. The calls keep no state, allocate nothing and take about 63 KB of stack; calls at the same time
 * are fine as long as they share no run that one of them writes.
 *
 * An answer below 0 is a refusal: minus one of the numbers below, the first that applies in the order listed. A refused
 * call changes no byte.
 *
 *    1  m, n or N is outside the limits
 *    2  the table has fewer than N * N whole cells
 *    3  the scratch has fewer than 4 * N whole cells
 *    4  a cell of the table is neither BOARD_NO_ARC nor a delay in range
 *    5  an arc leads into an input
 *    6  the arcs have a cycle, an arc from a vertex to itself included
 *   21  the matrix has fewer than m * n whole cells (board_matrix)
 *    7  k is not below N, or not an inner vertex (board_shrink)
 *   10  k has neither one arc in nor one arc out (board_shrink)
 *   13  there is nothing to prune (board_prune)
 *   14  a new delay would be out of range (board_shrink)
 *
 * 8, 9, 11 and 12 belong to steps that this header does not have; no call here answers them.
 */
#ifndef BOARD_H
#define BOARD_H

#include <stdint.h>

#ifdef __cplusplus
extern "C" {
#endif

/* absent, in a table: -2147483648 */
#define BOARD_NO_ARC INT32_MIN

/* absent, in a matrix: the least 64-bit number */
#define BOARD_NO_PATH INT64_MIN

/* Writes the delay matrix. Answers 0, or minus a refusal's number. */
int64_t board_matrix(uint64_t inputs, uint64_t outputs, uint64_t vertices,
                     const uint8_t *table, uint64_t table_len,
                     uint8_t *scratch, uint64_t scratch_len,
                     uint8_t *matrix, uint64_t matrix_len);

/*
 * Shrinks inner vertex k, which has one arc in or one arc out: each pair of arcs u to k and k to t becomes an arc u to t,
 * delays added, where the larger stays if two fall on one place. Answers the arcs left, or minus a refusal's number.
 */
int64_t board_shrink(uint64_t inputs, uint64_t outputs, uint64_t vertices,
                     uint8_t *table, uint64_t table_len,
                     uint8_t *scratch, uint64_t scratch_len,
                     uint64_t k);

/*
 * Drops each arc that lies on no path whose delay is a cell of the matrix. Answers the arcs left, or minus a refusal's
 * number.
 */
int64_t board_prune(uint64_t inputs, uint64_t outputs, uint64_t vertices,
                    uint8_t *table, uint64_t table_len,
                    uint8_t *scratch, uint64_t scratch_len);

#ifdef __cplusplus
}
#endif

#endif
