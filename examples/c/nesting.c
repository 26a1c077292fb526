/*
 * nesting.c - which contours of a layer lie in which.
 *
 * Prints number, depth and parent of each contour, those outside first: the order in which a press
 * that fills from outside in takes them. The layer has three rings within each other and a fourth
 * contour beside them.
 *
 *   (cd crates/wadroles && rt lib --cpu x86-64)
 *   cc -std=c99 -Iinclude examples/c/nesting.c crates/wadroles/out/libwadroles.a -o nesting
 *   ./nesting
 *
 * The argument, if there is one, is the number of entries that the tables have. A refusal prints
 * its number and its place. The exit status is 0; 1 after a refusal.
 */
#include <inttypes.h>
#include <stdio.h>
#include <stdlib.h>

#include "wadroles.h"

/* The rings: the outermost, the innermost and the one between, which runs the other way round. */
static const int32_t points[] = {
    0, 0, 90, 0, 90, 90, 0, 90,
    30, 30, 60, 30, 60, 60, 30, 60,
    20, 20, 20, 70, 70, 70, 70, 20,
    200, 0, 250, 0, 200, 50 /* beside them */
};
static const uint32_t ends[] = {4, 8, 12, 15};

enum { CONTOURS = sizeof ends / sizeof *ends };

int main(int argc, char **argv)
{
    uint32_t depths[CONTOURS], parents[CONTOURS], depth, refusal;
    uint64_t out[4] = {0};
    size_t entries = argc > 1 ? (size_t)strtoul(argv[1], NULL, 10) : CONTOURS, printed = 0, i;

    if (entries > CONTOURS)
        entries = CONTOURS;
    refusal = wadroles_nesting(points, sizeof points / sizeof *points, ends, CONTOURS,
                               depths, entries, parents, entries, out);
    if (refusal != 0) {
        fprintf(stderr, "nesting: refused %" PRIu32 " %" PRIu64 "\n", refusal, out[0]);
        return 1;
    }
    for (depth = 0; printed < CONTOURS; depth++)
        for (i = 0; i < CONTOURS; i++) {
            if (depths[i] != depth)
                continue;
            printf("contour %zu depth %" PRIu32 " parent ", i, depth);
            if (parents[i] == WADROLES_NO_PARENT)
                printf("none\n");
            else
                printf("%" PRIu32 "\n", parents[i]);
            printed++;
        }
    return 0;
}
