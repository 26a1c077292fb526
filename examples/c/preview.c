/*
 * preview.c - draws a layer as a press screen does.
 *
 * Fetches the calls that draw a layer, move to a point, line to a point and close, in runs, and
 * prints a line for each. The layer is that of part P at height 5, as wadroles_cut and
 * wadroles_read_layer give it.
 *
 *   (cd crates/wadroles && rt lib --cpu x86-64)
 *   cc -std=c99 -Iinclude examples/c/preview.c crates/wadroles/out/libwadroles.a -o preview
 *   ./preview 100 -20
 *
 * The arguments are x and y of the plate's origin (without them, 0). A refusal prints its number
 * and its place. The exit status is 0; 1 after a refusal.
 */
#include <inttypes.h>
#include <stdio.h>
#include <stdlib.h>

#include "wadroles.h"

/* The calls of a run. Each run tests the whole layer, so a screen takes longer ones. */
enum { RUN = 3 };

static const int32_t points[] = {5, 0, 0, 5, 0, 0};
static const uint32_t ends[] = {3};

static void draw(uint8_t kind, const float xy[2])
{
    switch (kind) {
    case 0:
        printf("move %.0f %.0f\n", xy[0], xy[1]);
        break;
    case 1:
        printf("line %.0f %.0f\n", xy[0], xy[1]);
        break;
    default:
        printf("close\n");
    }
}

int main(int argc, char **argv)
{
    float x = argc > 1 ? strtof(argv[1], NULL) : 0, y = argc > 2 ? strtof(argv[2], NULL) : 0;
    uint8_t kinds[RUN];
    float xy[2 * RUN];
    uint64_t out[4] = {0};
    size_t number = 0, i;

    do {
        uint32_t refusal = wadroles_preview_run(points, sizeof points / sizeof *points,
                                                ends, sizeof ends / sizeof *ends,
                                                x, y, number, kinds, RUN, xy, 2 * RUN, out);

        if (refusal != 0) {
            fprintf(stderr, "preview: refused %" PRIu32 " %" PRIu64 "\n", refusal, out[0]);
            return 1;
        }
        for (i = 0; i < out[0]; i++)
            draw(kinds[i], xy + 2 * i);
        number += (size_t)out[0];
    } while (out[0] == RUN); /* a run that is not full has reached the last call */
    printf("calls %zu\n", number);

    /* One call by its number, of which there is none past the last. */
    wadroles_preview(points, sizeof points / sizeof *points, ends, sizeof ends / sizeof *ends,
                     x, y, number, xy, out);
    return out[0] == 3 ? 0 : 1;
}
