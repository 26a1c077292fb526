/*
 * ink.c - what a layer file is charged.
 *
 * Reads a layer file, and prints its charge in whole nanolitres for layers of a thickness.
 *
 *   (cd crates/wadroles && rt lib --cpu x86-64)
 *   cc -std=c99 -Iinclude examples/c/ink.c crates/wadroles/out/libwadroles.a -o ink
 *   ./ink p.layers 1000
 *
 * The arguments are the file and the thickness in micrometres. A refusal prints its number and its
 * place. The exit status is 0; 1 after a refusal, 2 where the file cannot be read.
 */
#include <inttypes.h>
#include <stdio.h>
#include <stdlib.h>

#include "wadroles.h"

/* The bytes of a file, or NULL. */
static uint8_t *read_file(const char *path, size_t *length)
{
    FILE *f = fopen(path, "rb");
    uint8_t *bytes = NULL;
    size_t room = 0;

    *length = 0;
    if (f == NULL)
        return NULL;
    do {
        uint8_t *longer = realloc(bytes, room = 2 * room + 4096);

        if (longer == NULL)
            break;
        bytes = longer;
        *length += fread(bytes + *length, 1, room - *length, f);
    } while (*length == room);
    if (ferror(f) || *length == room) {
        free(bytes);
        bytes = NULL;
    }
    fclose(f);
    return bytes;
}

int main(int argc, char **argv)
{
    size_t length;
    uint8_t *file = argc == 3 ? read_file(argv[1], &length) : NULL;
    uint64_t out[4] = {0};
    uint32_t refusal;

    if (file == NULL) {
        fprintf(stderr, "ink: give a layer file and a thickness\n");
        return 2;
    }
    refusal = wadroles_ink(file, length, (uint32_t)strtoul(argv[2], NULL, 10), out);
    free(file);
    if (refusal != 0) {
        fprintf(stderr, "ink: refused %" PRIu32 " %" PRIu64 "\n", refusal, out[0]);
        return 1;
    }
    printf("ink %" PRIu64 "\n", out[0]);
    return 0;
}
