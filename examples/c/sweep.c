/*
 * sweep.c - from a part file to its layer file, and back.
 *
 * Reads a part file, checks the mesh and writes its layer file. Then sweeps the mesh over the
 * heights of that file, reads each layer back, and compares it with what the sweep gives. Prints a
 * line for each layer: height, contours, points, and the sum of the contours' doubled areas.
 *
 *   (cd crates/wadroles && rt lib --cpu x86-64)
 *   cc -std=c99 -Iinclude examples/c/sweep.c crates/wadroles/out/libwadroles.a -o sweep
 *   ./sweep examples/p.part p.layers
 *
 * The first argument is the part file (without it, examples/p.part), the second where the layer
 * file goes (without it, nowhere). A refusal prints the operation, its number and its place. The
 * exit status is 0; 1 after a refusal; 2 where something else went wrong.
 */
#include <inttypes.h>
#include <stdio.h>
#include <stdlib.h>
#include <string.h>

#include "wadroles.h"

enum { DONE = 0, REFUSED = 1, FAILED = 2 };

/* All tables. The library has no memory of its own: these are lent to it. */
struct job {
    uint8_t *part, *file;                   /* the part file and the layer file */
    size_t part_len, file_len;
    int32_t *coords, *heights;              /* what the part file holds */
    uint32_t *corners;
    size_t vertices, corner_count, height_count;
    uint32_t *pairing, *order;              /* what the check finds */
    uint32_t *ring;                         /* the sweep, and how many vertices it has passed */
    size_t passed;
    uint32_t *names, *ends, *marks;         /* a layer */
    int32_t *points;
    uint32_t *read_ends;                    /* a layer of the layer file */
    int32_t *read_points;
};

/* Tables as the functions take them, each with its length in elements. */
#define MESH(j) (j)->coords, 3 * (j)->vertices, (j)->corners, (j)->corner_count
#define FOUND(j) (j)->pairing, (j)->corner_count, (j)->order, (j)->vertices
#define RING(j) (j)->ring, (j)->corner_count
#define LAYER(j) (j)->names, (j)->corner_count, (j)->points, 2 * (j)->corner_count, \
                 (j)->ends, (j)->corner_count, (j)->marks, (j)->corner_count

/* A table of zeros. It has an entry more than asked for, so it is never null. */
static void *table(size_t entries, size_t size)
{
    void *memory = calloc(entries + 1, size);

    if (memory == NULL) {
        fprintf(stderr, "no memory for %zu entries\n", entries);
        exit(FAILED);
    }
    return memory;
}

/* Every function answers 0, or the number of a refusal with its place in out[0]. */
static int answer(const char *operation, uint32_t number, const uint64_t out[4])
{
    if (number == 0)
        return DONE;
    fprintf(stderr, "%s: refused %" PRIu32 " %" PRIu64 "\n", operation, number, out[0]);
    return REFUSED;
}

/* A value of the file takes a byte at least, so no table needs more entries than it has bytes. */
static int read_part(struct job *job)
{
    size_t most = job->part_len;
    uint64_t out[4] = {0};
    uint32_t number;

    job->coords = table(most, sizeof *job->coords);
    job->corners = table(most, sizeof *job->corners);
    job->heights = table(most, sizeof *job->heights);
    number = wadroles_read_part(job->part, job->part_len, job->coords, most,
                                job->corners, most, job->heights, most, out);
    if (number == 0) {
        job->vertices = (size_t)out[0];
        job->corner_count = 3 * (size_t)out[1];
        job->height_count = (size_t)out[2];
    }
    return answer("read part", number, out);
}

static int check(struct job *job)
{
    uint64_t out[4] = {0};

    job->pairing = table(job->corner_count, sizeof *job->pairing);
    job->order = table(job->vertices, sizeof *job->order);
    return answer("check", wadroles_check(MESH(job), FOUND(job), out), out);
}

/* Where the part has no heights, default ones are taken. The room is a guess: output that is too
 * short is refused and left alone, so ask again with more. */
static int write_layers(struct job *job)
{
    size_t corners = job->corner_count, room = 1024 + 4 * corners;
    uint64_t out[4] = {0};
    uint32_t number;

    job->names = table(corners, sizeof *job->names);
    job->points = table(2 * corners, sizeof *job->points);
    job->ends = table(corners, sizeof *job->ends);
    job->marks = table(corners, sizeof *job->marks);
    job->ring = table(corners, sizeof *job->ring);
    do {
        free(job->file);
        job->file = table(room *= 4, 1);
        number = wadroles_all_layers(MESH(job), FOUND(job), job->heights, job->height_count,
                                     LAYER(job), RING(job), job->file, room, out);
    } while (number == WADROLES_OUTPUT);
    if (number == 0)
        job->file_len = (size_t)out[0];
    return answer("all layers", number, out);
}

/* Rises to the height of the layer read last, compares the two and prints one of them. */
static int rise(struct job *job, const uint64_t read[4])
{
    int32_t height = (int32_t)(int64_t)read[1];
    size_t contours = (size_t)read[2], points = (size_t)read[3], j;
    uint64_t out[4] = {0}, part[4] = {0};
    int64_t doubled = 0;
    int status = answer("layer", wadroles_layer(MESH(job), FOUND(job), RING(job), job->passed,
                                                height, LAYER(job), out), out);

    if (status != DONE)
        return status;
    job->passed = (size_t)out[0];
    if (out[1] != contours || out[2] != points
        || memcmp(job->ends, job->read_ends, contours * sizeof *job->ends) != 0
        || memcmp(job->points, job->read_points, 2 * points * sizeof *job->points) != 0) {
        fprintf(stderr, "the layer at %" PRId32 " was read back otherwise\n", height);
        return FAILED;
    }
    for (j = 0; j < contours && status == DONE; j++) {
        wadroles_contour(job->points, 2 * points, job->ends, contours, j, part);
        status = answer("area", wadroles_area(job->points + part[0], (size_t)part[1], out), out);
        doubled += (int64_t)out[0];
    }
    if (status == DONE)
        printf("layer %" PRId32 " %zu %zu %" PRId64 "\n", height, contours, points, doubled);
    return status;
}

/* A layer of the mesh has fewer points than there are corners, and fewer contours. */
static int sweep(struct job *job)
{
    size_t corners = job->corner_count, i;
    uint64_t out[4] = {0};
    uint32_t number;
    int status = answer("start", wadroles_start(MESH(job), RING(job), out), out);

    job->passed = 0;
    job->read_points = table(2 * corners, sizeof *job->read_points);
    job->read_ends = table(corners, sizeof *job->read_ends);
    for (i = 0; status == DONE; i++) {
        number = wadroles_read_layer(job->file, job->file_len, i, job->read_points, 2 * corners,
                                     job->read_ends, corners, out);
        if (number == WADROLES_LAYER) { /* there is no layer i, so all are done */
            printf("layers %zu, bytes %zu\n", i, job->file_len);
            break;
        }
        status = number == 0 ? rise(job, out) : answer("read layer", number, out);
    }
    return status;
}

static int load(struct job *job, const char *path)
{
    FILE *stream = fopen(path, "rb");
    long length = -1;

    if (stream != NULL && fseek(stream, 0, SEEK_END) == 0 && (length = ftell(stream)) >= 0) {
        rewind(stream);
        job->part = table((size_t)length, 1);
        job->part_len = fread(job->part, 1, (size_t)length, stream);
    }
    if (stream == NULL || fclose(stream) != 0 || job->part_len != (size_t)length)
        return perror(path), FAILED;
    return DONE;
}

static int save(const struct job *job, const char *path)
{
    FILE *stream = fopen(path, "wb");
    size_t written = stream == NULL ? 0 : fwrite(job->file, 1, job->file_len, stream);

    if (stream == NULL || fclose(stream) != 0 || written != job->file_len)
        return perror(path), FAILED;
    return DONE;
}

static void release(struct job *job)
{
    free(job->part), free(job->file), free(job->coords), free(job->heights), free(job->corners);
    free(job->pairing), free(job->order), free(job->ring), free(job->names), free(job->ends);
    free(job->marks), free(job->points), free(job->read_ends), free(job->read_points);
}

int main(int argc, char **argv)
{
    struct job job = {0};
    int status = load(&job, argc > 1 ? argv[1] : "examples/p.part");

    status = status == DONE ? read_part(&job) : status;
    status = status == DONE ? check(&job) : status;
    status = status == DONE ? write_layers(&job) : status;
    status = status == DONE ? sweep(&job) : status;
    status = status == DONE && argc > 2 ? save(&job, argv[2]) : status;
    release(&job);
    return status;
}
