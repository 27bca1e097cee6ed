/* Job files written and salvaged, timed: milliseconds of CPU time, the least of three rounds, and bytes.
 *
 *     gcc -O2 -Iinclude bench/jobs.c target/staticlib/libmosaic.a -o target/time-jobs && target/time-jobs [SIDE..]
 */
#define _POSIX_C_SOURCE 200809L
#include <stdio.h>
#include <stdlib.h>
#include <time.h>

#include "mosaic.h"

enum { ROUNDS = 3, PAINTS = 8 };

static double now(void) {
    struct timespec t;
    clock_gettime(CLOCK_THREAD_CPUTIME_ID, &t);
    return 1e3 * (double)t.tv_sec + 1e-6 * (double)t.tv_nsec;
}

static void *room(size_t bytes) {
    void *p = calloc(bytes + 1, 1);
    if (p == NULL) {
        fprintf(stderr, "no memory for %zu bytes\n", bytes);
        exit(2);
    }
    return p;
}

static uint32_t noise(void) {
    static uint64_t state = 1;
    state = state * UINT64_C(6364136223846793005) + UINT64_C(1442695040888963407);
    return (uint32_t)(state >> 33) % PAINTS;
}

static void fill(char map, uint32_t side, uint32_t *labels) {
    for (uint32_t y = 0; y < side; y++) {
        for (uint32_t x = 0; x < side; x++) {
            labels[(size_t)y * side + x] = map == 's' ? 0 : map == 't' ? x / 4 % 2 : map == 'c' ? (x + y) % 2 : noise();
        }
    }
}

static void times(const char *name, uint32_t side) {
    size_t pixels = (size_t)side * side, work_len = mosaic_work_words(side, side);
    uint32_t *labels = room(4 * pixels), *work = room(4 * work_len);
    mosaic_answer a;
    uint64_t length = 0, kept[3] = {0, 0, 0};
    double size = 1e30, whole = 1e30, write = 1e30, salvage = 1e30;
    fill(name[1] == 't' ? 't' : name[0], side, labels);
    mosaic_size(MOSAIC_NO_WASTE, side, side, PAINTS, labels, pixels, work, work_len, &a);
    size_t lens[6] = {(size_t)6 * a.nodes, (size_t)8 * a.segments, (size_t)2 * a.points, a.references, (size_t)2 * a.contours,
                      MOSAIC_WORDS(mosaic_face) * (size_t)a.faces};
    size_t file_len = 18 + (size_t)6 * a.segments + (size_t)8 * a.points + (size_t)22 * a.faces + 4 * ((size_t)a.contours + a.references);
    uint32_t *stores[6];
    for (int i = 0; i < 6; i++) {
        stores[i] = room(4 * lens[i]);
    }
    uint8_t *file = room(file_len), *out = room(file_len);
    for (int i = 0; i < ROUNDS; i++) {
        double t[5];
        t[0] = now();
        mosaic_size(MOSAIC_NO_WASTE, side, side, PAINTS, labels, pixels, work, work_len, &a);
        t[1] = now();
        mosaic_whole(MOSAIC_NO_WASTE, side, side, PAINTS, labels, pixels, work, work_len, stores[0], lens[0], stores[1], lens[1],
                     stores[2], lens[2], stores[3], lens[3], stores[4], lens[4], stores[5], lens[5], &a);
        t[2] = now();
        mosaic_write(side, side, PAINTS, labels, pixels, work, work_len, stores[0], lens[0], stores[1], lens[1], stores[2], lens[2],
                     stores[3], lens[3], stores[4], lens[4], stores[5], lens[5], file, file_len, &a, &length);
        t[3] = now();
        mosaic_salvage(file, file_len, out, file_len, kept);
        t[4] = now();
        if (a.number != 0 || length != file_len || kept[0] != 0 || kept[1] != length || kept[2] != 0) {
            fprintf(stderr, "%s %u: number %u, length %llu of %zu\n", name, side, a.number, (unsigned long long)length, file_len);
            exit(1);
        }
        size = t[1] - t[0] < size ? t[1] - t[0] : size;
        whole = t[2] - t[1] < whole ? t[2] - t[1] : whole;
        write = t[3] - t[2] < write ? t[3] - t[2] : write;
        salvage = t[4] - t[3] < salvage ? t[4] - t[3] : salvage;
    }
    printf("| %s | %u² | %zu | %.0f | %.0f | %.0f | %.1f | %.2f |\n", name, side, file_len, size, whole, write, salvage, 1e6 * salvage / (double)file_len);
    for (int i = 0; i < 6; i++) {
        free(stores[i]);
    }
    free(labels), free(work), free(file), free(out);
}

int main(int count, char **words) {
    printf("| map | side | file, bytes | size | whole | write | salvage | salvage, ns for a byte |\n|---|---|---|---|---|---|---|---|\n");
    const char *maps[] = {"solid", "stripes", "checker", "noise"};
    for (int m = 0; m < 4; m++) {
        if (count < 2) {
            times(maps[m], 1024);
            times(maps[m], 4096);
        }
        for (int i = 1; i < count; i++) {
            times(maps[m], (uint32_t)atoi(words[i]));
        }
    }
    return 0;
}
