/*
 * mosaic_veneer against a flood of its own, on random maps: compare [MAPS [SEED]].
 * Every number of the answer, of the work store and of the store of sums is looked at, in both modes, with a store that is exact, longer and
 * shorter by one. The contours of mosaic_whole are summed too: each face has one above zero, and none is zero. With -DFAULT=1 or 2 the flood
 * itself is wrong, and must be seen.
 */
#include <stdio.h>
#include <stdlib.h>
#include <string.h>
#include "mosaic.h"

#ifndef FAULT
#define FAULT 0
#endif

enum { SIDE = 12, PIXELS = SIDE * SIDE, CORNERS = (SIDE + 1) * (SIDE + 1), WORK = 8 * CORNERS + 3, CRACKS = 2 * PIXELS + 2 * SIDE };

static uint64_t state;
static uint32_t roll(uint32_t sides) {
    state = state * UINT64_C(6364136223846793005) + UINT64_C(1442695040888963407);
    return (uint32_t)((state >> 33) % sides);
}

static uint32_t width, height, paints, mode;
static uint32_t labels[PIXELS];
static unsigned long maps, calls, faces_seen, contours_seen, differences;

static void differ(const char *what) {
    if (differences++ < 5) {
        printf("%s: mode %u, %u %u %u:", what, mode, width, height, paints);
        for (uint32_t p = 0; p < width * height; p++) printf(" %u", labels[p]);
        printf("\n");
    }
}

static uint32_t seen(uint32_t p) { return mode != 0 && labels[p] >= paints ? MOSAIC_OUTSIDE : labels[p]; }

/* The pieces by a flood, in face order: by label, then by first pixel. */
static int64_t expected[PIXELS];
static uint32_t flood(void) {
    static uint32_t first[PIXELS], size[PIXELS], stack[PIXELS];
    static unsigned char known[PIXELS];
    uint32_t n = 0, area = width * height;
    memset(known, 0, sizeof known);
    for (uint32_t p = 0; p < area; p++) {
        if (known[p] || seen(p) >= paints || seen(p) == MOSAIC_OUTSIDE) continue;
        uint32_t top = 0, count = 0;
        stack[top++] = p;
        known[p] = 1;
        while (top != 0) {
            uint32_t q = stack[--top];
            int x = (int)(q % width), y = (int)(q / width);
            count++;
            for (int dy = -1; dy <= 1; dy++)
                for (int dx = -1; dx <= 1; dx++) {
                    int u = x + dx, v = y + dy;
                    if (FAULT == 1 && dx != 0 && dy != 0) continue;
                    if (u < 0 || v < 0 || u >= (int)width || v >= (int)height) continue;
                    uint32_t r = (uint32_t)v * width + (uint32_t)u;
                    if (!known[r] && seen(r) == seen(p)) {
                        known[r] = 1;
                        stack[top++] = r;
                    }
                }
        }
        uint32_t k = n++;
        if (FAULT != 2)
            while (k != 0 && seen(first[k - 1]) > seen(p)) {
                first[k] = first[k - 1];
                size[k] = size[k - 1];
                k--;
            }
        first[k] = p;
        size[k] = count;
    }
    for (uint32_t k = 0; k < n; k++) expected[k] = size[k];
    return n;
}

static void measure(uint32_t lent, uint32_t faces, const mosaic_answer *counted) {
    static uint32_t work[WORK];
    static int64_t sums[PIXELS + 2];
    mosaic_answer answer;
    size_t planes = mosaic_work_words(width, height);
    for (size_t i = 0; i < WORK; i++) work[i] = 77;
    for (size_t i = 0; i < PIXELS + 2; i++) sums[i] = -9;
    mosaic_veneer(mode, width, height, paints, labels, (size_t)width * height, work, planes + 1, sums, lent, &answer);
    calls++;
    mosaic_answer wanted = *counted;
    wanted.number = lent < faces ? MOSAIC_SHORT_FACES : MOSAIC_DONE;
    if (memcmp(&answer, &wanted, sizeof answer) != 0) differ("answer");
    for (size_t i = 0; i < WORK; i++)
        if (work[i] != (i < planes ? 0 : 77)) {
            differ("work store");
            break;
        }
    for (uint32_t i = 0; i < PIXELS + 2; i++)
        if (sums[i] != (lent >= faces && i < faces ? expected[i] : -9)) {
            differ("sums");
            break;
        }
}

/* Each face has one contour above zero, and none has the sum zero. */
static void outlines(void) {
    static uint32_t work[WORK], nodes[6 * CORNERS], segments[8 * CRACKS], points[4 * CRACKS], references[2 * CRACKS], contours[2 * CORNERS];
    static mosaic_face faces[PIXELS];
    mosaic_answer a;
    mosaic_whole(mode, width, height, paints, labels, (size_t)width * height, work, WORK, nodes, 6 * CORNERS, segments, 8 * CRACKS, points,
                 4 * CRACKS, references, 2 * CRACKS, contours, 2 * CORNERS, (uint32_t *)faces, PIXELS * MOSAIC_WORDS(mosaic_face), &a);
    for (uint32_t f = 0; f < a.faces; f++) {
        uint32_t above = 0;
        int64_t all = 0;
        for (uint32_t c = faces[f].first_contour; c < faces[f].first_contour + faces[f].contour_count; c++) {
            int64_t sum = 0;
            for (uint32_t r = contours[2 * c]; r < contours[2 * c] + contours[2 * c + 1]; r++) {
                const uint32_t *s = segments + 8 * mosaic_segment_of(references[r]);
                int64_t way = mosaic_reversed(references[r]) ? -1 : 1;
                for (uint32_t p = s[0]; p + 1 < s[0] + s[1]; p++)
                    sum += way * ((int64_t)points[2 * p + 2] - (int64_t)points[2 * p]) * (int64_t)points[2 * p + 1];
            }
            above += sum > 0;
            all += sum;
            if (sum == 0) differ("a contour with the sum 0");
            contours_seen++;
        }
        if (above != 1) differ("outlines");
        if (all != expected[f]) differ("contours together");
        faces_seen++;
    }
}

int main(int argc, char **argv) {
    unsigned long wanted = argc > 1 ? strtoul(argv[1], NULL, 10) : 20000;
    state = argc > 2 ? strtoul(argv[2], NULL, 10) : 1;
    while (maps < wanted) {
        width = roll(SIDE + 1);
        height = roll(SIDE + 1);
        paints = roll(5);
        uint32_t kinds = 1 + roll(4), blocks = roll(3);
        for (uint32_t p = 0; p < width * height; p++) {
            uint32_t l = roll(kinds + 1);
            labels[p] = l == kinds ? (roll(2) ? MOSAIC_OUTSIDE : 7) : l;
            if (blocks != 0 && p % width != 0 && roll(3) != 0) labels[p] = labels[p - 1];
            if (blocks == 2 && p >= width && roll(2) != 0) labels[p] = labels[p - width];
        }
        for (mode = 0; mode < 2; mode++) {
            static uint32_t work[WORK];
            mosaic_answer counted;
            mosaic_size(mode, width, height, paints, labels, (size_t)width * height, work, WORK, &counted);
            uint32_t faces = flood();
            if (counted.faces != faces) differ("faces");
            measure(faces, faces, &counted);
            measure(faces + 1, faces, &counted);
            if (faces != 0) measure(faces - 1, faces, &counted);
            outlines();
        }
        maps++;
    }
    printf("%lu maps, %lu calls, %lu faces, %lu contours, %lu differences\n", maps, calls, faces_seen, contours_seen, differences);
    return differences != 0;
}
