/* Reads cases, one to a line, and prints what the library answers and which moves it makes: see `compare`. FAULT plants one of three faults, each
 * of which must be seen: a wrong last bit now and then, 16 taken for 0, segments never read backwards. */
#include <inttypes.h>
#include <stdio.h>
#include <stdlib.h>
#include <string.h>

#include "mosaic.h"

#ifndef FAULT
#define FAULT 0
#endif

static uint32_t word(void) {
    uint32_t w;
    if (scanf("%" SCNu32, &w) != 1) {
        exit(2);
    }
    return w;
}

/* A double by its bits. */
static double side(void) {
    uint64_t bits;
    double d;
    if (scanf("%" SCNx64, &bits) != 1) {
        exit(2);
    }
    memcpy(&d, &bits, sizeof d);
    return d;
}

static void show(double d) {
    uint64_t bits;
    memcpy(&bits, &d, sizeof bits);
    static int shown = 0;
    bits ^= FAULT == 1 && ++shown % 1000 == 0;
    printf(" %016" PRIx64, bits);
}

/* So many calls of the mover, each as its number, the place after it and the point, which is set to -1 before. */
static void moves(uint32_t w, uint32_t h, double wide, double high, uint32_t count, uint32_t reversed,
                  const uint32_t *segments, size_t segments_len, const uint32_t *points, size_t points_len, uint32_t calls) {
    uint32_t at[2] = {0, 0};
    reversed = FAULT == 3 ? 0 : reversed;
    printf("moves");
    for (uint32_t i = 0; i < calls; i++) {
        double point[2] = {-1, -1};
        printf(" %" PRIu32, mosaic_move(w, h, wide, high, count, reversed, segments, segments_len, points, points_len, at, point));
        show(point[0]);
        show(point[1]);
    }
    printf("\n");
}

enum { STORES = 7 };

struct lent {
    uint32_t *words[STORES];
    size_t len[STORES];
    mosaic_answer answer;
};

static void lend(struct lent *l, const size_t *len) {
    for (int i = 0; i < STORES; i++) {
        l->len[i] = len[i];
        l->words[i] = malloc(4 * len[i] + 4);
        for (size_t j = 0; j < len[i]; j++) {
            l->words[i][j] = 2654435761u * (uint32_t)(j + 1) + (uint32_t)i;
        }
    }
}

static int same(const struct lent *a, const struct lent *b, int i) { return memcmp(a->words[i], b->words[i], 4 * a->len[i]) == 0; }

static void show_answer(mosaic_answer a) {
    printf("answer %" PRIu32 " %" PRIu32 " %" PRIu32 " %" PRIu32 " %" PRIu32 " %" PRIu32 " %" PRIu32 " %" PRIu32 "\n", a.number, a.nodes,
           a.segments, a.points, a.references, a.contours, a.faces, a.steps);
}

/* map MODE W H PAINTS WIDE HIGH, the lengths of the seven stores, how many labels, the labels: the answers with the sheet and without it, for each
 * store a 1 where it is as it was lent and a 1 where it is as the call without a sheet leaves it, the segments by their corners, and the moves both ways. */
static void a_map(void) {
    uint32_t mode = word(), w = word(), h = word(), paints = word();
    double wide = side(), high = side();
    size_t len[STORES];
    for (int i = 0; i < STORES; i++) {
        len[i] = word();
    }
    size_t count = word();
    uint32_t *labels = malloc(4 * count + 4);
    for (size_t i = 0; i < count; i++) {
        labels[i] = word();
    }
    struct lent before, sheet, whole;
    lend(&before, len);
    lend(&sheet, len);
    lend(&whole, len);
    uint32_t **s = sheet.words, **p = whole.words;
    mosaic_sheet_whole(mode, w, h, paints, wide, high, labels, count, s[0], len[0], s[1], len[1], s[2], len[2], s[3], len[3], s[4], len[4],
                       s[5], len[5], s[6], len[6], &sheet.answer);
    mosaic_whole(mode, w, h, paints, labels, count, p[0], len[0], p[1], len[1], p[2], len[2], p[3], len[3], p[4], len[4], p[5], len[5], p[6],
                 len[6], &whole.answer);
    mosaic_answer said = sheet.answer;
    said.number = FAULT == 2 && said.number == 16 ? 0 : said.number;
    show_answer(said);
    show_answer(whole.answer);
    printf("stores");
    for (int i = 0; i < STORES; i++) {
        printf(" %d%d", same(&sheet, &before, i), same(&sheet, &whole, i));
    }
    printf("\n");
    if (sheet.answer.number == 0) {
        uint32_t segments = sheet.answer.segments, calls = segments + sheet.answer.steps + 2;
        for (uint32_t i = 0; i < segments; i++) {
            uint32_t first = s[2][8 * i], corners = s[2][8 * i + 1];
            printf("segment");
            for (uint32_t j = first; j < first + corners; j++) {
                printf(" %" PRIu32 " %" PRIu32, s[3][2 * j], s[3][2 * j + 1]);
            }
            printf("\n");
        }
        moves(w, h, wide, high, segments, 0, s[2], len[2], s[3], len[3], calls);
        moves(w, h, wide, high, segments, 1, s[2], len[2], s[3], len[3], calls);
    }
    for (int i = 0; i < STORES; i++) {
        free(before.words[i]);
        free(sheet.words[i]);
        free(whole.words[i]);
    }
    free(labels);
}

/* words W H WIDE HIGH COUNT REVERSED CALLS, how many segment words and these, how many point words and these: the moves over any stores. */
static void any_words(void) {
    uint32_t w = word(), h = word();
    double wide = side(), high = side();
    uint32_t count = word(), reversed = word(), calls = word();
    static uint32_t segments[4096], points[4096];
    size_t segments_len = word();
    for (size_t i = 0; i < segments_len; i++) {
        segments[i] = word();
    }
    size_t points_len = word();
    for (size_t i = 0; i < points_len; i++) {
        points[i] = word();
    }
    moves(w, h, wide, high, count, reversed, segments, segments_len, points, points_len, calls);
}

int main(void) {
    char kind[8];
    while (scanf("%7s", kind) == 1) {
        if (strcmp(kind, "map") == 0) {
            a_map();
        } else {
            any_words();
        }
        printf("done\n");
        fflush(stdout);
    }
    return 0;
}
