/* Holds the library to the numbers, counts and untouched words that mosaic.h speaks of. `check big` adds a map of 16384 x 16384,
 * which takes 10 GB. */
#include <inttypes.h>
#include <stdio.h>
#include <stdlib.h>
#include <string.h>

#include "mosaic.h"

_Static_assert(sizeof(mosaic_answer) == 8 * sizeof(uint32_t), "the answer is eight words");
_Static_assert(MOSAIC_WORDS(mosaic_node) == 6, "a node is six words");
_Static_assert(MOSAIC_WORDS(mosaic_segment) == 8, "a segment is eight words");
_Static_assert(MOSAIC_WORDS(mosaic_point) == 2, "a point is two words");
_Static_assert(MOSAIC_WORDS(mosaic_contour) == 2, "a contour is two words");
_Static_assert(MOSAIC_WORDS(mosaic_face) == 5, "a face is five words");

enum { WORK, NODES, SEGMENTS, POINTS, REFERENCES, CONTOURS, FACES, STORES };
static const size_t record_words[STORES] = {1, 6, 8, 2, 1, 2, 5};

#define UNTOUCHED UINT32_C(0xA5A5A5A5)
#define GUARD 4 /* words kept behind each store */

typedef struct {
    uint32_t width, height, paints;
    const uint32_t *labels;
    size_t count;
} map;

typedef enum { SIZE, GRAPH, WHOLE } call;

static int checks, wrong;

static void expect(int holds, const char *what, uint32_t got, uint32_t wanted) {
    checks++;
    if (!holds) {
        wrong++;
        printf("WRONG %s: %" PRIu32 " instead of %" PRIu32 "\n", what, got, wanted);
    }
}

/* Whether all words from `from` up to `to` are `value`. */
static int all(const uint32_t *store, size_t from, size_t to, uint32_t value) {
    for (size_t i = from; i < to; i++) {
        if (store[i] != value) {
            return 0;
        }
    }
    return 1;
}

static uint32_t *blank(size_t words) {
    uint32_t *store = malloc((words + GUARD) * sizeof *store);
    if (store == NULL) {
        fprintf(stderr, "check: no memory for %zu words\n", words);
        exit(2);
    }
    for (size_t i = 0; i < words + GUARD; i++) {
        store[i] = UNTOUCHED;
    }
    return store;
}

/* Runs a call with stores of the given lengths in words; holds its answer to `wanted` and every lent word to mosaic.h.
 * Stores of length 0 are lent as NULL. */
static void run(const char *what, call which, map m, const size_t len[STORES], const uint32_t wanted[8]) {
    uint32_t *store[STORES];
    mosaic_answer answer;
    uint32_t got[8];
    uint32_t *lent[STORES];
    for (int s = 0; s < STORES; s++) {
        store[s] = blank(len[s]);
        lent[s] = len[s] == 0 ? NULL : store[s];
    }
    memset(&answer, 0x5A, sizeof answer);
    if (which == SIZE) {
        mosaic_size(MOSAIC_PLAIN, m.width, m.height, m.paints, m.labels, m.count, lent[WORK], len[WORK], &answer);
    } else if (which == GRAPH) {
        mosaic_graph(MOSAIC_PLAIN, m.width, m.height, m.paints, m.labels, m.count, lent[WORK], len[WORK], lent[NODES], len[NODES],
                     lent[SEGMENTS], len[SEGMENTS], lent[POINTS], len[POINTS], &answer);
    } else {
        mosaic_whole(MOSAIC_PLAIN, m.width, m.height, m.paints, m.labels, m.count, lent[WORK], len[WORK], lent[NODES], len[NODES],
                     lent[SEGMENTS], len[SEGMENTS], lent[POINTS], len[POINTS], lent[REFERENCES], len[REFERENCES],
                     lent[CONTOURS], len[CONTOURS], lent[FACES], len[FACES], &answer);
    }
    memcpy(got, &answer, sizeof got);
    for (int i = 0; i < 8; i++) {
        expect(got[i] == wanted[i], what, got[i], wanted[i]);
    }
    int looked_at = wanted[0] == 0 || wanted[0] >= 4;
    size_t zeroed = looked_at ? mosaic_work_words(m.width, m.height) : 0;
    expect(all(store[WORK], 0, zeroed, 0), "work words that are 0", 1, 0);
    expect(all(store[WORK], zeroed, len[WORK] + GUARD, UNTOUCHED), "work words that stay", 1, 0);
    for (int s = NODES; s < STORES; s++) {
        size_t used = wanted[0] == 0 && which != SIZE ? wanted[s] * record_words[s] : 0;
        expect(all(store[s], used, len[s] + GUARD, UNTOUCHED), "words past the records", (uint32_t)s, 0);
    }
    for (int s = 0; s < STORES; s++) {
        free(store[s]);
    }
}

/* The lengths that a map with these counts needs, and `more` words each. */
static void lengths(size_t len[STORES], map m, const uint32_t counts[8], size_t more) {
    len[WORK] = mosaic_work_words(m.width, m.height) + more;
    for (int s = NODES; s < STORES; s++) {
        len[s] = counts[s] * record_words[s] + more;
    }
}

/* The answer of a call whose checks end with `number`, on a map with these counts. */
static void answer_of(uint32_t wanted[8], call which, uint32_t number, const uint32_t counts[8]) {
    for (int i = 1; i < 8; i++) {
        int given = number == 0 || number >= 4;
        int faces = i >= REFERENCES && i <= FACES;
        wanted[i] = given && !(faces && which == GRAPH) ? counts[i] : 0;
    }
    wanted[0] = number;
}

/* All three calls on a map with the counts given: exact stores, roomy ones, each one word short, and none. */
static void worked(const char *what, map m, const uint32_t counts[8]) {
    for (call which = SIZE; which <= WHOLE; which++) {
        int last = which == SIZE ? WORK : which == GRAPH ? POINTS : FACES;
        size_t len[STORES];
        uint32_t wanted[8];
        answer_of(wanted, which, 0, counts);
        for (size_t more = 0; more < 10; more++) {
            lengths(len, m, counts, more);
            run(what, which, m, len, wanted);
        }
        for (int s = WORK; s <= last; s++) {
            lengths(len, m, counts, 0);
            if (len[s] > 0) {
                len[s]--;
                answer_of(wanted, which, (uint32_t)s + 3, counts);
                run(what, which, m, len, wanted);
            }
        }
        /* Every output store empty: the first that is needed answers. */
        uint32_t number = 0;
        for (int s = last; s >= NODES; s--) {
            number = counts[s] > 0 ? (uint32_t)s + 3 : number;
        }
        memset(len, 0, sizeof len);
        len[WORK] = mosaic_work_words(m.width, m.height);
        answer_of(wanted, which, number, counts);
        run(what, which, m, len, wanted);
    }
}

static void one_call(const char *what, call which, map m, const size_t len[STORES], uint32_t number, const uint32_t counts[8]) {
    uint32_t wanted[8];
    answer_of(wanted, which, number, counts);
    run(what, which, m, len, wanted);
}

static const uint32_t none[8] = {0};

/* Sides and label counts, before any store is looked at. */
static void sides(void) {
    static const uint32_t labels[5] = {0, 1, 0, 1, 0};
    for (call which = SIZE; which <= WHOLE; which++) {
        size_t len[STORES] = {(size_t)8 * 16385, 0, 0, 0, 0, 0, 0};
        one_call("16384x0", which, (map){16384, 0, 1, NULL, 0}, len, 0, none);
        one_call("0x16384", which, (map){0, 16384, 1, NULL, 0}, len, 0, none);
        one_call("16384x0, a label", which, (map){16384, 0, 1, labels, 1}, len, 2, none);
        one_call("16385x0", which, (map){16385, 0, 1, NULL, 0}, len, 1, none);
        one_call("0x16385", which, (map){0, 16385, 1, NULL, 0}, len, 1, none);
        one_call("16385x0, wrong label count", which, (map){16385, 0, 1, labels, 5}, len, 1, none);
        one_call("16385x1, wrong label count", which, (map){16385, 1, 1, labels, 5}, len, 1, none);
        one_call("the longest sides", which, (map){UINT32_MAX, UINT32_MAX, 1, labels, 1}, len, 1, none);
        len[WORK]--;
        one_call("16384x0, a work word short", which, (map){16384, 0, 1, NULL, 0}, len, 3, none);
        one_call("16385x0, a work word short", which, (map){16385, 0, 1, NULL, 0}, len, 1, none);
        len[WORK] = 0;
        one_call("0x0 without stores", which, (map){0, 0, 0, NULL, 0}, len, 3, none);
        one_call("16385x0 without stores", which, (map){16385, 0, 1, NULL, 0}, len, 1, none);
        one_call("2x1, a label short", which, (map){2, 1, 2, labels, 1}, len, 2, none);
        one_call("2x1, a label more", which, (map){2, 1, 2, labels, 3}, len, 2, none);
    }
}

/* Two refusals, spelled out. */
static void short_stores(void) {
    static const uint32_t labels[2] = {0, 1};
    static const uint32_t counts[8] = {0, 2, 3, 10, 4, 2, 2, 7};
    map m = {2, 1, 2, labels, 2};
    size_t len[STORES];
    for (call which = GRAPH; which <= WHOLE; which++) {
        lengths(len, m, counts, 0);
        len[POINTS] = 9 * 2;
        one_call("2x1 with room for 9 points", which, m, len, 6, counts);
        lengths(len, m, counts, 0);
        len[NODES] = 11;
        one_call("2x1 with 11 node words", which, m, len, 4, counts);
    }
}

/* A checkerboard of n x n pixels, n even, has a node at each corner but those of the map, and each crack is a segment but the four
 * at those corners, where two cracks make one. Each colour hangs together across its corners. */
static void checker(uint32_t n) {
    size_t pixels = (size_t)n * n;
    uint32_t *labels = blank(pixels);
    for (size_t i = 0; i < pixels; i++) {
        labels[i] = (uint32_t)((i / n + i % n) % 2);
    }
    map m = {n, n, 2, labels, pixels};
    uint32_t cracks = 2 * n * n + 2 * n;
    uint32_t segments = cracks - 4;
    mosaic_answer a;
    size_t len[STORES] = {mosaic_work_words(n, n), 0, 0, 0, 0, 0, 0};
    uint32_t *work = blank(len[WORK]);
    mosaic_size(MOSAIC_PLAIN, n, n, 2, labels, pixels, work, len[WORK], &a);
    free(work);
    expect(a.number == 0, "checker: number", a.number, 0);
    expect(a.nodes == (n + 1) * (n + 1) - 4, "checker: nodes", a.nodes, (n + 1) * (n + 1) - 4);
    expect(a.segments == segments, "checker: segments", a.segments, segments);
    expect(a.points == cracks + segments, "checker: points", a.points, cracks + segments);
    expect(a.faces == 2, "checker: faces", a.faces, 2);
    expect(a.steps == cracks, "checker: steps", a.steps, cracks);
    uint32_t counts[8] = {0, a.nodes, a.segments, a.points, a.references, a.contours, a.faces, a.steps};
    lengths(len, m, counts, 3);
    one_call("checker", GRAPH, m, len, 0, counts);
    one_call("checker", WHOLE, m, len, 0, counts);
    len[FACES] = 5;
    one_call("checker, a face word short", WHOLE, m, len, 9, counts);
    free(labels);
}

/* The largest map: one ring, one face. */
static void big(void) {
    size_t pixels = (size_t)16384 * 16384;
    uint32_t *labels = calloc(pixels, sizeof *labels);
    if (labels == NULL) {
        fprintf(stderr, "check: no memory for the big map\n");
        exit(2);
    }
    map m = {16384, 16384, 1, labels, pixels};
    static const uint32_t counts[8] = {0, 0, 1, 65537, 1, 1, 1, 65536};
    size_t len[STORES];
    lengths(len, m, counts, 0);
    one_call("16384x16384", SIZE, m, len, 0, counts);
    one_call("16384x16384", WHOLE, m, len, 0, counts);
    free(labels);
}

int main(int argc, char **argv) {
    static const uint32_t zero[9] = {0, 0, 0, 0, 0, 0, 0, 0, 0};
    static const uint32_t seven[1] = {7};
    static const uint32_t outside[1] = {MOSAIC_OUTSIDE};
    static const uint32_t highest[1] = {4294967294u};
    static const uint32_t pair[2] = {0, 1};
    static const uint32_t stripes[3] = {0, 1, 0};
    static const uint32_t board[4] = {0, 1, 1, 0};
    static const uint32_t panel[9] = {0, 0, 0, 0, 1, 0, 0, 0, 0};

    sides();
    short_stores();
    worked("0x0", (map){0, 0, 0, NULL, 0}, none);
    worked("3x0", (map){3, 0, 1, NULL, 0}, none);
    worked("1x1 of 0", (map){1, 1, 1, zero, 1}, (uint32_t[8]){0, 0, 1, 5, 1, 1, 1, 4});
    worked("1x1 of 7", (map){1, 1, 1, seven, 1}, (uint32_t[8]){0, 0, 1, 5, 0, 0, 0, 4});
    worked("1x1 of OUTSIDE", (map){1, 1, 1, outside, 1}, none);
    worked("1x1 of the highest label", (map){1, 1, UINT32_MAX, highest, 1}, (uint32_t[8]){0, 0, 1, 5, 1, 1, 1, 4});
    worked("2x1", (map){2, 1, 2, pair, 2}, (uint32_t[8]){0, 2, 3, 10, 4, 2, 2, 7});
    worked("3x1", (map){3, 1, 2, stripes, 3}, (uint32_t[8]){0, 4, 6, 16, 8, 3, 3, 10});
    worked("2x2", (map){2, 2, 2, board, 4}, (uint32_t[8]){0, 5, 8, 20, 12, 2, 2, 12});
    worked("3x3", (map){3, 3, 2, panel, 9}, (uint32_t[8]){0, 0, 2, 18, 3, 3, 2, 16});
    checker(2);
    checker(1024);
    if (argc == 2 && strcmp(argv[1], "big") == 0) {
        big();
    }
    printf("%d checks, %d wrong\n", checks, wrong);
    return wrong != 0;
}
