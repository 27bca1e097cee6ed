/* Random trays through mosaic_tray: the number and every word of every store against docs/RULES.md, read sentence by sentence over single calls of
 * mosaic_whole that have room: whole records counted, absolute places, no store that starts in its middle.
 *
 *     trays SEED TRAYS        the last line counts; the exit status is 0 only without a difference
 *
 * FAULT plants one of three faults, each of which must be seen: a wrong word now and then, labels of refused maps not skipped, 18 asked too late. */
#include <inttypes.h>
#include <stdio.h>
#include <stdlib.h>
#include <string.h>

#include "mosaic.h"

#ifndef FAULT
#define FAULT 0
#endif

enum { MAPS = 5, SIDE = 4, WORDS = 4096, STORES = 6 };

static const uint32_t record_words[STORES] = {6, 8, 2, 1, 2, 5};

struct store {
    uint32_t words[WORDS];
    size_t len;
};

struct tray {
    uint32_t mode;
    struct store maps, labels, work, out[STORES], answers;
};

static uint64_t state;

/* A number below n. */
static uint32_t below(uint32_t n) {
    state ^= state << 13;
    state ^= state >> 7;
    state ^= state << 17;
    return (uint32_t)((state >> 20) % n);
}

#define PICK(list) ((list)[below(sizeof(list) / sizeof(list)[0])])

static void put(struct store *s, uint32_t word) {
    if (s->len == WORDS) {
        exit(2);
    }
    s->words[s->len++] = word;
}

static void repeat(struct store *s, uint32_t word, size_t times) {
    while (times-- > 0) {
        put(s, word);
    }
}

/* The counts of a map, and its records in stores with room for any map of such sides. */
static void alone(uint32_t mode, const uint32_t *map, const uint32_t *labels, mosaic_answer *answer, struct store *list) {
    static uint32_t work[8 * 64];
    size_t len = (size_t)map[0] * map[1];
    for (int i = 0; i < STORES; i++) {
        list[i].len = WORDS;
    }
    mosaic_whole(mode, map[0], map[1], map[2], labels, len, work, sizeof work / sizeof work[0],
                 list[0].words, WORDS, list[1].words, WORDS, list[2].words, WORDS,
                 list[3].words, WORDS, list[4].words, WORDS, list[5].words, WORDS, answer);
    if (answer->number != 0) {
        exit(2);
    }
}

static uint32_t counted(const mosaic_answer *a, int i) {
    const uint32_t counts[STORES] = {a->nodes, a->segments, a->points, a->references, a->contours, a->faces};
    return counts[i];
}

/* What the rules say of a tray: the number, and the stores as they are left. */
static uint32_t expected(struct tray *t) {
    static struct store list[STORES];
    size_t maps = t->maps.len / 3, used[STORES] = {0}, taken = 0;
    int past = 0;
    if (t->answers.len < (FAULT == 3 ? 7 : 8) * maps) {
        return 18;
    }
    for (size_t k = 0; k < maps; k++) {
        const uint32_t *map = t->maps.words + 3 * k;
        uint64_t size = (uint64_t)map[0] * map[1];
        size_t start = taken;
        mosaic_answer answer = {0, 0, 0, 0, 0, 0, 0, 0};
        past |= size > t->labels.len - taken;
        taken = past ? t->labels.len : taken + (size_t)size;
        if (map[0] > MOSAIC_LONGEST_SIDE || map[1] > MOSAIC_LONGEST_SIDE) {
            answer.number = MOSAIC_SIDE_TOO_LONG;
        } else if (past) {
            answer.number = MOSAIC_WRONG_LABEL_COUNT;
        } else if (t->work.len < mosaic_work_words(map[0], map[1])) {
            answer.number = MOSAIC_SHORT_WORK;
        } else {
            alone(t->mode, map, t->labels.words + start, &answer, list);
            memset(t->work.words, 0, mosaic_work_words(map[0], map[1]) * sizeof(uint32_t));
            for (int i = STORES; i-- > 0;) {
                if (t->out[i].len / record_words[i] - used[i] < counted(&answer, i)) {
                    answer.number = 4 + (uint32_t)i;
                }
            }
            for (int i = 0; i < STORES && answer.number == 0; i++) {
                size_t words = (size_t)counted(&answer, i) * record_words[i];
                memcpy(t->out[i].words + used[i] * record_words[i], list[i].words, words * sizeof(uint32_t));
                used[i] += counted(&answer, i);
            }
        }
        if (FAULT == 2 && answer.number != 0 && !past) {
            taken = start;
        }
        memcpy(t->answers.words + 8 * k, &answer, (8 * k + 8 <= t->answers.len ? 8 : t->answers.len - 8 * k) * sizeof(uint32_t));
    }
    return 0;
}

/* A small tray; the kind chooses what goes wrong in it. */
static void make(struct tray *t, uint32_t kind) {
    static const uint32_t long_sides[] = {16385, 20000, 4294967295}, paints[] = {0, 1, 2, 2, 3, 4294967295};
    static const uint32_t labels[] = {0, 0, 1, 1, 2, 7, 4294967294, 4294967295};
    static const uint32_t huge[] = {65536, 16384, 16385, 4294967295, 5};
    static struct store list[STORES];
    uint32_t maps = below(MAPS + 1), sides[MAPS][2];
    size_t need[STORES] = {0}, work = 0, at = 0, total = 0;
    memset(t, 0, sizeof *t);
    t->mode = PICK(((const uint32_t[]){0, 1, 1, 7}));
    for (uint32_t k = 0; k < maps; k++) {
        sides[k][0] = below(SIDE + 1);
        sides[k][1] = below(SIDE);
        if (kind == 1 && k == maps / 2) {
            sides[k][below(2)] = PICK(long_sides);
            sides[k][sides[k][0] > SIDE] = below(8) == 0;
        }
        total += (size_t)sides[k][0] * sides[k][1] <= WORDS ? (size_t)sides[k][0] * sides[k][1] : 0;
        if (kind == 2 && k + 2 == maps) {
            sides[k][0] = PICK(huge);
            sides[k][1] = PICK(huge);
        }
        put(&t->maps, sides[k][0]);
        put(&t->maps, sides[k][1]);
        put(&t->maps, PICK(paints));
    }
    repeat(&t->maps, below(3), below(3));
    for (size_t i = 0; i < total; i++) {
        put(&t->labels, PICK(labels));
    }
    if (kind == 3 && total > 0) {
        t->labels.len = below((uint32_t)total);
    }
    repeat(&t->labels, 5, kind == 6 ? below(3) : 0);
    for (uint32_t k = 0; k < maps; k++) {
        size_t size = (size_t)sides[k][0] * sides[k][1], words = mosaic_work_words(sides[k][0], sides[k][1]);
        mosaic_answer answer;
        if (size > t->labels.len - at) {
            break;
        }
        if (sides[k][0] <= SIDE && sides[k][1] <= SIDE) {
            alone(t->mode, t->maps.words + 3 * k, t->labels.words + at, &answer, list);
            for (int i = 0; i < STORES; i++) {
                need[i] += counted(&answer, i);
            }
            work = words > work ? words : work;
        }
        at += size;
    }
    repeat(&t->work, 9, kind == 4 && work > 8 ? 8 + below((uint32_t)work - 8) : work + below(3));
    for (uint32_t i = 0; i < STORES; i++) {
        size_t room = need[i];
        if (kind == 0) {
            room += below(3);
        } else if ((kind == 5 || kind == 6) && i == below(STORES)) {
            size_t lack = 1 + below(4);
            room = room < lack ? 0 : room - lack;
        }
        repeat(&t->out[i], 100 + i, room * record_words[i] + below(record_words[i]));
    }
    repeat(&t->answers, 77, (size_t)8 * maps + below(4));
    if (kind == 7 && maps > 0) {
        t->answers.len = (size_t)8 * maps - 1 - below(3);
    }
}

static int same(const struct store *a, const struct store *b) {
    return a->len == b->len && memcmp(a->words, b->words, a->len * sizeof(uint32_t)) == 0;
}

int main(int argc, char **argv) {
    static struct tray given, want;
    long trays = argc > 2 ? atol(argv[2]) : 1000, wrong = 0, numbers[19] = {0};
    state = 88172645463325252u ^ (argc > 1 ? strtoull(argv[1], NULL, 10) * 0x9e3779b97f4a7c15u : 0);
    for (long n = 0; n < trays; n++) {
        make(&given, below(8));
        want = given;
        uint32_t number = expected(&want);
        uint32_t got = mosaic_tray(given.mode, given.maps.words, given.maps.len, given.labels.words, given.labels.len,
                                   given.work.words, given.work.len, given.out[0].words, given.out[0].len,
                                   given.out[1].words, given.out[1].len, given.out[2].words, given.out[2].len,
                                   given.out[3].words, given.out[3].len, given.out[4].words, given.out[4].len,
                                   given.out[5].words, given.out[5].len, given.answers.words, given.answers.len);
        if (FAULT == 1 && n % 100 == 99) {
            given.out[2].words[0] ^= given.out[2].len > 0;
            given.answers.words[0] ^= given.answers.len > 0;
        }
        int bad = got != number || !same(&given.work, &want.work) || !same(&given.answers, &want.answers);
        for (int i = 0; i < STORES; i++) {
            bad |= !same(&given.out[i], &want.out[i]);
        }
        if (bad && wrong == 0) {
            printf("tray %ld of this seed: number %" PRIu32 ", due %" PRIu32 "\n", n, got, number);
        }
        wrong += bad;
        numbers[number == 18 ? 18 : 0] += number == 18;
        for (size_t k = 0; number == 0 && k < given.maps.len / 3; k++) {
            numbers[want.answers.words[8 * k] % 19]++;
        }
    }
    printf("numbers:");
    for (int i = 0; i < 19; i++) {
        if (numbers[i] > 0) {
            printf(" %d: %ld", i, numbers[i]);
        }
    }
    printf("\n%ld trays, %ld differences\n", trays, wrong);
    return wrong != 0;
}
