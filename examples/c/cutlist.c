/* Prints the cut list of a small map, in the form of the program `textmap`.
 *
 *   cutlist                        the map of two pixels, 0 and 1
 *   cutlist WIDTH HEIGHT PAINTS LABEL...    another; `.` is a pixel of no piece
 */
#include <inttypes.h>
#include <stdio.h>
#include <stdlib.h>
#include <string.h>

#include "mosaic.h"

/* Room for `count` records of `words` words. A store without records is no store. */
static uint32_t *lend(size_t count, size_t words) {
    if (count == 0) {
        return NULL;
    }
    uint32_t *store = calloc(count, words * sizeof *store);
    if (store == NULL) {
        fprintf(stderr, "cutlist: no memory for %zu records of %zu words\n", count, words);
        exit(1);
    }
    return store;
}

static void print_or(uint32_t word, uint32_t missing, char sign) {
    if (word == missing) {
        printf(" %c", sign);
    } else {
        printf(" %" PRIu32, word);
    }
}

static void print_reference(uint32_t reference) {
    printf(" %" PRIu32 "%c", mosaic_segment_of(reference), mosaic_reversed(reference) ? 'r' : 'f');
}

static void print_nodes(const mosaic_node *nodes, uint32_t count) {
    for (uint32_t n = 0; n < count; n++) {
        printf("node %" PRIu32 " %" PRIu32 " %" PRIu32, n, nodes[n].x, nodes[n].y);
        for (int d = MOSAIC_NORTH; d <= MOSAIC_WEST; d++) {
            if (nodes[n].out[d] == MOSAIC_NONE) {
                printf(" -");
            } else {
                print_reference(nodes[n].out[d]);
            }
        }
        printf("\n");
    }
}

static void print_segments(const mosaic_segment *segments, uint32_t count, const mosaic_point *points) {
    for (uint32_t s = 0; s < count; s++) {
        const mosaic_segment *segment = &segments[s];
        printf("seg %" PRIu32, s);
        print_or(segment->start, MOSAIC_NONE, '-');
        print_or(segment->end, MOSAIC_NONE, '-');
        print_or(segment->left, MOSAIC_OUTSIDE, '.');
        print_or(segment->right, MOSAIC_OUTSIDE, '.');
        printf(" %" PRIu32 " %" PRIu32, segment->first_direction, segment->last_direction);
        for (uint32_t p = 0; p < segment->point_count; p++) {
            const mosaic_point *point = &points[segment->first_point + p];
            printf(" %" PRIu32 ",%" PRIu32, point->x, point->y);
        }
        printf("\n");
    }
}

/* Over the steps of a contour, y for each step east and minus y for each step west: above zero it is an outline, else the rim of a hole. */
static int64_t contour_sum(const mosaic_contour *contour, const uint32_t *references, const mosaic_segment *segments,
                           const mosaic_point *points) {
    int64_t sum = 0;
    for (uint32_t r = 0; r < contour->reference_count; r++) {
        uint32_t reference = references[contour->first_reference + r];
        const mosaic_segment *segment = &segments[mosaic_segment_of(reference)];
        int64_t along = 0;
        for (uint32_t p = 0; p + 1 < segment->point_count; p++) {
            const mosaic_point *point = &points[segment->first_point + p];
            along += (int64_t)point[0].y * ((int64_t)point[1].x - (int64_t)point[0].x);
        }
        sum += mosaic_reversed(reference) ? -along : along;
    }
    return sum;
}

static void print_faces(const mosaic_face *faces, uint32_t count, const mosaic_contour *contours, const uint32_t *references,
                        const mosaic_segment *segments, const mosaic_point *points) {
    for (uint32_t f = 0; f < count; f++) {
        printf("face %" PRIu32 " %" PRIu32 " %" PRIu32 " %" PRIu32 " %" PRIu32 "\n", f, faces[f].region, faces[f].contour_count,
               faces[f].x, faces[f].y);
        for (uint32_t c = 0; c < faces[f].contour_count; c++) {
            const mosaic_contour *contour = &contours[faces[f].first_contour + c];
            printf("cont %c", contour_sum(contour, references, segments, points) > 0 ? 'O' : 'H');
            for (uint32_t r = 0; r < contour->reference_count; r++) {
                print_reference(references[contour->first_reference + r]);
            }
            printf("\n");
        }
    }
}

/* Sizes, lends the stores, cuts and prints. The number of the refusal, or 0. */
static uint32_t print_cut_list(uint32_t width, uint32_t height, uint32_t paints, const uint32_t *labels, size_t label_count) {
    size_t work_len = mosaic_work_words(width, height);
    uint32_t *work = lend(work_len, 1);
    mosaic_answer a;
    mosaic_size(MOSAIC_PLAIN, width, height, paints, labels, label_count, work, work_len, &a);
    if (a.number != MOSAIC_DONE) {
        free(work);
        return a.number;
    }

    mosaic_node *nodes = (mosaic_node *)lend(a.nodes, MOSAIC_WORDS(mosaic_node));
    mosaic_segment *segments = (mosaic_segment *)lend(a.segments, MOSAIC_WORDS(mosaic_segment));
    mosaic_point *points = (mosaic_point *)lend(a.points, MOSAIC_WORDS(mosaic_point));
    uint32_t *references = lend(a.references, 1);
    mosaic_contour *contours = (mosaic_contour *)lend(a.contours, MOSAIC_WORDS(mosaic_contour));
    mosaic_face *faces = (mosaic_face *)lend(a.faces, MOSAIC_WORDS(mosaic_face));
    mosaic_whole(MOSAIC_PLAIN, width, height, paints, labels, label_count, work, work_len,
                 (uint32_t *)nodes, a.nodes * MOSAIC_WORDS(mosaic_node),
                 (uint32_t *)segments, a.segments * MOSAIC_WORDS(mosaic_segment),
                 (uint32_t *)points, a.points * MOSAIC_WORDS(mosaic_point),
                 references, a.references,
                 (uint32_t *)contours, a.contours * MOSAIC_WORDS(mosaic_contour),
                 (uint32_t *)faces, a.faces * MOSAIC_WORDS(mosaic_face), &a);
    if (a.number == MOSAIC_DONE) {
        printf("map %" PRIu32 " %" PRIu32 " %" PRIu32 "\n", width, height, paints);
        printf("count %" PRIu32 " %" PRIu32 " %" PRIu32 " %" PRIu32 " %" PRIu32 " %" PRIu32 " %" PRIu32 "\n",
               a.nodes, a.segments, a.points, a.references, a.contours, a.faces, a.steps);
        print_nodes(nodes, a.nodes);
        print_segments(segments, a.segments, points);
        print_faces(faces, a.faces, contours, references, segments, points);
    }

    free(faces);
    free(contours);
    free(references);
    free(points);
    free(segments);
    free(nodes);
    free(work);
    return a.number;
}

static uint32_t word(const char *text) {
    char *end;
    unsigned long long value = strtoull(text, &end, 10);
    if (*text < '0' || *text > '9' || *end != '\0' || value > UINT32_MAX) {
        fprintf(stderr, "cutlist: %s is no 32-bit number\n", text);
        exit(2);
    }
    return (uint32_t)value;
}

int main(int argc, char **argv) {
    static const uint32_t pair[] = {0, 1};
    uint32_t number;
    if (argc == 1) {
        number = print_cut_list(2, 1, 2, pair, 2);
    } else if (argc >= 4) {
        size_t count = (size_t)argc - 4;
        uint32_t *labels = lend(count, 1);
        for (size_t i = 0; i < count; i++) {
            labels[i] = strcmp(argv[4 + i], ".") == 0 ? MOSAIC_OUTSIDE : word(argv[4 + i]);
        }
        number = print_cut_list(word(argv[1]), word(argv[2]), word(argv[3]), labels, count);
        free(labels);
    } else {
        fprintf(stderr, "usage: cutlist [WIDTH HEIGHT PAINTS LABEL...]\n");
        return 2;
    }
    if (number != MOSAIC_DONE) {
        fprintf(stderr, "cutlist: refused, number %" PRIu32 "\n", number);
        return 1;
    }
    return 0;
}
