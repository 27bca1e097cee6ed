/* Flattens three layers into a map, prints its labels, and writes its cut list: from layers to pieces. */
#include <inttypes.h>
#include <stdio.h>
#include "mosaic.h"

enum { WIDTH = 6, HEIGHT = 4, PIXELS = WIDTH * HEIGHT, CRACKS = 2 * PIXELS + WIDTH + HEIGHT, CORNERS = (WIDTH + 1) * (HEIGHT + 1) };

/* A field, a bar that sticks out on the left, and a tile with a hole. */
static const uint32_t layers[] = {
    0, 0, 5, 4, /* */
    (uint32_t)-2, 1, 4, 1, /* */
    3, 1, 3, 3,
};
static const uint8_t masks[] = {
    1, 1, 1, 1, 1, 1, 1, 1, 1, 1, 1, 1, 1, 1, 1, 1, 1, 1, 1, 1, /* */
    1, 1, 1, 1, /* */
    1, 1, 1, 1, 0, 1, 1, 1, 1,
};

static uint32_t labels[PIXELS], work[8 * CORNERS];
static uint32_t nodes[6 * CORNERS], segments[8 * CRACKS], points[4 * CRACKS];
static uint32_t references[2 * CRACKS], contours[2 * CORNERS], faces[8 * PIXELS];

int main(void) {
    const size_t words = sizeof layers / sizeof *layers;
    const uint32_t paints = (uint32_t)(words / 4);
    mosaic_answer answer;

    if (mosaic_layers(WIDTH, HEIGHT, layers, words, masks, sizeof masks, labels, PIXELS) != MOSAIC_DONE) {
        return 1;
    }
    for (size_t pixel = 0; pixel < PIXELS; pixel++) {
        if (labels[pixel] == MOSAIC_OUTSIDE) {
            putchar('.');
        } else {
            printf("%" PRIu32, labels[pixel]);
        }
        putchar(pixel % WIDTH == WIDTH - 1 ? '\n' : ' ');
    }

    mosaic_whole(MOSAIC_PLAIN, WIDTH, HEIGHT, paints, labels, PIXELS, work, sizeof work / sizeof *work, nodes, sizeof nodes / sizeof *nodes,
                 segments, sizeof segments / sizeof *segments, points, sizeof points / sizeof *points, references,
                 sizeof references / sizeof *references, contours, sizeof contours / sizeof *contours, faces, sizeof faces / sizeof *faces,
                 &answer);
    printf("number %" PRIu32 ", %" PRIu32 " paints, %" PRIu32 " faces, %" PRIu32 " segments, %" PRIu32 " steps\n", answer.number, paints,
           answer.faces, answer.segments, answer.steps);

    /* An unfinished layer is refused. */
    printf("without its last word: %" PRIu32 "\n", mosaic_layers(WIDTH, HEIGHT, layers, words - 1, masks, sizeof masks, labels, PIXELS));
    return answer.number == MOSAIC_DONE ? 0 : 1;
}
