/*
 * mosaic.h: the cut list of a label map, for C and C++.
 *
 * A map is a width, a height, a paint count and width x height labels, row by row. A label is painted when it is below the paint
 * count; MOSAIC_OUTSIDE marks a pixel that belongs to no piece, and so reads every pixel off the map. These calls look at a map:
 *
 *   mosaic_size   counts its cut list;
 *   mosaic_graph  writes its nodes, segments and points;
 *   mosaic_whole  writes these and its references, contours and faces.
 *
 * The others are declared, each with its rules, further down: veneer, a sheet and its moves, layers, merge, a tray, a listing, another
 * writer's graph, job files. The header is C99 and C++.
 *
 * Link the archive that `bindings/archive` makes, target/staticlib/libmosaic.a (x86-64 Linux). It needs memset and no more of C.
 *
 * MODE. Every call that looks at a map takes a mode first. MOSAIC_PLAIN reads each label as it is: two unpainted labels side by side
 * have a cut between them, through scrap. MOSAIC_NO_WASTE (any value but 0) reads every unpainted label as MOSAIC_OUTSIDE, so that no
 * cut goes through waste: the cut list is that of the map with those labels replaced.
 *
 * STORES. All memory is lent by the caller: a store is a pointer to 32-bit words, and then its length IN WORDS (not in bytes, and
 * not in records). A store holds its length divided by its record's words, rounded down. What a caller owes, and nothing checks:
 *
 *   - every pointer is aligned for uint32_t (4 bytes), and its words can be read, and written where it is not const;
 *   - no two stores overlap, nor does one overlap the labels or the answer; the labels do not change during the call;
 *   - a store of length 0 is not touched and its pointer may be NULL. `answer` is never NULL.
 *
 * Every map and every length is then answered. Nothing is allocated and nothing is kept between calls: the calls are re-entrant, and
 * any number may run at once on stores of their own, also over the same labels. What the stores hold before a call is of no account.
 *
 * NUMBERS. The answer is eight words: a number, then seven counts. The checks run in the order of the numbers, and the first that
 * hits answers:
 *
 *   0      done
 *   1      width or height is above 16384
 *   2      the label count is not width x height
 *   3      the work store is shorter than 8 x (width+1) x (height+1) words
 *   4 5 6  the node, segment, point store holds fewer records than the map needs     (graph and whole)
 *   7 8 9  the reference, contour, face store likewise                               (whole and assemble)
 *   9      the store of sums holds fewer numbers than the map has faces              (veneer)
 *   11     the layers, their masks or the labels are not whole; asked after 1        (layers)
 *   12     before a merge, a label is neither MOSAIC_OUTSIDE nor painted             (merge, after 2 and before 3)
 *   13     the store for a listing, a file or what is kept of one is short           (listing, write, salvage)
 *   14     the bytes do not start as a job file does                                 (salvage)
 *   15     the graph handed in does not describe the map; asked after 3, before 7    (assemble)
 *   16     a side of the sheet is not above 0 (or is no number), or is above 3000    (sheet_whole, after 9)
 *   17     before a merge, the colours have another length than 3 x paints bytes,
 *          or the region store is shorter than 12 x paints words                     (merge, after 3)
 *   18     there are fewer than eight answer words for each map                      (tray, before all others)
 *   19     the paint count is above 65535                                            (write, after 9 and before 13)
 *
 *                        after 1, 2, 3     after 4 to 9, and 16      after 0
 *   counts               all 0             the map's true counts     the map's true counts
 *   work store           untouched         its first 8 x (width+1) x (height+1) words are 0, the others untouched
 *   every other store    untouched         untouched                 the records from its first word on, the others untouched
 *
 * mosaic_graph leaves the counts of references, contours and faces 0. So a caller may guess, and after 4 to 9 lend what the counts say.
 *
 * RECORDS, in words. They stand in the order of their numbers, which start at 0.
 *
 *   node       6   x, y, then the reference that leaves to the north, east, south and west, or MOSAIC_NONE
 *   segment    8   first point, point count, start node, end node, region on the left, on the right, first direction, last direction
 *   point      2   x, y
 *   reference  1   2 x segment, plus 1 when it is walked from its last point to its first
 *   contour    2   first reference, reference count
 *   face       5   region, first contour, contour count, x, y of its first pixel
 *
 * A node is a corner where three or four cuts meet. A segment runs from node to node, or is a ring: start and end are then
 * MOSAIC_NONE, its first and last point are equal and its last direction is 0. A face is one piece: pixels of one painted label that
 * hang together, also across a corner; its first pixel is the first of them row by row, and names the piece where face numbers move.
 * A contour has its region on the left; y grows downwards. References lie contour after contour, contours face after face.
 *
 * Neighbouring points of a segment are one unit apart: straight ones stand among them, not the turns alone. Each reference of a contour
 * starts at the point where the one before it ends, and the first one where the last one ends. A contour is an outline when its own sum
 * is above zero (y for each step east, minus y for each step west; see mosaic_veneer), else it is the rim of a hole.
 *
 * A map of w x h pixels has at most k = 2wh + w + h cracks (unit cuts), and so no more than k segments, 2k points and 2k references;
 * no more than (w+1)(h+1) nodes and as many contours; and no more than wh faces. Where the stores lent to mosaic_graph or mosaic_whole
 * have room for that many, nothing is counted first and the call is faster. Words that no record reaches are not touched.
 */
#ifndef MOSAIC_H
#define MOSAIC_H

#include <stddef.h>
#include <stdint.h>

#ifdef __cplusplus
extern "C" {
#endif

#define MOSAIC_VERSION 20000 /* 10000 x major + 100 x minor + patch: see mosaic_version */

#define MOSAIC_OUTSIDE UINT32_C(4294967295) /* the label of no piece */
#define MOSAIC_NONE UINT32_C(4294967295)    /* no node, no reference */
#define MOSAIC_LONGEST_SIDE UINT32_C(16384)

/* The length of a store: 64 bits on every machine, also where a pointer has 32. */
#if SIZE_MAX == UINT64_MAX
typedef size_t mosaic_length;
#else
typedef uint64_t mosaic_length;
#endif

enum mosaic_mode { MOSAIC_PLAIN = 0, MOSAIC_NO_WASTE = 1 };

enum mosaic_number {
    MOSAIC_DONE = 0,
    MOSAIC_SIDE_TOO_LONG = 1,
    MOSAIC_WRONG_LABEL_COUNT = 2,
    MOSAIC_SHORT_WORK = 3,
    MOSAIC_SHORT_NODES = 4,
    MOSAIC_SHORT_SEGMENTS = 5,
    MOSAIC_SHORT_POINTS = 6,
    MOSAIC_SHORT_REFERENCES = 7,
    MOSAIC_SHORT_CONTOURS = 8,
    MOSAIC_SHORT_FACES = 9,
    MOSAIC_OUTSIDE_POINTS = 10,
    MOSAIC_LAYERS_NOT_WHOLE = 11,
    MOSAIC_UNPAINTED_LABEL = 12,
    MOSAIC_SHORT_OUTPUT = 13,
    MOSAIC_NO_JOB_FILE = 14,
    MOSAIC_STRANGE_GRAPH = 15,
    MOSAIC_BAD_SHEET = 16,
    MOSAIC_MERGE_STORES = 17,
    MOSAIC_SHORT_ANSWERS = 18,
    MOSAIC_TOO_MANY_PAINTS = 19
};

enum mosaic_direction { MOSAIC_NORTH = 0, MOSAIC_EAST = 1, MOSAIC_SOUTH = 2, MOSAIC_WEST = 3 };

/* The eight words of an answer. */
typedef struct mosaic_answer {
    uint32_t number;
    uint32_t nodes;
    uint32_t segments;
    uint32_t points;
    uint32_t references;
    uint32_t contours;
    uint32_t faces;
    uint32_t steps; /* unit steps walked by extraction: the number of cracks */
} mosaic_answer;

/* The records. A store may be an array of them, lent as (uint32_t *)records with the length count * MOSAIC_WORDS(record type). */
typedef struct mosaic_node {
    uint32_t x, y;
    uint32_t out[4]; /* by direction */
} mosaic_node;

typedef struct mosaic_segment {
    uint32_t first_point, point_count;
    uint32_t start, end;
    uint32_t left, right;
    uint32_t first_direction, last_direction;
} mosaic_segment;

typedef struct mosaic_point {
    uint32_t x, y;
} mosaic_point;

typedef struct mosaic_contour {
    uint32_t first_reference, reference_count;
} mosaic_contour;

typedef struct mosaic_face {
    uint32_t region;
    uint32_t first_contour, contour_count;
    uint32_t x, y; /* the first pixel */
} mosaic_face;

#define MOSAIC_WORDS(record) (sizeof(record) / sizeof(uint32_t))

/* The work words that a map of these sides needs; 0 where a side is too long, since no store is then looked at. */
static inline size_t mosaic_work_words(uint32_t width, uint32_t height) {
    if (width > MOSAIC_LONGEST_SIDE || height > MOSAIC_LONGEST_SIDE) {
        return 0;
    }
    return (size_t)8 * ((size_t)width + 1) * ((size_t)height + 1);
}

/* The two halves of a reference. */
static inline uint32_t mosaic_segment_of(uint32_t reference) { return reference / 2; }
static inline int mosaic_reversed(uint32_t reference) { return (int)(reference % 2); }

/* The version of the library that is linked; it goes with a header whose MOSAIC_VERSION is the same. */
uint32_t mosaic_version(void);

/* Counts the cut list. Changes the work store and the answer. */
void mosaic_size(uint32_t mode, uint32_t width, uint32_t height, uint32_t paints,
                 const uint32_t *labels, mosaic_length labels_len,
                 uint32_t *work, mosaic_length work_len,
                 mosaic_answer *answer);

/* Writes nodes, segments and points. */
void mosaic_graph(uint32_t mode, uint32_t width, uint32_t height, uint32_t paints,
                  const uint32_t *labels, mosaic_length labels_len,
                  uint32_t *work, mosaic_length work_len,
                  uint32_t *nodes, mosaic_length nodes_len,
                  uint32_t *segments, mosaic_length segments_len,
                  uint32_t *points, mosaic_length points_len,
                  mosaic_answer *answer);

/* Writes the whole cut list. */
void mosaic_whole(uint32_t mode, uint32_t width, uint32_t height, uint32_t paints,
                  const uint32_t *labels, mosaic_length labels_len,
                  uint32_t *work, mosaic_length work_len,
                  uint32_t *nodes, mosaic_length nodes_len,
                  uint32_t *segments, mosaic_length segments_len,
                  uint32_t *points, mosaic_length points_len,
                  uint32_t *references, mosaic_length references_len,
                  uint32_t *contours, mosaic_length contours_len,
                  uint32_t *faces, mosaic_length faces_len,
                  mosaic_answer *answer);

/*
 * MILLIMETRES ON A SHEET. mosaic_sheet_whole is mosaic_whole for a map that is to be cut from a sheet of sheet_width x sheet_height
 * millimetres: the same stores and the same numbers, and after 9 the number 16.
 *
 * mosaic_move gives the moves of a cut list one at a time: for each segment in order a travel to its first corner, then a cut for each
 * step; then the end, at every later call. A map's steps are the cuts. The corner (x, y) lies at x x sheet_width / width, multiplied
 * and then divided in doubles, and for x = width at sheet_width itself; y likewise. No move of a list that mosaic_sheet_whole
 * answered 0 for leaves the sheet, and on a sheet with sides of 1 mm or more no cut has length zero.
 *
 * `segments` and `points` are the stores of the call, `count` its answer's segments. `at` has two words, {0, 0} for the first move;
 * each call leaves the place of the next move there. `reversed` is 0 to read each segment from its first point to its last, any other
 * value to read it backwards: the same points, bit for bit, in reverse order. `point` takes the two coordinates of a travel or a cut
 * and is otherwise left as it was; it is aligned for double. What a caller owes of stores is owed of these four too.
 *
 * Any words are answered: 10 (MOSAIC_MOVE_OUTSIDE) where a segment's record does not lie in `segments`, or its points do not lie in
 * `points`, and then at every later call. Nothing asks here whether the sheet is allowed.
 */
enum mosaic_move_number { MOSAIC_TRAVEL = 0, MOSAIC_CUT = 1, MOSAIC_END = 2, MOSAIC_MOVE_OUTSIDE = 10 };

void mosaic_sheet_whole(uint32_t mode, uint32_t width, uint32_t height, uint32_t paints,
                        double sheet_width, double sheet_height,
                        const uint32_t *labels, mosaic_length labels_len,
                        uint32_t *work, mosaic_length work_len,
                        uint32_t *nodes, mosaic_length nodes_len,
                        uint32_t *segments, mosaic_length segments_len,
                        uint32_t *points, mosaic_length points_len,
                        uint32_t *references, mosaic_length references_len,
                        uint32_t *contours, mosaic_length contours_len,
                        uint32_t *faces, mosaic_length faces_len,
                        mosaic_answer *answer);

uint32_t mosaic_move(uint32_t width, uint32_t height, double sheet_width, double sheet_height,
                     uint32_t count, uint32_t reversed,
                     const uint32_t *segments, mosaic_length segments_len,
                     const uint32_t *points, mosaic_length points_len,
                     uint32_t at[2], double point[2]);

/*
 * MERGE. Near colours become one leaf: neighbouring regions whose mean colours are no further apart than `limit` (the sum of the
 * three channels' differences, so 765 merges all that touches) become one, the nearest pairs first; mosaic_merge takes no mode.
 *
 * Colours are three bytes for each paint, red, green and blue; `colours_len` is in BYTES, and exactly 3 x paints. The region store
 * takes 12 words for each paint; more may be lent. The work store is that of the other calls.
 *
 * There is a merge with a limit of 0 or more and two or more paints. Without one, 12 and 17 are not asked.
 *
 *                        after a refusal   after 0 without a merge    after a merge
 *   answer               the number, 0     0, paints                  0, the new paint count
 *   labels               untouched         untouched                  the new ones, numbered by first pixel; OUTSIDE stays
 *   colours              untouched         untouched                  three bytes for each new paint, the others untouched
 *   work store           untouched         its first 8 x (width+1) x (height+1) words are 0, the others untouched
 *   region store         untouched         untouched                  its first 12 x paints words are 0, the others untouched
 */
typedef struct mosaic_merged {
    uint32_t number;
    uint32_t paints; /* the new paint count */
} mosaic_merged;

#define MOSAIC_REGION_WORDS 12 /* for each paint */

void mosaic_merge(uint32_t width, uint32_t height, uint32_t paints,
                  uint32_t *labels, mosaic_length labels_len,
                  uint8_t *colours, mosaic_length colours_len,
                  int32_t limit,
                  uint32_t *work, mosaic_length work_len,
                  uint32_t *regions, mosaic_length regions_len,
                  mosaic_merged *answer);

/*
 * LAYERS. Flattens layers into a map: the last layer with a 1 over a pixel gives its number as label, and where there is none the label
 * is MOSAIC_OUTSIDE. The paint count of that map is the number of layers, layers_len / 4.
 *
 * A layer is four words: the x and y offset of its upper left pixel on the canvas, each the 32 bits of an int32_t, then its width and
 * height. Its mask is the next width x height bytes of `masks`, row by row, 0 or 1. Offset plus column is an exact sum: a layer may lie
 * off the canvas, wholly or in part, and may be larger than any canvas.
 *
 * Returns its number alone. 1 when width or height is above 16384; then 11 when there are more than 65535 layers, layers_len is no
 * multiple of four, the masks are not exactly masks_len bytes, a byte is above 1, or labels_len is not width x height. After 1 and 11
 * no label is written.
 */
uint32_t mosaic_layers(uint32_t width, uint32_t height,
                       const uint32_t *layers, mosaic_length layers_len,
                       const uint8_t *masks, mosaic_length masks_len,
                       uint32_t *labels, mosaic_length labels_len);

/*
 * A GRAPH FROM ANOTHER WRITER. mosaic_graph traces, mosaic_assemble makes the faces: the two in turn leave what mosaic_whole does. The graph
 * may come from elsewhere, with its nodes and segments in any order, segments and rings in either direction and rings from any of their
 * corners; the parts of the point store may overlap and leave gaps. It is accepted exactly when it describes the map in this mode:
 *
 *   - the counted records lie inside the node and segment stores, and each segment's part inside the point store;
 *   - the nodes are the corners where three or four cuts meet, each once;
 *   - a segment has a step, each step is a crack, and each crack one step of one segment, in one direction;
 *   - a segment with a start and an end node runs from the one to the other with no node between; one with neither closes and meets none;
 *   - regions and directions are those of its first step and its last, a ring's last direction 0; a node's out entries are the
 *     references that leave it, MOSAIC_NONE where there is no crack.
 *
 * Any other graph is answered 15. Words past the counted records, and points of no part, are not looked at. After 15, and 7 to 9, counts and
 * stores are as after 9: the counts are the map's own, whatever the graph. The graph's stores are only read; what a caller owes for a
 * store holds for them, but they may overlap one another and the labels.
 */
void mosaic_assemble(uint32_t mode, uint32_t width, uint32_t height, uint32_t paints,
                     const uint32_t *labels, mosaic_length labels_len,
                     uint32_t *work, mosaic_length work_len,
                     const uint32_t *nodes, mosaic_length nodes_len, uint32_t node_count,
                     const uint32_t *segments, mosaic_length segments_len, uint32_t segment_count,
                     const uint32_t *points, mosaic_length points_len,
                     uint32_t *references, mosaic_length references_len,
                     uint32_t *contours, mosaic_length contours_len,
                     uint32_t *faces, mosaic_length faces_len,
                     mosaic_answer *answer);

/*
 * A BENCH'S LISTING of its pieces, by unit steps, apart from the cut list. A bench names its labels; one that stands twice counts once,
 * and one that is not painted has no pieces. In words: for each face whose region is named, in the order of the faces, its region and
 * contour count; for each of its contours the step count; for each step x, y and direction. A contour starts with its earliest step, by
 * y, then x, then direction, and a face's contours stand in the order of their first steps.
 *
 * The listing depends on where the named labels lie and on nothing else: however the other labels are changed among themselves, and in
 * either mode, it is the same, word for word. It has at most 15 x (width+1) x (height+1) words.
 *
 * The answer is two words. The checks are 1, 2, 3 and 13; after any of them the length is 0 and no word of the listing store is written.
 * The work store is treated as by mosaic_whole: untouched after 1, 2 and 3, its first 8 x (width+1) x (height+1) words 0 after 13 and 0.
 */
typedef struct mosaic_listing_answer {
    uint32_t number;
    uint32_t length; /* of the listing, in words; 0 when refused */
} mosaic_listing_answer;

void mosaic_listing(uint32_t mode, uint32_t width, uint32_t height, uint32_t paints,
                    const uint32_t *labels, mosaic_length labels_len,
                    uint32_t *work, mosaic_length work_len,
                    const uint32_t *named, mosaic_length named_len,
                    uint32_t *words, mosaic_length words_len,
                    mosaic_listing_answer *answer);

/*
 * HOW MUCH VENEER IS IN EACH PIECE. The sum of each face, in face order, into a store of signed 64-bit numbers: `sums_len` is its length in
 * numbers, and every pointer to it is aligned for int64_t. A contour's own sum goes over its unit steps in their direction: y for a step east,
 * minus y for a step west. A face's sum is that of its contours, and it is the number of its pixels; all sums together are the number of
 * painted pixels. The rest is as in mosaic_size: 1 to 3, and then 9 (MOSAIC_SHORT_FACES) when the store holds fewer numbers than there are
 * faces; no sum is then written. On 0 the numbers past the last face keep their value.
 *
 * A contour whose own sum is above zero is an outline, any other is the rim of a hole. It is not always the first contour of its face.
 */
void mosaic_veneer(uint32_t mode, uint32_t width, uint32_t height, uint32_t paints,
                   const uint32_t *labels, mosaic_length labels_len,
                   uint32_t *work, mosaic_length work_len,
                   int64_t *sums, mosaic_length sums_len,
                   mosaic_answer *answer);

/*
 * JOB FILES. A cut list as bytes, to pass on. A record is a body length in bytes (4 bytes), a kind (2 bytes) and the body in 32-bit words,
 * all little-endian; nothing is aligned.
 *
 *   kind 1   width, height, paint count; it comes first, and once
 *   kind 2   one segment's points, x then y
 *   kind 3   one face: region, x and y of its first pixel, contour count, then for each contour its reference count and its references
 *
 * Segments come before faces, each in order. mosaic_write makes the file of a map: it does what mosaic_whole does in the mode MOSAIC_NO_WASTE,
 * then asks 19, then 13 (fewer bytes lent than the file has), all of it before any store is written: after 4 to 9, 19 and 13 the answer has the
 * counts, the work words are 0 and every other store is untouched. After 0 the file stands at the front of its store, and `length` is its
 * length in bytes, 18 + 6 x segments + 8 x points + 22 x faces + 4 x (contours + references); after a refusal `length` is 0. It is a 64-bit
 * number, since the file of a large map has more than 2^32 bytes. The file store is lent in bytes and need not be aligned.
 *
 * mosaic_salvage keeps the records of a file before the first that is cut short or breaks the form: a wrong kind or place, a body that does
 * not fit its counts, a segment of under two points, a point off the map, neighbouring points not one unit apart, an unpainted region, a
 * reference to a segment that is not kept. What is kept is copied unchanged to the front of `out`, and a second run drops nothing of it.
 * The answer is three 64-bit words: the number, the length kept, and the kind of the first record dropped (0 for a tail of under six bytes and
 * for none). 14: the first record is not a whole kind 1 with sides up to 16384 and a paint count up to 65535; then 13: `out` is shorter than
 * what is kept (`file_len` bytes are always enough). After either nothing is written, and both numbers are 0. `out` does not overlap `file`.
 */
void mosaic_write(uint32_t width, uint32_t height, uint32_t paints,
                  const uint32_t *labels, mosaic_length labels_len,
                  uint32_t *work, mosaic_length work_len,
                  uint32_t *nodes, mosaic_length nodes_len,
                  uint32_t *segments, mosaic_length segments_len,
                  uint32_t *points, mosaic_length points_len,
                  uint32_t *references, mosaic_length references_len,
                  uint32_t *contours, mosaic_length contours_len,
                  uint32_t *faces, mosaic_length faces_len,
                  uint8_t *file, mosaic_length file_len,
                  mosaic_answer *answer, uint64_t *length);

void mosaic_salvage(const uint8_t *file, mosaic_length file_len,
                    uint8_t *out, mosaic_length out_len,
                    uint64_t answer[3]);

/*
 * A TRAY. Many small maps in one call, over one label store and one set of stores, in one mode. `maps` has three words for each map: width,
 * height, paints; an unfinished three at its end is ignored. A map's labels are the next width x height ones, whether it is refused or not.
 *
 * Each map gets what mosaic_whole gives with the whole work store and the rest of each output store behind the records of the maps before
 * it, its records numbered from 0. So its first node stands behind the nodes of the maps before it, which their answers count; a refused
 * map has no records. Its answer is the next eight words of `answers`, a mosaic_answer.
 *
 * 2 is also the number of the first map whose labels run past the label store, and of every later one, unless 1 applies to it.
 *
 * Returns 18 (MOSAIC_SHORT_ANSWERS), with nothing written, when `answers` has fewer than eight words for each map; else 0. Labels and answer
 * words behind the last map's are not touched.
 */
uint32_t mosaic_tray(uint32_t mode,
                     const uint32_t *maps, mosaic_length maps_len,
                     const uint32_t *labels, mosaic_length labels_len,
                     uint32_t *work, mosaic_length work_len,
                     uint32_t *nodes, mosaic_length nodes_len,
                     uint32_t *segments, mosaic_length segments_len,
                     uint32_t *points, mosaic_length points_len,
                     uint32_t *references, mosaic_length references_len,
                     uint32_t *contours, mosaic_length contours_len,
                     uint32_t *faces, mosaic_length faces_len,
                     uint32_t *answers, mosaic_length answers_len);

#ifdef __cplusplus
}
#endif

#endif
