/* packmap: integer drawings of closed triangle meshes, as a library for C and C++.
 *
 * Every call does what its definition says, for every input; this is proved (docs/READING.md says of which sentence
 * where). `tools/install FOLDER` puts this header into FOLDER/include and the archive libpackmap.a, for x86-64, into
 * FOLDER/lib; `host/shell.c` is an example of all calls on lent slices, `host/service.c` one of the call on a text.
 *
 * Slices. A slice is a pointer and a number of items. The caller lends it for the time of a call.
 *   - Its length is exact: for n vertices the macros below tell it. A slice of another length is refused with 2.
 *   - Its pointer is not null, not even for a length of 0, and aligned for its type.
 *   - No slice that a call may write overlaps another one of that call. The same goes for *carried and *outside, which
 *     are lent and written as a slice of one item is.
 *   - Triangles are triples of vertex numbers from 0. Every call on a mesh is told the place of the outer one, `outer`,
 *     counted from 0: no triangle has to be moved. Its vertices, as listed, are v0, v2, v1. The others are inner, in
 *     listed order; weights and labels stand in that order. So inner triangle k, counted from 0, is the one at place k
 *     where k is below `outer`, and else at place k + 1.
 *   - Coordinates are b0, b1, b2 of each vertex; shares are x, y of each drawn point.
 *   - Scratch may hold anything.
 *
 * Answers. A call answers 0, or the number of its refusal (enum packmap_refusal). A refusal leaves every slice as it
 * was, save that scratch holds zeros after every answer but 1 and 2, and save what packmap_repair says of 13. Rows are
 * asked in the order in which a call lists them below.
 *
 * Every call on a mesh leaves a number in *carried where its answer comes with one: with 7 and 25 the vertex, the
 * lowest for which either is true; with 0 and 13 of packmap_repair the number of raises made. Else *carried keeps what
 * it held.
 *
 * Threads, memory, time. No call keeps anything from one call to the next, allocates, locks, waits, or touches a byte
 * outside its slices and the stack. So calls may run on any number of threads at once, and in a signal handler, as long
 * as no two of them that run at once are lent the same slice where one of them may write it. Slices that are only read,
 * as the triangles, may be shared. A call on slices needs at most PACKMAP_STACK bytes of stack, packmap_job at most
 * PACKMAP_JOB_STACK. Every call ends: docs/OPERATING.md has times.
 */
#ifndef PACKMAP_H
#define PACKMAP_H

#include <stddef.h>
#include <stdint.h>

#ifdef __cplusplus
extern "C" {
#endif

/* ---- limits and lengths */

#define PACKMAP_LEAST_VERTICES 3
#define PACKMAP_MOST_VERTICES 4096

/* The absolute values of weights sum to no more, and no coordinate is further from 0. */
#define PACKMAP_LIMIT 1073741823

/* Numbers of items for n vertices, n being 3 or more. They are constants where n is one. */
#define PACKMAP_TRIANGLES(n) (3 * (2 * (size_t)(n) - 4)) /* vertex numbers; 2n - 4 triangles */
#define PACKMAP_LABELS(n) (3 * (2 * (size_t)(n) - 5))
#define PACKMAP_WEIGHTS(n) (2 * (size_t)(n) - 5)
#define PACKMAP_COORDINATES(n) (3 * (size_t)(n))
#define PACKMAP_SHARES(n) (2 * (size_t)(n))
#define PACKMAP_SCRATCH(n) (10 * (size_t)(n))

/* Bytes of stack. */
#define PACKMAP_STACK 2048
#define PACKMAP_JOB_STACK 36864

/* ---- refusals */

/* docs/OPERATING.md tells of each what was found, what was written, and what to do. */
enum packmap_refusal {
    PACKMAP_DONE = 0,
    PACKMAP_REFUSED_VERTEX_COUNT = 1,
    PACKMAP_REFUSED_LENGTH = 2,
    PACKMAP_REFUSED_VERTEX_NUMBER = 3,
    PACKMAP_REFUSED_VERTEX_TWICE = 4,
    PACKMAP_REFUSED_SIDE_TWICE = 5,
    PACKMAP_REFUSED_SIDE_ALONE = 6,
    PACKMAP_REFUSED_RING = 7,
    PACKMAP_REFUSED_PIECES = 8,
    PACKMAP_REFUSED_WEIGHTS = 9,
    PACKMAP_REFUSED_COORDINATE = 10,
    PACKMAP_REFUSED_CORNER = 11,
    PACKMAP_REFUSED_SUM = 12,
    PACKMAP_REFUSED_RAISE = 13,
    PACKMAP_REFUSED_SCALE = 14,
    PACKMAP_REFUSED_NOT_FINITE = 15,
    PACKMAP_REFUSED_SHARE = 16,
    PACKMAP_REFUSED_LINE = 17,
    PACKMAP_REFUSED_LISTING = 18,
    PACKMAP_REFUSED_TEXT = 19,
    PACKMAP_REFUSED_OUTER_NUMBER = 21,
    PACKMAP_REFUSED_STRAY = 25,
    PACKMAP_REFUSED_RANGE = 29
};

/* What a number says, in words; of a number that is none of these, "not an answer". */
static inline const char *packmap_words(uint64_t number) {
    switch (number) {
    case PACKMAP_DONE:
        return "done";
    case PACKMAP_REFUSED_VERTEX_COUNT:
        return "the number of vertices is out of range";
    case PACKMAP_REFUSED_LENGTH:
        return "a slice has the wrong length";
    case PACKMAP_REFUSED_VERTEX_NUMBER:
        return "a vertex number is not below the number of vertices";
    case PACKMAP_REFUSED_VERTEX_TWICE:
        return "a triangle has a vertex twice";
    case PACKMAP_REFUSED_SIDE_TWICE:
        return "two triangles have the same side in the same direction";
    case PACKMAP_REFUSED_SIDE_ALONE:
        return "a side has no triangle on its other side";
    case PACKMAP_REFUSED_RING:
        return "the triangles at a vertex form several rings";
    case PACKMAP_REFUSED_PIECES:
        return "the mesh has several pieces";
    case PACKMAP_REFUSED_WEIGHTS:
        return "the weights are too large";
    case PACKMAP_REFUSED_COORDINATE:
        return "a coordinate is too large";
    case PACKMAP_REFUSED_CORNER:
        return "an outer vertex is not at its corner";
    case PACKMAP_REFUSED_SUM:
        return "the coordinates of a vertex do not sum to the total";
    case PACKMAP_REFUSED_RAISE:
        return "the next raise would make the weights too large";
    case PACKMAP_REFUSED_SCALE:
        return "there is no such scale";
    case PACKMAP_REFUSED_NOT_FINITE:
        return "a share is infinite or not a number";
    case PACKMAP_REFUSED_SHARE:
        return "a share is not between -2 and 2";
    case PACKMAP_REFUSED_LINE:
        return "a line of the text breaks the layout";
    case PACKMAP_REFUSED_LISTING:
        return "the listing buffer is too short";
    case PACKMAP_REFUSED_TEXT:
        return "the text is too long";
    case PACKMAP_REFUSED_OUTER_NUMBER:
        return "the outer number is not below the number of triangles";
    case PACKMAP_REFUSED_STRAY:
        return "a vertex is in no triangle";
    case PACKMAP_REFUSED_RANGE:
        return "a low weight is above its high one";
    default:
        return "not an answer";
    }
}

/* ---- calls on lent slices */

/* Whether the mesh is a sphere: 1, 2, 21, 3 to 6, 7 or 25, 8. Where 21 is not answered, the answer and *carried are the
 * same for every outer number. */
uint64_t packmap_mesh_check(size_t n, size_t outer, const uint16_t *triangles, size_t triangles_len, int64_t *scratch,
                            size_t scratch_len, uint64_t *carried);

/* Writes the labels 0, 1, 2 of the inner triangles' corners: 1, 2, 21, 3 to 6, 7 or 25, 8. */
uint64_t packmap_labels(size_t n, size_t outer, const uint16_t *triangles, size_t triangles_len, uint8_t *labels,
                        size_t labels_len, int64_t *scratch, size_t scratch_len, uint64_t *carried);

/* Writes the coordinates of weights, whatever their total: 1, 2, 21, 3 to 6, 7 or 25, 8, 9. */
uint64_t packmap_forward(size_t n, size_t outer, const uint16_t *triangles, size_t triangles_len,
                         const int64_t *weights, size_t weights_len, int64_t *coordinates, size_t coordinates_len,
                         int64_t *scratch, size_t scratch_len, uint64_t *carried);

/* Writes the low and the high of each coordinate where each weight has a low and a high: 1, 2, 21, 29, 3 to 6, 7 or 25,
 * 8, 9 of either list. They are the coordinates of the lows and those of the highs, so that both ends are reached, and
 * no weights within the ranges give a coordinate that passes them. Where all lows are 1 or more, no weights within the
 * ranges leave an inner triangle flat or turned. */
uint64_t packmap_forward_range(size_t n, size_t outer, const uint16_t *triangles, size_t triangles_len,
                               const int64_t *lows, size_t lows_len, const int64_t *highs, size_t highs_len,
                               int64_t *low_coordinates, size_t low_coordinates_len, int64_t *high_coordinates,
                               size_t high_coordinates_len, int64_t *scratch, size_t scratch_len, uint64_t *carried);

/* Writes the weights of coordinates: 1, 2, 21, 3 to 6, 7 or 25, 8, 10, 11, 12, 9. */
uint64_t packmap_backward(size_t n, size_t outer, const uint16_t *triangles, size_t triangles_len,
                          const int64_t *coordinates, size_t coordinates_len, int64_t *weights, size_t weights_len,
                          int64_t *scratch, size_t scratch_len, uint64_t *carried);

/* Raises weights until N, their total, is 1 or more and no inner triangle is flat or turned, and writes their
 * coordinates: 1, 2, 21, 3 to 6, 7 or 25, 8, 9, 13. Where N is below 1, the first inner triangle is raised first, by
 * the larger of its own raise and 1 - N. No triangle is raised twice. All raises are counted in *carried; 13 leaves the
 * weights as after the last full raise (with none made, as lent), and their coordinates written. */
uint64_t packmap_repair(size_t n, size_t outer, const uint16_t *triangles, size_t triangles_len, int64_t *weights,
                        size_t weights_len, int64_t *coordinates, size_t coordinates_len, int64_t *scratch,
                        size_t scratch_len, uint64_t *carried);

/* Writes the coordinates of drawn points at a scale r of 4 to 24, or 0 for 20: 1, 2, 14, then 15 and 16 share by share.
 * A share goes to the whole number nearest to it times 2^r, halves to the even one; the third coordinate of a point is
 * 2^r less the two others. With 16 the share is left in *outside, which else keeps what it held. The mesh is not looked
 * at. */
uint64_t packmap_snap_points(size_t n, const double *shares, size_t shares_len, uint32_t scale, int64_t *coordinates,
                             size_t coordinates_len, double *outside);

/* ---- the call on a job text */

/* The most vertices of a job, and the most bytes of its text. A listing buffer of as many bytes has room for every
 * listing. */
#define PACKMAP_JOB_VERTICES 256
#define PACKMAP_BYTES 16384

/* Reads the job in the text, repairs its weights and writes the listing to the front of the buffer: 19, lines in turn
 * (17, and 1 after the first), 3 to 6, 7 or 25, 8, 9, 13, 18. The text's first triangle is the outer one. It answers
 * the listing's length, and bytes past the listing keep what they held; or a refusal, which leaves the whole buffer as
 * it was. The functions below take the answer apart. A buffer is a slice as above: not null, and not overlapping the
 * text. */
uint64_t packmap_job(const uint8_t *text, size_t text_len, uint8_t *listing, size_t listing_len);

/* Whether the job was refused; the answer is then 65,536 * (1 + line) + number. */
static inline int packmap_refused(uint64_t answer) {
    return answer >= 65536;
}

/* The number of the refusal; 0 where there is a listing. */
static inline unsigned packmap_number(uint64_t answer) {
    return packmap_refused(answer) ? (unsigned)(answer % 65536) : 0;
}

/* The line that a refusal with 17 names, counted from 1; 0 with every other number, and where there is a listing. */
static inline unsigned packmap_line(uint64_t answer) {
    return packmap_refused(answer) ? (unsigned)(answer / 65536 - 1) : 0;
}

#ifdef __cplusplus
}
#endif

#endif
