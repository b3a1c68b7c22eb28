/* Meshes whose answers are known from the papers without a program: document 01's shells, repairs and ranges worked out
 * by hand, and a stack of any size.
 *
 * The stack: vertex 2 on top, 3 to n - 1 below it in turn, all joined to 0 and 1. Its inner triangles, in order, are
 * for each k from 3 to n - 1 a left one (0, k, k - 1) and a right one (k, 1, k - 1), then the last, (0, 1, n - 1).
 * Peeling takes 2, 3, .. in turn, so all labels are 0, 1, 2. A left triangle's walk goes down through the left ones
 * below it, and the path of k to v0 is the side from k to 0; so b1 of k is the sum of the left weights from 3 to k, and
 * b0 that of the right ones. */
#ifndef SHELLS_H
#define SHELLS_H

#include <stddef.h>
#include <stdint.h>
#include <string.h>

#define L 1073741823

enum { MOST = 4096, CORNERS = 3 * (2 * MOST - 4), WEIGHTS_MOST = 2 * MOST - 5 };

static const uint16_t PAIR[] = {0, 2, 1, 0, 1, 2};
static const uint16_t TETRA[] = {0, 2, 1, 0, 3, 2, 3, 1, 2, 0, 1, 3};
static const uint16_t FIVE[] = {0, 2, 1, 0, 3, 2, 3, 1, 2, 0, 1, 4, 1, 3, 4, 3, 0, 4};

/* Repairs worked out by hand: P6 to P8, row 13's example, and others with N below 1, where inner triangle 1 is raised
 * first, or just 1.
 *
 * On the tetra vertex 3 is at (w2, w1, w3). The area of a triangle is its weight times N, and its raise is by 1 plus
 * the larger of these: its weight taken from 0; the largest of 0 and the two other weights, less N.
 *
 * The last mesh is P3 with (1, 3, 4) as inner triangle 1, which has no side on the rim. With the weights u, x, y, z, s
 * vertex 3 is at (y, x, u + z + s) and vertex 4 at (y + u, x + s, z). Where x is -M and only u else is not 0, the first
 * triangle has area u times u. Its own raise is by 1 - u, and 1 - N is M more: u becomes M + 1 and N 1. Then (0, 3, 2)
 * is turned and has m = M: x becomes 1. Now (3, 1, 2) and (0, 1, 4) are flat with m = 0, and (3, 0, 4) is upright. */
static const uint16_t INSIDE[] = {0, 2, 1, 1, 3, 4, 0, 3, 2, 3, 1, 2, 0, 1, 4, 3, 0, 4};
enum { H = L / 2 }; /* twice this and 1 is L */

static const struct repaired {
    size_t n;
    const uint16_t *triangles;
    int64_t weights[5];
    uint64_t number, count;
    int64_t raised[5], coordinates[15];
} REPAIRED[] = {
    {3, PAIR, {-7}, 0, 1, {1}, {1, 0, 0, 0, 1, 0, 0, 0, 1}},
    {3, PAIR, {-L}, 0, 1, {1}, {1, 0, 0, 0, 1, 0, 0, 0, 1}},
    {4, TETRA, {5, 3, -1}, 0, 1, {5, 3, 1}, {9, 0, 0, 0, 9, 0, 0, 0, 9, 3, 5, 1}},
    {4, TETRA, {0, 0, 0}, 0, 3, {1, 1, 1}, {3, 0, 0, 0, 3, 0, 0, 0, 3, 1, 1, 1}},
    /* P8: all areas are 3. By 4 either way, by 3 and by 2; then the same from N = 1 on. */
    {4, TETRA, {-1, -1, -1}, 0, 3, {3, 2, 1}, {6, 0, 0, 0, 6, 0, 0, 0, 6, 2, 3, 1}},
    {4, TETRA, {3, -1, -1}, 0, 2, {3, 2, 1}, {6, 0, 0, 0, 6, 0, 0, 0, 6, 2, 3, 1}},
    /* By 1 + 5 - N, which is 8 and past 1 - N, then the third by 1 + 6. Only the second was turned. */
    {4, TETRA, {-1, 5, -6}, 0, 2, {7, 5, 1}, {13, 0, 0, 0, 13, 0, 0, 0, 13, 5, 7, 1}},
    /* The first raise, by 2 - N, would pass L. */
    {4, TETRA, {1, 2 - L, 1}, 13, 0, {1, 2 - L, 1}, {4 - L, 0, 0, 0, 4 - L, 0, 0, 0, 4 - L, 2 - L, 1, 1}},
    /* All areas are above 0, and the first raise, by 1 - N, would pass L. */
    {4, TETRA, {-1, -1, 2 - L}, 13, 0, {-1, -1, 2 - L}, {-L, 0, 0, 0, -L, 0, 0, 0, -L, -1, -1, 2 - L}},
    /* The first raise, by 1 - N, brings the sum to L; the second triangle is flat then. */
    {4, TETRA, {-1, 0, -H}, 13, 1, {H + 1, 0, -H}, {1, 0, 0, 0, 1, 0, 0, 0, 1, 0, H + 1, -H}},
    /* The first triangle, which is flat, is raised by 1, and the second's raise by 1 would pass L. */
    {4, TETRA, {0, 0, L - 1}, 13, 1, {1, 0, L - 1}, {L, 0, 0, 0, L, 0, 0, 0, L, 0, 1, L - 1}},
    {5, INSIDE, {-3, -5}, 0, 4, {6, 1, 1, 1}, {9, 0, 0, 0, 9, 0, 0, 0, 9, 1, 1, 7, 7, 1, 1}},
    {5, INSIDE, {5, -5}, 0, 4, {6, 1, 1, 1}, {9, 0, 0, 0, 9, 0, 0, 0, 9, 1, 1, 7, 7, 1, 1}},
    {5, INSIDE, {6, -5}, 0, 3, {6, 1, 1, 1}, {9, 0, 0, 0, 9, 0, 0, 0, 9, 1, 1, 7, 7, 1, 1}},
    /* The first raise brings the sum to L, and past it. */
    {5, INSIDE, {0, -H}, 0, 4, {H + 1, 1, 1, 1}, {H + 4, 0, 0, 0, H + 4, 0, 0, 0, H + 4, 1, 1, H + 2, H + 2, 1, 1}},
    {5,
     INSIDE,
     {0, -H - 1},
     13,
     0,
     {0, -H - 1},
     {-H - 1, 0, 0, 0, -H - 1, 0, 0, 0, -H - 1, 0, -H - 1, 0, 0, -H - 1, 0}},
};
enum { REPAIRED_COUNT = sizeof REPAIRED / sizeof *REPAIRED };

/* Ranges worked out by hand, on the same meshes: the low coordinates are those of the lows, the high ones those of the
 * highs. */
static const struct ranged {
    size_t n;
    const uint16_t *triangles;
    int64_t lows[5], highs[5];
    uint64_t number;
    int64_t low[15], high[15];
} RANGED[] = {
    {3, PAIR, {2}, {7}, 0, {2, 0, 0, 0, 2, 0, 0, 0, 2}, {7, 0, 0, 0, 7, 0, 0, 0, 7}},
    {3, PAIR, {-7}, {-7}, 0, {-7, 0, 0, 0, -7, 0, 0, 0, -7}, {-7, 0, 0, 0, -7, 0, 0, 0, -7}},
    {3, PAIR, {-L}, {L}, 0, {-L, 0, 0, 0, -L, 0, 0, 0, -L}, {L, 0, 0, 0, L, 0, 0, 0, L}},
    {4, TETRA, {4, 3, 1}, {6, 3, 2}, 0, {8, 0, 0, 0, 8, 0, 0, 0, 8, 3, 4, 1}, {11, 0, 0, 0, 11, 0, 0, 0, 11, 3, 6, 2}},
    {4,
     TETRA,
     {-1, -1, -1},
     {1, 1, 1},
     0,
     {-3, 0, 0, 0, -3, 0, 0, 0, -3, -1, -1, -1},
     {3, 0, 0, 0, 3, 0, 0, 0, 3, 1, 1, 1}},
    {5,
     INSIDE,
     {1, 2, 3, 4, 5},
     {6, 2, 9, 5, 7},
     0,
     {15, 0, 0, 0, 15, 0, 0, 0, 15, 3, 2, 10, 4, 7, 4},
     {29, 0, 0, 0, 29, 0, 0, 0, 29, 9, 2, 18, 15, 9, 5}},
    /* a low above its high in the first triangle alone, in the second, in the last; and 29 is asked before 9 */
    {4, TETRA, {1, 0, 0}, {0, 0, 0}, 29, {0}, {0}},
    {4, TETRA, {0, 0, 0}, {1, -1, 1}, 29, {0}, {0}},
    {4, TETRA, {5, 5, 6}, {5, 5, 5}, 29, {0}, {0}},
    {4, TETRA, {L, 1, 0}, {L, 0, 1}, 29, {0}, {0}},
    {3, PAIR, {INT64_MAX}, {INT64_MIN}, 29, {0}, {0}},
    /* 9 by the lows alone, by the highs alone, by both */
    {4, TETRA, {-L, -1, 0}, {0, 0, 0}, 9, {0}, {0}},
    {4, TETRA, {0, 0, 0}, {L, 0, 1}, 9, {0}, {0}},
    {3, PAIR, {INT64_MIN}, {INT64_MAX}, 9, {0}, {0}},
    {3, PAIR, {INT64_MIN}, {INT64_MIN}, 9, {0}, {0}},
};
enum { RANGED_COUNT = sizeof RANGED / sizeof *RANGED };

/* The examples of rows 3 to 8, and of 25 the torus of row 8 on the vertices 0 to 6 of n = 9. Of 7 and 25 the vertex is
 * due too: 3, the lower one of the tips, and 7, the lower one of those in no triangle. */
static const uint16_t ROW3[] = {0, 2, 1, 0, 1, 3};
static const uint16_t ROW4[] = {0, 2, 1, 0, 0, 1};
static const uint16_t ROW5[] = {0, 2, 1, 0, 2, 1};
static const uint16_t ROW6[] = {0, 1, 2, 0, 2, 3, 0, 3, 4, 0, 4, 5, 0, 5, 1, 1, 5, 4, 1, 4, 3, 2, 5, 3};
static const uint16_t ROW7[] = {0, 1, 3, 1, 2, 3, 2, 0, 3, 1, 0, 4, 2, 1, 4, 0, 2, 4,
                                5, 6, 3, 6, 7, 3, 7, 5, 3, 6, 5, 4, 7, 6, 4, 5, 7, 4};
static const uint16_t ROW25[] = {0, 1, 3, 0, 3, 2, 1, 2, 4, 1, 4, 3, 2, 3, 5, 2, 5, 4, 3, 4, 6,
                                 3, 6, 5, 4, 5, 0, 4, 0, 6, 5, 6, 1, 5, 1, 0, 6, 0, 2, 6, 2, 1};
enum { ROW7_VERTEX = 3, ROW25_VERTEX = 7 };
static const uint16_t ROW8[] = {0, 2, 1, 0, 3, 2,  3, 1,  2, 0, 1, 3, 4, 5, 7,  4, 7,  6, 5, 6, 8, 5,  8, 7, 6,  7, 9,
                                6, 9, 8, 7, 8, 10, 7, 10, 9, 8, 9, 4, 8, 4, 10, 9, 10, 5, 9, 5, 4, 10, 4, 6, 10, 6, 5};

static inline uint16_t *triple(uint16_t *to, size_t a, size_t b, size_t c) {
    to[0] = (uint16_t)a, to[1] = (uint16_t)b, to[2] = (uint16_t)c;
    return to + 3;
}

/* The stack on n vertices, n being 3 or more; where its list ends. */
static inline uint16_t *stack(size_t n, uint16_t *to) {
    to = triple(to, 0, 2, 1);
    for (size_t k = 3; k < n; k++) {
        to = triple(to, 0, k, k - 1);
        to = triple(to, k, 1, k - 1);
    }
    return triple(to, 0, 1, n - 1);
}

/* A list of triangles in which the first one is moved to a place, counted from 0; the others keep their order. Where
 * the first one was the outer triangle and now the one at that place is, the inner triangles are the same in the same
 * order, and so are all answers. */
static inline void move_first(const uint16_t *triangles, size_t place, size_t count, uint16_t *to) {
    memcpy(to, triangles + 3, 3 * place * sizeof *to);
    memcpy(to + 3 * place, triangles, 3 * sizeof *to);
    memcpy(to + 3 * place + 3, triangles + 3 * place + 3, 3 * (count - place - 1) * sizeof *to);
}

/* The coordinates of weights on the stack. */
static inline void stack_coordinates(size_t n, const int64_t *weights, int64_t *b) {
    int64_t sum = 0, left = 0, right = 0;
    for (size_t t = 0; t < 2 * n - 5; t++)
        sum += weights[t];
    memset(b, 0, 9 * sizeof *b);
    b[0] = b[4] = b[8] = sum;
    for (size_t k = 3; k < n; k++) {
        left += weights[2 * (k - 3)];
        right += weights[2 * (k - 3) + 1];
        b[3 * k] = right, b[3 * k + 1] = left, b[3 * k + 2] = sum - left - right;
    }
}

/* What repair makes of weights that are all 0 on the stack, n being 4 or more; the number of raises. All areas are 0
 * and each raise is by 1: the left and the right triangle at 3, after which the right ones below stand upright with
 * weight 0; each left one in turn; the last. Where the first weight is -W instead, N is -W, and inner triangle 1 is
 * upright; its own raise, by 1 + W, and 1 - N both bring the weight to 1, and then all is the same. */
static inline uint64_t stack_raised(size_t n, int64_t *weights) {
    for (size_t t = 0; t < 2 * n - 5; t++)
        weights[t] = t % 2 == 0 || t == 1;
    return n - 1;
}

/* A stack of n vertices, n being 16 or more, damaged so that one of these rows refuses it; with 7 and 25 the vertex
 * that is due. Rows 3 and 4 hold over the whole mesh before a later row is looked at, so an earlier triangle breaks the
 * next row. */
static const int DAMAGED_ROWS[] = {3, 4, 5, 6, 7, 25, 8};
enum { DAMAGED_ROW_COUNT = sizeof DAMAGED_ROWS / sizeof *DAMAGED_ROWS };

static inline size_t damaged_stack(size_t n, int row, uint16_t *to) {
    uint16_t *last = to + 3 * (2 * n - 5), *end;
    stack(n, to);
    switch (row) {
    case 3:
        triple(to + 3, 0, 3, 3);
        triple(last, 0, 1, n);
        break;
    case 4:
        triple(to + 6, 0, 3, 2);
        triple(last, 0, n - 1, n - 1);
        break;
    case 5:
        triple(last, 3, 2, 0);
        break;
    case 6:
        triple(last, 2, n - 2, n - 4);
        break;
    case 7: /* a stack and a double pyramid over three more vertices, which share both tips */
        end = stack(n - 3, to);
        for (size_t k = 0; k < 3; k++) {
            size_t a = n - 3 + k, b = n - 3 + (k + 1) % 3;
            end = triple(end, a, b, 2);
            end = triple(end, b, a, n - 4);
        }
        return 2;
    case 25: /* a stack without vertex 3, and two triangles over 5, 7 and 9, which have two rings each then */
        end = stack(n - 1, to);
        for (uint16_t *v = to; v < end; v++)
            *v += *v >= 3;
        end = triple(end, 5, 7, 9);
        triple(end, 5, 9, 7);
        return 3;
    case 8: /* a stack and the torus of document 01 */
        end = stack(n - 7, to);
        for (size_t k = 0; k < 7; k++) {
            end = triple(end, n - 7 + k, n - 7 + (k + 1) % 7, n - 7 + (k + 3) % 7);
            end = triple(end, n - 7 + k, n - 7 + (k + 3) % 7, n - 7 + (k + 2) % 7);
        }
        break;
    }
    return 0;
}

#endif
