/* Every call on lent slices, by the example of a shell of 1,000 vertices: two bad scans of it are refused, and it is
 * checked, labelled, mapped from weights to coordinates and back; it is opened at another triangle, by its number; it
 * is mapped with a low and a high for each weight; a drawing of it that is rotated by half a turn is repaired; then one
 * that is bent in places is snapped to whole numbers and repaired.
 *
 *     cc -IFOLDER/include host/shell.c -LFOLDER/lib -lpackmap && ./a.out
 *
 * It is C and C++. Each step is held against what the calls promise. Exit status: 0 if all of it holds, 1 otherwise.
 *
 * The shell is a tube of 333 rings of three vertices, closed by a tip. Vertex 3j + k is vertex k of ring j. The first
 * triangle closes ring 0: opened there, the rim is v0 = 0, v1 = 1, v2 = 2. */
#include <stdio.h>
#include <stdlib.h>
#include <string.h>

#include "packmap.h"

enum { RINGS = 333, N = 3 * RINGS + 1, TIP = N - 1, SCALE = 16 };
enum { TRIANGLE_COUNT = 2 * N - 4, FIRST = 0, LAST = TRIANGLE_COUNT - 1 }; /* places of triangles */

static uint16_t triangles[PACKMAP_TRIANGLES(N)];
static uint8_t labels[PACKMAP_LABELS(N)];
static int64_t weights[PACKMAP_WEIGHTS(N)], again[PACKMAP_WEIGHTS(N)];
static int64_t lows[PACKMAP_WEIGHTS(N)], highs[PACKMAP_WEIGHTS(N)];
static int64_t coordinates[PACKMAP_COORDINATES(N)], redrawn[PACKMAP_COORDINATES(N)];
static int64_t low_coordinates[PACKMAP_COORDINATES(N)], high_coordinates[PACKMAP_COORDINATES(N)];
static double shares[PACKMAP_SHARES(N)];
static int64_t scratch[PACKMAP_SCRATCH(N)];

#define ITEMS(slice) (sizeof(slice) / sizeof *(slice))

/* Ends the program unless a call answered 0. */
static void done(const char *call, uint64_t number) {
    if (number == PACKMAP_DONE)
        return;
    printf("%s: refused with %u, %s\n", call, (unsigned)number, packmap_words(number));
    exit(1);
}

/* Ends the program unless something holds. */
static void holds(const char *what, int held) {
    printf("%s: %s\n", what, held ? "yes" : "NO");
    if (!held)
        exit(1);
}

static uint16_t *triangle(uint16_t *to, int a, int b, int c) {
    to[0] = (uint16_t)a, to[1] = (uint16_t)b, to[2] = (uint16_t)c;
    return to + 3;
}

/* The triangle that closes ring 0, v0, v2, v1 where it is the outer one; then the tube ring by ring, and the three
 * triangles at the tip. */
static void make_shell(void) {
    uint16_t *to = triangle(triangles, 0, 2, 1);
    for (int ring = 0; ring < RINGS; ring++) {
        int from = 3 * ring, next = from + 3;
        for (int k = 0; k < 3; k++) {
            int after = (k + 1) % 3;
            if (ring == RINGS - 1) {
                to = triangle(to, from + k, from + after, TIP);
                continue;
            }
            to = triangle(to, from + k, from + after, next + k);
            to = triangle(to, from + after, next + after, next + k);
        }
    }
}

/* Every triangle at a vertex gets another one in its place. */
static void rename_vertex(uint16_t from, uint16_t to) {
    for (size_t k = 0; k < ITEMS(triangles); k++)
        if (triangles[k] == from)
            triangles[k] = to;
}

/* A drawing in doubles. Each ring is smaller than the one before it, but every 50th is drawn too large, so that
 * triangles beside it are turned. The shares of a vertex say how near to v0 and to v1 it is drawn. */
static void draw_shell(void) {
    for (int ring = 0; ring < RINGS; ring++) {
        double size = 1.0 - (double)(ring % 50 == 49 ? ring - 3 : ring) / RINGS;
        for (int k = 0; k < 3; k++)
            for (int corner = 0; corner < 2; corner++)
                shares[2 * (3 * ring + k) + corner] = (1.0 - size) / 3 + (k == corner ? size : 0);
    }
    shares[2 * TIP] = shares[2 * TIP + 1] = 1.0 / 3;
}

/* How many inner triangles of a drawing are flat or turned: all but the outer one are inner. */
static size_t flat_or_turned(size_t outer, const int64_t *b) {
    size_t count = 0;
    for (size_t t = 0; t < TRIANGLE_COUNT; t++) {
        const uint16_t *v = triangles + 3 * t;
        if (t == outer)
            continue;
        const int64_t *p = b + 3 * v[0], *q = b + 3 * v[1], *r = b + 3 * v[2];
        int64_t area = (q[0] - p[0]) * (r[1] - p[1]) - (q[1] - p[1]) * (r[0] - p[0]);
        count += area <= 0;
    }
    return count;
}

/* Whether the vertices of the outer triangle, v0, v2, v1 as listed, are drawn at the corners of a total. */
static int at_corners(size_t outer, const int64_t *b, int64_t total) {
    const int64_t corners[3][3] = {{total, 0, 0}, {0, 0, total}, {0, total, 0}};
    for (size_t k = 0; k < 3; k++)
        if (memcmp(b + 3 * triangles[3 * outer + k], corners[k], sizeof corners[k]) != 0)
            return 0;
    return 1;
}

/* Moves the last triangle to the front; the others follow in their order. */
static void move_last_to_front(void) {
    uint16_t last[3];
    memcpy(last, triangles + 3 * LAST, sizeof last);
    memmove(triangles + 3, triangles, 3 * LAST * sizeof *triangles);
    memcpy(triangles, last, sizeof last);
}

/* Whether each inner triangle has the labels 0, 1, 2 along its sides. */
static int labelled(void) {
    for (size_t t = 0; t < ITEMS(labels); t += 3)
        if (labels[t] > 2 || labels[t + 1] != (labels[t] + 1) % 3 || labels[t + 2] != (labels[t] + 2) % 3)
            return 0;
    return 1;
}

/* Whether each coordinate is from its low to its high. */
static int between(const int64_t *low, const int64_t *b, const int64_t *high) {
    for (size_t k = 0; k < ITEMS(coordinates); k++)
        if (b[k] < low[k] || high[k] < b[k])
            return 0;
    return 1;
}

int main(void) {
    uint64_t number, carried = 0;
    double outside = 0;

    /* a scan that took two far vertices for one is refused, and the call tells where to look */
    make_shell();
    rename_vertex(600, 300);
    number = packmap_mesh_check(N, FIRST, triangles, ITEMS(triangles), scratch, ITEMS(scratch), &carried);
    holds("600 scanned as 300: vertex 300 has several rings", number == PACKMAP_REFUSED_RING && carried == 300);
    make_shell();
    rename_vertex(300, 600);
    number = packmap_mesh_check(N, FIRST, triangles, ITEMS(triangles), scratch, ITEMS(scratch), &carried);
    holds("300 scanned as 600: vertex 300 is in no triangle", number == PACKMAP_REFUSED_STRAY && carried == 300);

    make_shell();
    done("check", packmap_mesh_check(N, FIRST, triangles, ITEMS(triangles), scratch, ITEMS(scratch), &carried));
    printf("a sphere of %d vertices and %d triangles\n", N, TRIANGLE_COUNT);
    done("labels", packmap_labels(N, FIRST, triangles, ITEMS(triangles), labels, ITEMS(labels), scratch, ITEMS(scratch),
                                  &carried));
    holds("labels 0, 1, 2 along each triangle", labelled());

    /* weights that are all 1 give a drawing with no triangle flat or turned, and come back from it */
    for (size_t t = 0; t < ITEMS(weights); t++)
        weights[t] = 1;
    done("forward", packmap_forward(N, FIRST, triangles, ITEMS(triangles), weights, ITEMS(weights), coordinates,
                                    ITEMS(coordinates), scratch, ITEMS(scratch), &carried));
    holds("weights of 1: no triangle flat or turned", flat_or_turned(FIRST, coordinates) == 0);
    done("backward", packmap_backward(N, FIRST, triangles, ITEMS(triangles), coordinates, ITEMS(coordinates), again,
                                      ITEMS(again), scratch, ITEMS(scratch), &carried));
    holds("the same weights come back", memcmp(weights, again, sizeof weights) == 0);

    /* opened at its last triangle, at the tip, it is another drawing: that of the list with this triangle in front */
    done("forward", packmap_forward(N, LAST, triangles, ITEMS(triangles), weights, ITEMS(weights), coordinates,
                                    ITEMS(coordinates), scratch, ITEMS(scratch), &carried));
    holds("opened at the tip: its triangle is the rim", at_corners(LAST, coordinates, ITEMS(weights)));
    holds("opened at the tip: no triangle flat or turned", flat_or_turned(LAST, coordinates) == 0);
    done("backward", packmap_backward(N, LAST, triangles, ITEMS(triangles), coordinates, ITEMS(coordinates), again,
                                      ITEMS(again), scratch, ITEMS(scratch), &carried));
    holds("opened at the tip: the same weights come back", memcmp(weights, again, sizeof weights) == 0);
    move_last_to_front();
    done("forward", packmap_forward(N, FIRST, triangles, ITEMS(triangles), weights, ITEMS(weights), redrawn,
                                    ITEMS(redrawn), scratch, ITEMS(scratch), &carried));
    holds("moved to the front it is the same drawing", memcmp(coordinates, redrawn, sizeof redrawn) == 0);
    number = packmap_mesh_check(N, TRIANGLE_COUNT, triangles, ITEMS(triangles), scratch, ITEMS(scratch), &carried);
    holds("there is no triangle behind the last", number == PACKMAP_REFUSED_OUTER_NUMBER);
    make_shell();

    /* areas were measured with a tolerance: weights of 3 to 9, each as a range from 2 below it to 1 above it */
    for (size_t t = 0; t < ITEMS(weights); t++) {
        weights[t] = 3 + (int64_t)(t % 7);
        lows[t] = weights[t] - 2, highs[t] = weights[t] + 1;
    }
    done("range", packmap_forward_range(N, FIRST, triangles, ITEMS(triangles), lows, ITEMS(lows), highs, ITEMS(highs),
                                        low_coordinates, ITEMS(low_coordinates), high_coordinates,
                                        ITEMS(high_coordinates), scratch, ITEMS(scratch), &carried));
    done("forward", packmap_forward(N, FIRST, triangles, ITEMS(triangles), weights, ITEMS(weights), coordinates,
                                    ITEMS(coordinates), scratch, ITEMS(scratch), &carried));
    holds("weights within the ranges: coordinates within theirs",
          between(low_coordinates, coordinates, high_coordinates));
    holds("lows of 1 or more: no triangle flat or turned", flat_or_turned(FIRST, low_coordinates) == 0 &&
                                                               flat_or_turned(FIRST, coordinates) == 0 &&
                                                               flat_or_turned(FIRST, high_coordinates) == 0);
    done("forward", packmap_forward(N, FIRST, triangles, ITEMS(triangles), highs, ITEMS(highs), redrawn, ITEMS(redrawn),
                                    scratch, ITEMS(scratch), &carried));
    holds("the highs reach the high coordinates", memcmp(high_coordinates, redrawn, sizeof redrawn) == 0);
    lows[0] = highs[0] + 1;
    number = packmap_forward_range(N, FIRST, triangles, ITEMS(triangles), lows, ITEMS(lows), highs, ITEMS(highs),
                                   low_coordinates, ITEMS(low_coordinates), high_coordinates, ITEMS(high_coordinates),
                                   scratch, ITEMS(scratch), &carried);
    holds("a low above its high is refused, and nothing is written",
          number == PACKMAP_REFUSED_RANGE && memcmp(high_coordinates, redrawn, sizeof redrawn) == 0);

    /* weights of -1 draw it rotated by half a turn: their total, b0 of v0, is below 1; repair brings it to 1 or more */
    for (size_t t = 0; t < ITEMS(weights); t++)
        weights[t] = -1;
    done("forward", packmap_forward(N, FIRST, triangles, ITEMS(triangles), weights, ITEMS(weights), coordinates,
                                    ITEMS(coordinates), scratch, ITEMS(scratch), &carried));
    holds("weights of -1: no triangle flat or turned", flat_or_turned(FIRST, coordinates) == 0 && coordinates[0] < 1);
    done("repair", packmap_repair(N, FIRST, triangles, ITEMS(triangles), weights, ITEMS(weights), coordinates,
                                  ITEMS(coordinates), scratch, ITEMS(scratch), &carried));
    holds("weights of -1, repaired: their total is 1 or more",
          flat_or_turned(FIRST, coordinates) == 0 && coordinates[0] >= 1);

    /* a drawing in doubles becomes coordinates, these give weights, and the weights are repaired */
    draw_shell();
    done("snapping", packmap_snap_points(N, shares, ITEMS(shares), SCALE, coordinates, ITEMS(coordinates), &outside));
    size_t bent = flat_or_turned(FIRST, coordinates);
    printf("the drawing in doubles, snapped: %u triangles flat or turned\n", (unsigned)bent);
    done("backward", packmap_backward(N, FIRST, triangles, ITEMS(triangles), coordinates, ITEMS(coordinates), weights,
                                      ITEMS(weights), scratch, ITEMS(scratch), &carried));
    memcpy(again, weights, sizeof weights);
    done("repair", packmap_repair(N, FIRST, triangles, ITEMS(triangles), weights, ITEMS(weights), coordinates,
                                  ITEMS(coordinates), scratch, ITEMS(scratch), &carried));
    uint64_t raises = carried;
    printf("repaired with %u raises\n", (unsigned)raises);
    holds("there was something to repair", bent > 0 && raises > 0);
    holds("no triangle flat or turned any more", flat_or_turned(FIRST, coordinates) == 0);
    uint64_t changed = 0;
    for (size_t t = 0; t < ITEMS(weights); t++)
        changed += weights[t] != again[t];
    holds("as many weights changed as raises were made", changed == raises);
    done("forward", packmap_forward(N, FIRST, triangles, ITEMS(triangles), weights, ITEMS(weights), redrawn,
                                    ITEMS(redrawn), scratch, ITEMS(scratch), &carried));
    holds("the coordinates are those of the repaired weights", memcmp(coordinates, redrawn, sizeof redrawn) == 0);
    return 0;
}
