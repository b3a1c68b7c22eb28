/* A million calls, of all kinds, refused and accepted; the memory of the process after the first of them and after the
 * last has to be the same. The last line is '1 passed, 0 failed', or the other way round.
 *
 * VmData counts the bytes that the process has mapped for data, and Anonymous with Swap the pages of them that it has
 * ever touched and still has. The kernel finds the latter by walking the page tables, so neither depends on the page
 * cache or on counters that lag behind, and both have to be equal. Every answer is looked at too. The outer triangle of
 * a mesh is at another place each time, unless the answer depends on it. */
#include <math.h>
#include <stdbool.h>
#include <stdio.h>
#include <stdlib.h>

#include "packmap.h"
#include "shells.h"

enum { CALLS = 1000000, WARM = 10000, SMALL = 16, LISTING = 64 };
enum outer { ANY, FIRST, BEHIND, FAR }; /* any place at all; the first; the one behind the last; the largest number */
enum call { CHECK, LABELS, FORWARD, RANGE, BACKWARD, REPAIR, SNAP, JOB };

#define TETRA_TEXT "pack-map\t4\nt\t0\t2\t1\nt\t0\t3\t2\nt\t3\t1\t2\nt\t0\t1\t3\n"

/* Six spheres of two triangles each on the vertices 1 to 7, which share no side; no triangle touches vertex 0. */
#define BOTH_WAYS(a, b, c) "t\t" a "\t" b "\t" c "\nt\t" a "\t" c "\t" b "\n"
#define STRAY_TEXT                                                                                                     \
    "pack-map\t8\n" BOTH_WAYS("1", "2", "3") BOTH_WAYS("1", "4", "5") BOTH_WAYS("1", "6", "7")                         \
        BOTH_WAYS("2", "4", "6") BOTH_WAYS("2", "5", "7") BOTH_WAYS("3", "4", "7")

static uint16_t pile[3 * (2 * SMALL - 4)]; /* the stack on 16 vertices */
static char too_long[16385 + 1];           /* a text, without its 0 */

static const struct step {
    enum call call;
    uint64_t due;
    size_t n;
    const uint16_t *triangles;
    enum outer outer;
    int64_t numbers[12]; /* weights, lows or coordinates, 0 from there on */
    int64_t highs[12];
    double shares[6];
    uint32_t scale;
    size_t cut; /* by how much scratch, coordinates of drawn points or listing are too short */
    const char *text;
} STEPS[] = {
    {CHECK, 0, 4, .triangles = TETRA},
    {CHECK, 0, SMALL, .triangles = pile},
    {CHECK, 1, 2, .triangles = PAIR},
    {CHECK, 2, 4, .triangles = TETRA, .cut = 1},
    {CHECK, 1, 2, .triangles = PAIR, .outer = FAR},
    {CHECK, 2, 4, .triangles = TETRA, .outer = BEHIND, .cut = 1},
    {CHECK, 21, 4, .triangles = TETRA, .outer = BEHIND},
    {CHECK, 21, 3, .triangles = ROW3, .outer = FAR},
    {CHECK, 3, 3, .triangles = ROW3},
    {CHECK, 4, 3, .triangles = ROW4},
    {CHECK, 5, 3, .triangles = ROW5},
    {CHECK, 6, 6, .triangles = ROW6},
    {CHECK, 7, 8, .triangles = ROW7},
    {CHECK, 25, 9, .triangles = ROW25},
    {CHECK, 8, 11, .triangles = ROW8},
    {LABELS, 0, 5, .triangles = FIVE},
    {LABELS, 0, SMALL, .triangles = pile},
    {LABELS, 21, SMALL, .triangles = pile, .outer = BEHIND},
    {LABELS, 7, 8, .triangles = ROW7},
    {LABELS, 8, 11, .triangles = ROW8},
    {FORWARD, 0, 4, .triangles = TETRA, .numbers = {5, 3, 2}},
    {FORWARD, 0, SMALL, .triangles = pile, .numbers = {5, 3, 2, -7}},
    {FORWARD, 21, 4, .triangles = TETRA, .outer = BEHIND, .numbers = {L, 1, 0}},
    {FORWARD, 25, 9, .triangles = ROW25},
    {FORWARD, 9, 4, .triangles = TETRA, .numbers = {L, 1, 0}},
    {RANGE, 0, 4, .triangles = TETRA, .numbers = {4, 3, 1}, .highs = {6, 3, 2}},
    {RANGE, 0, SMALL, .triangles = pile, .numbers = {-5, 3}, .highs = {5, 3, 2}},
    {RANGE, 21, 4, .triangles = TETRA, .outer = BEHIND, .numbers = {1}},
    {RANGE, 29, 4, .triangles = TETRA, .numbers = {0, 0, 1}},
    {RANGE, 29, 3, .triangles = ROW3, .numbers = {1}},
    {RANGE, 25, 9, .triangles = ROW25},
    {RANGE, 9, 4, .triangles = TETRA, .numbers = {-L, -1, 0}},
    {RANGE, 9, 4, .triangles = TETRA, .highs = {L, 1, 0}},
    {BACKWARD, 0, 4, .triangles = TETRA, .outer = FIRST, .numbers = {10, 0, 0, 0, 10, 0, 0, 0, 10, 3, 5, 2}},
    {BACKWARD, 21, 4, .triangles = TETRA, .outer = FAR, .numbers = {9, 0, 0, 1, 8, 0, 0, 0, 9, 3, 5, 1}},
    {BACKWARD, 9, 4, .triangles = TETRA, .outer = FIRST, .numbers = {1, 0, 0, 0, 1, 0, 0, 0, 1, L, -L, 1}},
    {BACKWARD, 10, 4, .triangles = TETRA, .outer = FIRST, .numbers = {1, 0, 0, 0, 1, 0, 0, 0, 1, L + 1, -L, 0}},
    {BACKWARD, 11, 4, .triangles = TETRA, .outer = FIRST, .numbers = {9, 0, 0, 1, 8, 0, 0, 0, 9, 3, 5, 1}},
    {BACKWARD, 12, 4, .triangles = TETRA, .outer = FIRST, .numbers = {9, 0, 0, 0, 9, 0, 0, 0, 9, 3, 5, 2}},
    {REPAIR, 0, 4, .triangles = TETRA, .numbers = {5, 3, -1}},
    {REPAIR, 0, 4, .triangles = TETRA, .numbers = {-1, -1, -1}},
    {REPAIR, 0, SMALL, .triangles = pile},
    {REPAIR, 21, SMALL, .triangles = pile, .outer = FAR},
    {REPAIR, 25, 9, .triangles = ROW25},
    {REPAIR, 9, 4, .triangles = TETRA, .numbers = {L, 1, 0}},
    {REPAIR, 13, 4, .triangles = TETRA, .outer = FIRST, .numbers = {1, -1073741821, 1}},
    {REPAIR, 13, 5, .triangles = INSIDE, .outer = FIRST, .numbers = {0, -H - 1}},
    {SNAP, 0, 3, .shares = {0.5, -0.0, 1, 2, -1, 0.1}, .scale = 4},
    {SNAP, 0, 3, .shares = {0.5, -0.0, 1, 2, -1, 0.1}, .scale = 0},
    {SNAP, 2, 3, .scale = 4, .cut = 1},
    {SNAP, 14, 3, .scale = 25},
    {SNAP, 15, 3, .shares = {INFINITY}},
    {SNAP, 16, 3, .shares = {0, 0, 0, 0, 0, 2.5}},
    {JOB, 55, .text = TETRA_TEXT "w\t5\nw\t3\nw\t-1\n"},
    {JOB, 55, .text = TETRA_TEXT "w\t-1\nw\t-1\nw\t-1\n"},
    {JOB, 65536 + 1, .text = "pack-map\t2\n"},
    {JOB, 65536 + 4, .text = "pack-map\t3\nt\t0\t2\t1\nt\t0\t0\t1\nw\t0\n"},
    {JOB, 65536 + 25, .text = STRAY_TEXT "w\t0\nw\t0\nw\t0\nw\t0\nw\t0\nw\t0\nw\t0\nw\t0\nw\t0\nw\t0\nw\t0\n"},
    {JOB, 65536 + 9, .text = TETRA_TEXT "w\t1073741823\nw\t1\nw\t0\n"},
    {JOB, 65536 + 13, .text = TETRA_TEXT "w\t1\nw\t-1073741821\nw\t1\n"},
    {JOB, 65536 * 9 + 17, .text = TETRA_TEXT "w\t5\nw\t3\nw\t-0\n"},
    {JOB, 65536 + 18, .text = TETRA_TEXT "w\t5\nw\t3\nw\t-1\n", .cut = LISTING - 54},
    {JOB, 65536 + 19, .text = too_long},
};
enum { STEP_COUNT = sizeof STEPS / sizeof *STEPS };

/* The outer number of a step; `random` is another one each time. */
static size_t outer_of(const struct step *s, uint32_t random) {
    const size_t count = s->n < 3 ? 1 : 2 * s->n - 4;
    switch (s->outer) {
    case ANY:
        return random % count;
    case BEHIND:
        return count;
    case FAR:
        return SIZE_MAX;
    default:
        return 0;
    }
}

static uint64_t make(const struct step *s, uint32_t random) {
    static int64_t scratch[10 * SMALL], weights[2 * SMALL - 5], coordinates[3 * SMALL];
    static int64_t highs[2 * SMALL - 5], high[3 * SMALL];
    static uint8_t labels[3 * (2 * SMALL - 5)], listing[LISTING];
    uint64_t carried;
    double outside;
    const size_t n = s->n, outer = outer_of(s, random), t = 3 * (2 * n - 4), w = 2 * n - 5, b = 3 * n,
                 left = 10 * n - s->cut;
    switch (s->call) {
    case CHECK:
        return packmap_mesh_check(n, outer, s->triangles, t, scratch, left, &carried);
    case LABELS:
        return packmap_labels(n, outer, s->triangles, t, labels, 3 * w, scratch, left, &carried);
    case FORWARD:
        memset(weights, 0, sizeof weights);
        memcpy(weights, s->numbers, sizeof s->numbers);
        return packmap_forward(n, outer, s->triangles, t, weights, w, coordinates, b, scratch, left, &carried);
    case RANGE:
        memset(weights, 0, sizeof weights);
        memcpy(weights, s->numbers, sizeof s->numbers);
        memset(highs, 0, sizeof highs);
        memcpy(highs, s->highs, sizeof s->highs);
        return packmap_forward_range(n, outer, s->triangles, t, weights, w, highs, w, coordinates, b, high, b, scratch,
                                     left, &carried);
    case BACKWARD:
        return packmap_backward(n, outer, s->triangles, t, s->numbers, b, weights, w, scratch, left, &carried);
    case REPAIR:
        memset(weights, 0, sizeof weights);
        memcpy(weights, s->numbers, sizeof s->numbers);
        return packmap_repair(n, outer, s->triangles, t, weights, w, coordinates, b, scratch, left, &carried);
    case SNAP:
        return packmap_snap_points(n, s->shares, 2 * n, s->scale, coordinates, b - s->cut, &outside);
    default:
        return packmap_job((const uint8_t *)s->text, strlen(s->text), listing, sizeof listing - s->cut);
    }
}

struct memory {
    long data, touched; /* kB */
};

/* The number behind a name in a file of /proc. */
static long told(const char *file, const char *name) {
    char line[256];
    long kB = -1;
    FILE *from = fopen(file, "r");
    while (from && fgets(line, sizeof line, from))
        if (strncmp(line, name, strlen(name)) == 0)
            kB = strtol(line + strlen(name), NULL, 10);
    if (from)
        fclose(from);
    if (kB < 0) {
        fprintf(stderr, "%s does not tell %s\n", file, name);
        exit(2);
    }
    return kB;
}

static struct memory memory(void) {
    const char *pages = "/proc/self/smaps_rollup";
    return (struct memory){told("/proc/self/status", "VmData:"), told(pages, "Anonymous:") + told(pages, "Swap:")};
}

int main(void) {
    uint32_t random = 1;
    unsigned long wrong = 0;
    struct memory first = memory(), last;
    stack(SMALL, pile);
    memset(too_long, '\n', sizeof too_long - 1);
    for (unsigned long k = 1; k <= CALLS; k++) {
        /* each kind in turn at first, then at random */
        random = 1664525 * random + 1013904223;
        const struct step *s = &STEPS[k <= STEP_COUNT ? k - 1 : (random >> 8) % STEP_COUNT];
        uint64_t answer = make(s, random >> 4);
        if (answer != s->due && wrong++ < 10)
            printf("step %d, random %u: %llu due, %llu answered\n", (int)(s - STEPS), random,
                   (unsigned long long)s->due, (unsigned long long)answer);
        if (k == WARM)
            first = memory();
    }
    last = memory();
    printf(
        "%d calls of %d kinds; after %d: data %ld kB, touched %ld kB; at the end: %ld kB, %ld kB; wrong answers: %lu\n",
        CALLS, STEP_COUNT, WARM, first.data, first.touched, last.data, last.touched, wrong);
    bool good = wrong == 0 && first.data == last.data && first.touched == last.touched;
    puts(good ? "1 passed, 0 failed" : "0 passed, 1 failed");
    return !good;
}
