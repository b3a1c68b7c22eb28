/* How much stack the calls take, against what the header says: each call runs on a stack of its own that is filled with
 * a pattern, and the deepest byte that it changed is looked for. What a call takes does not depend on its input: no
 * function of the library calls itself, and none has an array whose length is not fixed. The shells have 4,096 vertices
 * and the job 256, so that every stage is met. The last line is 'N passed, M failed', counted in calls. */
#include <stdbool.h>
#include <stdio.h>
#include <ucontext.h>

#include "packmap.h"
#include "shells.h"

enum { ROOM = 1 << 20, UNTOUCHED = 0xa5, N = MOST, OUTER = N }; /* the outer triangle amid the others */

static uint8_t room[ROOM] __attribute__((aligned(16)));
static uint16_t triangles[CORNERS];
static uint8_t labels[PACKMAP_LABELS(N)], text[PACKMAP_BYTES], listing[PACKMAP_BYTES];
static int64_t weights[WEIGHTS_MOST], coordinates[PACKMAP_COORDINATES(N)], scratch[PACKMAP_SCRATCH(N)];
static int64_t high_coordinates[PACKMAP_COORDINATES(N)];
static double shares[PACKMAP_SHARES(N)];
static size_t text_len;
static uint64_t answer, carried;

static void check(void) {
    answer = packmap_mesh_check(N, OUTER, triangles, CORNERS, scratch, PACKMAP_SCRATCH(N), &carried);
}

static void label(void) {
    answer = packmap_labels(N, OUTER, triangles, CORNERS, labels, sizeof labels, scratch, PACKMAP_SCRATCH(N), &carried);
}

static void forward(void) {
    answer = packmap_forward(N, OUTER, triangles, CORNERS, weights, WEIGHTS_MOST, coordinates, PACKMAP_COORDINATES(N),
                             scratch, PACKMAP_SCRATCH(N), &carried);
}

static void range(void) {
    answer = packmap_forward_range(N, OUTER, triangles, CORNERS, weights, WEIGHTS_MOST, weights, WEIGHTS_MOST,
                                   coordinates, PACKMAP_COORDINATES(N), high_coordinates, PACKMAP_COORDINATES(N),
                                   scratch, PACKMAP_SCRATCH(N), &carried);
}

static void backward(void) {
    answer = packmap_backward(N, OUTER, triangles, CORNERS, coordinates, PACKMAP_COORDINATES(N), weights, WEIGHTS_MOST,
                              scratch, PACKMAP_SCRATCH(N), &carried);
}

static void repair(void) {
    answer = packmap_repair(N, OUTER, triangles, CORNERS, weights, WEIGHTS_MOST, coordinates, PACKMAP_COORDINATES(N),
                            scratch, PACKMAP_SCRATCH(N), &carried);
}

static void snap(void) {
    double outside;
    answer = packmap_snap_points(N, shares, PACKMAP_SHARES(N), 24, coordinates, PACKMAP_COORDINATES(N), &outside);
}

static void job(void) {
    answer = packmap_job(text, text_len, listing, sizeof listing);
    answer = packmap_refused(answer) ? packmap_number(answer) : 0;
}

/* The stack on 256 vertices, with no weight, as a job text. */
static void write_job(void) {
    char *to = (char *)text;
    to += sprintf(to, "pack-map\t%d\n", PACKMAP_JOB_VERTICES);
    stack(PACKMAP_JOB_VERTICES, triangles);
    for (size_t d = 0; d < PACKMAP_TRIANGLES(PACKMAP_JOB_VERTICES); d += 3)
        to += sprintf(to, "t\t%d\t%d\t%d\n", triangles[d], triangles[d + 1], triangles[d + 2]);
    for (size_t t = 0; t < PACKMAP_WEIGHTS(PACKMAP_JOB_VERTICES); t++)
        to += sprintf(to, "w\t0\n");
    text_len = (size_t)(to - (char *)text);
}

/* Bytes of stack that a call takes, with the frame of the function here that makes it. */
static size_t taken(void (*make)(void)) {
    static ucontext_t here, there;
    memset(room, UNTOUCHED, sizeof room);
    getcontext(&there);
    there.uc_stack.ss_sp = room;
    there.uc_stack.ss_size = sizeof room;
    there.uc_link = &here;
    makecontext(&there, make, 0);
    swapcontext(&here, &there);
    size_t least = 0;
    while (least < ROOM && room[least] == UNTOUCHED)
        least++;
    return ROOM - least;
}

int main(void) {
    static const struct {
        const char *name;
        void (*make)(void);
        size_t most;
    } CALLS[] = {
        {"mesh check", check, PACKMAP_STACK},  {"labels", label, PACKMAP_STACK},
        {"forward", forward, PACKMAP_STACK},   {"range", range, PACKMAP_STACK},
        {"backward", backward, PACKMAP_STACK}, {"repair", repair, PACKMAP_STACK},
        {"snapping", snap, PACKMAP_STACK},     {"job", job, PACKMAP_JOB_STACK},
    };
    unsigned passed = 0, failed = 0;
    write_job();
    stack(N, triangles);
    for (size_t k = 0; k < sizeof CALLS / sizeof *CALLS; k++) {
        size_t bytes = taken(CALLS[k].make);
        bool good = answer == 0 && bytes <= CALLS[k].most;
        printf("%s: answer %d, %zu of %zu bytes of stack\n", CALLS[k].name, (int)answer, bytes, CALLS[k].most);
        good ? passed++ : failed++;
    }
    printf("%u passed, %u failed\n", passed, failed);
    return failed > 0;
}
