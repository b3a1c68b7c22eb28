/* The seven public calls on slices, on buffers that end, or begin, at a guard page: document 01's shells, every row of
 * the table that a call can meet, and stacks of up to 4,096 vertices. What is due comes from the papers (see shells.h),
 * never from a program. A call on a mesh is made with the outer triangle in front, and with the same triangle at other
 * places, where the same is due.
 *
 * Each trial is made with the exact lengths and with every length one less, one more and 0: on small meshes all
 * combinations of one less, exact and one more, but no more than two changes of the range's six lengths. After each
 * call the answer, every byte of every buffer and the bytes around it have to be what is due. The last line is
 * 'N passed, M failed', counted in trials. */
#include <float.h>
#include <math.h>

#include "packmap.h"
#include "shells.h"
#include "watched.h"

/* --- The calls and their buffers --- */

enum kind { TRIANGLES, LABELS, WEIGHTS, COORDINATES, SHARES, SCRATCH, ONE };
enum use { READ, WRITTEN, BOTH };

static size_t item(enum kind kind) {
    return kind == TRIANGLES ? 2 : kind == LABELS ? 1 : 8;
}

static size_t exact(enum kind kind, size_t n) {
    switch (kind) {
    case TRIANGLES:
        return 3 * (2 * n - 4);
    case LABELS:
        return 3 * (2 * n - 5);
    case WEIGHTS:
        return 2 * n - 5;
    case COORDINATES:
        return 3 * n;
    case SHARES:
        return 2 * n;
    case SCRATCH:
        return 10 * n;
    default:
        return 1;
    }
}

struct trial;

struct call {
    const char *name;
    uint64_t (*make)(const struct trial *trial, const struct lent *lent, const size_t *len);
    int parts;
    struct {
        enum kind kind;
        enum use use;
    } part[PLACES];
};

struct trial {
    const struct call *call;
    const char *what;
    size_t n, sized; /* the n that is told, and the one that the buffers fit */
    size_t outer;
    uint32_t scale;
    uint64_t number;            /* the answer that is due with exact lengths */
    const void *before[PLACES]; /* what each part holds; NULL for the pattern */
    const void *after[PLACES];  /* what it has to hold then; NULL for what it held */
};

#define PART(i) (void *)lent[i].at, len[i]

static uint64_t make_check(const struct trial *t, const struct lent *lent, const size_t *len) {
    return packmap_mesh_check(t->n, t->outer, PART(0), PART(1), (void *)lent[2].at);
}

static uint64_t make_labels(const struct trial *t, const struct lent *lent, const size_t *len) {
    return packmap_labels(t->n, t->outer, PART(0), PART(1), PART(2), (void *)lent[3].at);
}

static uint64_t make_forward(const struct trial *t, const struct lent *lent, const size_t *len) {
    return packmap_forward(t->n, t->outer, PART(0), PART(1), PART(2), PART(3), (void *)lent[4].at);
}

static uint64_t make_range(const struct trial *t, const struct lent *lent, const size_t *len) {
    return packmap_forward_range(t->n, t->outer, PART(0), PART(1), PART(2), PART(3), PART(4), PART(5),
                                 (void *)lent[6].at);
}

static uint64_t make_backward(const struct trial *t, const struct lent *lent, const size_t *len) {
    return packmap_backward(t->n, t->outer, PART(0), PART(1), PART(2), PART(3), (void *)lent[4].at);
}

static uint64_t make_repair(const struct trial *t, const struct lent *lent, const size_t *len) {
    return packmap_repair(t->n, t->outer, PART(0), PART(1), PART(2), PART(3), (void *)lent[4].at);
}

static uint64_t make_snap(const struct trial *t, const struct lent *lent, const size_t *len) {
    return packmap_snap_points(t->n, PART(0), t->scale, PART(1), (void *)lent[2].at);
}

static const struct call CHECK = {
    "packmap_mesh_check", make_check, 3, {{TRIANGLES, READ}, {SCRATCH, WRITTEN}, {ONE, WRITTEN}}};
static const struct call LABEL = {
    "packmap_labels", make_labels, 4, {{TRIANGLES, READ}, {LABELS, WRITTEN}, {SCRATCH, WRITTEN}, {ONE, WRITTEN}}};
static const struct call FORWARD = {
    "packmap_forward",
    make_forward,
    5,
    {{TRIANGLES, READ}, {WEIGHTS, READ}, {COORDINATES, WRITTEN}, {SCRATCH, WRITTEN}, {ONE, WRITTEN}}};
static const struct call RANGE = {"packmap_forward_range",
                                  make_range,
                                  7,
                                  {{TRIANGLES, READ},
                                   {WEIGHTS, READ},
                                   {WEIGHTS, READ},
                                   {COORDINATES, WRITTEN},
                                   {COORDINATES, WRITTEN},
                                   {SCRATCH, WRITTEN},
                                   {ONE, WRITTEN}}};
static const struct call BACKWARD = {
    "packmap_backward",
    make_backward,
    5,
    {{TRIANGLES, READ}, {COORDINATES, READ}, {WEIGHTS, WRITTEN}, {SCRATCH, WRITTEN}, {ONE, WRITTEN}}};
static const struct call REPAIR = {
    "packmap_repair",
    make_repair,
    5,
    {{TRIANGLES, READ}, {WEIGHTS, BOTH}, {COORDINATES, WRITTEN}, {SCRATCH, WRITTEN}, {ONE, WRITTEN}}};
static const struct call SNAP = {
    "packmap_snap_points", make_snap, 3, {{SHARES, READ}, {COORDINATES, WRITTEN}, {ONE, WRITTEN}}};

/* --- One call, and all calls of a trial --- */

/* BEFORE is for scratch alone: 24n, its length before C-20. */
enum change { AS_DUE, LESS, MORE, EMPTY, BEFORE };
static const char *const CHANGE[] = {"exact", "one less", "one more", "0", "24n"};

static size_t changed(enum change change, size_t due, size_t n) {
    switch (change) {
    case LESS:
        return due - 1;
    case MORE:
        return due + 1;
    case EMPTY:
        return 0;
    case BEFORE:
        return 24 * n;
    default:
        return due;
    }
}

static unsigned calls, passed, failed;

/* What is wrong with part i after a call that had to answer `number`; NULL if nothing is. */
static const char *wrong_part(const struct trial *t, int i, struct lent lent, uint64_t number) {
    enum kind kind = t->call->part[i].kind;
    size_t held = t->before[i] ? exact(kind, t->sized) * item(kind) : 0;
    const void *due = t->before[i];
    if (!clean_around(lent))
        return "the bytes around it have changed";
    if (number != 1 && number != 2 && kind == SCRATCH) {
        static const uint8_t zeros[ROOM];
        return memcmp(lent.at, zeros, lent.bytes) == 0 ? NULL : "it is not all zeros";
    }
    if (number == t->number && t->after[i]) {
        due = t->after[i];
        held = exact(kind, t->sized) * item(kind);
    }
    return holds(lent, due, held) ? NULL : "it holds something else";
}

/* Whether the call comes to an answer without touching a guard page. */
static bool answers(const struct trial *t, const struct lent *lent, const size_t *len, uint64_t *answer) {
    if (sigsetjmp(escape, 1) != 0)
        return false;
    *answer = t->call->make(t, lent, len);
    return true;
}

/* Makes the call with changed lengths; whether all is as due. */
static bool once(const struct trial *t, enum side side, const enum change *change) {
    static const char *const PART_NAME[] = {"triangles", "labels",  "weights", "coordinates",
                                            "shares",    "scratch", "extra"};
    const struct call *call = t->call;
    struct lent lent[PLACES];
    size_t len[PLACES];
    uint64_t number = t->number, answer;
    const char *wrong = NULL, *where = "answer";
    for (int i = 0; i < call->parts; i++) {
        enum kind kind = call->part[i].kind;
        size_t due = exact(kind, t->sized);
        len[i] = changed(change[i], due, t->sized);
        if (change[i] != AS_DUE && number != 1)
            number = 2;
        lent[i] = lend(i, side, len[i] * item(kind), t->before[i], t->before[i] ? due * item(kind) : 0);
        hand_over(lent[i], call->part[i].use == WRITTEN);
    }
    calls++;
    if (!answers(t, lent, len, &answer))
        wrong = "a guard page was touched";
    else if (answer != number)
        wrong = "it is another number";
    for (int i = 0; i < call->parts; i++) {
        get_back(lent[i]);
        const char *part = wrong_part(t, i, lent[i], number);
        if (part && !wrong)
            wrong = part, where = PART_NAME[call->part[i].kind];
        clear(lent[i]);
    }
    if (wrong && failed < 10) {
        printf("%s, %s, n = %zu, outer = %zu, %llu due, %s at a guard page, lengths", call->name, t->what, t->n,
               t->outer, (unsigned long long)number, side == ENDS ? "ending" : "beginning");
        for (int i = 0; i < call->parts; i++)
            printf(" %s,", CHANGE[change[i]]);
        printf(" %s: %s\n", where, wrong);
    }
    return !wrong;
}

/* Lengths are counted through, the last part first; the parts without a length stay. */
static bool next_change(const struct call *call, enum change *change) {
    for (int i = call->parts - 1; i >= 0; i--) {
        if (call->part[i].kind == ONE)
            continue;
        if (change[i] < MORE) {
            change[i]++;
            return true;
        }
        change[i] = AS_DUE;
    }
    return false;
}

/* Whether these changes are tried together. */
static bool tried(const struct call *call, const enum change *change) {
    int count = 0;
    for (int i = 0; i < call->parts; i++)
        count += change[i] != AS_DUE;
    return call != &RANGE || count <= 2;
}

static void run(const struct trial *t) {
    bool good = true;
    for (enum side side = ENDS; side <= BEGINS; side++) {
        enum change change[PLACES] = {AS_DUE};
        bool small = t->sized <= 16;
        do
            good &= !tried(t->call, change) || once(t, side, change);
        while (small && next_change(t->call, change));
        for (int i = 0; i < t->call->parts; i++) {
            enum kind kind = t->call->part[i].kind;
            enum change last = kind == SCRATCH ? BEFORE : EMPTY;
            if (kind == ONE)
                continue;
            for (change[i] = small ? EMPTY : LESS; change[i] <= last; change[i]++)
                good &= once(t, side, change);
            change[i] = AS_DUE;
        }
    }
    if (good)
        passed++;
    else
        failed++;
}

/* --- Trials on a mesh --- */

struct mesh {
    const char *what;
    size_t n, sized;
    const uint16_t *triangles;
    uint64_t vertex; /* that 7 or 25 carries */
    size_t outer;
};

static struct mesh fitting(const char *what, size_t n, const uint16_t *triangles) {
    return (struct mesh){what, n, n, triangles, 0, 0};
}

static struct mesh opened_at(size_t outer, struct mesh m) {
    m.outer = outer;
    return m;
}

static struct mesh broken_at(uint64_t vertex, struct mesh m) {
    m.vertex = vertex;
    return m;
}

/* A call on a mesh. Its last part is what the answer carries: with 7 and 25 the vertex. */
static struct trial on(const struct mesh *m, const struct call *call, uint64_t number) {
    struct trial t = {call, m->what, m->n, m->sized, m->outer, 0, number, {m->triangles}, {0}};
    if (number == 7 || number == 25)
        t.after[call->parts - 1] = &m->vertex;
    return t;
}

/* Runs a trial on a mesh. Where its outer triangle is in front, that is moved to other places too: to each one of a
 * small mesh, else behind the next one, to the middle and to the end. */
static void run_at_places(struct trial *t) {
    static uint16_t moved[CORNERS];
    const uint16_t *triangles = t->before[0];
    const size_t count = 2 * t->sized - 4;
    run(t);
    if (t->outer != 0)
        return;
    t->before[0] = moved;
    for (size_t place = 1; place < count; place++)
        if (t->sized <= 8 || place == 1 || place == count / 2 || place == count - 1) {
            move_first(triangles, place, count, moved);
            t->outer = place;
            run(t);
        }
}

static void check(struct mesh m, uint64_t number) {
    struct trial t = on(&m, &CHECK, number);
    run_at_places(&t);
}

static void label(struct mesh m, uint64_t number, const uint8_t *labels) {
    struct trial t = on(&m, &LABEL, number);
    t.after[1] = labels;
    run_at_places(&t);
}

static void forward(struct mesh m, const int64_t *weights, uint64_t number, const int64_t *coordinates) {
    struct trial t = on(&m, &FORWARD, number);
    t.before[1] = weights, t.after[2] = coordinates;
    run_at_places(&t);
}

static void range(struct mesh m, const int64_t *lows, const int64_t *highs, uint64_t number, const int64_t *low,
                  const int64_t *high) {
    struct trial t = on(&m, &RANGE, number);
    t.before[1] = lows, t.before[2] = highs, t.after[3] = low, t.after[4] = high;
    run_at_places(&t);
}

static void backward(struct mesh m, const int64_t *coordinates, uint64_t number, const int64_t *weights) {
    struct trial t = on(&m, &BACKWARD, number);
    t.before[1] = coordinates, t.after[2] = weights;
    run_at_places(&t);
}

/* With 0 and 13 the count is carried. */
static void repair(struct mesh m, const int64_t *weights, uint64_t number, uint64_t count, const int64_t *raised,
                   const int64_t *coordinates) {
    struct trial t = on(&m, &REPAIR, number);
    t.before[1] = weights, t.after[1] = raised, t.after[2] = coordinates;
    if (number == 0 || number == 13)
        t.after[4] = &count;
    run_at_places(&t);
}

/* A mesh that all six calls refuse with one number, whatever else they are given; but 29 is asked after 1, 2 and 21 and
 * before the rows of the mesh. */
static void refused(struct mesh m, uint64_t number) {
    static int64_t worst[3 * MOST], lows[WEIGHTS_MOST];
    for (size_t k = 0; k < 3 * MOST; k++)
        worst[k] = INT64_MIN;
    memcpy(lows, worst, sizeof lows);
    lows[2 * m.sized - 6]++;
    check(m, number);
    label(m, number, NULL);
    forward(m, worst, number, NULL);
    range(m, worst, worst, number, NULL, NULL);
    range(m, lows, worst, number == 1 || number == 2 || number == 21 ? number : 29, NULL, NULL);
    backward(m, worst, number, NULL);
    repair(m, worst, number, 0, NULL, NULL);
}

/* The same with outer numbers that are no places: modulo 2^16 or 2^32 some seem to be 0, and three times some are small
 * modulo 2^64. 21 is asked before the mesh is looked at. */
static void refused_outer(struct mesh m) {
    const size_t count = 2 * m.n - 4, third = SIZE_MAX / 3 + 1;
    const size_t none[] = {count,           count + 1, 3 * count, 65536,        (size_t)1 << 32,
                           (size_t)1 << 63, third,     2 * third, SIZE_MAX - 1, SIZE_MAX};
    for (size_t k = 0; k < sizeof none / sizeof *none; k++)
        refused(opened_at(none[k], m), 21);
}

/* Weights with the coordinates that they make, there and back. */
static void both_ways(struct mesh m, const int64_t *weights, const int64_t *coordinates) {
    forward(m, weights, 0, coordinates);
    backward(m, coordinates, 0, weights);
}

/* --- The paper's shells and rows --- */

static void checked_shells(void) {
    const struct mesh pair = fitting("P1", 3, PAIR), tetra = fitting("tetra", 4, TETRA), five = fitting("P3", 5, FIVE);
    check(pair, 0);
    check(tetra, 0);
    check(five, 0);
    label(pair, 0, (const uint8_t[]){0, 1, 2});
    label(tetra, 0, (const uint8_t[]){0, 1, 2, 0, 1, 2, 0, 1, 2});
    label(five, 0, (const uint8_t[]){0, 1, 2, 0, 1, 2, 0, 1, 2, 1, 2, 0, 2, 0, 1});
    both_ways(five, (const int64_t[]){1, 1, 1, 1, 1}, (const int64_t[]){5, 0, 0, 0, 5, 0, 0, 0, 5, 1, 1, 3, 2, 2, 1});
    both_ways(tetra, (const int64_t[]){5, 3, 2}, (const int64_t[]){10, 0, 0, 0, 10, 0, 0, 0, 10, 3, 5, 2});
    both_ways(tetra, (const int64_t[]){-1, -1, -1}, (const int64_t[]){-3, 0, 0, 0, -3, 0, 0, 0, -3, -1, -1, -1});
    for (size_t k = 0; k < REPAIRED_COUNT; k++) {
        const struct repaired *r = &REPAIRED[k];
        repair(fitting("repair by hand", r->n, r->triangles), r->weights, r->number, r->count, r->raised,
               r->coordinates);
    }
    for (size_t k = 0; k < RANGED_COUNT; k++) {
        const struct ranged *r = &RANGED[k];
        const bool written = r->number == 0;
        range(fitting("ranges by hand", r->n, r->triangles), r->lows, r->highs, r->number, written ? r->low : NULL,
              written ? r->high : NULL);
    }
    /* Opened at (0, 1, 3), v0 is 0, v2 is 1 and v1 is 3. The first triangle is on v0 v2, the second on v0 v1. */
    const struct mesh other = opened_at(3, tetra);
    label(other, 0, (const uint8_t[]){0, 1, 2, 0, 1, 2, 1, 2, 0});
    both_ways(other, (const int64_t[]){5, 3, 2}, (const int64_t[]){10, 0, 0, 0, 0, 10, 2, 5, 3, 0, 10, 0});
}

static void rows_of_meshes(void) {
    /* No list of triangles fits these; modulo 2^16, 2^32 or 2^63 some seem to be 3. */
    const size_t none[] = {0, 1, 2, 4097, 65539, 4294967299, ((size_t)1 << 61) + 3, ((size_t)1 << 63) + 3, SIZE_MAX};
    for (size_t k = 0; k < sizeof none / sizeof *none; k++) {
        refused((struct mesh){"row 1", none[k], 3, PAIR, 0, 0}, 1);
        refused((struct mesh){"row 1 before row 21", none[k], 3, PAIR, 0, SIZE_MAX}, 1);
    }
    refused((struct mesh){"n one more than the lists", 5, 4, TETRA, 0, 0}, 2);
    refused((struct mesh){"n one less than the lists", 3, 4, TETRA, 0, 0}, 2);
    refused((struct mesh){"row 2 before row 21", 5, 4, TETRA, 0, 6}, 2);
    refused_outer(fitting("row 21", 3, PAIR));
    refused_outer(fitting("row 21", 4, TETRA));
    refused_outer(fitting("row 21 before row 3", 3, ROW3));
    refused_outer(fitting("row 21 before row 4", 3, ROW4));
    refused_outer(fitting("row 21 before row 6", 6, ROW6));
    refused_outer(fitting("row 21 before row 7", 8, ROW7));
    refused(fitting("row 3", 3, ROW3), 3);
    refused(fitting("row 4", 3, ROW4), 4);
    refused(fitting("row 5", 3, ROW5), 5);
    refused(fitting("row 6", 6, ROW6), 6);
    refused(broken_at(ROW7_VERTEX, fitting("row 7", 8, ROW7)), 7);
    refused(broken_at(ROW25_VERTEX, fitting("row 25", 9, ROW25)), 25);
    refused(fitting("row 8", 11, ROW8), 8);
}

static void rows_of_numbers(void) {
    const struct mesh tetra = fitting("tetra", 4, TETRA);
    const int64_t heavy[][3] = {{L, 1, 0},         {0, -1, -L},
                                {INT64_MIN, 0, 0}, {INT64_MIN, INT64_MIN, 0},
                                {0, INT64_MAX, 1}, {1, INT64_MAX, INT64_MIN}};
    for (size_t k = 0; k < sizeof heavy / sizeof *heavy; k++) {
        forward(tetra, heavy[k], 9, NULL);
        repair(tetra, heavy[k], 9, 0, NULL, NULL);
    }
    const struct {
        uint64_t number;
        int64_t coordinates[12];
    } bent[] = {
        {10, {1, 0, 0, 0, 1, 0, 0, 0, 1, L + 1, -L, 0}},
        {10, {1, 0, 0, 0, 1, 0, 0, 0, 1, 0, 0, INT64_MIN}},
        {11, {9, 0, 0, 1, 8, 0, 0, 0, 9, 3, 5, 1}},
        {11, {9, 0, 1, 0, 9, 0, 0, 0, 9, 3, 5, 1}},
        {12, {9, 0, 0, 0, 9, 0, 0, 0, 9, 3, 5, 2}},
        /* the weights of this one are -L, L, 1 */
        {9, {1, 0, 0, 0, 1, 0, 0, 0, 1, L, -L, 1}},
        /* 11 is asked before 12, 10 before both */
        {11, {9, 0, 0, 1, 8, 0, 0, 0, 9, 3, 5, 2}},
        {10, {9, 0, 0, 1, 8, 0, 0, 0, 9, 3, 5, L + 1}},
    };
    for (size_t k = 0; k < sizeof bent / sizeof *bent; k++)
        backward(tetra, bent[k].coordinates, bent[k].number, NULL);
}

/* --- Stacks --- */

static void stacks(size_t n) {
    static uint16_t triangles[CORNERS];
    static uint8_t labels[CORNERS];
    static int64_t weights[WEIGHTS_MOST], raised[WEIGHTS_MOST], coordinates[3 * MOST];
    static int64_t highs[WEIGHTS_MOST], high[3 * MOST];
    const struct mesh m = fitting("stack", n, triangles);
    const size_t inner = 2 * n - 5;

    for (size_t k = 0; k < DAMAGED_ROW_COUNT; k++) {
        size_t vertex = damaged_stack(n, DAMAGED_ROWS[k], triangles);
        refused(broken_at(vertex, fitting("damaged stack", n, triangles)), (uint64_t)DAMAGED_ROWS[k]);
    }
    stack(n, triangles);
    refused_outer(m);
    check(m, 0);
    for (size_t k = 0; k < 3 * inner; k++)
        labels[k] = k % 3;
    label(m, 0, labels);

    for (size_t t = 0; t < inner; t++)
        weights[t] = t % 2 == 0 ? 1 + (int64_t)t % 7 : -1 - (int64_t)t % 5;
    stack_coordinates(n, weights, coordinates);
    both_ways(m, weights, coordinates);
    for (size_t t = 0; t < inner; t++)
        highs[t] = weights[t] + (int64_t)t % 4;
    stack_coordinates(n, highs, high);
    range(m, weights, highs, 0, coordinates, high);
    highs[inner / 2] = weights[inner / 2] - 1;
    range(m, weights, highs, 29, NULL, NULL);
    highs[inner / 2] = INT64_MAX;
    range(m, weights, highs, 9, NULL, NULL);
    coordinates[3 * n - 1]++;
    backward(m, coordinates, 12, NULL);
    memcpy(highs, weights, sizeof highs);
    weights[inner - 1] = INT64_MIN;
    forward(m, weights, 9, NULL);
    range(m, weights, highs, 9, NULL, NULL);
    repair(m, weights, 9, 0, NULL, NULL);

    for (size_t t = 0; t < inner; t++)
        weights[t] = 1 + (int64_t)t % 7;
    stack_coordinates(n, weights, coordinates);
    repair(m, weights, 0, 0, NULL, coordinates);

    memset(weights, 0, sizeof weights);
    uint64_t count = stack_raised(n, raised);
    stack_coordinates(n, raised, coordinates);
    repair(m, weights, 0, count, raised, coordinates);
    weights[0] = -7;
    repair(m, weights, 0, count, raised, coordinates);
    weights[0] = 0;

    /* All weight on the last triangle: the others are flat, and are raised by 1 until that would pass L. */
    weights[inner - 1] = L;
    stack_coordinates(n, weights, coordinates);
    repair(m, weights, 13, 0, NULL, coordinates);
    weights[inner - 1] = L - 1;
    memcpy(raised, weights, sizeof raised);
    raised[0] = 1;
    stack_coordinates(n, raised, coordinates);
    repair(m, weights, 13, 1, raised, coordinates);
}

/* --- Drawn points --- */

/* The share is due with 16 alone. */
static void snap(const char *what, size_t n, size_t sized, uint32_t scale, const double *shares, uint64_t number,
                 double share, const int64_t *coordinates) {
    const void *told = number == 16 ? &share : NULL;
    run(&(struct trial){&SNAP, what, n, sized, 0, scale, number, {shares}, {NULL, coordinates, told}});
}

static void drawn_points(void) {
    const double third = 1.0 / 3.0;
    snap("P9, P10", 3, 3, 4, (const double[]){0.5, -0.0, -DBL_TRUE_MIN, 0, 0.25, 0.0625}, 0, 0,
         (const int64_t[]){8, 0, 8, 0, 0, 16, 4, 1, 11});
    snap("P11", 3, 3, 24, (const double[]){2, -2, 0, 1, -1, 0.5}, 0, 0,
         (const int64_t[]){33554432, -33554432, 16777216, 0, 16777216, 0, -16777216, 8388608, 25165824});
    snap("halves", 3, 3, 4, (const double[]){5.0 / 32, 7.0 / 32, -5.0 / 32, -7.0 / 32, 1.0 / 32, -1.0 / 32}, 0, 0,
         (const int64_t[]){2, 4, 10, -2, -4, 22, 0, 0, 16});
    snap("scale 0", 3, 3, 0, (const double[]){1, 0, 0, 1, third, 0.1}, 0, 0,
         (const int64_t[]){1048576, 0, 0, 0, 1048576, 0, 349525, 104858, 594193});
    snap("scale 16", 3, 3, 16, (const double[]){1, 0, 0, 1, third, 0.1}, 0, 0,
         (const int64_t[]){65536, 0, 0, 0, 65536, 0, 21845, 6554, 37137});

    const size_t none[] = {0, 2, 4097, 65539, 4294967299, ((size_t)1 << 63) + 3, SIZE_MAX};
    for (size_t k = 0; k < sizeof none / sizeof *none; k++)
        snap("row 1", none[k], 3, 25, (const double[]){INFINITY, 0, 0, 0, 0, 0}, 1, 0, NULL);
    snap("n one more than the lists", 4, 3, 4, (const double[]){0, 0, 0, 0, 0, 0}, 2, 0, NULL);
    const uint32_t scales[] = {1, 3, 25, 260, UINT32_MAX};
    for (size_t k = 0; k < sizeof scales / sizeof *scales; k++)
        snap("row 14", 3, 3, scales[k], (const double[]){INFINITY, 2.5, 0, 0, 0, 0}, 14, 0, NULL);
    snap("row 15", 3, 3, 4, (const double[]){INFINITY, 2.5, 0, 0, 0, 0}, 15, 0, NULL);
    snap("row 15, last share", 3, 3, 24, (const double[]){0, 0, 0, 0, 0, -INFINITY}, 15, 0, NULL);
    snap("row 15, no number", 3, 3, 0, (const double[]){0, 0, 0, NAN, 2.5, 0}, 15, 0, NULL);
    snap("row 16", 3, 3, 4, (const double[]){0, 2.5, INFINITY, 0, 0, 0}, 16, 2.5, NULL);
    snap("row 16, last share", 3, 3, 24, (const double[]){2, 2, -2, 0, 0, -2.5}, 16, -2.5, NULL);
    const double past = nextafter(2, 3);
    snap("row 16, next to 2", 3, 3, 16, (const double[]){2, past, 0, 0, 0, 0}, 16, past, NULL);

    static double shares[2 * MOST];
    static int64_t coordinates[3 * MOST];
    for (size_t k = 0; k < 2 * MOST; k++) {
        int64_t eighths = (int64_t)(k % 33) - 16;
        shares[k] = (double)eighths / 8;
        coordinates[k / 2 * 3 + k % 2] = 128 * eighths;
    }
    for (size_t v = 0; v < MOST; v++)
        coordinates[3 * v + 2] = 1024 - coordinates[3 * v] - coordinates[3 * v + 1];
    for (size_t n = 64; n <= MOST; n *= 4)
        snap("eighths", n, n, 10, shares, 0, 0, coordinates);
}

/* guard_calls [MOST]: the most vertices of a stack, 4,096 if not given */
int main(int words, char **word) {
    size_t most = words > 1 ? strtoul(word[1], NULL, 10) : MOST;
    open_places();
    catch_faults();
    checked_shells();
    rows_of_meshes();
    rows_of_numbers();
    stacks(16);
    for (size_t n = 64; n <= most && n <= MOST; n *= 4)
        stacks(n);
    drawn_points();
    printf("%u calls in %u trials\n%u passed, %u failed\n", calls, passed + failed, passed, failed);
    return failed > 0;
}
