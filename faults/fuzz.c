/* The host's call against the second program, for libFuzzer: numbers and every byte of the listing buffer have to be
 * equal, with text and listing at guard pages. Where the text has a mesh and weights, so have the numbers and buffers
 * of the calls on them, with an outer number and high weights that come from the text. Mutations know the job text, its
 * lines and its fields. */
#include "lent.h"
#include "packmap.h"

enum { LISTING = PACKMAP_BYTES, VERTICES = PACKMAP_JOB_VERTICES, FIELD = 32 };

/* The second program's calls: as those of the header, under other names. */
uint64_t second_job(const uint8_t *text, size_t text_len, uint8_t *listing, size_t listing_len);
#define MESH size_t n, size_t outer, const uint16_t *triangles, size_t triangles_len
#define SCRATCH int64_t *scratch, size_t scratch_len, uint64_t *carried
uint64_t second_mesh_check(MESH, SCRATCH);
uint64_t second_labels(MESH, uint8_t *labels, size_t labels_len, SCRATCH);
uint64_t second_forward(MESH, const int64_t *weights, size_t weights_len, int64_t *b, size_t b_len, SCRATCH);
uint64_t second_forward_range(MESH, const int64_t *lows, size_t lows_len, const int64_t *highs, size_t highs_len,
                              int64_t *low, size_t low_len, int64_t *high, size_t high_len, SCRATCH);
uint64_t second_backward(MESH, const int64_t *b, size_t b_len, int64_t *weights, size_t weights_len, SCRATCH);
uint64_t second_repair(MESH, int64_t *weights, size_t weights_len, int64_t *b, size_t b_len, SCRATCH);
size_t LLVMFuzzerMutate(uint8_t *data, size_t size, size_t most);

/* --- One text --- */

/* How often each number was answered to a text, 0 for a listing, and by the calls on a mesh. */
static unsigned long met[30], met_by_calls[30];

/* What libFuzzer takes for coverage too: each number, and how many raises, by their digits; behind them each number of
 * the calls on a mesh. */
enum { DIGITS = 26, BY_CALLS = 32 };
__attribute__((section("__libfuzzer_extra_counters"))) static uint8_t reached[64];

static uint64_t compare(const uint8_t *text, size_t len, size_t room) {
    static uint8_t due[LISTING];
    struct lent from = lend(0, ENDS, len, text, len), to = lend(1, ENDS, room, NULL, 0);
    memcpy(due, to.at, room);
    uint64_t wanted = second_job(text, len, due, room), answer = packmap_job(from.at, len, to.at, room);
    bool same = memcmp(to.at, due, room) == 0, kept = holds(from, text, len) && clean_around(from) && clean_around(to);
    if (answer != wanted || !same || !kept) {
        fprintf(stderr, "room for %zu: %llu due, %llu answered; listing %s; bytes around it and text %s\n", room,
                (unsigned long long)wanted, (unsigned long long)answer, same ? "equal" : "differs",
                kept ? "kept" : "changed");
        abort();
    }
    met[answer < 65536 ? 0 : answer % 65536]++;
    reached[answer < 65536 ? 0 : answer % 65536] = 1;
    if (answer < 65536 && answer > 0) {
        const uint8_t *end = memchr(due, '\n', answer);
        for (size_t digits = 0; end && end[-1 - (long)digits] != '\t'; digits++)
            reached[DIGITS + digits] = 1;
    }
    clear(from);
    clear(to);
    return answer;
}

/* A job; it need not be accepted. */
struct job {
    unsigned n, triangle[2 * VERTICES][3];
    int weight[2 * VERTICES];
};

static bool read_job(const uint8_t *data, size_t size, struct job *job) {
    static char text[LISTING + 1];
    const char *at = text;
    int used = 0;
    if (size > LISTING)
        return false;
    memcpy(text, data, size);
    text[size] = 0;
    if (sscanf(at, "pack-map\t%u\n%n", &job->n, &used) != 1 || job->n < 3 || job->n > VERTICES)
        return false;
    at += used;
    for (unsigned k = 0; k < 2 * job->n - 4; k++, at += used) {
        unsigned *t = job->triangle[k];
        if (sscanf(at, "t\t%u\t%u\t%u\n%n", &t[0], &t[1], &t[2], &used) != 3)
            return false;
    }
    for (unsigned k = 0; k < 2 * job->n - 5; k++, at += used)
        if (sscanf(at, "w\t%d\n%n", &job->weight[k], &used) != 1)
            return false;
    return true;
}

/* --- The calls on the mesh of a text --- */

enum call { CHECK, LABELS, FORWARD, BACKWARD, RANGE, REPAIR };
enum part {
    TRIANGLE_PART,
    LABEL_PART,
    WEIGHT_PART,
    HIGH_WEIGHT_PART,
    COORDINATE_PART,
    HIGH_COORDINATE_PART,
    SCRATCH_PART,
    CARRIED_PART,
    PARTS
};

/* Room for each slice of the largest job. */
struct buffers {
    uint16_t triangles[PACKMAP_TRIANGLES(VERTICES)];
    uint8_t labels[PACKMAP_LABELS(VERTICES)];
    int64_t weights[PACKMAP_WEIGHTS(VERTICES)], highs[PACKMAP_WEIGHTS(VERTICES)];
    int64_t coordinates[PACKMAP_COORDINATES(VERTICES)], high_coordinates[PACKMAP_COORDINATES(VERTICES)];
    int64_t scratch[PACKMAP_SCRATCH(VERTICES)];
    uint64_t carried;
};

struct slices {
    void *at[PARTS];
    size_t bytes[PARTS];
};

static struct slices slices(struct buffers *b, size_t n) {
    const size_t weights = PACKMAP_WEIGHTS(n) * sizeof *b->weights;
    const size_t coordinates = PACKMAP_COORDINATES(n) * sizeof *b->coordinates;
    return (struct slices){
        {b->triangles, b->labels, b->weights, b->highs, b->coordinates, b->high_coordinates, b->scratch, &b->carried},
        {PACKMAP_TRIANGLES(n) * sizeof *b->triangles, PACKMAP_LABELS(n) * sizeof *b->labels, weights, weights,
         coordinates, coordinates, PACKMAP_SCRATCH(n) * sizeof *b->scratch, sizeof b->carried}};
}

/* A call of the proved ones or of the second program's. */
static uint64_t make(bool proved, enum call call, size_t n, size_t outer, const struct slices *s) {
#define GIVEN_MESH n, outer, s->at[TRIANGLE_PART], PACKMAP_TRIANGLES(n)
#define GIVEN_WEIGHTS s->at[WEIGHT_PART], PACKMAP_WEIGHTS(n)
#define GIVEN_COORDINATES s->at[COORDINATE_PART], PACKMAP_COORDINATES(n)
#define GIVEN_SCRATCH s->at[SCRATCH_PART], PACKMAP_SCRATCH(n), s->at[CARRIED_PART]
    switch (call) {
    case CHECK:
        return (proved ? packmap_mesh_check : second_mesh_check)(GIVEN_MESH, GIVEN_SCRATCH);
    case LABELS:
        return (proved ? packmap_labels : second_labels)(GIVEN_MESH, s->at[LABEL_PART], PACKMAP_LABELS(n),
                                                         GIVEN_SCRATCH);
    case FORWARD:
        return (proved ? packmap_forward : second_forward)(GIVEN_MESH, GIVEN_WEIGHTS, GIVEN_COORDINATES, GIVEN_SCRATCH);
    case RANGE:
        return (proved ? packmap_forward_range : second_forward_range)(
            GIVEN_MESH, GIVEN_WEIGHTS, s->at[HIGH_WEIGHT_PART], PACKMAP_WEIGHTS(n), GIVEN_COORDINATES,
            s->at[HIGH_COORDINATE_PART], PACKMAP_COORDINATES(n), GIVEN_SCRATCH);
    case BACKWARD:
        return (proved ? packmap_backward : second_backward)(GIVEN_MESH, GIVEN_COORDINATES, GIVEN_WEIGHTS,
                                                             GIVEN_SCRATCH);
    default:
        return (proved ? packmap_repair : second_repair)(GIVEN_MESH, GIVEN_WEIGHTS, GIVEN_COORDINATES, GIVEN_SCRATCH);
    }
}

/* Both calls on the same buffers, of which the second program's stay. */
static void compare_call(enum call call, size_t n, size_t outer, struct buffers *buffers) {
    struct slices theirs = slices(buffers, n), ours;
    struct lent lent[PARTS];
    for (int k = 0; k < PARTS; k++) {
        lent[k] = lend(k, ENDS, theirs.bytes[k], theirs.at[k], theirs.bytes[k]);
        ours.at[k] = lent[k].at;
    }
    uint64_t wanted = make(false, call, n, outer, &theirs), answer = make(true, call, n, outer, &ours);
    bool same = true, kept = true;
    for (int k = 0; k < PARTS; k++) {
        same &= holds(lent[k], theirs.at[k], theirs.bytes[k]);
        kept &= clean_around(lent[k]);
        clear(lent[k]);
    }
    if (answer != wanted || !same || !kept) {
        fprintf(stderr, "call %d, n %zu, outer %zu: %llu due, %llu answered; buffers %s; bytes around them %s\n", call,
                n, outer, (unsigned long long)wanted, (unsigned long long)answer, same ? "equal" : "differ",
                kept ? "kept" : "changed");
        abort();
    }
    met_by_calls[answer]++;
    reached[BY_CALLS + answer] = 1;
}

/* A number from all bytes of a text (FNV-1a). */
static uint64_t hash(const uint8_t *text, size_t len) {
    uint64_t sum = 14695981039346656037u;
    for (size_t k = 0; k < len; k++)
        sum = (sum ^ text[k]) * 1099511628211u;
    return sum ^ sum >> 32;
}

/* Most often a place, else one of the first numbers behind the last place, or any. */
static size_t outer_number(uint64_t random, size_t n) {
    const size_t count = 2 * n - 4, more = random / 8;
    switch (random % 8) {
    case 0:
        return count + more % 3;
    case 1:
        return more % 2 == 0 ? SIZE_MAX : more * 11;
    default:
        return more % count;
    }
}

/* Coordinates that 10, 11 or 12 may refuse, at times. */
static void bend(uint64_t random, size_t n, int64_t *b) {
    int64_t *at = &b[random / 8 % (3 * n)];
    if (random % 8 == 0)
        *at += 1;
    if (random % 8 == 1)
        *at = PACKMAP_LIMIT + 1;
}

/* Highs 0 to 3 above the weights; at times one is below its weight, so that 29 refuses it, or so large that 9 does. */
static void raise_highs(uint64_t random, size_t n, const int64_t *weights, int64_t *highs) {
    const size_t count = PACKMAP_WEIGHTS(n), at = random / 4 % count;
    for (size_t k = 0; k < count; k++)
        highs[k] = weights[k] + (int64_t)((random >> k % 32) % 4);
    if (random % 4 == 0)
        highs[at] = weights[at] - 1;
    if (random % 4 == 1)
        highs[at] = INT64_MAX - (int64_t)(random % 64);
}

static void compare_calls(const struct job *job, uint64_t random) {
    static struct buffers start, b;
    const size_t n = job->n, outer = outer_number(random, n);
    memset(&start, 0x5a, sizeof start);
    for (size_t k = 0; k < PACKMAP_TRIANGLES(n); k++)
        start.triangles[k] = (uint16_t)job->triangle[k / 3][k % 3];
    for (size_t k = 0; k < PACKMAP_WEIGHTS(n); k++)
        start.weights[k] = job->weight[k];
    raise_highs(random >> 24, n, start.weights, start.highs);
    for (enum call call = CHECK; call <= REPAIR; call++) {
        if (call != BACKWARD)
            b = start;
        else /* the forward map has left its coordinates */
            bend(random >> 32, n, b.coordinates);
        compare_call(call, n, outer, &b);
    }
}

int LLVMFuzzerTestOneInput(const uint8_t *text, size_t len) {
    static struct job job;
    uint64_t answer = compare(text, len, LISTING);
    compare(text, len, 0);
    if (answer < 65536) {
        compare(text, len, answer);
        compare(text, len, answer - 1);
        compare(text, len, answer + 1);
    }
    if (read_job(text, len, &job))
        compare_calls(&job, hash(text, len));
    return 0;
}

static void tell_met(const unsigned long *met, const int *numbers, size_t count) {
    for (size_t k = 0; k < count; k++)
        fprintf(stderr, " %d: %lu%s", numbers[k], met[numbers[k]], met[numbers[k]] == 0 ? " (never met)" : "");
    fprintf(stderr, "\n");
}

static void tell(void) {
    static const int numbers[] = {1, 3, 4, 5, 6, 7, 25, 8, 9, 13, 17, 18, 19};
    static const int by_calls[] = {21, 29, 3, 4, 5, 6, 7, 25, 8, 9, 10, 11, 12, 13};
    fprintf(stderr, "listings: %lu; refusals:", met[0]);
    tell_met(met, numbers, sizeof numbers / sizeof *numbers);
    fprintf(stderr, "calls on a mesh: done: %lu; refusals:", met_by_calls[0]);
    tell_met(met_by_calls, by_calls, sizeof by_calls / sizeof *by_calls);
}

int LLVMFuzzerInitialize(int *words, char ***word) {
    (void)words, (void)word;
    open_places();
    atexit(tell);
    return 0;
}

/* --- Mutations --- */

static uint32_t state;

static uint32_t below(uint32_t k) {
    state = 1664525 * state + 1013904223;
    return (uint32_t)((uint64_t)state * k >> 32);
}

static const char *const NUMBERS[] = {
    "0",  "1",  "2",  "3",  "256", "257", "65535", "65536", "1073741823", "1073741824", "2147483647", "2147483648",
    "-1", "-0", "00", "01", "+1",  "-",   "x",     "",      "-1073741823", "-2147483648", "-2147483649", "99999999999",
};

static const char *a_number(void) {
    static char text[FIELD];
    if (below(3) > 0)
        return NUMBERS[below(sizeof NUMBERS / sizeof *NUMBERS)];
    snprintf(text, sizeof text, "%d", (int)below(21) - 10);
    return text;
}

static size_t write_job(const struct job *job, uint8_t *data, size_t most) {
    static char text[4 * LISTING];
    char *to = text + sprintf(text, "pack-map\t%u\n", job->n);
    for (unsigned k = 0; k < 2 * job->n - 4; k++) {
        const unsigned *t = job->triangle[k];
        to += sprintf(to, "t\t%u\t%u\t%u\n", t[0], t[1], t[2]);
    }
    for (unsigned k = 0; k < 2 * job->n - 5; k++)
        to += sprintf(to, "w\t%d\n", job->weight[k]);
    size_t size = (size_t)(to - text) < most ? (size_t)(to - text) : most;
    memcpy(data, text, size);
    return size;
}

/* Puts a vertex into triangle k. */
static void insert_vertex(struct job *job, unsigned k) {
    unsigned end = 2 * job->n - 4, *t = job->triangle[k];
    const unsigned a = t[0], b = t[1], c = t[2], x = job->n++;
    const unsigned more[2][3] = {{b, c, x}, {c, a, x}};
    t[2] = x;
    memcpy(job->triangle[end], more, sizeof more);
    job->weight[end - 1] = (int)below(9) - 2;
    job->weight[end] = (int)below(9) - 2;
}

/* Turns the side from corner i of triangle k within its two triangles. */
static void turn_side(struct job *job, unsigned k, unsigned i) {
    unsigned *t = job->triangle[k], a = t[i], b = t[(i + 1) % 3], c = t[(i + 2) % 3];
    for (unsigned j = 0; j < 2 * job->n - 4; j++)
        for (unsigned m = 0; m < 3; m++) {
            unsigned *u = job->triangle[j], x = u[(m + 2) % 3];
            if (u[m] == b && u[(m + 1) % 3] == a) {
                const unsigned first[3] = {a, x, c}, second[3] = {b, c, x};
                memcpy(t, first, sizeof first);
                memcpy(u, second, sizeof second);
                return;
            }
        }
}

/* Makes two vertices one; the other is then in no triangle. */
static void join_vertices(struct job *job, unsigned a, unsigned b) {
    for (unsigned k = 0; k < 2 * job->n - 4; k++)
        for (int i = 0; i < 3; i++)
            if (job->triangle[k][i] == b)
                job->triangle[k][i] = a;
}

/* Puts the torus of document 01 beside the mesh. */
static void add_torus(struct job *job) {
    const unsigned n = job->n, end = 2 * n - 4;
    job->n += 7;
    for (unsigned i = 0; i < 7; i++) {
        const unsigned pair[2][3] = {{n + i, n + (i + 1) % 7, n + (i + 3) % 7},
                                     {n + i, n + (i + 3) % 7, n + (i + 2) % 7}};
        memcpy(job->triangle[end + 2 * i], pair, sizeof pair);
        job->weight[end - 1 + 2 * i] = job->weight[end + 2 * i] = 1;
    }
}

static void change_job(struct job *job) {
    const unsigned count = 2 * job->n - 4, k = below(count), j = below(count), w = below(count - 1);
    unsigned *t = job->triangle[k], swap[3];
    switch (below(11)) {
    case 0:
        if (job->n < VERTICES)
            insert_vertex(job, k);
        break;
    case 1:
        turn_side(job, k, below(3));
        break;
    case 2: /* the same triangle from another corner */
        memcpy(swap, t, sizeof swap);
        for (int i = 0; i < 3; i++)
            t[i] = swap[(i + 1) % 3];
        break;
    case 3: /* another order of triangles, often another rim */
        memcpy(swap, t, sizeof swap);
        memmove(t, job->triangle[j], sizeof swap);
        memcpy(job->triangle[j], swap, sizeof swap);
        break;
    case 4: /* another corner, or a number that is no vertex */
        t[below(3)] = below(job->n + 1);
        break;
    case 5: /* a triangle twice */
        memmove(t, job->triangle[j], sizeof swap);
        break;
    case 6:
        job->weight[w] = (int)below(41) - 20;
        break;
    case 7:
        join_vertices(job, below(job->n), below(job->n));
        break;
    case 8:
        if (job->n + 7 <= VERTICES && below(8) == 0)
            add_torus(job);
        break;
    case 9: /* at the limit, or next to it */
        job->weight[w] = (below(2) == 0 ? -1 : 1) * (1073741823 - (int)below(3));
        break;
    default: { /* all weights: one number, or turned */
        const int all = (int)below(4) - 2;
        for (unsigned i = 0; i < count - 1; i++)
            job->weight[i] = all == 1 ? -(job->weight[i] % 1000) : all;
    }
    }
}

/* Where the line or field at byte `from` begins and where it ends; bytes of `ends` part them. */
static void bounds(const uint8_t *data, size_t size, const char *ends, size_t *from, size_t *to) {
    while (*from > 0 && !strchr(ends, data[*from - 1]))
        --*from;
    for (*to = *from; *to < size && !strchr(ends, data[*to]);)
        ++*to;
}

/* Puts bytes in the place of those from `from` to `to`; the new size. */
static size_t splice(uint8_t *data, size_t size, size_t most, size_t from, size_t to, const void *bytes, size_t len) {
    if (size - (to - from) + len > most)
        return size;
    memmove(data + from + len, data + to, size - to);
    memcpy(data + from, bytes, len);
    return size - (to - from) + len;
}

static size_t change_text(uint8_t *data, size_t size, size_t most) {
    size_t from = below((uint32_t)size), to;
    uint8_t line[256];
    switch (below(6)) {
    case 0:
    case 1: { /* a field */
        const char *number = a_number();
        bounds(data, size, "\t\n", &from, &to);
        return splice(data, size, most, from, to, number, strlen(number));
    }
    case 2: /* a line twice */
        bounds(data, size, "\n", &from, &to);
        to += to < size;
        if (to - from > sizeof line)
            return size;
        memcpy(line, data + from, to - from);
        return splice(data, size, most, from, from, line, to - from);
    case 3: /* a line less */
        bounds(data, size, "\n", &from, &to);
        return splice(data, size, most, from, to + (to < size), "", 0);
    case 4: /* a byte that parts */
        return splice(data, size, most, from, from + below(2), &"\t\n \r-0"[below(6)], 1);
    default: /* a cut, or much behind */
        if (below(4) > 0)
            return from;
        memset(data + size, '\n', most - size);
        to = most - below(20);
        return to > size ? to : size;
    }
}

/* Changes bytes, fields and lines of the text, or the job that it holds; if it holds none, the last one that did. */
size_t LLVMFuzzerCustomMutator(uint8_t *data, size_t size, size_t most, unsigned seed) {
    static struct job job, last;
    state = seed;
    below(2);
    if (size == 0 || below(8) == 0)
        return LLVMFuzzerMutate(data, size, most);
    if (read_job(data, size, &job))
        last = job;
    if (last.n == 0 || below(4) == 0)
        return change_text(data, size, most);
    job = last;
    for (unsigned k = 1 + below(4); k > 0; k--)
        change_job(&job);
    return write_job(&job, data, most);
}
