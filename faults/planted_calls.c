/* Faults planted in the calls on slices. */
#include "planted.h"

#include "packmap.h"

#define TRIANGLE_COUNT (2 * n - 4)

/* The parameters of a call, and its arguments. */
#define MESH size_t n, size_t outer, const uint16_t *triangles, size_t triangles_len
#define SCRATCH int64_t *scratch, size_t scratch_len, uint64_t *carried
#define GIVEN_MESH n, outer, triangles, triangles_len
#define GIVEN_SCRATCH scratch, scratch_len, carried

uint64_t __real_packmap_mesh_check(MESH, SCRATCH);
uint64_t __wrap_packmap_mesh_check(MESH, SCRATCH) {
    if (planted("reads past the end"))
        (void)*(volatile const uint16_t *)(triangles + triangles_len);
    if (planted("reads before the start"))
        (void)*(volatile const uint16_t *)(triangles - 1);
    if (planted("leaks") && !malloc(1))
        abort();
    uint64_t number = __real_packmap_mesh_check(GIVEN_MESH, GIVEN_SCRATCH);
    if (planted("another number") && number == 6)
        return 5;
    if (planted("7 for a vertex in no triangle") && number == 25)
        return 7;
    if (planted("the highest such vertex") && number == 25)
        *carried = n - 1;
    if (planted("scratch left dirty") && number == 7)
        scratch[scratch_len - 1] = 1;
    if (planted("scratch cleared on 2") && number == 2)
        memset(scratch, 0, scratch_len * sizeof *scratch);
    if (planted("asks 21 before 2") && number == 2 && outer >= TRIANGLE_COUNT)
        return 21;
    if (planted("asks 21 after 3") && number == 21 &&
        __real_packmap_mesh_check(n, 0, triangles, triangles_len, GIVEN_SCRATCH) == 3)
        return 3;
    return number;
}

uint64_t __real_packmap_labels(MESH, uint8_t *labels, size_t labels_len, SCRATCH);
uint64_t __wrap_packmap_labels(MESH, uint8_t *labels, size_t labels_len, SCRATCH) {
    if (planted("takes the first triangle for the outer one") && outer < TRIANGLE_COUNT)
        outer = 0;
    uint64_t number = __real_packmap_labels(GIVEN_MESH, labels, labels_len, GIVEN_SCRATCH);
    if (planted("writes past the end") && number == 0)
        labels[labels_len] = 0;
    if (planted("writes before the start") && number == 0)
        labels[-1] = 0;
    if (planted("carries something with 8") && number == 8)
        *carried = 0;
    return number;
}

uint64_t __real_packmap_forward(MESH, const int64_t *weights, size_t weights_len, int64_t *b, size_t b_len, SCRATCH);
uint64_t __wrap_packmap_forward(MESH, const int64_t *weights, size_t weights_len, int64_t *b, size_t b_len, SCRATCH) {
    if (planted("too long is let through") && b_len == 3 * n + 1)
        b_len--;
    if (planted("takes 2n - 4 for the last triangle") && outer == TRIANGLE_COUNT)
        outer--;
    if (planted("looks at what it only writes") && b_len > 0 && b[0] == 42)
        return 0;
    uint64_t number = __real_packmap_forward(GIVEN_MESH, weights, weights_len, b, b_len, GIVEN_SCRATCH);
    if (planted("writes although refused") && number == 9)
        b[0] = 0;
    return number;
}

#define RANGES const int64_t *lows, size_t lows_len, const int64_t *highs, size_t highs_len
#define ENDS int64_t *low, size_t low_len, int64_t *high, size_t high_len
#define GIVEN_RANGES lows, lows_len, highs, highs_len

/* Whether 9 refuses a list. */
static bool heavy(const int64_t *weights, size_t weights_len) {
    uint64_t sum = 0;
    for (size_t k = 0; k < weights_len && sum <= PACKMAP_LIMIT; k++)
        sum += weights[k] < 0 ? -(uint64_t)weights[k] : (uint64_t)weights[k];
    return sum > PACKMAP_LIMIT;
}

/* Whether 29 refuses ranges, with a fault. */
static bool crossed(RANGES) {
    const bool by_difference = planted("asks 29 by a difference that overflows"),
               equal_too = planted("refuses equal ends with 29");
    const size_t first = planted("asks 29 of the last triangle alone") ? lows_len - 1 : 0;
    const size_t end = planted("asks 29 of the first triangle alone") ? 1 : highs_len;
    for (size_t k = first; k < end; k++) {
        const int64_t difference = (int64_t)((uint64_t)lows[k] - (uint64_t)highs[k]);
        if (by_difference ? difference > 0 : equal_too ? lows[k] >= highs[k] : lows[k] > highs[k])
            return true;
    }
    return false;
}

uint64_t __real_packmap_forward_range(MESH, RANGES, ENDS, SCRATCH);
uint64_t __wrap_packmap_forward_range(MESH, RANGES, ENDS, SCRATCH) {
    int64_t held = planted("keeps a word of scratch on 29") && scratch_len > 0 ? *scratch : 0;
    if (planted("exchanges the ends")) {
        int64_t *end = low;
        low = high, high = end;
    }
    uint64_t number =
        __real_packmap_forward_range(GIVEN_MESH, GIVEN_RANGES, low, low_len, high, high_len, GIVEN_SCRATCH);
    if (number == 1 || number == 2)
        return number;
    if (planted("asks 29 before 21") && number == 21 && crossed(GIVEN_RANGES))
        return 29;
    if (planted("asks 29 after 3") && number == 29 && __real_packmap_mesh_check(GIVEN_MESH, GIVEN_SCRATCH) == 3)
        return 3;
    if (planted("asks 29 after 9") && number == 29 && (heavy(lows, lows_len) || heavy(highs, highs_len)))
        return 9;
    if (number == 29 && !crossed(GIVEN_RANGES))
        return __real_packmap_mesh_check(GIVEN_MESH, GIVEN_SCRATCH);
    if ((number == 0 || number == 9) && crossed(GIVEN_RANGES))
        return 29;
    if (planted("asks 9 of the lows alone") && number == 9 && !heavy(lows, lows_len))
        return 0;
    if (planted("asks 9 of the highs alone") && number == 9 && !heavy(highs, highs_len))
        return 0;
    if (planted("writes the high coordinates although refused") && number == 9)
        memset(high, 0, high_len * sizeof *high);
    if (planted("writes the low coordinates twice") && number == 0)
        memcpy(high, low, high_len * sizeof *high);
    if (planted("keeps a word of scratch on 29") && number == 29)
        *scratch = held;
    return number;
}

uint64_t __real_packmap_backward(MESH, const int64_t *b, size_t b_len, int64_t *weights, size_t weights_len, SCRATCH);
uint64_t __wrap_packmap_backward(MESH, const int64_t *b, size_t b_len, int64_t *weights, size_t weights_len, SCRATCH) {
    uint64_t held = *carried;
    uint64_t number = __real_packmap_backward(GIVEN_MESH, b, b_len, weights, weights_len, GIVEN_SCRATCH);
    if (planted("tells no vertex with 7") && number == 7)
        *carried = held;
    if (planted("changes what it only reads") && number == 0)
        ((int64_t *)b)[b_len - 1]++;
    if (planted("swaps the outer triangle with the first") && number == 0 && outer > 0) {
        int64_t first = weights[0];
        memmove(weights, weights + 1, (outer - 1) * sizeof *weights);
        weights[outer - 1] = first;
    }
    return number;
}

/* Corners of the inner triangles by label. */
static uint16_t corner[PACKMAP_WEIGHTS(PACKMAP_MOST_VERTICES)][3];

static void find_corners(MESH, SCRATCH) {
    static uint8_t labels[PACKMAP_LABELS(PACKMAP_MOST_VERTICES)];
    __real_packmap_labels(GIVEN_MESH, labels, PACKMAP_LABELS(n), GIVEN_SCRATCH);
    for (size_t k = 0; k < PACKMAP_LABELS(n); k++)
        corner[k / 3][labels[k]] = triangles[k < 3 * outer ? k : k + 3];
}

static int64_t own_raise(size_t t, const int64_t *b) {
    int64_t m = INT64_MIN;
    for (int c = 0; c < 3; c++)
        for (int d = 0; d < 3; d++) {
            int64_t lacks = b[3 * corner[t][d] + c] - b[3 * corner[t][c] + c];
            if (d != c && lacks > m)
                m = lacks;
        }
    return 1 + m;
}

static bool flat_or_turned(size_t t, const int64_t *b) {
    const int64_t *p = b + 3 * corner[t][0], *q = b + 3 * corner[t][1], *r = b + 3 * corner[t][2];
    return (q[0] - p[0]) * (r[1] - p[1]) - (q[1] - p[1]) * (r[0] - p[0]) <= 0;
}

/* Raises a weight and counts it; false if the weights would be too large, and nothing is done. */
static bool raised(int64_t *weights, size_t weights_len, size_t t, int64_t raise, uint64_t *count) {
    weights[t] += raise;
    if (heavy(weights, weights_len)) {
        weights[t] -= raise;
        return false;
    }
    ++*count;
    return true;
}

/* Repair of weights that nothing but 13 refuses, raise by raise, with a fault in the first one. */
static uint64_t repair_with_fault(MESH, int64_t *weights, size_t weights_len, int64_t *b, size_t b_len, SCRATCH) {
    const int64_t enough = planted("takes N = 0 for enough") ? 0 : planted("takes N = 1 for too little") ? 2 : 1;
    uint64_t none;
    find_corners(GIVEN_MESH, scratch, scratch_len, &none);
    __real_packmap_forward(GIVEN_MESH, weights, weights_len, b, b_len, scratch, scratch_len, &none);
    const int64_t total = b[3 * triangles[3 * outer]], own = own_raise(0, b), rest = 1 - total;
    *carried = 0;
    if (total < enough && !planted("leaves out the first raise")) {
        const bool by_own =
            planted("raises first by its own raise alone") || (own > rest && !planted("raises first by 1 - N alone"));
        const int64_t first = by_own ? own : rest;
        if (!raised(weights, weights_len, 0, first, carried) && !planted("passes over a first raise that 13 refuses")) {
            if (planted("makes the first raise although 13"))
                weights[0] += first;
            return PACKMAP_REFUSED_RAISE;
        }
        if (planted("does not count the first raise"))
            *carried = 0;
    }
    for (;;) {
        size_t t = 0;
        __real_packmap_forward(GIVEN_MESH, weights, weights_len, b, b_len, scratch, scratch_len, &none);
        while (t < weights_len && !flat_or_turned(t, b))
            t++;
        if (t == weights_len)
            return PACKMAP_DONE;
        if (!raised(weights, weights_len, t, own_raise(t, b), carried))
            return PACKMAP_REFUSED_RAISE;
    }
}

uint64_t __real_packmap_repair(MESH, int64_t *weights, size_t weights_len, int64_t *b, size_t b_len, SCRATCH);
uint64_t __wrap_packmap_repair(MESH, int64_t *weights, size_t weights_len, int64_t *b, size_t b_len, SCRATCH) {
    static int64_t lent[PACKMAP_WEIGHTS(PACKMAP_MOST_VERTICES) + 1];
    if (planted("24n words are let through") && scratch_len == 24 * n)
        scratch_len = 10 * n;
    if (planted("asks 21 of three times the number") && 3 * outer < triangles_len)
        outer = 3 * outer / 3;
    int64_t held = planted("keeps a word of scratch on 21") && scratch_len > 0 ? *scratch : 0;
    memcpy(lent, weights, weights_len * sizeof *weights);
    uint64_t number = __real_packmap_repair(GIVEN_MESH, weights, weights_len, b, b_len, GIVEN_SCRATCH);
    if (planted_in_first_raise() && (number == PACKMAP_DONE || number == PACKMAP_REFUSED_RAISE)) {
        memcpy(weights, lent, weights_len * sizeof *weights);
        return repair_with_fault(GIVEN_MESH, weights, weights_len, b, b_len, GIVEN_SCRATCH);
    }
    if (planted("counts the raise that 13 refuses") && number == 13)
        ++*carried;
    if (planted("keeps a word of scratch on 21") && number == 21)
        *scratch = held;
    return number;
}

uint64_t __real_packmap_snap_points(size_t n, const double *shares, size_t shares_len, uint32_t scale, int64_t *b,
                                    size_t b_len, double *outside);
uint64_t __wrap_packmap_snap_points(size_t n, const double *shares, size_t shares_len, uint32_t scale, int64_t *b,
                                    size_t b_len, double *outside) {
    uint64_t number = __real_packmap_snap_points(n, shares, shares_len, scale, b, b_len, outside);
    if (planted("tells a share with 15") && number == 15)
        *outside = shares[0];
    if (planted("takes a half up") && number == 0 && scale == 4 && shares[0] == 5.0 / 32)
        b[0]++;
    return number;
}
