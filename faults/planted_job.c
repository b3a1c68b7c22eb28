/* Faults planted in the host's call. */
#define _GNU_SOURCE
#include <stdio.h>

#include "planted.h"

#include "packmap.h"

/* Whether a triangle stands in two lines, one after the other. */
static bool twice(const uint8_t *line, const uint8_t *end) {
    for (const uint8_t *next; (next = memchr(line, '\n', end - line)); line = next + 1) {
        size_t len = next + 1 - line;
        if (*line == 't' && len <= (size_t)(end - next - 1) && memcmp(line, next + 1, len) == 0)
            return true;
    }
    return false;
}

/* The job of a text that nothing but 13 refuses, by the call of repair, which has the fault. */
static uint64_t job_by_repair(const uint8_t *text, size_t text_len, uint8_t *listing, size_t listing_len) {
    static char from[PACKMAP_BYTES + 1], to[2 * PACKMAP_BYTES];
    static uint16_t triangles[PACKMAP_TRIANGLES(PACKMAP_JOB_VERTICES)];
    static int64_t weights[PACKMAP_WEIGHTS(PACKMAP_JOB_VERTICES)], b[PACKMAP_COORDINATES(PACKMAP_JOB_VERTICES)];
    static int64_t scratch[PACKMAP_SCRATCH(PACKMAP_JOB_VERTICES)];
    memcpy(from, text, text_len);
    from[text_len] = 0;
    char *at = from + strlen("pack-map");
    const size_t n = strtoul(at, &at, 10);
    for (size_t k = 0; k < PACKMAP_TRIANGLES(n); k++) {
        at += k % 3 == 0 ? strlen("\nt") : 0;
        triangles[k] = (uint16_t)strtoul(at, &at, 10);
    }
    for (size_t t = 0; t < PACKMAP_WEIGHTS(n); t++)
        weights[t] = strtol(at + strlen("\nw"), &at, 10);
    uint64_t raises, number = packmap_repair(n, 0, triangles, PACKMAP_TRIANGLES(n), weights, PACKMAP_WEIGHTS(n), b,
                                             PACKMAP_COORDINATES(n), scratch, PACKMAP_SCRATCH(n), &raises);
    if (number != PACKMAP_DONE)
        return 65536 + number;
    char *end = to + sprintf(to, "pack-map\t%zu\t%ld\t%lu\n", n, b[3 * triangles[0]], raises);
    for (size_t v = 0; v < n; v++)
        end += sprintf(end, "v\t%zu\t%ld\t%ld\t%ld\n", v, b[3 * v], b[3 * v + 1], b[3 * v + 2]);
    const size_t length = (size_t)(end - to);
    if (length > listing_len)
        return 65536 + PACKMAP_REFUSED_LISTING;
    memcpy(listing, to, length);
    return length;
}

uint64_t __real_packmap_job(const uint8_t *text, size_t text_len, uint8_t *listing, size_t listing_len);
uint64_t __wrap_packmap_job(const uint8_t *text, size_t text_len, uint8_t *listing, size_t listing_len) {
    if (planted("reads past the text"))
        (void)*(volatile const uint8_t *)(text + text_len);
    static uint64_t calls;
    if (planted("keeps a count from call to call"))
        calls++;
    uint64_t answer = __real_packmap_job(text, text_len, listing, listing_len);
    bool listed = answer < 65536;
    if (planted_in_first_raise() && (listed || answer == 65536 + PACKMAP_REFUSED_RAISE))
        return job_by_repair(text, text_len, listing, listing_len);
    if (planted("wants a byte too much") && listed && answer == listing_len)
        return 65536 + 18;
    if (planted("ends the listing with a 0") && listed && answer < listing_len)
        listing[answer] = 0;
    if (planted("counts lines from 0") && answer % 65536 == 17)
        return answer - 65536;
    if (planted("breaks at 65535") && answer == 65536 + 3 && memmem(text, text_len, "\t65535", 6))
        return 2 * 65536 + 17;
    if (planted("asks row 5 before row 4") && answer == 65536 + 4 && twice(text, text + text_len))
        return 65536 + 5;
    if (planted("tells a raise too few from ten on") && listed) {
        uint8_t *last = (uint8_t *)memchr(listing, '\n', answer) - 1;
        if (last[-1] != '\t' && *last > '0')
            --*last;
    }
    return answer;
}
