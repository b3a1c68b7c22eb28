/* What the header computes by itself: lengths, words, and a job's answer taken apart. It is C and C++. Exit status: 0
 * if all of it holds; else the lines that do not are told. */
#include "packmap.h"

#include <stdio.h>
#include <string.h>

static int failed;

#define HOLDS(what)                                                                                                    \
    do                                                                                                                 \
        if (!(what)) {                                                                                                 \
            printf("line %d does not hold: %s\n", __LINE__, #what);                                                    \
            failed = 1;                                                                                                \
        }                                                                                                              \
    while (0)

/* Lengths are constants, so that an array can have one. */
static int64_t scratch_of_3[PACKMAP_SCRATCH(3)];

static void lengths(void) {
    int small = 3;
    uint16_t large = PACKMAP_MOST_VERTICES;
    HOLDS(sizeof scratch_of_3 / sizeof *scratch_of_3 == 30);
    HOLDS(PACKMAP_TRIANGLES(small) == 6 && PACKMAP_TRIANGLES(large) == 24564);
    HOLDS(PACKMAP_LABELS(small) == 3 && PACKMAP_LABELS(large) == 24561);
    HOLDS(PACKMAP_WEIGHTS(small) == 1 && PACKMAP_WEIGHTS(large) == 8187);
    HOLDS(PACKMAP_COORDINATES(small) == 9 && PACKMAP_COORDINATES(large) == 12288);
    HOLDS(PACKMAP_SHARES(small) == 6 && PACKMAP_SHARES(large) == 8192);
    HOLDS(PACKMAP_SCRATCH(large) == 40960);
    HOLDS(PACKMAP_TRIANGLES(2 + 1) == 6);
}

static void words(void) {
    const uint64_t none = UINT64_MAX;
    for (uint64_t k = 0; k <= 30; k++) {
        int is_answer = k <= 19 || k == 21 || k == 25 || k == 29;
        HOLDS((strcmp(packmap_words(k), packmap_words(none)) != 0) == is_answer);
        for (uint64_t m = 0; m < k; m++)
            HOLDS(!is_answer || strcmp(packmap_words(k), packmap_words(m)) != 0);
    }
    HOLDS(strcmp(packmap_words(PACKMAP_DONE), "done") == 0);
    HOLDS(PACKMAP_REFUSED_PIECES == 8 && PACKMAP_REFUSED_RAISE == 13 && PACKMAP_REFUSED_TEXT == 19);
    HOLDS(PACKMAP_REFUSED_RING == 7 && PACKMAP_REFUSED_STRAY == 25 && PACKMAP_REFUSED_OUTER_NUMBER == 21);
    HOLDS(PACKMAP_REFUSED_RANGE == 29);
}

static void answers(void) {
    const uint64_t listed[] = {0, 1, 17, 55, 65535};
    for (size_t k = 0; k < sizeof listed / sizeof *listed; k++)
        HOLDS(!packmap_refused(listed[k]) && packmap_number(listed[k]) == 0 && packmap_line(listed[k]) == 0);
    HOLDS(packmap_refused(65536 + 3) && packmap_number(65536 + 3) == 3 && packmap_line(65536 + 3) == 0);
    HOLDS(packmap_refused(65536 * 2 + 17) && packmap_number(65536 * 2 + 17) == 17 && packmap_line(65536 * 2 + 17) == 1);
    HOLDS(packmap_number(65536ull * 1018 + 17) == 17 && packmap_line(65536ull * 1018 + 17) == 1017);
}

int main(void) {
    lengths();
    words();
    answers();
    return failed;
}
