/* A stored drawing, snapped again: every point has to come out with the coordinates that are stored beside it.
 *
 *     cc -IFOLDER/include host/drawing.c -LFOLDER/lib -lpackmap -o drawing
 *     ./drawing SCALE FILE
 *
 * A line of the file is a point: two shares, by the 16 hexadecimal digits of their bits, and three coordinates, parted
 * by tabs. The foil cutter's drawings were stored while scale 0 stood for 16, so they are snapped again at scale 16.
 * What was stored while shares were rounded down differs wherever a share goes to the step above, and is stored anew.
 *
 * Exit status: 0 if all are equal, 1 if they are not or there is no telling, 2 if the command is not as above. */
#include <errno.h>
#include <inttypes.h>
#include <stdio.h>
#include <stdlib.h>
#include <string.h>

#include "packmap.h"

static double shares[PACKMAP_SHARES(PACKMAP_MOST_VERTICES)];
static int64_t stored[PACKMAP_COORDINATES(PACKMAP_MOST_VERTICES)], snapped[PACKMAP_COORDINATES(PACKMAP_MOST_VERTICES)];

/* Reads the point of a line, and tells whether the line is a point and nothing else. */
static int read_point(const char *line, double *point, int64_t *b) {
    uint64_t bits[2] = {0, 0};
    int end = 0;
    int fields = sscanf(line, "%16" SCNx64 "\t%16" SCNx64 "\t%" SCNd64 "\t%" SCNd64 "\t%" SCNd64 "%n", &bits[0],
                        &bits[1], &b[0], &b[1], &b[2], &end);
    memcpy(point, bits, sizeof bits);
    return fields == 5 && strcmp(line + end, "\n") == 0;
}

/* The number of points, or 0 if the file is no drawing; then it is told why. */
static size_t read_drawing(FILE *file, const char *name) {
    char line[128];
    size_t n = 0;
    for (; fgets(line, sizeof line, file); n++)
        if (n == PACKMAP_MOST_VERTICES || !read_point(line, &shares[2 * n], &stored[3 * n])) {
            fprintf(stderr, "%s: line %zu is no point of a drawing\n", name, n + 1);
            return 0;
        }
    if (ferror(file))
        fprintf(stderr, "%s: %s\n", name, strerror(errno));
    else if (n == 0)
        fprintf(stderr, "%s: there is no point\n", name);
    return ferror(file) ? 0 : n;
}

/* Tells the first point that is not as stored, if there is one. */
static int compare(size_t n, const char *name) {
    for (size_t i = 0; i < n; i++) {
        const int64_t *a = &stored[3 * i], *b = &snapped[3 * i];
        if (memcmp(a, b, 3 * sizeof *a) != 0) {
            fprintf(stderr, "%s: line %zu has %" PRId64 " %" PRId64 " %" PRId64, name, i + 1, a[0], a[1], a[2]);
            fprintf(stderr, " and is snapped to %" PRId64 " %" PRId64 " %" PRId64 "\n", b[0], b[1], b[2]);
            return 1;
        }
    }
    printf("%s: %zu points equal\n", name, n);
    return 0;
}

int main(int count, char **words) {
    char *end = NULL;
    unsigned long scale = count == 3 ? strtoul(words[1], &end, 10) : 0;
    if (!end || end == words[1] || *end || scale > UINT32_MAX) {
        fputs("drawing SCALE FILE\n", stderr);
        return 2;
    }
    const char *name = words[2];
    FILE *file = fopen(name, "r");
    if (!file) {
        fprintf(stderr, "%s: %s\n", name, strerror(errno));
        return 1;
    }
    size_t n = read_drawing(file, name);
    fclose(file);
    if (n == 0)
        return 1;
    double outside;
    uint64_t number =
        packmap_snap_points(n, shares, PACKMAP_SHARES(n), (uint32_t)scale, snapped, PACKMAP_COORDINATES(n), &outside);
    if (number != PACKMAP_DONE) {
        fprintf(stderr, "%s: refused with %" PRIu64 ": %s\n", name, number, packmap_words(number));
        return 1;
    }
    return compare(n, name);
}
