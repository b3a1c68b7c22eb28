/* Places for the buffers lent to a call. A buffer ends right before a page that may not be touched, or begins right
 * after one, and beside its other end stands a known pattern: a step outside is a fault of memory or breaks the
 * pattern. */
#ifndef LENT_H
#define LENT_H

#include <stdbool.h>
#include <stdint.h>
#include <stdio.h>
#include <stdlib.h>
#include <string.h>
#include <sys/mman.h>

enum { PLACES = 8, PAGE = 4096, ROOM = 200 * PAGE }; /* room for 24 words for each of 4,096 vertices, and more */
enum side { ENDS, BEGINS };                          /* which end of the buffer is at a guard page */

struct lent {
    uint8_t *room;
    uint8_t *at;
    size_t bytes;
};

static uint8_t *rooms[PLACES];
static uint8_t pattern[ROOM]; /* what byte k of a room holds when it holds nothing else */

/* To be called once, before all else. */
static inline void open_places(void) {
    for (size_t k = 0; k < ROOM; k++)
        pattern[k] = (uint8_t)(k % 251 + 3);
    for (int place = 0; place < PLACES; place++) {
        uint8_t *pages = mmap(NULL, ROOM + 2 * PAGE, PROT_NONE, MAP_PRIVATE | MAP_ANONYMOUS, -1, 0);
        if (pages == MAP_FAILED || mprotect(pages + PAGE, ROOM, PROT_READ | PROT_WRITE) != 0) {
            perror("guard pages");
            exit(2);
        }
        rooms[place] = memcpy(pages + PAGE, pattern, ROOM);
    }
}

/* A buffer in a place. It holds `held` bytes from `holds`, and the pattern after them. */
static inline struct lent lend(int place, enum side side, size_t bytes, const void *holds, size_t held) {
    uint8_t *room = rooms[place];
    struct lent lent = {room, side == ENDS ? room + ROOM - bytes : room, bytes};
    if (held > 0)
        memcpy(lent.at, holds, held < bytes ? held : bytes);
    return lent;
}

/* Whether the buffer holds `held` bytes from `due` and the pattern after them. */
static inline bool holds(struct lent lent, const void *due, size_t held) {
    held = held < lent.bytes ? held : lent.bytes;
    return (held == 0 || memcmp(lent.at, due, held) == 0) &&
           memcmp(lent.at + held, pattern + (lent.at - lent.room) + held, lent.bytes - held) == 0;
}

/* Whether the page before the buffer, and the one behind it, hold the pattern as far as they are of the room. */
static inline bool clean_around(struct lent lent) {
    size_t from = lent.at - lent.room, to = from + lent.bytes;
    size_t before = from < PAGE ? from : PAGE, behind = ROOM - to < PAGE ? ROOM - to : PAGE;
    return memcmp(lent.at - before, pattern + from - before, before) == 0 &&
           memcmp(lent.at + lent.bytes, pattern + to, behind) == 0;
}

/* After this the place holds the pattern again. */
static inline void clear(struct lent lent) {
    size_t from = lent.at - lent.room, to = from + lent.bytes;
    size_t first = from < PAGE ? 0 : from - PAGE, last = ROOM - to < PAGE ? ROOM : to + PAGE;
    memcpy(lent.room + first, pattern + first, last - first);
}

#endif
