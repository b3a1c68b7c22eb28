/* Faults put into the calls on purpose, to show that the tests here report them. The linker's --wrap leads a call to
 * its namesake in planted_calls.c or planted_job.c, which goes on to the proved one; PLANTED names the fault, and
 * without it there is none. */
#ifndef PLANTED_H
#define PLANTED_H

#include <stdbool.h>
#include <stdlib.h>
#include <string.h>

static inline bool planted(const char *fault) {
    const char *name = getenv("PLANTED");
    return name && strcmp(name, fault) == 0;
}

/* Whether it is a fault in repair's first raise, which is made where N is below 1. The first of these is none: it shows
 * that the repair in which they are planted has no other. */
static inline bool planted_in_first_raise(void) {
    return planted("repairs raise by raise") || planted("leaves out the first raise") ||
           planted("raises first by 1 - N alone") || planted("raises first by its own raise alone") ||
           planted("takes N = 0 for enough") || planted("takes N = 1 for too little") ||
           planted("does not count the first raise") || planted("makes the first raise although 13") ||
           planted("passes over a first raise that 13 refuses");
}

#endif
