/* Calls that are watched: a fault of memory is survived and told, and under valgrind no byte of a place but the
 * buffer's may be touched, and what a call only writes counts as unset. */
#ifndef WATCHED_H
#define WATCHED_H

#include <setjmp.h>
#include <signal.h>
#include <valgrind/memcheck.h>

#include "lent.h"

static sigjmp_buf escape; /* where a fault leads to */

static inline void on_fault(int signal) {
    siglongjmp(escape, signal);
}

static inline void catch_faults(void) {
    signal(SIGSEGV, on_fault);
    signal(SIGBUS, on_fault);
}

/* From here to `get_back` only the buffer may be touched. */
static inline void hand_over(struct lent lent, bool only_written) {
    (void)VALGRIND_MAKE_MEM_NOACCESS(lent.room, ROOM);
    (void)VALGRIND_MAKE_MEM_DEFINED(lent.at, lent.bytes);
    if (only_written)
        (void)VALGRIND_MAKE_MEM_UNDEFINED(lent.at, lent.bytes);
}

static inline void get_back(struct lent lent) {
    (void)VALGRIND_MAKE_MEM_DEFINED(lent.room, ROOM);
}

#endif
