/* memory.h: a malloc that counts, and refuses when it is told to. */
#ifndef KANGAROO_TEST_MEMORY_H
#define KANGAROO_TEST_MEMORY_H

#ifndef _GNU_SOURCE
#define _GNU_SOURCE
#endif
#include <errno.h>
#include <stdatomic.h>

static atomic_long allocations, refuse_from = -1, refused_ones;

/* Whether the next allocation is refused: all are from a number on. */
static int is_refused(void) {
    long number = allocations++, from = refuse_from;
    if (from < 0 || number < from) return 0;
    refused_ones++;
    errno = ENOMEM;
    return 1;
}

#include "refusing.h"

#endif
