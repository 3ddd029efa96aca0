/* Random bytes of the system. */
#define _GNU_SOURCE
#include "inside.h"
#include <sys/random.h>

outcome draw_random(void *to, size_t bytes) {
    size_t drawn = 0;
    while (drawn < bytes) {
        ssize_t more = getrandom((uint8_t *)to + drawn, bytes - drawn, 0);
        if (more < 0 && errno != EINTR) return refused_with(errno);
        if (more > 0) drawn += (size_t)more;
    }
    return outcome_of(KANGAROO_OK);
}
