/* What an open takes from the system, and what it hands to the lanes: each has the cache's seed and a number of its own. This program's
 * own getrandom gives one byte at a time, its own fallocate and openat are interrupted by signals, and its own kl_open looks at what
 * comes to it (the makefile links this program with --wrap=kl_open). */
#define _GNU_SOURCE
#include "lane.h"
#include "test.h"
#include <stdarg.h>
#include <sys/random.h>
#include <sys/syscall.h>

enum { LANES = 4, INTERRUPTIONS = 3 };

/* ------------------------------------------------------------------------------------------- what stands before the system */

static bool counts_up;
static unsigned char drawn;
static int opens_left, reservations_left; /* to be interrupted */

/* The bytes that are drawn are 1, 2, 3 and so on. Each second call is interrupted. */
ssize_t getrandom(void *to, size_t length, unsigned flags) {
    static int calls;
    if (!counts_up) return (ssize_t)syscall(SYS_getrandom, to, length, flags);
    if (calls++ % 2 == 0) {
        errno = EINTR;
        return -1;
    }
    *(unsigned char *)to = ++drawn;
    return 1;
}

static bool is_interrupted(int *left) {
    if (*left == 0) return false;
    --*left;
    errno = EINTR;
    return true;
}

int fallocate(int file, int mode, off_t from, off_t bytes) {
    return is_interrupted(&reservations_left) ? -1 : (int)syscall(SYS_fallocate, file, mode, from, bytes);
}

/* The files of a cache: not the list of its folder, which is opened as ".". */
int openat(int folder, const char *name, int flags, ...) {
    va_list rest;
    va_start(rest, flags);
    mode_t mode = va_arg(rest, mode_t);
    va_end(rest);
    return name[0] == 'k' && is_interrupted(&opens_left) ? -1 : (int)syscall(SYS_openat, folder, name, flags, mode);
}

/* What came to the lanes of the last open. */
static uint32_t numbers[LANES], opened;
static kl_seed seeds[LANES];

int32_t __real_kl_open(const kl_shape *shape, const kl_seed *seed, uint32_t number, kl_pages pages, kl_lane *to);
int32_t __wrap_kl_open(const kl_shape *shape, const kl_seed *seed, uint32_t number, kl_pages pages, kl_lane *to);
int32_t __wrap_kl_open(const kl_shape *shape, const kl_seed *seed, uint32_t number, kl_pages pages, kl_lane *to) {
    expect(opened < LANES, "no more lanes than the shape has");
    numbers[opened] = number;
    seeds[opened++] = *seed;
    return __real_kl_open(shape, seed, number, pages, to);
}

/* ------------------------------------------------------------------------------------------------------------------- tests */

/* Opens a cache and closes it. Gives the seed of its lanes. */
static kl_seed open_once(const char *folder) {
    opened = 0;
    close_cache(open_small(folder));
    expect(opened == LANES, "each lane is opened");
    for (uint32_t i = 0; i < LANES; i++) {
        expect(numbers[i] == i, "each lane has a number of its own");
        expect(memcmp(&seeds[i], &seeds[0], sizeof seeds[0]) == 0, "all lanes have the seed of the cache");
    }
    return seeds[0];
}

static void shows_seeds(const char *folder) {
    kl_seed first = open_once(folder), second = open_once(folder);
    expect(first.first != second.first && first.second != second.second, "each cache has a seed of its own");
    show("%d lanes with the numbers 0 to %d and one seed, which is another in each cache", LANES, LANES - 1);
}

static void shows_short_draws(const char *folder) {
    unsigned char bytes[sizeof(kl_seed)];
    counts_up = true;
    kl_seed seed = open_once(folder);
    counts_up = false;
    memcpy(bytes, &seed, sizeof bytes);
    for (size_t i = 0; i < sizeof bytes; i++) expect(bytes[i] == i + 1, "all bytes of a seed are random bytes of the system");
    expect(drawn == sizeof(kl_seed) + sizeof(uint64_t), "a seed and a number are drawn");
    show("random bytes that come one at a time, and interrupted: each of a seed is one of them");
}

static void shows_interruptions(const char *folder) {
    opens_left = reservations_left = INTERRUPTIONS;
    open_once(folder);
    expect(opens_left == 0 && reservations_left == 0, "calls that were interrupted");
    show("an open that signals interrupt while it opens files and reserves blocks goes on");
}

int main(void) {
    char folder[PATH_BYTES];
    make_folder(folder);
    shows_seeds(folder);
    shows_short_draws(folder);
    shows_interruptions(folder);
    remove_folder(folder);
    return 0;
}
