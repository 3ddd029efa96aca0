/* A forked child is told so by each call on its parent's cache, and does the parent no harm. */
#include "test.h"
#include <sys/wait.h>
#include <time.h>

/* Lets a cache's own thread come to rest before a fork. AddressSanitizer releases no lock of its allocator in a child, so a thread that
 * allocates while the process forks would stop the child for ever. */
static void let_threads_rest(void) {
    nanosleep(&(struct timespec){.tv_nsec = 200000000}, NULL);
}

/* Each call on the parent's cache, in the child. Its status is how many were not FORKED. */
static int count_others(kangaroo_cache *cache) {
    char value[8];
    uint32_t taken = 7;
    kangaroo_hit hit;
    kangaroo_lease lease = {{1, 2, 3, 4}};
    kangaroo_counters counters;
    int others = 0;
    others += kangaroo_get(cache, "a", 1, 0, value, sizeof value, &hit) != KANGAROO_FORKED;
    others += kangaroo_get_or_lease(cache, "a", 1, 0, value, sizeof value, &hit, &lease) != KANGAROO_FORKED;
    others += kangaroo_put(cache, "a", 1, "x", 1, 0) != KANGAROO_FORKED;
    others += kangaroo_put_or_remove(cache, "a", 1, "x", 1, 0) != KANGAROO_FORKED;
    others += kangaroo_remove(cache, "a", 1) != KANGAROO_FORKED;
    others += kangaroo_fill(cache, &lease, "a", 1, "x", 1, 0) != KANGAROO_FORKED;
    others += kangaroo_lease_drop(cache, &lease) != KANGAROO_FORKED;
    others += kangaroo_upkeep(cache, 1, &taken) != KANGAROO_FORKED || taken != 0;
    others += kangaroo_counters_read(cache, &counters, sizeof counters) != KANGAROO_FORKED;
    others += kangaroo_close(cache) != KANGAROO_FORKED;
    return others;
}

/* How many files of lanes this process has mapped. */
static int count_mapped(void) {
    char line[2 * PATH_BYTES];
    int count = 0;
    FILE *maps = fopen("/proc/self/maps", "r");
    expect(maps != NULL, "the mappings");
    while (fgets(line, sizeof line, maps) != NULL) count += strstr(line, "/kangaroo-") != NULL && strstr(line, ".dev\n") != NULL;
    fclose(maps);
    return count;
}

/* Whether a program that this process starts has no file of the folder open. */
static bool is_closed_by_exec(const char *folder) {
    int status = 0;
    pid_t child = fork();
    if (child == 0) {
        execl("/bin/sh", "sh", "-c", "for file in /proc/self/fd/*; do readlink \"$file\"; done | grep -q \"$0\" && exit 1; exit 0",
              folder, (char *)NULL);
        _exit(2);
    }
    return waitpid(child, &status, 0) == child && WIFEXITED(status) && WEXITSTATUS(status) == 0;
}

static void shows_what_is_not_handed_on(const char *folder) {
    int status = 0, mapped = count_mapped();
    pid_t child = fork();
    if (child == 0) _exit(count_mapped());
    expect(waitpid(child, &status, 0) == child && WIFEXITED(status), "a child");
    expect(mapped > 0 && WEXITSTATUS(status) == 0, "a child has none of the mapped files");
    expect(is_closed_by_exec(folder), "exec closes the descriptor of the folder's lock");
    show("a child has none of the %d mapped files, and a program that is started none of the folder open", mapped);
}

/* A cache of the child's own works, and its child is told too. */
static int try_own(const char *folder) {
    kangaroo_cache *own = open_small(folder);
    int status = 0;
    put_text(own, "own", "value");
    let_threads_rest();
    pid_t child = fork();
    if (child == 0) _exit(count_others(own));
    int others = waitpid(child, &status, 0) == child ? WEXITSTATUS(status) : 1;
    return others + !hits_text(own, "own", "value") + (kangaroo_close(own) != KANGAROO_OK);
}

int main(void) {
    char folder[PATH_BYTES], other[PATH_BYTES];
    int status = 0;
    make_folder(folder);
    make_folder(other);
    kangaroo_cache *cache = open_small(folder);
    put_text(cache, "a", "apple");
    let_threads_rest();
    pid_t child = fork();
    if (child == 0) _exit(count_others(cache) + try_own(other));
    expect(waitpid(child, &status, 0) == child && WIFEXITED(status), "a child");
    errno = WEXITSTATUS(status);
    expect(WEXITSTATUS(status) == 0, "each call in the child is FORKED");
    show("ten calls in a child are FORKED; a cache of its own works there");
    shows_what_is_not_handed_on(folder);
    expect(hits_text(cache, "a", "apple"), "the parent's cache is unharmed");
    put_text(cache, "b", "pear");
    expect(hits_text(cache, "b", "pear"), "and goes on");
    close_cache(cache);
    close_cache(open_small(folder));
    show("the parent goes on, and its folder is free behind its close");
    remove_folder(folder);
    remove_folder(other);
    return 0;
}
