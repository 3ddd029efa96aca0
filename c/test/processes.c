/* One cache a folder: a second is refused, in this process and in another, and the first is unharmed. A process that is
 * killed in the midst of writing leaves files over which a new cache opens, cold and working. */
#include "test.h"
#include <signal.h>
#include <sys/wait.h>

static int ends_with(pid_t child) {
    int status = 0;
    expect(child > 0 && waitpid(child, &status, 0) == child, "a child");
    return WIFSIGNALED(status) ? 1000 + WTERMSIG(status) : WEXITSTATUS(status);
}

/* What an open in this process is answered, as a child's status. */
static void answer_open(const char *folder) {
    kangaroo_options options = small_options();
    kangaroo_cache *cache = NULL;
    _exit(-kangaroo_open(&options, folder, &cache, NULL));
}

/* An open that is refused leaves the files of the cache that has the folder, also where it would have fewer lanes itself. */
static void shows_files_that_stay(const char *folder) {
    kangaroo_options fewer = small_options();
    kangaroo_cache *first = open_small(folder), *second = NULL;
    char path[2 * PATH_BYTES], name[32];
    struct stat is;
    fewer.lanes = 1;
    expect_status(kangaroo_open(&fewer, folder, &second, NULL), KANGAROO_IN_USE, "a second with fewer lanes");
    for (int i = 0; i < 4; i++) {
        snprintf(name, sizeof name, "kangaroo-%d.dev", i);
        path_in(folder, name, path);
        expect(stat(path, &is) == 0 && is.st_size > 0, "the files of the first stay");
    }
    close_cache(first);
    show("a cache of fewer lanes that is refused leaves the files of the one that has the folder");
}

static void shows_two_on_one_folder(const char *folder) {
    kangaroo_options options = small_options();
    kangaroo_cache *first = open_small(folder), *second = NULL;
    int cause = 7;
    put_text(first, "a", "apple");
    expect_status(kangaroo_open(&options, folder, &second, &cause), KANGAROO_IN_USE, "a second in this process");
    expect(second == NULL && cause == 0, "no handle");
    pid_t child = fork();
    if (child == 0) answer_open(folder);
    expect(ends_with(child) == -KANGAROO_IN_USE, "a second in another process");
    expect(hits_text(first, "a", "apple"), "the first is unharmed");
    put_text(first, "b", "pear");
    expect(hits_text(first, "b", "pear"), "and goes on");
    close_cache(first);
    child = fork();
    if (child == 0) answer_open(folder);
    expect(ends_with(child) == 0, "behind a close the folder is free");
    show("a second cache on the folder is refused, in this process and another; behind a close it is not");
}

/* Puts for ever, and says by a byte that it is well under way. */
static void write_for_ever(const char *folder, int to) {
    kangaroo_cache *cache = open_small(folder);
    char value[400];
    memset(value, 'v', sizeof value);
    for (uint64_t i = 0;; i++) {
        expect_status(kangaroo_put(cache, &i, sizeof i, value, sizeof value, KANGAROO_NEVER), KANGAROO_OK, "a put");
        if (i == 5000) expect(write(to, "!", 1) == 1, "a byte");
    }
}

static void shows_a_kill(const char *folder) {
    int ends[2], rounds = is_quick() ? 5 : 30;
    uint32_t state = 4711;
    for (int round = 0; round < rounds; round++) {
        char byte;
        expect(pipe(ends) == 0, "a pipe");
        pid_t child = fork();
        if (child == 0) write_for_ever(folder, ends[1]);
        expect(read(ends[0], &byte, 1) == 1, "the writer is under way");
        usleep(next_random(&state) % 3000);
        kill(child, SIGKILL);
        expect(ends_with(child) == 1000 + SIGKILL, "the writer is killed");
        close(ends[0]);
        close(ends[1]);
        kangaroo_cache *cache = open_small(folder);
        for (uint64_t i = 0; i < 6000; i++)
            expect_status(kangaroo_get(cache, &i, sizeof i, 0, NULL, 0, NULL), KANGAROO_ABSENT, "a cold cache");
        put_text(cache, "a", "apple");
        expect(hits_text(cache, "a", "apple"), "and it works");
        close_cache(cache);
    }
    show("killed in mid-write %d times, and opened again: cold, empty, working", rounds);
}

int main(void) {
    char folder[PATH_BYTES];
    make_folder(folder);
    shows_two_on_one_folder(folder);
    shows_files_that_stay(folder);
    shows_a_kill(folder);
    remove_folder(folder);
    return 0;
}
