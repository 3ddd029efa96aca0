/* Each call holds the lock of its lane, and of no other. A put is stopped in the middle, in this program's own malloc, with its
 * lane's lock held. Until it goes on no call of this lane may end, and calls of other lanes do. And a cache holds its folder until
 * it has let go of all files in it: this program's own close looks for that. */
#define _GNU_SOURCE
#include "test.h"
#include <pthread.h>
#include <stdatomic.h>
#include <sys/syscall.h>

extern void *__libc_malloc(size_t bytes);

enum { KEYS = 40, LOOK_US = 200000, CALLS = 9 };

static _Thread_local bool stops;
static atomic_bool has_stopped, goes_on;
static kangaroo_cache *cache;
static kangaroo_lease lease;

void *malloc(size_t bytes) {
    if (stops) {
        stops = false;
        atomic_store(&has_stopped, true);
        while (!atomic_load(&goes_on)) usleep(100);
    }
    return __libc_malloc(bytes);
}

static bool looks;
static int locks_closed, files_mapped;

/* How many files of lanes this process has mapped. */
static int count_mapped(void) {
    char line[PATH_BYTES];
    int count = 0;
    FILE *maps = fopen("/proc/self/maps", "r");
    expect(maps != NULL, "/proc/self/maps");
    while (fgets(line, sizeof line, maps) != NULL) count += strstr(line, "/kangaroo-") != NULL && strstr(line, ".dev\n") != NULL;
    fclose(maps);
    return count;
}

int close(int file) {
    char link[32], path[PATH_BYTES] = {0};
    snprintf(link, sizeof link, "/proc/self/fd/%d", file);
    if (looks && readlink(link, path, sizeof path - 1) > 0 && strstr(path, "/kangaroo.lock") != NULL) {
        looks = false;
        locks_closed++;
        files_mapped = count_mapped();
    }
    return (int)syscall(SYS_close, file);
}

/* ---------------------------------------------------------------------------------------------------------- calls apart */

/* A call that a thread makes. */
typedef struct call {
    const char *name;
    kangaroo_status (*make)(uint32_t key);
    uint32_t key;
    atomic_bool has_begun, has_ended;
    kangaroo_status status;
    pthread_t thread;
} call;

static kangaroo_status get(uint32_t key) {
    char value[8];
    return kangaroo_get(cache, &key, sizeof key, 0, value, sizeof value, NULL);
}

static kangaroo_status get_or_lease(uint32_t key) {
    char value[8];
    kangaroo_lease given;
    return kangaroo_get_or_lease(cache, &key, sizeof key, 0, value, sizeof value, NULL, &given);
}

static kangaroo_status get_and_lease(uint32_t key) {
    char value[8];
    kangaroo_lease given;
    return kangaroo_get_and_lease(cache, &key, sizeof key, 0, value, sizeof value, NULL, &given);
}

static kangaroo_status put(uint32_t key) {
    return kangaroo_put(cache, &key, sizeof key, "value", 5, KANGAROO_NEVER);
}

static kangaroo_status put_or_remove(uint32_t key) {
    return kangaroo_put_or_remove(cache, &key, sizeof key, "value", 5, KANGAROO_NEVER);
}

static kangaroo_status fill(uint32_t key) {
    kangaroo_lease taken = lease;
    return kangaroo_fill(cache, &taken, &key, sizeof key, "value", 5, KANGAROO_NEVER);
}

static kangaroo_status remove_key(uint32_t key) {
    return kangaroo_remove(cache, &key, sizeof key);
}

static kangaroo_status upkeep(uint32_t key) {
    (void)key;
    return kangaroo_upkeep(cache, 1000, NULL);
}

static kangaroo_status count(uint32_t key) {
    kangaroo_counters all;
    (void)key;
    return kangaroo_counters_read(cache, &all, sizeof all);
}

static void *make_call(void *of) {
    call *it = of;
    atomic_store(&it->has_begun, true);
    it->status = it->make(it->key);
    atomic_store(&it->has_ended, true);
    return NULL;
}

static void start(call *it) {
    expect(pthread_create(&it->thread, NULL, make_call, it) == 0, "a thread");
}

static void *stopped_put(void *key) {
    stops = true;
    return put(*(uint32_t *)key) == KANGAROO_OK ? NULL : key;
}

/* Starts a put that stops with its lane's lock held. */
static pthread_t start_stopped_put(uint32_t *key) {
    pthread_t thread;
    atomic_store(&has_stopped, false);
    atomic_store(&goes_on, false);
    expect(pthread_create(&thread, NULL, stopped_put, key) == 0, "a thread");
    while (!atomic_load(&has_stopped)) usleep(100);
    return thread;
}

static void let_go_on(pthread_t thread) {
    void *failed;
    atomic_store(&goes_on, true);
    pthread_join(thread, &failed);
    expect(failed == NULL, "the put that was stopped");
}

/* Starts calls, and gives them time to end. */
static void start_all(call *calls, int calls_count) {
    for (int i = 0; i < calls_count; i++) start(&calls[i]);
    for (int i = 0; i < calls_count; i++)
        while (!atomic_load(&calls[i].has_begun)) usleep(100);
    usleep(LOOK_US);
}

/* ----------------------------------------------------------------------------------------------------------------- tests */

static void open_lanes(const char *folder, uint32_t lanes) {
    kangaroo_options options = small_options();
    options.lanes = lanes;
    options.upkeep_threads = 0;
    cache = open_with(&options, folder);
}

static void shows_one_lane(const char *folder) {
    uint32_t key = 1;
    call calls[CALLS] = {{.name = "get", .make = get}, {.name = "get_or_lease", .make = get_or_lease},
                         {.name = "get_and_lease", .make = get_and_lease}, {.name = "put", .make = put},
                         {.name = "put_or_remove", .make = put_or_remove}, {.name = "fill", .make = fill},
                         {.name = "remove", .make = remove_key}, {.name = "upkeep", .make = upkeep},
                         {.name = "counters_read", .make = count}};
    open_lanes(folder, 1);
    for (uint32_t i = 0; i < CALLS; i++) calls[i].key = 100 + i;
    expect_status(kangaroo_get_or_lease(cache, &calls[5].key, 4, 0, NULL, 0, NULL, &lease), KANGAROO_ABSENT, "a lease");
    pthread_t stopped = start_stopped_put(&key);
    start_all(calls, CALLS);
    for (int i = 0; i < CALLS; i++) expect(!atomic_load(&calls[i].has_ended), calls[i].name);
    let_go_on(stopped);
    for (int i = 0; i < CALLS; i++) {
        pthread_join(calls[i].thread, NULL);
        expect(calls[i].status >= 0, calls[i].name);
    }
    show("while a put is stopped in a lane, none of %d calls of the lane ends; then all do", CALLS);
    close_cache(cache);
}

static void shows_other_lanes(const char *folder) {
    static call calls[KEYS];
    uint32_t key = KEYS;
    int ended = 0;
    open_lanes(folder, 4);
    for (uint32_t i = 0; i < KEYS; i++) calls[i] = (call){.name = "put", .make = put, .key = i};
    pthread_t stopped = start_stopped_put(&key);
    start_all(calls, KEYS);
    for (int i = 0; i < KEYS; i++) ended += atomic_load(&calls[i].has_ended);
    let_go_on(stopped);
    for (int i = 0; i < KEYS; i++) pthread_join(calls[i].thread, NULL);
    for (int i = 0; i < KEYS; i++) expect_status(get((uint32_t)i), KANGAROO_OK, "each was stored");
    show("of %d puts in 4 lanes %d end while a put is stopped in one of them", KEYS, ended);
    expect(ended > 0 && ended < KEYS, "some are of the lane, and some of others");
    close_cache(cache);
}

static void shows_the_folder(const char *folder) {
    open_lanes(folder, 2);
    int before = count_mapped();
    looks = true;
    close_cache(cache);
    expect(before == 2 && locks_closed == 1, "two files, and one lock");
    expect(files_mapped == 0, "no file is mapped once others can have the folder");
    show("a close lets go of the folder after all of its files");
}

int main(void) {
    char folder[PATH_BYTES];
    make_folder(folder);
    shows_one_lane(folder);
    shows_other_lanes(folder);
    shows_the_folder(folder);
    remove_folder(folder);
    return 0;
}
