/* A call needs less than 128 KiB of stack: all are made on a thread that has little more. */
#include "test.h"
#include <pthread.h>

enum { STACK = 144 * 1024, OF_THE_TEST = 16 * 1024, KEYS = 4000 };

static char folder[PATH_BYTES];

/* What the thread of the test's own takes beside the calls is less than OF_THE_TEST. */
static void *call_all(void *nothing) {
    char value[1000];
    kangaroo_options options = small_options();
    kangaroo_lease lease;
    kangaroo_counters counters;
    options.upkeep_threads = 0;
    kangaroo_cache *cache = open_with(&options, folder);
    memset(value, 's', sizeof value);
    for (uint32_t i = 0; i < 10 * KEYS; i++) {
        uint32_t key = i % KEYS;
        size_t n = i % sizeof value;
        if (kangaroo_get_or_lease(cache, &key, sizeof key, 0, value, sizeof value, NULL, &lease) > 0)
            kangaroo_fill(cache, &lease, &key, sizeof key, value, n, KANGAROO_NEVER);
        kangaroo_put_or_remove(cache, &key, sizeof key, value, n, KANGAROO_NEVER);
        kangaroo_upkeep(cache, 2, NULL);
        if (i % 50 == 0) kangaroo_remove(cache, &key, sizeof key);
    }
    kangaroo_counters_read(cache, &counters, sizeof counters);
    expect(counters.set_pages_written > 0, "moves");
    (void)!kangaroo_check(value, sizeof value, NULL, 0);
    close_cache(cache);
    return nothing;
}

int main(void) {
    pthread_attr_t small;
    pthread_t thread;
    make_folder(folder);
    pthread_attr_init(&small);
    expect(pthread_attr_setstacksize(&small, STACK) == 0, "a small stack");
    expect(pthread_create(&thread, &small, call_all, NULL) == 0, "a thread");
    pthread_join(thread, NULL);
    show("open, calls of each kind, moves and close on a stack of %d KiB, of which %d are for the test", STACK / 1024,
         OF_THE_TEST / 1024);
    remove_folder(folder);
    return 0;
}
