/* Threads that are cancelled in calls: none leaves a lane locked, or a call half done. */
#include "test.h"
#include <pthread.h>

enum { THREADS = 8 };

static kangaroo_cache *cache;

/* A call of each kind, on one key. */
static uint32_t call_each(uint32_t state) {
    static const char value[500];
    char found[500];
    uint32_t key = next_random(&state) % 5000;
    kangaroo_lease lease;
    if (key % 2) kangaroo_put_or_remove(cache, &key, sizeof key, value, sizeof value, KANGAROO_NEVER);
    else if (kangaroo_get_or_lease(cache, &key, sizeof key, 0, found, sizeof found, NULL, &lease) != KANGAROO_OK)
        kangaroo_fill(cache, &lease, &key, sizeof key, value, sizeof value, KANGAROO_NEVER);
    kangaroo_upkeep(cache, 1, NULL);
    return state;
}

/* Calls for ever, and ends nowhere but between calls. */
static void *call_for_ever(void *number) {
    uint32_t state = (uint32_t)(uintptr_t)number * 31 + 7;
    for (;;) {
        state = call_each(state);
        pthread_testcancel();
    }
    return NULL;
}

static void cancel(pthread_t thread) {
    void *answer;
    expect(pthread_cancel(thread) == 0, "a cancellation");
    expect(pthread_join(thread, &answer) == 0 && answer == PTHREAD_CANCELED, "a cancelled thread");
}

static void cancel_some(uint32_t *state) {
    pthread_t threads[THREADS];
    for (uintptr_t i = 0; i < THREADS; i++)
        expect(pthread_create(&threads[i], NULL, call_for_ever, (void *)i) == 0, "a thread");
    usleep(next_random(state) % 2000);
    for (int i = 0; i < THREADS; i++) cancel(threads[i]);
}

static void shows_calls(const char *folder) {
    uint32_t state = 161803;
    int rounds = is_quick() ? 20 : 300;
    cache = open_small(folder);
    for (int i = 0; i < rounds; i++) cancel_some(&state);
    for (uint32_t key = 0; key < 5000; key++) {
        expect_status(kangaroo_put(cache, &key, sizeof key, "v", 1, KANGAROO_NEVER), KANGAROO_OK, "a put");
        expect_status(kangaroo_remove(cache, &key, sizeof key), KANGAROO_OK, "a removal");
    }
    close_cache(cache);
    show("%d threads cancelled in calls: every lane answers behind it", rounds * THREADS);
}

/* Opens and closes for ever, and ends nowhere but behind a close: neither is a point of cancellation. */
static void *open_for_ever(void *folder) {
    for (;;) {
        close_cache(open_small(folder));
        pthread_testcancel();
    }
    return NULL;
}

static void shows_opens(char *folder) {
    uint32_t state = 31415;
    int rounds = is_quick() ? 20 : 200, descriptors = open_descriptors();
    for (int i = 0; i < rounds; i++) {
        pthread_t thread;
        expect(pthread_create(&thread, NULL, open_for_ever, folder) == 0, "a thread");
        usleep(next_random(&state) % 5000);
        cancel(thread);
        close_cache(open_small(folder));
    }
    expect(open_descriptors() == descriptors, "no descriptor is left open");
    show("%d threads cancelled in open or close: the folder is free behind it", rounds);
}

int main(void) {
    char folder[PATH_BYTES];
    make_folder(folder);
    shows_calls(folder);
    shows_opens(folder);
    remove_folder(folder);
    return 0;
}
