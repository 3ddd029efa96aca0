/* Each lane is tended until nothing is due in it: by calls, and by a thread in turn, also after it was refused memory, and after
 * calls held its lanes. This program's own malloc refuses memory to the library's thread, its own pthread_mutex_trylock says that
 * a lane is held, and its own pthread_cond_wait knows when the thread sleeps, which is when no lane waits for it. */
#define _GNU_SOURCE
#include "test.h"
#include <dlfcn.h>
#include <pthread.h>
#include <stdatomic.h>

enum { SIZE = 200, LANES = 4, PATIENCE = 20000, TRIES = 16 };

static _Thread_local bool is_main;
static atomic_bool refuses, stalls, says_held;
static atomic_long refused, held, sleeping;
static pthread_mutex_t *tried[TRIES]; /* the locks that the thread tried, in order */
static atomic_long tries;

/* ------------------------------------------------------------------------------------------- what stands before the system */

static bool is_refused(void) {
    if (is_main || !atomic_load(&refuses)) return false;
    atomic_fetch_add(&refused, 1);
    errno = ENOMEM;
    return true;
}

#include "refusing.h"

/* Only the library's thread tries a lane's lock. While it is stalled it waits here, without a lock. */
int pthread_mutex_trylock(pthread_mutex_t *lock) {
    static int (*real)(pthread_mutex_t *);
    if (real == NULL) *(void **)&real = dlsym(RTLD_NEXT, "pthread_mutex_trylock");
    while (atomic_load(&stalls)) usleep(100);
    long number = atomic_fetch_add(&tries, 1);
    if (number < TRIES) tried[number] = lock;
    if (!atomic_load(&says_held)) return real(lock);
    atomic_fetch_add(&held, 1);
    return EBUSY;
}

/* Both are called with the lock of the queue held. Who is woken does not sleep from then on. */
int pthread_cond_wait(pthread_cond_t *restrict of, pthread_mutex_t *restrict lock) {
    static int (*real)(pthread_cond_t *, pthread_mutex_t *);
    if (real == NULL) *(void **)&real = dlvsym(RTLD_NEXT, "pthread_cond_wait", "GLIBC_2.3.2");
    atomic_store(&sleeping, 1);
    return real(of, lock);
}

int pthread_cond_signal(pthread_cond_t *of) {
    static int (*real)(pthread_cond_t *);
    if (real == NULL) *(void **)&real = dlvsym(RTLD_NEXT, "pthread_cond_signal", "GLIBC_2.3.2");
    atomic_store(&sleeping, 0);
    return real(of);
}

/* ------------------------------------------------------------------------------------------------------------------- calls */

static void put(kangaroo_cache *cache, uint32_t key) {
    char value[SIZE];
    memset(value, (int)key, sizeof value);
    expect_status(kangaroo_put(cache, &key, sizeof key, value, sizeof value, KANGAROO_NEVER), KANGAROO_OK, "a put");
}

static kangaroo_counters counted(kangaroo_cache *cache) {
    kangaroo_counters all;
    expect_status(kangaroo_counters_read(cache, &all, sizeof all), KANGAROO_OK, "counters");
    return all;
}

static void wait_for_sleep(void) {
    for (int i = 0; i < PATIENCE && atomic_load(&sleeping) == 0; i++) usleep(1000);
    expect(atomic_load(&sleeping) != 0, "the thread comes to an end");
}

/* Waits until no lane waits for the thread: then nothing is due, and a call finds nothing to do. */
static void expect_idle(kangaroo_cache *cache, const char *what) {
    uint32_t taken = 0;
    wait_for_sleep();
    expect_status(kangaroo_upkeep(cache, UINT32_MAX, &taken), KANGAROO_OK, "upkeep");
    if (taken != 0) show("%u steps were left", taken);
    expect(taken == 0, what);
}

/* ------------------------------------------------------------------------------------------------------------------- tests */

/* A call does as many steps as it is asked for, or all that are due in any lane. */
static void shows_rounds(kangaroo_cache *cache) {
    uint32_t taken = 0;
    for (uint32_t round = 0; round < 50; round++) {
        for (uint32_t key = 0; key < 200; key++) put(cache, 8000 + 200 * round + key);
        expect_status(kangaroo_upkeep(cache, 2, &taken), KANGAROO_OK, "two steps");
        expect(taken == 2, "as many steps as are asked for, while more are due");
        expect_status(kangaroo_upkeep(cache, UINT32_MAX, NULL), KANGAROO_OK, "all steps");
        expect_status(kangaroo_upkeep(cache, UINT32_MAX, &taken), KANGAROO_OK, "once more");
        expect(taken == 0, "a call leaves no lane due");
    }
    show("calls for two steps, and then for all that are due, 50 times: nothing is left");
}

static void shows_calls(const char *folder) {
    kangaroo_cache *cache = open_lanes_of(folder, LANES, 0);
    for (uint32_t key = 0; key < 8000; key++) {
        put(cache, key);
        expect_status(kangaroo_upkeep(cache, UINT32_MAX, NULL), KANGAROO_OK, "upkeep");
    }
    kangaroo_counters all = counted(cache);
    show("upkeep by calls, until nothing is due: %lu steps in %d lanes, %lu by puts", all.upkeep_steps, LANES, all.put_steps);
    expect(all.upkeep_steps > 1000 && all.put_steps == 0, "no lane is left to its puts");
    shows_rounds(cache);
    close_cache(cache);
}

static void shows_thread(const char *folder) {
    kangaroo_cache *cache = open_lanes_of(folder, LANES, 1);
    for (uint32_t key = 0; key < 8000; key++) put(cache, key);
    expect_idle(cache, "each lane was tended");
    kangaroo_counters all = counted(cache);
    show("upkeep by a thread: %lu steps, %lu by puts, and nothing is due", all.upkeep_steps, all.put_steps);
    expect(all.upkeep_steps > 0, "steps of the thread");
    close_cache(cache);
}

static void shows_refused_memory(const char *folder) {
    kangaroo_cache *cache = open_lanes_of(folder, LANES, 1);
    uint32_t key = 0;
    wait_for_sleep();
    atomic_store(&refuses, true);
    for (; key < 100000 && atomic_load(&refused) < 20 * LANES; key++) put(cache, key);
    wait_for_sleep();
    atomic_store(&refuses, false);
    kangaroo_counters before = counted(cache);
    expect(before.upkeep_no_memory > 0, "moves that were refused memory");
    for (uint32_t end = key + 4000; key < end; key++) put(cache, key);
    expect_idle(cache, "a lane that was refused memory is tended again after its next put");
    kangaroo_counters after = counted(cache);
    show("%ld allocations of the thread refused, %lu moves; then %lu more steps, and nothing is due", atomic_load(&refused),
         before.upkeep_no_memory, after.upkeep_steps - before.upkeep_steps);
    expect(after.upkeep_no_memory == before.upkeep_no_memory, "no more is refused");
    close_cache(cache);
}

/* While the thread is stalled all lanes become due. Then it finds each of them held, as often as it asks for a while. */
static void shows_held_lanes(const char *folder) {
    kangaroo_cache *cache = open_lanes_of(folder, LANES, 1);
    wait_for_sleep();
    for (uint32_t key = 0; key < 20000; key += 500) {
        atomic_store(&stalls, true);
        for (uint32_t i = 0; i < 500; i++) put(cache, key + i);
        atomic_store(&says_held, true);
        atomic_store(&stalls, false);
        if (key % 1000 == 0) usleep(1000);
        atomic_store(&says_held, false);
    }
    expect_idle(cache, "a lane that gave way is tended after the others");
    kangaroo_counters all = counted(cache);
    show("lanes that were held when the thread came, %ld times: %lu steps, and nothing is due", atomic_load(&held), all.upkeep_steps);
    expect(atomic_load(&held) > LANES, "lanes that were held");
    close_cache(cache);
}

/* Whether the thread came to each of some lanes in its tries from here on. */
static bool are_all_tried(const long first) {
    int apart = 0;
    for (long i = first; i < first + LANES; i++) {
        bool is_new = true;
        for (long j = first; j < i; j++) is_new = is_new && tried[j] != tried[i];
        apart += is_new;
    }
    return apart == LANES;
}

/* All lanes are due, with many steps each. The thread does one of the lane that waits longest, so it goes round them. */
static void shows_turns(const char *folder) {
    kangaroo_cache *cache = open_lanes_of(folder, LANES, 1);
    wait_for_sleep();
    atomic_store(&stalls, true);
    for (uint32_t key = 0; key < 6000; key++) put(cache, key);
    atomic_store(&tries, 0);
    atomic_store(&stalls, false);
    expect_idle(cache, "each lane was tended");
    expect(atomic_load(&tries) >= TRIES, "many steps");
    for (long first = 0; first + LANES <= 2 * LANES; first += LANES) expect(are_all_tried(first), "each lane has its turn");
    show("%d lanes that are due: the thread goes round them, a step each", LANES);
    close_cache(cache);
}

int main(void) {
    char folder[PATH_BYTES];
    is_main = true;
    make_folder(folder);
    shows_calls(folder);
    shows_thread(folder);
    shows_refused_memory(folder);
    shows_held_lanes(folder);
    shows_turns(folder);
    remove_folder(folder);
    return 0;
}
