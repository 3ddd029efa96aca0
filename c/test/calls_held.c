/* Each call on a lane is made in a hold of the lane's lock, and a lane is handed over in one too. The makefile links this program with
 * --wrap for what is called of a lane, so each call comes by here: while it runs the lock of its lane can't be taken. It looks at the
 * order of upkeep, too: calls of one step each go round the lanes. */
#define _GNU_SOURCE
#include "inside.h"
#include "test.h"
#include <dlfcn.h>

enum { LANES = 4, CALLS = 10, KEYS = 2000, STEPS_MAX = 64, GET = 0, LEASE = 2 };

static const char *const names[CALLS] = {"get", "get_or_lease", "lease", "put", "put_or_remove", "fill", "remove", "upkeep_step",
                                         "count", "hand_over"};
static long made[CALLS];
static const kl_lane *stepped[STEPS_MAX]; /* the lanes of the last steps that did something */
static int step_count;

/* How many locks this thread has given back, now and at its last get. */
static _Thread_local long given_back, given_back_at_get;

int pthread_mutex_unlock(pthread_mutex_t *lock) {
    static int (*real)(pthread_mutex_t *);
    if (real == NULL) *(void **)&real = dlsym(RTLD_NEXT, "pthread_mutex_unlock");
    given_back++;
    return real(lock);
}

/* Counts a call of a lane whose lock is held. */
static void note_lock(pthread_mutex_t *lock, int which) {
    expect(pthread_mutex_trylock(lock) == EBUSY, names[which]);
    made[which]++;
}

static void note(kl_lane *lane, int which) {
    if (which == GET) given_back_at_get = given_back;
    expect(which != LEASE || given_back == given_back_at_get, "a lease at a hit is of the hold of its get");
    note_lock(&((guarded_lane *)(void *)((char *)lane - offsetof(guarded_lane, lane)))->lock, which);
}

/* A call on a lane: its lock is held before it and after it. */
#define HELD(which, type, name, parameters, arguments) \
    type __real_##name parameters; \
    type __wrap_##name parameters; \
    type __wrap_##name parameters { \
        note(lane, which); \
        type answer = __real_##name arguments; \
        note(lane, which); \
        return answer; \
    }

HELD(GET, int32_t, kl_get, (kl_lane *lane, const uint8_t *key, size_t n, uint64_t moment, uint8_t *into, size_t room, kl_hit *hit),
     (lane, key, n, moment, into, room, hit))
HELD(1, int32_t, kl_get_or_lease, (kl_lane *lane, const uint8_t *key, size_t n, uint64_t moment, uint8_t *into, size_t room,
     kl_hit *hit, kl_leased *lease), (lane, key, n, moment, into, room, hit, lease))
HELD(LEASE, int32_t, kl_lease, (kl_lane *lane, const uint8_t *key, size_t n, kl_leased *lease), (lane, key, n, lease))
HELD(3, int32_t, kl_put, (kl_lane *lane, const uint8_t *key, size_t n, const uint8_t *value, size_t length, uint64_t expires,
     uint32_t *is_due), (lane, key, n, value, length, expires, is_due))
HELD(4, int32_t, kl_put_or_remove, (kl_lane *lane, const uint8_t *key, size_t n, const uint8_t *value, size_t length,
     uint64_t expires, uint32_t *is_due), (lane, key, n, value, length, expires, is_due))
HELD(5, int32_t, kl_fill, (kl_lane *lane, const kl_leased *lease, const uint8_t *key, size_t n, const uint8_t *value, size_t length,
     uint64_t expires, uint32_t *is_due), (lane, lease, key, n, value, length, expires, is_due))
HELD(6, int32_t, kl_remove, (kl_lane *lane, const uint8_t *key, size_t n), (lane, key, n))

void __real_kl_upkeep_step(kl_lane *lane, kl_step *to);
void __wrap_kl_upkeep_step(kl_lane *lane, kl_step *to);
void __wrap_kl_upkeep_step(kl_lane *lane, kl_step *to) {
    note(lane, 7);
    __real_kl_upkeep_step(lane, to);
    note(lane, 7);
    if (to->did != KL_NOTHING_WAS_DUE && step_count < STEPS_MAX) stepped[step_count++] = lane;
}

void __real_kl_count(kl_lane *lane, kl_counters *to);
void __wrap_kl_count(kl_lane *lane, kl_counters *to);
void __wrap_kl_count(kl_lane *lane, kl_counters *to) {
    note(lane, 8);
    __real_kl_count(lane, to);
    note(lane, 8);
}

void __real_hand_over(kangaroo_cache *cache, uint32_t number);
void __wrap_hand_over(kangaroo_cache *cache, uint32_t number);
void __wrap_hand_over(kangaroo_cache *cache, uint32_t number) {
    note_lock(&cache->lanes[number].lock, 9);
    __real_hand_over(cache, number);
    note_lock(&cache->lanes[number].lock, 9);
}

/* ------------------------------------------------------------------------------------------------------------------- tests */

/* Makes a call of each kind on a key. */
static void call_all(kangaroo_cache *cache, uint32_t key) {
    char value[200] = {0};
    kangaroo_lease lease;
    size_t n = sizeof key;
    (void)!kangaroo_get(cache, &key, n, 0, value, sizeof value, NULL);
    (void)!kangaroo_get_and_lease(cache, &key, n, 0, value, sizeof value, NULL, &lease);
    expect_status(kangaroo_fill(cache, &lease, &key, n, value, sizeof value, KANGAROO_NEVER), KANGAROO_OK, "a fill");
    expect_status(kangaroo_put(cache, &key, n, value, sizeof value, KANGAROO_NEVER), KANGAROO_OK, "a put");
    expect_status(kangaroo_remove(cache, &key, n), KANGAROO_OK, "a removal");
    expect_status(kangaroo_get_or_lease(cache, &key, n, 0, value, sizeof value, NULL, &lease), KANGAROO_ABSENT, "a miss");
    expect_status(kangaroo_put_or_remove(cache, &key, n, value, sizeof value, KANGAROO_NEVER), KANGAROO_OK, "or remove");
}

static void shows_locks(const char *folder) {
    kangaroo_counters counters;
    kangaroo_cache *cache = open_lanes_of(folder, LANES, 1);
    long all = 0;
    for (uint32_t key = 0; key < KEYS; key++) call_all(cache, key);
    for (int i = 0; i < 20; i++) {
        expect_status(kangaroo_upkeep(cache, 2, NULL), KANGAROO_OK, "upkeep");
        expect_status(kangaroo_counters_read(cache, &counters, sizeof counters), KANGAROO_OK, "counters");
    }
    close_cache(cache);
    for (int i = 0; i < CALLS; i++) {
        expect(made[i] > 0, names[i]);
        all += made[i];
    }
    show("%ld looks at the lock of a lane before and after each of %d calls of it: it was held", all, CALLS);
}

/* While all lanes are due, calls of one step each come to each lane once, and then again. */
static void shows_rounds(const char *folder) {
    kangaroo_cache *cache = open_lanes_of(folder, LANES, 0);
    char value[200] = {0};
    for (uint32_t key = 0; key < 6000; key++)
        expect_status(kangaroo_put(cache, &key, sizeof key, value, sizeof value, KANGAROO_NEVER), KANGAROO_OK, "a put");
    step_count = 0;
    for (int i = 0; i < 2 * LANES; i++) expect_status(kangaroo_upkeep(cache, 1, NULL), KANGAROO_OK, "a step");
    expect(step_count == 2 * LANES, "a step by each call");
    for (int i = 0; i < LANES; i++) {
        for (int j = 0; j < i; j++) expect(stepped[i] != stepped[j], "calls of one step go round the lanes");
        expect(stepped[i] == stepped[i + LANES], "and come to each again in its turn");
    }
    close_cache(cache);
    show("%d calls of one step each, while %d lanes are due: they go round", 2 * LANES, LANES);
}

int main(void) {
    char folder[PATH_BYTES];
    make_folder(folder);
    shows_locks(folder);
    shows_rounds(folder);
    remove_folder(folder);
    return 0;
}
