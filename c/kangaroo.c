/* The calls on an open cache: a lock round each lane, and what a C interface has to refuse. What a lane answers is the
 * proved part's (lane.h). */
#include "inside.h"
#include <stdio.h>
#include <stdlib.h>
#include <string.h>

/* A key as the lane gets it: copied, so that it may lie in the buffer, or change, without harm. */
typedef struct key_copy {
    uint8_t bytes[KANGAROO_KEY_MAX];
    size_t length;
    kl_place place;
} key_copy;

/* ------------------------------------------------------------------------------------------------ what is refused */

static kangaroo_status test_cache(const kangaroo_cache *cache) {
    if (cache == NULL) return KANGAROO_WRONG_ARGUMENT;
    return *cache->own_page == 0 ? KANGAROO_FORKED : KANGAROO_OK;
}

static bool are_bytes(const void *at, size_t length) {
    return at != NULL || length == 0;
}

/* Whether two stretches of memory have a byte in common. */
static bool overlap(const void *a, size_t a_bytes, const void *b, size_t b_bytes) {
    uintptr_t from = (uintptr_t)a, other = (uintptr_t)b;
    if (a_bytes == 0 || b_bytes == 0) return false;
    return from <= other ? other - from < a_bytes : from - other < b_bytes;
}

/* Tests the cache and the key, and finds the key's lane. */
static kangaroo_status take_key(const kangaroo_cache *cache, const void *key, size_t key_length, key_copy *to) {
    kangaroo_status status = test_cache(cache);
    if (status != KANGAROO_OK) return status;
    if (!are_bytes(key, key_length)) return KANGAROO_WRONG_ARGUMENT;
    if (key_length == 0 || key_length > KANGAROO_KEY_MAX) return KANGAROO_WRONG_KEY;
    memcpy(to->bytes, key, key_length);
    to->length = key_length;
    kl_place_of(&cache->seed, cache->lane_count, to->bytes, to->length, &to->place);
    return KANGAROO_OK;
}

/* A value as the lane gets it. Of one that is too long no more is shown than makes it so. */
typedef struct value_bytes {
    const uint8_t *at;
    size_t length;
} value_bytes;

static value_bytes take_value(const void *value, size_t length) {
    static const uint8_t nothing;
    value_bytes taken = {length == 0 ? &nothing : value, length};
    if (length > KANGAROO_VALUE_MAX) taken.length = KANGAROO_VALUE_MAX + 1;
    return taken;
}

/* --------------------------------------------------------------------------------------------- a hold of a lane */

/* A lane that is held, with cancellation disabled: a thread that ended here would leave the lane locked for ever. */
typedef struct hold {
    guarded_lane *lane;
    int cancel_state;
} hold;

static hold hold_lane(kangaroo_cache *cache, uint32_t number) {
    hold of = {.lane = &cache->lanes[number]};
    pthread_setcancelstate(PTHREAD_CANCEL_DISABLE, &of.cancel_state);
    pthread_mutex_lock(&of.lane->lock);
    return of;
}

void end_by_fault(const char *fault) {
    fprintf(stderr, "libkangaroo: %s; the program ends, since it may not go on\n", fault);
    abort();
}

/* Counts the answers that a lane does not count itself, and lets go of it. A lane that has its calls by mistake is never gone on
 * with: a key that is in two lanes has two values. */
static kangaroo_status release(hold *of, int32_t answer) {
    answer_counts *counts = &of->lane->answers;
    if (answer == KL_OTHER_LANE) end_by_fault("a call was made on another lane than its key's");
    counts->short_buffers += answer == KANGAROO_SHORT_BUFFER;
    counts->put_too_large += answer == KANGAROO_TOO_LARGE;
    counts->put_no_memory += answer == KANGAROO_NO_MEMORY;
    pthread_mutex_unlock(&of->lane->lock);
    pthread_setcancelstate(of->cancel_state, NULL);
    return (kangaroo_status)answer;
}

/* -------------------------------------------------------------------------------------------------------------- get */

/* What a get is given, beside its key. */
typedef struct get_call {
    uint64_t moment;
    uint8_t *into;
    size_t into_length;
    uint8_t nothing; /* where the caller has no buffer */
} get_call;

static void take_buffer(get_call *call, void *buffer, size_t size) {
    call->into = size == 0 ? &call->nothing : buffer;
    call->into_length = size > KANGAROO_VALUE_MAX ? KANGAROO_VALUE_MAX : size;
}

static void write_hit(kangaroo_hit *to, const kl_hit *from) {
    if (to == NULL) return;
    *to = (kangaroo_hit){.length = (size_t)from->length, .expires = from->expires, .tier = from->tier};
}

static kangaroo_status get_held(kangaroo_cache *cache, const key_copy *key, const get_call *call, kl_hit *hit) {
    hold held = hold_lane(cache, key->place.lane);
    int32_t answer =
        kl_get(&held.lane->lane, key->bytes, key->length, call->moment, call->into, call->into_length, hit);
    return release(&held, answer);
}

kangaroo_status kangaroo_get(kangaroo_cache *cache, const void *key, size_t key_length, uint64_t moment, void *buffer,
                             size_t buffer_size, kangaroo_hit *hit) {
    key_copy copy;
    get_call call = {.moment = moment};
    kl_hit found = {0};
    if (hit != NULL && overlap(hit, sizeof *hit, buffer, buffer_size)) return KANGAROO_WRONG_ARGUMENT;
    kangaroo_status status = take_key(cache, key, key_length, &copy);
    if (status == KANGAROO_OK && !are_bytes(buffer, buffer_size)) status = KANGAROO_WRONG_ARGUMENT;
    if (status == KANGAROO_OK) {
        take_buffer(&call, buffer, buffer_size);
        status = get_held(cache, &copy, &call, &found);
    }
    write_hit(hit, &found);
    return status;
}

/* ----------------------------------------------------------------------------------------------------------- leases */

/* What the words of a lease are. */
enum { LEASE_CACHE, LEASE_WRITES, LEASE_HASH, LEASE_PLACE };

/* The place of a key in one word. */
static uint64_t place_of(const key_copy *key) {
    return (uint64_t)key->place.lane << 32 | key->place.word;
}

static kangaroo_lease lease_of(const kangaroo_cache *cache, const key_copy *key, const kl_leased *leased) {
    kangaroo_lease lease = {{0}};
    lease.opaque[LEASE_CACHE] = cache->number;
    lease.opaque[LEASE_WRITES] = leased->writes;
    lease.opaque[LEASE_HASH] = leased->hash;
    lease.opaque[LEASE_PLACE] = place_of(key);
    return lease;
}

/* What a lane is handed of a lease. */
static kl_leased leased_by(const kangaroo_lease *lease) {
    return (kl_leased){
        .writes = lease->opaque[LEASE_WRITES],
        .hash = lease->opaque[LEASE_HASH],
        .lane = (uint32_t)(lease->opaque[LEASE_PLACE] >> 32),
    };
}

/* Whether a lease is of this cache, and of this key or one in the same place. What is not is counted apart. The lane
 * believes nothing of it: it refuses what is no lease of its key. */
static bool is_lease_of(const kangaroo_lease *lease, const kangaroo_cache *cache, const key_copy *key) {
    return lease->opaque[LEASE_CACHE] == cache->number && lease->opaque[LEASE_PLACE] == place_of(key);
}

static bool is_no_lease(const kangaroo_lease *lease) {
    static const kangaroo_lease none;
    return memcmp(lease, &none, sizeof none) == 0;
}

static bool is_miss(kangaroo_status status) {
    return status == KANGAROO_ABSENT || status == KANGAROO_EXPIRED || status == KANGAROO_UNREADABLE ||
           status == KANGAROO_DAMAGED;
}

/* Looks a key up in a hold of its lane, and leases it in the same hold: at a miss, or at a hit too. */
typedef kangaroo_status leasing(kangaroo_cache *cache, const key_copy *key, const get_call *call, kl_hit *hit,
                                kangaroo_lease *lease);

static kangaroo_status get_or_lease_held(kangaroo_cache *cache, const key_copy *key, const get_call *call, kl_hit *hit,
                                         kangaroo_lease *lease) {
    kl_leased leased = {0};
    hold held = hold_lane(cache, key->place.lane);
    int32_t answer = kl_get_or_lease(&held.lane->lane, key->bytes, key->length, call->moment, call->into,
                                     call->into_length, hit, &leased);
    kangaroo_status status = release(&held, answer);
    if (is_miss(status)) *lease = lease_of(cache, key, &leased);
    return status;
}

static kangaroo_status get_and_lease_held(kangaroo_cache *cache, const key_copy *key, const get_call *call, kl_hit *hit,
                                          kangaroo_lease *lease) {
    kl_leased leased = {0};
    hold held = hold_lane(cache, key->place.lane);
    int32_t answer =
        kl_get(&held.lane->lane, key->bytes, key->length, call->moment, call->into, call->into_length, hit);
    int32_t given = kl_lease(&held.lane->lane, key->bytes, key->length, &leased);
    kangaroo_status status = release(&held, given == KL_OTHER_LANE ? given : answer);
    if (given == KANGAROO_OK) *lease = lease_of(cache, key, &leased);
    return status;
}

/* Whether what a get is to write lies apart. */
static bool lie_apart(const void *buffer, size_t buffer_size, const kangaroo_hit *hit, const kangaroo_lease *lease) {
    if (overlap(lease, sizeof *lease, buffer, buffer_size)) return false;
    if (hit == NULL) return true;
    return !overlap(hit, sizeof *hit, buffer, buffer_size) && !overlap(hit, sizeof *hit, lease, sizeof *lease);
}

static kangaroo_status get_leasing(leasing *of, kangaroo_cache *cache, const void *key, size_t key_length,
                                   uint64_t moment, void *buffer, size_t buffer_size, kangaroo_hit *hit,
                                   kangaroo_lease *lease) {
    key_copy copy;
    get_call call = {.moment = moment};
    kl_hit found = {0};
    kangaroo_lease given = {{0}};
    if (lease == NULL || !lie_apart(buffer, buffer_size, hit, lease)) return KANGAROO_WRONG_ARGUMENT;
    kangaroo_status status = take_key(cache, key, key_length, &copy);
    if (status == KANGAROO_OK && !are_bytes(buffer, buffer_size)) status = KANGAROO_WRONG_ARGUMENT;
    if (status == KANGAROO_OK) {
        take_buffer(&call, buffer, buffer_size);
        status = of(cache, &copy, &call, &found, &given);
    }
    write_hit(hit, &found);
    *lease = given;
    return status;
}

kangaroo_status kangaroo_get_or_lease(kangaroo_cache *cache, const void *key, size_t key_length, uint64_t moment,
                                      void *buffer, size_t buffer_size, kangaroo_hit *hit, kangaroo_lease *lease) {
    return get_leasing(get_or_lease_held, cache, key, key_length, moment, buffer, buffer_size, hit, lease);
}

kangaroo_status kangaroo_get_and_lease(kangaroo_cache *cache, const void *key, size_t key_length, uint64_t moment,
                                       void *buffer, size_t buffer_size, kangaroo_hit *hit, kangaroo_lease *lease) {
    return get_leasing(get_and_lease_held, cache, key, key_length, moment, buffer, buffer_size, hit, lease);
}

kangaroo_status kangaroo_lease_drop(kangaroo_cache *cache, kangaroo_lease *lease) {
    kangaroo_status status = test_cache(cache);
    if (status != KANGAROO_OK) return status;
    if (lease == NULL) return KANGAROO_WRONG_ARGUMENT;
    if (!is_no_lease(lease)) atomic_fetch_add_explicit(&cache->leases_dropped, 1, memory_order_relaxed);
    *lease = (kangaroo_lease){{0}};
    return KANGAROO_OK;
}

/* --------------------------------------------------------------------------------------------------- put and remove */

typedef int32_t put_of_lane(kl_lane *, const uint8_t *, size_t, const uint8_t *, size_t, uint64_t, uint32_t *);

static kangaroo_status put_by(put_of_lane *put, kangaroo_cache *cache, const void *key, size_t key_length,
                              const void *value, size_t value_length, uint64_t expires) {
    key_copy copy;
    kangaroo_status status = take_key(cache, key, key_length, &copy);
    if (status != KANGAROO_OK) return status;
    if (!are_bytes(value, value_length)) return KANGAROO_WRONG_ARGUMENT;
    value_bytes taken = take_value(value, value_length);
    uint32_t is_due = 0;
    hold held = hold_lane(cache, copy.place.lane);
    int32_t answer = put(&held.lane->lane, copy.bytes, copy.length, taken.at, taken.length, expires, &is_due);
    if (is_due != 0) hand_over(cache, copy.place.lane);
    return release(&held, answer);
}

kangaroo_status kangaroo_put(kangaroo_cache *cache, const void *key, size_t key_length, const void *value,
                             size_t value_length, uint64_t expires) {
    return put_by(kl_put, cache, key, key_length, value, value_length, expires);
}

kangaroo_status kangaroo_put_or_remove(kangaroo_cache *cache, const void *key, size_t key_length, const void *value,
                                       size_t value_length, uint64_t expires) {
    return put_by(kl_put_or_remove, cache, key, key_length, value, value_length, expires);
}

/* A lease that is not this key's is stale before the lane is asked. */
static kangaroo_status refuse_lease(kangaroo_cache *cache, kangaroo_lease *lease) {
    atomic_fetch_add_explicit(&cache->fills_wrong_lease, 1, memory_order_relaxed);
    *lease = (kangaroo_lease){{0}};
    return KANGAROO_STALE;
}

kangaroo_status kangaroo_fill(kangaroo_cache *cache, kangaroo_lease *lease, const void *key, size_t key_length,
                              const void *value, size_t value_length, uint64_t expires) {
    key_copy copy;
    kangaroo_status status = take_key(cache, key, key_length, &copy);
    if (status != KANGAROO_OK) return status;
    if (lease == NULL || !are_bytes(value, value_length)) return KANGAROO_WRONG_ARGUMENT;
    if (!is_lease_of(lease, cache, &copy)) return refuse_lease(cache, lease);
    value_bytes taken = take_value(value, value_length);
    kl_leased leased = leased_by(lease);
    uint32_t is_due = 0;
    hold held = hold_lane(cache, copy.place.lane);
    int32_t answer = kl_fill(&held.lane->lane, &leased, copy.bytes, copy.length, taken.at, taken.length, expires, &is_due);
    if (is_due != 0) hand_over(cache, copy.place.lane);
    status = release(&held, answer);
    if (status >= 0) *lease = (kangaroo_lease){{0}};
    return status;
}

kangaroo_status kangaroo_remove(kangaroo_cache *cache, const void *key, size_t key_length) {
    key_copy copy;
    kangaroo_status status = take_key(cache, key, key_length, &copy);
    if (status != KANGAROO_OK) return status;
    hold held = hold_lane(cache, copy.place.lane);
    return release(&held, kl_remove(&held.lane->lane, copy.bytes, copy.length));
}

/* ---------------------------------------------------------------------------------------------- upkeep and counters */

static kl_step step_held(kangaroo_cache *cache, uint32_t number) {
    kl_step step = {0};
    hold held = hold_lane(cache, number);
    kl_upkeep_step(&held.lane->lane, &step);
    release(&held, KANGAROO_OK);
    return step;
}

/* Goes round the lanes until enough steps are done, or none is due in all lanes one after another. */
static kangaroo_status go_round(kangaroo_cache *cache, uint32_t steps, uint32_t *taken) {
    uint32_t idle = 0;
    while (*taken < steps && idle < cache->lane_count) {
        uint32_t next = atomic_fetch_add_explicit(&cache->next_upkeep, 1, memory_order_relaxed);
        kl_step step = step_held(cache, next % cache->lane_count);
        if (step.did == KL_MEMORY_WAS_REFUSED) return KANGAROO_NO_MEMORY;
        idle = step.did == KL_NOTHING_WAS_DUE ? idle + 1 : 0;
        *taken += step.did != KL_NOTHING_WAS_DUE;
    }
    return KANGAROO_OK;
}

kangaroo_status kangaroo_upkeep(kangaroo_cache *cache, uint32_t steps, uint32_t *taken) {
    uint32_t done = 0;
    kangaroo_status status = test_cache(cache);
    if (status == KANGAROO_OK) status = go_round(cache, steps, &done);
    if (taken != NULL) *taken = done;
    return status;
}

/* What a lane counts, and what is counted of it here, at one moment. */
static kl_counters count_held(kangaroo_cache *cache, uint32_t number, answer_counts *answers) {
    kl_counters counted;
    memset(&counted, 0, sizeof counted);
    hold held = hold_lane(cache, number);
    kl_count(&held.lane->lane, &counted);
    *answers = held.lane->answers;
    release(&held, KANGAROO_OK);
    return counted;
}

/* The counters of a cache begin with those of a lane, in the same order, all but three (layout.c, names.c). The others are
 * counted here. */
static void add_lane(kangaroo_cache *cache, uint32_t number, kangaroo_counters *to) {
    answer_counts answers;
    uint64_t sums[KL_FIRST_COUNTERS];
    kl_counters counted = count_held(cache, number, &answers);
    memcpy(sums, to, sizeof sums);
    for (size_t i = 0; i < KL_FIRST_COUNTERS; i++) sums[i] += counted.numbers[i];
    memcpy(to, sums, sizeof sums);
    to->copy_hits += counted.numbers[KL_FIRST_COUNTERS];
    to->brought_back += counted.numbers[KL_FIRST_COUNTERS + 1];
    to->pushed_copies += counted.numbers[KL_FIRST_COUNTERS + 2];
    to->short_buffers += answers.short_buffers;
    to->put_too_large += answers.put_too_large;
    to->put_no_memory += answers.put_no_memory;
}

kangaroo_status kangaroo_counters_read(kangaroo_cache *cache, kangaroo_counters *counters, size_t size) {
    kangaroo_counters all = {0};
    kangaroo_status status = test_cache(cache);
    if (status != KANGAROO_OK) return status;
    if (counters == NULL || size < sizeof(uint64_t) || size > STRUCT_BYTES_MAX) return KANGAROO_WRONG_ARGUMENT;
    for (uint32_t i = 0; i < cache->lane_count; i++) add_lane(cache, i, &all);
    all.leases_dropped = atomic_load_explicit(&cache->leases_dropped, memory_order_relaxed);
    all.fills_wrong_lease = atomic_load_explicit(&cache->fills_wrong_lease, memory_order_relaxed);
    write_struct(counters, size, &all, sizeof all);
    return KANGAROO_OK;
}

/* ------------------------------------------------------------------------------------------------ check of a trace */

static outcome check_trace(const uint8_t *trace, size_t length, char line[KANGAROO_LINE_BYTES]) {
    kl_seed seed;
    size_t line_length = 0;
    outcome drawn = draw_random(&seed, sizeof seed);
    if (!is_done(drawn)) return drawn;
    int32_t answer = kl_check(&seed, trace, length, (uint8_t *)line, KANGAROO_LINE_BYTES - 1, &line_length);
    line[answer < 0 || line_length >= KANGAROO_LINE_BYTES ? 0 : line_length] = 0;
    return outcome_of((kangaroo_status)answer);
}

kangaroo_status kangaroo_check(const void *trace, size_t trace_length, char *line, size_t line_size) {
    static const uint8_t nothing;
    char said[KANGAROO_LINE_BYTES] = {0};
    int before;
    if (!are_bytes(trace, trace_length) || !are_bytes(line, line_size)) return KANGAROO_WRONG_ARGUMENT;
    if (line_size != 0 && line_size < KANGAROO_LINE_BYTES) return KANGAROO_WRONG_ARGUMENT;
    if (overlap(trace, trace_length, line, line_size)) return KANGAROO_WRONG_ARGUMENT;
    pthread_setcancelstate(PTHREAD_CANCEL_DISABLE, &before);
    outcome checked = check_trace(trace_length == 0 ? &nothing : trace, trace_length, said);
    if (line_size != 0) memcpy(line, said, sizeof said);
    pthread_setcancelstate(before, NULL);
    return status_for_caller(checked);
}
