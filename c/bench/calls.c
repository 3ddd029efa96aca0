/* What single calls take. calls.h says what is measured. */
#include "calls.h"
#include "figures.h"
#include "opening.h"
#include "words.h"
#include <inttypes.h>
#include <stdlib.h>
#include <string.h>

enum { KEY_BYTES = KEY_BYTES_LEAST, VALUE_BYTES = 100, ROUNDS = 5, TIERS = 4, THREADS_MOST = 4 };

typedef struct subject {
    kangaroo_cache *cache;
    uint64_t keys, operations;
} subject;

static void stop_unless_ok(kangaroo_status status, const char *what) {
    if (status != KANGAROO_OK) refuse_system("the cache refused %s: %s", what, kangaroo_strerror(status));
}

static double seconds_since(uint64_t moment) { return (double)(now_ns() - moment) / 1e9; }

static kangaroo_status get(const subject *of, uint64_t number, kangaroo_hit *hit) {
    char key[KEY_BYTES], value[KANGAROO_VALUE_MAX];
    spell_key(number, KEY_BYTES, key);
    return kangaroo_get(of->cache, key, KEY_BYTES, 0, value, sizeof value, hit);
}

static void put(const subject *of, uint64_t number) {
    char key[KEY_BYTES], value[VALUE_BYTES];
    spell_key(number, KEY_BYTES, key);
    memset(value, (int)(number & 255), sizeof value);
    stop_unless_ok(kangaroo_put(of->cache, key, KEY_BYTES, value, sizeof value, KANGAROO_NEVER), "a put");
}

static void remove_key(const subject *of, uint64_t number) {
    char key[KEY_BYTES];
    spell_key(number, KEY_BYTES, key);
    stop_unless_ok(kangaroo_remove(of->cache, key, KEY_BYTES), "a removal");
}

/* ------------------------------------------------------------------------------------------------------- one thread */

/* Numbers of keys whose value is in one tier; in tier 0 those of no value. */
typedef struct key_list {
    uint64_t *numbers, count;
} key_list;

static void sort_keys(const subject *of, key_list lists[TIERS]) {
    kangaroo_hit hit;
    for (int i = 0; i < TIERS; i++) lists[i] = (key_list){take_memory(of->keys, sizeof(uint64_t)), 0};
    for (uint64_t key = 0; key < of->keys; key++) {
        key_list *list = &lists[get(of, key, &hit) == KANGAROO_OK ? hit.tier : 0];
        list->numbers[list->count++] = key;
    }
}

static int by_size(const void *a, const void *b) {
    double x = *(const double *)a, y = *(const double *)b;
    return (x > y) - (x < y);
}

/* The middle one of some rounds, in nanoseconds a get. */
static double time_gets(const subject *of, const key_list *list) {
    double rounds[ROUNDS];
    uint64_t calls = of->operations / 10;
    chance drawn = {12345};
    kangaroo_hit hit;
    for (int round = 0; round < ROUNDS; round++) {
        uint64_t from = now_ns();
        for (uint64_t i = 0; i < calls; i++) (void)get(of, list->numbers[next_below(&drawn, list->count)], &hit);
        rounds[round] = (double)(now_ns() - from) / (double)calls;
    }
    qsort(rounds, ROUNDS, sizeof rounds[0], by_size);
    return rounds[ROUNDS / 2];
}

static void bench_gets(const subject *of) {
    static const char *const names[TIERS] = {"of nothing", "in memory", "in the log", "in a set"};
    key_list lists[TIERS];
    sort_keys(of, lists);
    for (int i = 1; i <= TIERS; i++) {
        key_list *list = &lists[i % TIERS];
        if (i == TIERS) /* keys that were never put are not in the list */
            for (list->count = 0; list->count < of->keys; list->count++)
                list->numbers[list->count] = of->keys + list->count;
        if (list->count > 0)
            printf("get %-12s %8.0f ns   (%" PRIu64 " keys)\n", names[i % TIERS], time_gets(of, list), list->count);
        free(list->numbers);
    }
}

static void bench_puts(const subject *of) {
    uint64_t from = now_ns();
    for (uint64_t key = 0; key < of->keys; key++) put(of, key);
    printf("put              %8.0f ns   (%" PRIu64 " keys, with the upkeep that a put does itself)\n",
           (double)(now_ns() - from) / (double)of->keys, of->keys);
    uint32_t steps = 0;
    from = now_ns();
    stop_unless_ok(kangaroo_upkeep(of->cache, UINT32_MAX, &steps), "upkeep");
    printf("upkeep left      %8.1f ms   (%u steps)\n", seconds_since(from) * 1e3, steps);
}

static void bench_removals(const subject *of) {
    uint64_t calls = of->keys / 4, from = now_ns();
    for (uint64_t key = 0; key < calls; key++) remove_key(of, key);
    printf("removal          %8.0f ns   (%" PRIu64 " keys)\n", (double)(now_ns() - from) / (double)calls, calls);
}

/* ---------------------------------------------------------------------------------------------------------- threads */

typedef struct caller {
    const subject *of;
    chance drawn;
    uint32_t writes; /* of 100: puts, and removals beside them where there are puts */
    uint64_t calls;
} caller;

static void *call(void *given) {
    caller *me = given;
    kangaroo_hit hit;
    for (uint64_t i = 0; i < me->calls; i++) {
        uint64_t what = next_below(&me->drawn, 100);
        double share = next_share(&me->drawn);
        uint64_t number = (uint64_t)((double)me->of->keys * share * share); /* low keys are asked more often */
        if (what >= me->writes) (void)get(me->of, number, &hit);
        else if (what >= 2) put(me->of, number);
        else remove_key(me->of, number);
    }
    return NULL;
}

/* Operations a second. */
static double run_threads(const subject *of, uint32_t threads, uint32_t writes) {
    pthread_t running[THREADS_MOST];
    caller callers[THREADS_MOST];
    uint64_t from = now_ns();
    for (uint32_t i = 0; i < threads; i++) {
        callers[i] = (caller){of, {i + 1}, writes, of->operations / threads};
        int cause = pthread_create(&running[i], NULL, call, &callers[i]);
        if (cause != 0) refuse_system("thread %u of %u: %s", i + 1, threads, strerror(cause));
    }
    for (uint32_t i = 0; i < threads; i++) pthread_join(running[i], NULL);
    return (double)of->operations / seconds_since(from);
}

static void bench_threads(const subject *of, const char *name, uint32_t writes) {
    double alone = 0;
    for (uint32_t threads = 1; threads <= THREADS_MOST; threads *= 2) {
        double rate = run_threads(of, threads, writes);
        if (threads == 1) alone = rate;
        printf("%-14s %u threads: %10.0f a second, %.2f times one\n", name, threads, rate, rate / alone);
    }
}

static void bench_memory(subject *of) {
    kangaroo_counters counters;
    uint64_t before = own_memory_of(0);
    of->operations *= 10;
    run_threads(of, THREADS_MOST, 30);
    stop_unless_ok(kangaroo_counters_read(of->cache, &counters, sizeof counters), "its counters");
    printf("own memory       %" PRIu64 " KiB before and %" PRIu64 " after %" PRIu64 " operations\n", before / 1024,
           own_memory_of(0) / 1024, of->operations);
    for (size_t i = 0; kangaroo_counter_name(i) != NULL; i++)
        printf("  %-20s %" PRIu64 "\n", kangaroo_counter_name(i), ((const uint64_t *)&counters)[i]);
}

static kangaroo_cache *open_for_calls(bench_options of, uint32_t upkeep_threads) {
    of.cache.flash_bytes = (uint64_t)256 << 20;
    of.cache.memory_bytes = (uint64_t)32 << 20;
    of.cache.object_bytes = KEY_BYTES + VALUE_BYTES;
    of.cache.threads = THREADS_MOST;
    of.cache.upkeep_threads = upkeep_threads;
    kangaroo_sizes room = resolve_cache(&of.cache);
    kangaroo_cache *cache = open_cache(&of);
    printf("%" PRIu64 " MiB of files, %" PRIu64 " of memory: %" PRIu64 " objects in memory, %" PRIu64 " in the log, %" PRIu64
           " in sets; %u upkeep threads\n", room.file_bytes >> 20, room.memory_full >> 20, room.memory_objects,
           room.log_objects, room.set_objects, upkeep_threads);
    return cache;
}

void measure_calls(const bench_options *of) {
    subject measured = {open_for_calls(*of, 0), of->operations / 2, of->operations};
    bench_puts(&measured);
    bench_gets(&measured);
    bench_removals(&measured);
    end_cache(measured.cache);
    measured.cache = open_for_calls(*of, 1);
    for (uint64_t key = 0; key < measured.keys; key++) put(&measured, key);
    bench_threads(&measured, "gets", 0);
    bench_threads(&measured, "gets and puts", 30);
    bench_memory(&measured);
    end_cache(measured.cache);
}
