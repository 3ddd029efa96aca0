/* Four threads on one cache over files. Each key is written by one thread alone, with rising versions, and any thread
 * gets it. A hit is right where its version is no older than what was done before the get began, no newer than what had
 * begun when it ended, and none that removed the key. Meanwhile a fifth thread reads the counters, of which none falls, and does
 * steps of upkeep. Own memory stays flat. */
#include "test.h"
#include <pthread.h>
#include <stdatomic.h>

enum { THREADS = 4, KEYS = 20000, SIZE = 100, PUTS = 28, REMOVALS = 2 };

static kangaroo_cache *cache;
static atomic_uint_least64_t begun[KEYS], done[KEYS]; /* the version, twice, and 1 where it is a removal */
static atomic_long wrong, refused, hits[4], misses, readings;
static atomic_bool is_over;
static long operations;

typedef struct value {
    uint32_t key;
    uint32_t check;
    uint64_t version;
    unsigned char rest[SIZE - 16];
} value;

static value value_of(uint32_t key, uint64_t version) {
    value made = {.key = key, .check = key ^ (uint32_t)version, .version = version};
    memset(made.rest, (int)(version & 255), sizeof made.rest);
    return made;
}

static size_t spell(uint32_t key, char to[32]) {
    return (size_t)snprintf(to, 32, "object:%08u", (unsigned)key);
}

static void write_key(uint32_t key, bool is_removal) {
    char name[32];
    size_t n = spell(key, name);
    uint64_t version = (atomic_load(&begun[key]) / 2 + 1) * 2 + is_removal;
    value made = value_of(key, version);
    atomic_store(&begun[key], version);
    kangaroo_status status = is_removal ? kangaroo_remove(cache, name, n)
                                        : kangaroo_put(cache, name, n, &made, sizeof made, KANGAROO_NEVER);
    if (status == KANGAROO_OK) atomic_store(&done[key], version);
    else refused++;
}

static bool is_right(uint32_t key, const kangaroo_hit *hit, const value *found, uint64_t least) {
    uint64_t most = atomic_load(&begun[key]);
    value made = value_of(key, found->version);
    return hit->length == sizeof *found && memcmp(&made, found, sizeof made) == 0 && found->version >= least &&
           found->version <= most && found->version % 2 == 0;
}

static void get_key(uint32_t key) {
    char name[32];
    value found;
    kangaroo_hit hit;
    size_t n = spell(key, name);
    uint64_t least = atomic_load(&done[key]);
    kangaroo_status status = kangaroo_get(cache, name, n, 0, &found, sizeof found, &hit);
    if (status == KANGAROO_ABSENT) misses++;
    else if (status != KANGAROO_OK) refused++;
    else if (!is_right(key, &hit, &found, least)) wrong++;
    if (status == KANGAROO_OK) hits[hit.tier]++;
}

static void *call(void *number) {
    uint32_t me = (uint32_t)(uintptr_t)number, state = me * 2654435761u + 12345;
    for (long i = 0; i < operations / THREADS; i++) {
        uint32_t what = next_random(&state) % 100;
        double u = next_random(&state) / 4294967296.0;
        uint32_t key = (uint32_t)(KEYS * u * u * u); /* low keys are asked more often */
        if (what >= PUTS + REMOVALS) get_key(key);
        else write_key(key - key % THREADS + me, what >= PUTS);
    }
    return NULL;
}

/* What calls of before added to the counters is in them later, too. */
static void *count(void *nothing) {
    kangaroo_counters before = {0}, now;
    while (!atomic_load(&is_over)) {
        expect_status(kangaroo_counters_read(cache, &now, sizeof now), KANGAROO_OK, "counters");
        expect(now.puts >= before.puts && now.removes >= before.removes && now.memory_hits >= before.memory_hits &&
                   now.logged >= before.logged && now.upkeep_steps >= before.upkeep_steps, "no counter falls");
        expect_status(kangaroo_upkeep(cache, 1, NULL), KANGAROO_OK, "a step of upkeep");
        before = now;
        readings++;
        usleep(200);
    }
    return nothing;
}

static void run_threads(void) {
    pthread_t threads[THREADS], counts;
    atomic_store(&is_over, false);
    expect(pthread_create(&counts, NULL, count, NULL) == 0, "a thread");
    for (uintptr_t i = 0; i < THREADS; i++)
        expect(pthread_create(&threads[i], NULL, call, (void *)i) == 0, "a thread");
    for (int i = 0; i < THREADS; i++) pthread_join(threads[i], NULL);
    atomic_store(&is_over, true);
    pthread_join(counts, NULL);
}

int main(void) {
    char folder[PATH_BYTES];
    make_folder(folder);
    kangaroo_options options = small_options();
    options.memory_objects = 300;
    options.sets = 255;
    options.log_objects = 4000;
    options.segment_pages = 8;
    cache = open_with(&options, folder);
    operations = is_quick() ? 25000 : 250000;
    run_threads();
    long before = own_memory();
    operations = is_quick() ? 75000 : 750000;
    run_threads();
    long after = own_memory();
    kangaroo_counters counters;
    expect_status(kangaroo_counters_read(cache, &counters, sizeof counters), KANGAROO_OK, "counters");
    show("%ld operations: hits in memory %ld, log %ld, set %ld; absent %ld; refused %ld; wrong %ld",
         operations / 3 * 4, hits[1], hits[2], hits[3], misses, refused, wrong);
    show("pages of the log written %lu, of sets %lu, read %lu; steps by threads %lu, by puts %lu; log full %lu",
         counters.log_pages_written, counters.set_pages_written, counters.pages_read, counters.upkeep_steps,
         counters.put_steps, counters.log_full);
    show("objects brought back %lu, hits of their copies %lu; copies dropped %lu", counters.brought_back,
         counters.copy_hits, counters.pushed_copies);
    show("counters read %ld times beside them: none fell", readings);
    show("own memory %ld KiB behind a quarter, %ld at the end", before, after);
    expect(wrong == 0 && refused == 0, "no hit is wrong and no call refused");
    expect(hits[1] > 0 && hits[2] > 0 && hits[3] > 0, "hits in each tier");
    expect(counters.brought_back > 0 && counters.copy_hits > 0, "objects that came back");
    expect(is_quick() || is_sanitized() || after < before + 2048, "memory stays flat");
    close_cache(cache);
    remove_folder(folder);
    return 0;
}
