/* Objects go from memory to the log and to the sets, by upkeep that the caller does, or by threads: each hit in each
 * tier is the value that was put, with its expiry. */
#include "test.h"

enum { KEYS = 8000, SIZE = 150 };

static void value_of(uint32_t key, uint32_t version, unsigned char to[SIZE]) {
    for (uint32_t i = 0; i < SIZE; i++) to[i] = (unsigned char)(key * 31 + version * 17 + i);
}

/* Every second key expires, each at a moment of its own. */
static uint64_t expiry_of(uint32_t key) {
    return key % 2 == 0 ? KANGAROO_NEVER : 1000 + key;
}

static void put(kangaroo_cache *cache, uint32_t key, uint32_t version) {
    unsigned char value[SIZE];
    value_of(key, version, value);
    expect_status(kangaroo_put(cache, &key, sizeof key, value, SIZE, expiry_of(key)), KANGAROO_OK, "a put");
}

/* Gets all keys; returns how many were hit in each tier. */
static void get_all(kangaroo_cache *cache, uint32_t version, long hits[4]) {
    unsigned char value[SIZE], wanted[SIZE];
    kangaroo_hit hit;
    memset(hits, 0, 4 * sizeof *hits);
    for (uint32_t key = 0; key < KEYS; key++) {
        kangaroo_status status = kangaroo_get(cache, &key, sizeof key, 0, value, SIZE, &hit);
        value_of(key, version, wanted);
        expect(status == KANGAROO_ABSENT || status == KANGAROO_OK, "a hit or absent");
        if (status == KANGAROO_OK) expect(hit.length == SIZE && memcmp(value, wanted, SIZE) == 0, "the value");
        expect(hit.expires == (status == KANGAROO_OK ? expiry_of(key) : 0), "when it expires");
        hits[status == KANGAROO_OK ? hit.tier : 0]++;
    }
}

static void shows_upkeep_by_the_caller(const char *folder) {
    kangaroo_options options = small_options();
    long hits[4];
    uint32_t taken = 7, steps = 0;
    options.upkeep_threads = 0;
    options.sets = 255;
    kangaroo_cache *cache = open_with(&options, folder);
    expect_status(kangaroo_upkeep(cache, 10, &taken), KANGAROO_OK, "upkeep of an empty cache");
    expect(taken == 0, "nothing is due");
    for (uint32_t key = 0; key < KEYS; key++) {
        put(cache, key, 1);
        expect_status(kangaroo_upkeep(cache, 3, &taken), KANGAROO_OK, "upkeep");
        expect(taken <= 3, "no more steps than were asked for");
        steps += taken;
    }
    expect_status(kangaroo_upkeep(cache, UINT32_MAX, &taken), KANGAROO_OK, "all that is due");
    expect_status(kangaroo_upkeep(cache, 1, &taken), KANGAROO_OK, "again");
    expect(taken == 0, "no more is due");
    expect_status(kangaroo_upkeep(cache, 0, NULL), KANGAROO_OK, "no steps");
    get_all(cache, 1, hits);
    show("upkeep by the caller, %u steps: hits in memory %ld, log %ld, set %ld; absent %ld", steps, hits[1], hits[2],
         hits[3], hits[0]);
    expect(hits[1] > 0 && hits[2] > 0 && hits[3] > 0, "hits in each tier");
    for (uint32_t key = 0; key < KEYS; key += 2) put(cache, key, 1);
    for (uint32_t key = 0; key < KEYS; key++)
        expect_status(kangaroo_remove(cache, &key, sizeof key), KANGAROO_OK, "a removal");
    get_all(cache, 1, hits);
    expect(hits[0] == KEYS, "what was removed is gone from each tier");
    close_cache(cache);
}

static void shows_puts_alone(const char *folder) {
    kangaroo_options options = small_options();
    kangaroo_counters counters;
    long hits[4];
    options.upkeep_threads = 0;
    options.sets = 255;
    kangaroo_cache *cache = open_with(&options, folder);
    for (uint32_t version = 1; version <= 2; version++)
        for (uint32_t key = 0; key < KEYS; key++) put(cache, key, version);
    get_all(cache, 2, hits);
    kangaroo_counters_read(cache, &counters, sizeof counters);
    show("nobody's upkeep, %lu steps by puts: hits in memory %ld, log %ld, set %ld; absent %ld", counters.put_steps,
         hits[1], hits[2], hits[3], hits[0]);
    expect(hits[1] > 0 && hits[2] + hits[3] > 0, "a cache that nobody tends still serves");
    close_cache(cache);
}

static void shows_threads(const char *folder, uint32_t threads) {
    kangaroo_options options = small_options();
    kangaroo_counters counters;
    long hits[4];
    uint32_t taken = 1;
    options.upkeep_threads = threads;
    options.sets = 255;
    kangaroo_cache *cache = open_with(&options, folder);
    for (uint32_t version = 1; version <= 3; version++)
        for (uint32_t key = 0; key < KEYS; key++) put(cache, key, version);
    for (int i = 0; i < 5000 && taken != 0; i++) {
        usleep(1000);
        expect_status(kangaroo_upkeep(cache, 1, &taken), KANGAROO_OK, "upkeep beside threads");
    }
    expect(taken == 0, "the threads come to an end");
    get_all(cache, 3, hits);
    kangaroo_counters_read(cache, &counters, sizeof counters);
    show("%u threads, %lu steps: hits in memory %ld, log %ld, set %ld; absent %ld", threads, counters.upkeep_steps,
         hits[1], hits[2], hits[3], hits[0]);
    expect(hits[1] > 0 && hits[2] > 0 && hits[3] > 0, "hits in each tier");
    close_cache(cache);
}

int main(void) {
    char folder[PATH_BYTES];
    make_folder(folder);
    shows_upkeep_by_the_caller(folder);
    shows_puts_alone(folder);
    shows_threads(folder, 1);
    shows_threads(folder, 4);
    remove_folder(folder);
    return 0;
}
