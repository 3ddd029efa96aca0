/* Leases: what ends one, whose it is, and that a removal during a read of the database leaves no old value. */
#include "test.h"
#include <pthread.h>
#include <stdatomic.h>
#include <sys/random.h>
#include <sys/syscall.h>

enum { ROWS = 16, READERS = 3, SEED_BYTES = 16 };

/* While this is so each cache that is opened has the same seed, and only its number tells its leases from those of others. */
static bool has_one_seed;

ssize_t getrandom(void *to, size_t length, unsigned flags) {
    static unsigned char drawn;
    if (!has_one_seed) return (ssize_t)syscall(SYS_getrandom, to, length, flags);
    memset(to, length == SEED_BYTES ? 1 : ++drawn, length);
    return (ssize_t)length;
}

static bool is_none(const kangaroo_lease *lease) {
    static const kangaroo_lease none;
    return memcmp(lease, &none, sizeof none) == 0;
}

static kangaroo_lease lease_of(kangaroo_cache *cache, const char *key) {
    kangaroo_lease lease;
    expect_status(kangaroo_get_or_lease(cache, key, strlen(key), 0, NULL, 0, NULL, &lease), KANGAROO_ABSENT, "a miss");
    expect(!is_none(&lease), "a lease at a miss");
    return lease;
}

static kangaroo_status fill(kangaroo_cache *cache, kangaroo_lease *lease, const char *key, const char *value) {
    return kangaroo_fill(cache, lease, key, strlen(key), value, strlen(value), KANGAROO_NEVER);
}

static void shows_a_fill(kangaroo_cache *cache) {
    kangaroo_lease first = lease_of(cache, "row"), second = lease_of(cache, "row"), copy = first, at_hit;
    char value[8];
    expect_status(fill(cache, &first, "row", "one"), KANGAROO_OK, "the first fill");
    expect(is_none(&first), "a lease that was filled is zeros");
    expect_status(fill(cache, &second, "row", "two"), KANGAROO_STALE, "the second fill");
    expect(is_none(&second), "a stale lease is zeros");
    expect_status(fill(cache, &copy, "row", "two"), KANGAROO_STALE, "a copy of a lease that was filled");
    expect(hits_text(cache, "row", "one"), "the first fill's value");
    memset(&at_hit, 7, sizeof at_hit);
    expect_status(kangaroo_get_or_lease(cache, "row", 3, 0, value, sizeof value, NULL, &at_hit), KANGAROO_OK, "a hit");
    expect(is_none(&at_hit), "a hit gives no lease");
    show("of several leases of a key the first fill is stored, the others are stale");
}

/* Swaps the value of a key for another, by the lease of a get that hits the one that is expected. */
static kangaroo_status swap(kangaroo_cache *cache, const char *key, const char *from, const char *to, bool is_written) {
    kangaroo_lease lease;
    kangaroo_hit hit;
    char value[8];
    kangaroo_status status =
        kangaroo_get_and_lease(cache, key, strlen(key), 0, value, sizeof value, &hit, &lease);
    expect(status == KANGAROO_OK && hit.length == strlen(from) && memcmp(value, from, hit.length) == 0, "what it has");
    expect(!is_none(&lease), "a lease at a hit");
    if (is_written) put_text(cache, key, "newer");
    return fill(cache, &lease, key, to);
}

static void shows_swaps(kangaroo_cache *cache) {
    kangaroo_lease lease, none = {{0}};
    char value[8];
    put_text(cache, "swapped", "one");
    expect_status(swap(cache, "swapped", "one", "two", false), KANGAROO_OK, "a swap");
    expect(hits_text(cache, "swapped", "two"), "its value");
    expect_status(swap(cache, "swapped", "two", "three", true), KANGAROO_STALE, "a swap behind a put");
    expect(hits_text(cache, "swapped", "newer"), "the put's value");
    expect_status(kangaroo_get_and_lease(cache, "free", 4, 0, NULL, 0, NULL, &lease), KANGAROO_ABSENT, "a miss");
    expect_status(fill(cache, &lease, "free", "one"), KANGAROO_OK, "a fill after a miss");
    expect_status(kangaroo_get_and_lease(cache, "free", 4, 0, value, 1, NULL, &lease), KANGAROO_SHORT_BUFFER, "short");
    expect_status(fill(cache, &lease, "free", "two"), KANGAROO_OK, "a fill after a hit that was not copied");
    memset(&lease, 7, sizeof lease);
    expect_status(kangaroo_get_and_lease(cache, "", 0, 0, NULL, 0, NULL, &lease), KANGAROO_WRONG_KEY, "no key");
    expect(memcmp(&lease, &none, sizeof none) == 0, "no lease of no key");
    expect_status(kangaroo_get_and_lease(cache, "a", 1, 0, NULL, 0, NULL, NULL), KANGAROO_WRONG_ARGUMENT, "no room");
    show("a get with a lease and a fill swap a value, unless the key was written between");
}

static void shows_what_ends_one(kangaroo_cache *cache) {
    kangaroo_lease lease = lease_of(cache, "put");
    put_text(cache, "put", "newer");
    expect_status(fill(cache, &lease, "put", "older"), KANGAROO_STALE, "a fill behind a put");
    expect(hits_text(cache, "put", "newer"), "the put's value");
    lease = lease_of(cache, "removed");
    expect_status(kangaroo_remove(cache, "removed", 7), KANGAROO_OK, "a removal during the read");
    expect_status(fill(cache, &lease, "removed", "older"), KANGAROO_STALE, "a fill behind a removal");
    expect(!hits_text(cache, "removed", "older"), "the old value does not come back");
    lease = lease_of(cache, "refused");
    expect_status(kangaroo_put(cache, "refused", 7, "", KANGAROO_VALUE_MAX + 1, 0), KANGAROO_TOO_LARGE, "a refused put");
    expect_status(fill(cache, &lease, "refused", "read"), KANGAROO_OK, "a fill behind a refused put");
    lease = lease_of(cache, "both");
    expect_status(kangaroo_put_or_remove(cache, "both", 4, "", KANGAROO_VALUE_MAX + 1, 0), KANGAROO_TOO_LARGE, "or removed");
    expect_status(fill(cache, &lease, "both", "older"), KANGAROO_STALE, "a fill behind put_or_remove");
    show("a put, a removal and a put_or_remove end a lease, a refused put does not");
}

static void shows_whose_it_is(kangaroo_cache *cache, kangaroo_cache *other) {
    kangaroo_lease lease = lease_of(cache, "mine"), copy = lease, zeros = {{0}};
    expect_status(fill(cache, &copy, "yours", "x"), KANGAROO_STALE, "a lease of another key");
    copy = lease;
    expect_status(fill(other, &copy, "mine", "x"), KANGAROO_STALE, "a lease of another cache");
    expect_status(fill(cache, &zeros, "mine", "x"), KANGAROO_STALE, "a lease of zeros");
    for (int word = 0; word < 4; word++) {
        copy = lease;
        copy.opaque[word] ^= (uint64_t)1 << 20;
        expect_status(fill(cache, &copy, "mine", "x"), KANGAROO_STALE, "a lease with another bit");
    }
    expect_status(fill(cache, &lease, "mine", "x"), KANGAROO_OK, "the lease itself");
    show("a lease of another key or cache, or made up, is stale");
}

static void shows_one_seed(const char *folder, const char *other_folder) {
    has_one_seed = true;
    kangaroo_cache *cache = open_small(folder), *other = open_small(other_folder);
    has_one_seed = false;
    kangaroo_lease lease = lease_of(cache, "mine"), copy = lease, others = lease_of(other, "mine");
    expect_status(fill(other, &copy, "mine", "x"), KANGAROO_STALE, "a lease of another cache with the same seed");
    expect_status(fill(other, &others, "mine", "x"), KANGAROO_OK, "its own lease");
    expect_status(fill(cache, &lease, "mine", "x"), KANGAROO_OK, "the lease where it was given");
    close_cache(cache);
    close_cache(other);
    show("a lease is of the cache that gave it, also where two caches place keys alike");
}

static void shows_drops(kangaroo_cache *cache) {
    kangaroo_counters before, after;
    kangaroo_lease lease = lease_of(cache, "dropped"), zeros = {{0}};
    kangaroo_counters_read(cache, &before, sizeof before);
    expect_status(kangaroo_lease_drop(cache, &lease), KANGAROO_OK, "a drop");
    expect(is_none(&lease), "a dropped lease is zeros");
    expect_status(kangaroo_lease_drop(cache, &zeros), KANGAROO_OK, "a drop of no lease");
    kangaroo_counters_read(cache, &after, sizeof after);
    expect(after.leases_dropped == before.leases_dropped + 1, "one drop is counted");
    show("a drop clears the lease and is counted once");
}

/* A database of a few rows: the number of each is that of its last commit. */
static kangaroo_cache *cached;
static atomic_uint_least64_t committed[ROWS], removed[ROWS];
static atomic_long reads, filled, stale, old_values;
static atomic_bool is_over;

static void read_row(uint32_t row, uint32_t *state) {
    kangaroo_lease lease;
    kangaroo_hit hit;
    uint64_t found, least = atomic_load(&removed[row]);
    kangaroo_status status = kangaroo_get_or_lease(cached, &row, sizeof row, 0, &found, sizeof found, &hit, &lease);
    reads++;
    if (status == KANGAROO_OK) {
        if (found < least) old_values++;
        return;
    }
    found = atomic_load(&committed[row]);
    if (next_random(state) % 8 == 0) usleep(50); /* the read takes a while */
    status = kangaroo_fill(cached, &lease, &row, sizeof row, &found, sizeof found, KANGAROO_NEVER);
    if (status == KANGAROO_OK) filled++;
    if (status == KANGAROO_STALE) stale++;
}

static void *read_rows(void *number) {
    uint32_t state = (uint32_t)(uintptr_t)number * 977 + 1;
    while (!atomic_load(&is_over)) read_row(next_random(&state) % ROWS, &state);
    return NULL;
}

static void write_rows(long writes) {
    uint32_t state = 99;
    for (long i = 0; i < writes; i++) {
        uint32_t row = next_random(&state) % ROWS;
        uint64_t version = atomic_fetch_add(&committed[row], 1) + 1; /* commit, and then remove */
        expect_status(kangaroo_remove(cached, &row, sizeof row), KANGAROO_OK, "a removal");
        atomic_store(&removed[row], version);
        if (i % 4 == 0) usleep(20);
    }
}

static void shows_a_database(kangaroo_cache *cache) {
    pthread_t readers[READERS];
    cached = cache;
    for (uintptr_t i = 0; i < READERS; i++)
        expect(pthread_create(&readers[i], NULL, read_rows, (void *)i) == 0, "a reader");
    write_rows(is_quick() ? 10000 : 100000);
    atomic_store(&is_over, true);
    for (int i = 0; i < READERS; i++) pthread_join(readers[i], NULL);
    show("%ld reads beside a writer: %ld fills stored, %ld stale, %ld old values", reads, filled, stale, old_values);
    expect(old_values == 0, "no value older than a removal that has returned");
    expect(filled > 0 && stale > 0, "fills of both kinds");
}

int main(void) {
    char folder[PATH_BYTES], other[PATH_BYTES];
    make_folder(folder);
    make_folder(other);
    shows_one_seed(folder, other);
    kangaroo_cache *first = open_small(folder), *second = open_small(other);
    shows_a_fill(first);
    shows_what_ends_one(first);
    shows_whose_it_is(first, second);
    shows_swaps(first);
    shows_drops(first);
    shows_a_database(first);
    close_cache(first);
    close_cache(second);
    remove_folder(folder);
    remove_folder(other);
    return 0;
}
