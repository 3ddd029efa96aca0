/* Counters: they add up to what was called, and each has its name. */
#include "test.h"

enum { KEYS = 30000, CALLS = 60000 };

/* What was called, and how it was answered. */
typedef struct tally {
    uint64_t hits[4], absent, expired, short_buffers, puts, bytes, removals, leases, fills, stale, drops, wrong_leases;
} tally;

static kangaroo_cache *cache;
static tally told;

static void get(const uint32_t *key, size_t room) {
    char value[64];
    kangaroo_hit hit;
    switch (kangaroo_get(cache, key, sizeof *key, 100, value, room, &hit)) {
    case KANGAROO_OK: told.hits[hit.tier]++; break;
    case KANGAROO_SHORT_BUFFER: told.hits[hit.tier]++; told.short_buffers++; break;
    case KANGAROO_ABSENT: told.absent++; break;
    case KANGAROO_EXPIRED: told.expired++; break;
    default: expect(false, "a get");
    }
}

static void put(const uint32_t *key, uint64_t expires) {
    char value[60] = {0};
    expect_status(kangaroo_put(cache, key, sizeof *key, value, sizeof value, expires), KANGAROO_OK, "a put");
    told.puts++;
    told.bytes += sizeof *key + sizeof value;
}

static void fill(const uint32_t *key, uint32_t what) {
    char value[64];
    kangaroo_hit hit;
    kangaroo_lease lease;
    kangaroo_status status = kangaroo_get_or_lease(cache, key, sizeof *key, 100, value, sizeof value, &hit, &lease);
    if (status == KANGAROO_OK) {
        told.hits[hit.tier]++;
        return;
    }
    if (status == KANGAROO_EXPIRED) told.expired++;
    else told.absent++;
    told.leases++;
    if (what % 4 == 0) {
        kangaroo_lease_drop(cache, &lease);
        told.drops++;
        return;
    }
    if (what % 4 == 1) put(key, KANGAROO_NEVER);
    if (what % 4 == 2) lease.opaque[0]++;
    status = kangaroo_fill(cache, &lease, key, sizeof *key, value, 10, KANGAROO_NEVER);
    if (status == KANGAROO_OK) told.fills++, told.bytes += sizeof *key + 10;
    else if (what % 4 == 2) told.wrong_leases++;
    else told.stale++;
}

static void call_all(void) {
    uint32_t state = 2718;
    for (int i = 0; i < CALLS; i++) {
        uint32_t what = next_random(&state) % 10, key = next_random(&state) % KEYS;
        if (what < 3) get(&key, 64);
        else if (what < 4) get(&key, 5);
        else if (what < 7) put(&key, what == 5 ? 50 : KANGAROO_NEVER);
        else if (what < 9) fill(&key, next_random(&state));
        else expect_status(kangaroo_remove(cache, &key, sizeof key), KANGAROO_OK, "a removal"), told.removals++;
    }
}

static void shows_sums(void) {
    kangaroo_counters c;
    expect_status(kangaroo_counters_read(cache, &c, sizeof c), KANGAROO_OK, "counters");
    expect(c.memory_hits == told.hits[1] && c.log_hits == told.hits[2] && c.set_hits == told.hits[3], "hits by tier");
    expect(c.absent == told.absent && c.expired == told.expired, "misses by cause");
    expect(c.unreadable == 0 && c.damaged == 0, "no fault");
    expect(c.short_buffers == told.short_buffers, "short buffers");
    expect(c.puts == told.puts && c.removes == told.removals && c.bytes_put == told.bytes, "puts and removals");
    expect(c.leases_given == told.leases && c.leases_dropped == told.drops, "leases");
    expect(c.fills_stored == told.fills && c.fills_stale == told.stale, "fills");
    expect(c.fills_wrong_lease == told.wrong_leases, "wrong leases");
    expect(c.leases_given >= c.fills_stored + c.fills_stale + c.leases_dropped, "leases that ended");
    uint64_t left = c.declined + c.logged + c.log_full + c.index_full;
    expect(left + c.pushed_copies + c.memory_objects_now <= c.puts + c.fills_stored + c.brought_back,
           "objects that left memory came in before");
    expect(c.memory_objects_now <= 400, "objects in memory");
    show("%d calls: hits %lu %lu %lu, misses %lu %lu, puts %lu, fills %lu, stale %lu, removals %lu: as told", CALLS,
         c.memory_hits, c.log_hits, c.set_hits, c.absent, c.expired, c.puts, c.fills_stored, c.fills_stale, c.removes);
}

static void shows_refused(void) {
    kangaroo_counters before, after;
    static char value[KANGAROO_VALUE_MAX + 1];
    kangaroo_counters_read(cache, &before, sizeof before);
    expect_status(kangaroo_put(cache, "a", 1, value, sizeof value, 0), KANGAROO_TOO_LARGE, "too large");
    expect_status(kangaroo_put_or_remove(cache, "a", 1, value, sizeof value, 0), KANGAROO_TOO_LARGE, "too large");
    kangaroo_counters_read(cache, &after, sizeof after);
    expect(after.put_too_large == before.put_too_large + 2, "two puts were too large");
    expect(after.removes == before.removes + 1, "and one of them removed");
    expect(after.puts == before.puts, "none was stored");
    show("refused puts are counted, and the removal of put_or_remove");
}

static void shows_names(void) {
    static const struct { const char *name; size_t at; } some[] = {
        {"memory_hits", offsetof(kangaroo_counters, memory_hits)}, {"damaged", offsetof(kangaroo_counters, damaged)},
        {"puts", offsetof(kangaroo_counters, puts)}, {"removes", offsetof(kangaroo_counters, removes)},
        {"fills_stale", offsetof(kangaroo_counters, fills_stale)}, {"logged", offsetof(kangaroo_counters, logged)},
        {"pages_read", offsetof(kangaroo_counters, pages_read)}, {"dropped", offsetof(kangaroo_counters, dropped)},
        {"put_steps", offsetof(kangaroo_counters, put_steps)}, {"bytes_put", offsetof(kangaroo_counters, bytes_put)},
        {"segments_now", offsetof(kangaroo_counters, segments_now)},
        {"fills_wrong_lease", offsetof(kangaroo_counters, fills_wrong_lease)},
        {"brought_back", offsetof(kangaroo_counters, brought_back)},
        {"pushed_copies", offsetof(kangaroo_counters, pushed_copies)}};
    for (size_t i = 0; i < sizeof some / sizeof some[0]; i++)
        expect(strcmp(kangaroo_counter_name(some[i].at / 8), some[i].name) == 0, some[i].name);
    size_t count = sizeof(kangaroo_counters) / 8;
    expect(kangaroo_counter_name(count) == NULL && kangaroo_counter_name(SIZE_MAX) == NULL, "no name behind the last");
    show("%zu names", count);
}

int main(void) {
    char folder[PATH_BYTES];
    make_folder(folder);
    cache = open_small(folder);
    call_all();
    shows_sums();
    shows_refused();
    shows_names();
    close_cache(cache);
    remove_folder(folder);
    return 0;
}
