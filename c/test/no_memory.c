/* Memory that is refused: at each allocation of an open, in a get that would bring an object back, in a put, a fill, upkeep and a
 * check. */
#include "memory.h"
#include "test.h"

static void refuse(void) {
    refuse_from = allocations;
}

static void allow(void) {
    refuse_from = -1;
}

static void shows_opens(const char *folder) {
    kangaroo_options options = small_options();
    kangaroo_cache *cache;
    int descriptors = open_descriptors(), cause;
    long memory = 0, refusals = 0;
    options.upkeep_threads = 0;
    for (long i = 0; i < 100000; i++) {
        refuse_from = allocations + i;
        kangaroo_status status = kangaroo_open(&options, folder, &cache, &cause);
        allow();
        if (status == KANGAROO_OK) break;
        expect_status(status, KANGAROO_NO_MEMORY, "an open");
        expect(cache == NULL && cause == 0, "no handle");
        expect(open_descriptors() == descriptors, "no descriptor is left open");
        refusals++;
        if (i == 5) memory = own_memory();
    }
    expect(cache != NULL && refusals > 5, "an open in the end");
    close_cache(cache);
    expect(own_memory() <= memory + 4096, "refused opens leave no memory");
    show("each of the first %ld allocations of an open refused: no memory, and nothing left", refusals);
}

static void shows_puts(kangaroo_cache *cache) {
    kangaroo_lease lease, before;
    kangaroo_counters counters;
    char value[100] = {0};
    put_text(cache, "a", "older");
    refuse();
    expect_status(kangaroo_put(cache, "a", 1, value, 100, KANGAROO_NEVER), KANGAROO_NO_MEMORY, "a put");
    allow();
    expect(hits_text(cache, "a", "older"), "a refused put leaves the older value");
    refuse();
    expect_status(kangaroo_put_or_remove(cache, "a", 1, value, 100, KANGAROO_NEVER), KANGAROO_NO_MEMORY, "or remove");
    allow();
    expect_status(kangaroo_get_or_lease(cache, "a", 1, 0, NULL, 0, NULL, &lease), KANGAROO_ABSENT, "it is removed");
    before = lease;
    refuse();
    expect_status(kangaroo_fill(cache, &lease, "a", 1, value, 100, KANGAROO_NEVER), KANGAROO_NO_MEMORY, "a fill");
    allow();
    expect(memcmp(&lease, &before, sizeof lease) == 0, "a refused fill keeps its lease");
    expect_status(kangaroo_fill(cache, &lease, "a", 1, value, 100, KANGAROO_NEVER), KANGAROO_OK, "the fill again");
    refuse();
    expect_status(kangaroo_remove(cache, "a", 1), KANGAROO_OK, "a removal takes no memory");
    expect_status(kangaroo_get(cache, "a", 1, 0, value, 100, NULL), KANGAROO_ABSENT, "nor does a get");
    allow();
    kangaroo_counters_read(cache, &counters, sizeof counters);
    expect(counters.put_no_memory == 3, "three refusals are counted");
    show("a put, put_or_remove and a fill: what each leaves; a removal is not refused");
}

/* Puts with memory refused now and then: values stay right, and upkeep goes on behind it. */
static void shows_upkeep(kangaroo_cache *cache) {
    char value[200];
    kangaroo_hit hit;
    kangaroo_status status;
    uint32_t refused = 0, state = 5;
    memset(value, 'u', sizeof value);
    for (uint32_t key = 0; key < 20000; key++) {
        expect_status(kangaroo_put(cache, &key, sizeof key, value, sizeof value, KANGAROO_NEVER), KANGAROO_OK, "a put");
        if (next_random(&state) % 2) refuse();
        status = kangaroo_upkeep(cache, 2, NULL);
        allow();
        expect(status == KANGAROO_OK || status == KANGAROO_NO_MEMORY, "upkeep");
        refused += status == KANGAROO_NO_MEMORY;
    }
    expect_status(kangaroo_upkeep(cache, UINT32_MAX, NULL), KANGAROO_OK, "upkeep with memory");
    long hits = 0;
    for (uint32_t key = 0; key < 20000; key++) {
        status = kangaroo_get(cache, &key, sizeof key, 0, value, sizeof value, &hit);
        expect(status == KANGAROO_ABSENT || status == KANGAROO_OK, "a hit or absent");
        if (status == KANGAROO_OK) expect(hit.length == sizeof value && value[0] == 'u' && value[199] == 'u', "the value");
        hits += status == KANGAROO_OK;
    }
    show("upkeep that was refused memory %u times: %ld keys are hit behind it", refused, hits);
}

static void shows_checks(void) {
    unsigned char trace[4096];
    char line[KANGAROO_LINE_BYTES] = "x";
    FILE *from = fopen("../examples/first.trace", "rb");
    expect(from != NULL, "examples/first.trace");
    size_t length = fread(trace, 1, sizeof trace, from);
    fclose(from);
    refuse();
    kangaroo_status status = kangaroo_check(trace, length, line, sizeof line);
    allow();
    if (refused_ones > 0) expect(status == KANGAROO_NO_MEMORY ? line[0] == 0 : status == KANGAROO_OK, "a check");
    show("a check without memory: %s", kangaroo_strerror(status));
}

/* Gets each of some keys: how many were hits, each of them right. */
static long get_each(kangaroo_cache *cache) {
    char value[100];
    long hits = 0;
    for (uint32_t key = 0; key < 2000; key++) {
        kangaroo_status status = kangaroo_get(cache, &key, sizeof key, 0, value, sizeof value, NULL);
        expect(status == KANGAROO_OK || status == KANGAROO_ABSENT, "a hit or absent");
        if (status == KANGAROO_OK) expect(memcmp(value, &key, sizeof key) == 0, "the value");
        hits += status == KANGAROO_OK;
    }
    return hits;
}

static void shows_gets(const char *folder) {
    kangaroo_options options = small_options();
    kangaroo_counters refused, brought;
    char value[100] = {0};
    options.upkeep_threads = 0;
    options.bring_back = 1;
    kangaroo_cache *cache = open_with(&options, folder);
    for (uint32_t key = 0; key < 2000; key++) {
        memcpy(value, &key, sizeof key);
        expect_status(kangaroo_put(cache, &key, sizeof key, value, sizeof value, KANGAROO_NEVER), KANGAROO_OK, "a put");
        kangaroo_upkeep(cache, 3, NULL);
    }
    refuse();
    long hits = get_each(cache);
    allow();
    kangaroo_counters_read(cache, &refused, sizeof refused);
    expect(get_each(cache) == hits, "as many hits");
    kangaroo_counters_read(cache, &brought, sizeof brought);
    expect(refused.log_hits + refused.set_hits > 0 && refused.brought_back == 0, "hits on flash, of which none came back");
    expect(brought.brought_back > 0, "hits that came back once there was memory");
    expect(refused.pushed_copies == 0 && brought.pushed_copies > 0, "copies that went for others, which flash may have");
    show("%ld gets refused memory to bring objects back: each is a hit; then %lu came back", hits, brought.brought_back);
    close_cache(cache);
}

int main(void) {
    char folder[PATH_BYTES];
    kangaroo_options options = small_options();
    make_folder(folder);
    shows_opens(folder);
    shows_gets(folder);
    options.upkeep_threads = 0;
    kangaroo_cache *cache = open_with(&options, folder);
    shows_puts(cache);
    shows_upkeep(cache);
    close_cache(cache);
    shows_checks();
    remove_folder(folder);
    return 0;
}
