/* Each status, one by one: answers, and refusals with bad input. */
#include "test.h"

enum { TOO_LONG_KEY = KANGAROO_KEY_MAX + 1, TOO_LARGE = KANGAROO_VALUE_MAX + 1 };

static void shows_answers(kangaroo_cache *cache) {
    char value[KANGAROO_VALUE_MAX];
    kangaroo_hit hit;
    expect_status(kangaroo_get(cache, "a", 1, 0, value, sizeof value, &hit), KANGAROO_ABSENT, "a get of no value");
    expect(hit.length == 0 && hit.tier == KANGAROO_TIER_NONE, "zeros at a miss");
    expect_status(kangaroo_put(cache, "a", 1, "pear", 4, 10), KANGAROO_OK, "a put");
    expect_status(kangaroo_get(cache, "a", 1, 9, value, sizeof value, &hit), KANGAROO_OK, "a get in time");
    expect(hit.length == 4 && hit.tier == KANGAROO_TIER_MEMORY, "the hit's numbers");
    expect(memcmp(value, "pear", 4) == 0, "the value");
    expect_status(kangaroo_get(cache, "a", 1, 10, value, sizeof value, &hit), KANGAROO_EXPIRED, "a get too late");
    expect(hit.length == 0 && hit.tier == 0, "zeros at an expired value");
    expect_status(kangaroo_get(cache, "a", 1, 9, value, 3, &hit), KANGAROO_SHORT_BUFFER, "a get into 3 bytes");
    expect(hit.length == 4 && hit.tier == KANGAROO_TIER_MEMORY, "the length that is needed");
    expect_status(kangaroo_remove(cache, "a", 1), KANGAROO_OK, "a removal");
    expect_status(kangaroo_get(cache, "a", 1, 9, NULL, 0, NULL), KANGAROO_ABSENT, "a get of what was removed");
    expect_status(kangaroo_remove(cache, "a", 1), KANGAROO_OK, "a removal of nothing");
    show("done, absent, expired, short buffer");
}

static void shows_bytes_that_stay(kangaroo_cache *cache) {
    unsigned char value[64];
    memset(value, 7, sizeof value);
    put_text(cache, "bytes", "0123456789");
    expect_status(kangaroo_get(cache, "bytes", 5, 0, value, 9, NULL), KANGAROO_SHORT_BUFFER, "9 bytes for 10");
    for (size_t i = 0; i < sizeof value; i++) expect(value[i] == 7, "a buffer that is too short is left alone");
    expect_status(kangaroo_get(cache, "bytes", 5, 0, value, 10, NULL), KANGAROO_OK, "10 bytes for 10");
    for (size_t i = 10; i < sizeof value; i++) expect(value[i] == 7, "bytes behind the value are left alone");
    expect_status(kangaroo_get(cache, "none", 4, 0, value, sizeof value, NULL), KANGAROO_ABSENT, "a miss");
    expect(memcmp(value, "0123456789", 10) == 0, "a miss writes nothing");
    show("only the value's bytes of a buffer are written");
}

static void shows_wrong_keys(kangaroo_cache *cache) {
    char key[TOO_LONG_KEY], value[KANGAROO_VALUE_MAX];
    kangaroo_hit hit;
    kangaroo_lease lease;
    memset(key, 'k', sizeof key);
    size_t lengths[] = {0, TOO_LONG_KEY, (size_t)1 << 40};
    for (int i = 0; i < 3; i++) {
        size_t n = lengths[i];
        expect_status(kangaroo_get(cache, key, n, 0, value, sizeof value, &hit), KANGAROO_WRONG_KEY, "get");
        expect(hit.length == 0 && hit.tier == 0, "zeros at a refused get");
        expect_status(kangaroo_get_or_lease(cache, key, n, 0, value, sizeof value, &hit, &lease), KANGAROO_WRONG_KEY, "lease");
        expect(lease.opaque[0] == 0 && lease.opaque[1] == 0, "no lease of a wrong key");
        expect_status(kangaroo_put(cache, key, n, "v", 1, KANGAROO_NEVER), KANGAROO_WRONG_KEY, "put");
        expect_status(kangaroo_put_or_remove(cache, key, n, "v", 1, 0), KANGAROO_WRONG_KEY, "put or remove");
        expect_status(kangaroo_fill(cache, &lease, key, n, "v", 1, 0), KANGAROO_WRONG_KEY, "fill");
        expect_status(kangaroo_remove(cache, key, n), KANGAROO_WRONG_KEY, "remove");
    }
    expect_status(kangaroo_put(cache, key, KANGAROO_KEY_MAX, "v", 1, KANGAROO_NEVER), KANGAROO_OK, "255 bytes");
    expect_status(kangaroo_get(cache, key, KANGAROO_KEY_MAX, 0, value, 1, NULL), KANGAROO_OK, "255 bytes");
    show("keys of 0, 256 and 2^40 bytes are refused, one of 255 is not");
}

static void shows_too_large(kangaroo_cache *cache) {
    static char value[TOO_LARGE];
    kangaroo_lease lease, before;
    put_text(cache, "large", "older");
    size_t lengths[] = {TOO_LARGE, (size_t)1 << 40, SIZE_MAX};
    for (int i = 0; i < 3; i++)
        expect_status(kangaroo_put(cache, "large", 5, value, lengths[i], KANGAROO_NEVER), KANGAROO_TOO_LARGE, "put");
    expect(hits_text(cache, "large", "older"), "a refused put leaves the older value");
    expect_status(kangaroo_put_or_remove(cache, "large", 5, value, TOO_LARGE, 0), KANGAROO_TOO_LARGE, "put or remove");
    expect(!hits_text(cache, "large", "older"), "put_or_remove leaves none");
    expect_status(kangaroo_get_or_lease(cache, "large", 5, 0, NULL, 0, NULL, &lease), KANGAROO_ABSENT, "a lease");
    before = lease;
    expect_status(kangaroo_fill(cache, &lease, "large", 5, value, TOO_LARGE, 0), KANGAROO_TOO_LARGE, "fill");
    expect(memcmp(&lease, &before, sizeof lease) == 0, "a refused fill keeps its lease");
    expect_status(kangaroo_fill(cache, &lease, "large", 5, value, KANGAROO_VALUE_MAX, KANGAROO_NEVER), KANGAROO_OK, "2,048 bytes");
    show("values of 2,049 bytes and more are refused, one of 2,048 is not");
}

static void shows_wrong_arguments(kangaroo_cache *cache) {
    char value[8];
    kangaroo_lease lease = {{0}};
    kangaroo_counters counters;
    expect_status(kangaroo_get(NULL, "a", 1, 0, value, 8, NULL), KANGAROO_WRONG_ARGUMENT, "get of no cache");
    expect_status(kangaroo_get(cache, NULL, 1, 0, value, 8, NULL), KANGAROO_WRONG_ARGUMENT, "no key");
    expect_status(kangaroo_get(cache, "a", 1, 0, NULL, 8, NULL), KANGAROO_WRONG_ARGUMENT, "no buffer of 8");
    expect_status(kangaroo_get_or_lease(cache, "a", 1, 0, value, 8, NULL, NULL), KANGAROO_WRONG_ARGUMENT, "no lease");
    expect_status(kangaroo_put(NULL, "a", 1, "v", 1, 0), KANGAROO_WRONG_ARGUMENT, "put of no cache");
    expect_status(kangaroo_put(cache, NULL, 1, "v", 1, 0), KANGAROO_WRONG_ARGUMENT, "put of no key");
    expect_status(kangaroo_put(cache, "a", 1, NULL, 1, 0), KANGAROO_WRONG_ARGUMENT, "put of no value");
    expect_status(kangaroo_put_or_remove(cache, "a", 1, NULL, 1, 0), KANGAROO_WRONG_ARGUMENT, "put or remove");
    expect_status(kangaroo_fill(cache, NULL, "a", 1, "v", 1, 0), KANGAROO_WRONG_ARGUMENT, "fill by no lease");
    expect_status(kangaroo_fill(cache, &lease, "a", 1, NULL, 1, 0), KANGAROO_WRONG_ARGUMENT, "fill of no value");
    expect_status(kangaroo_remove(NULL, "a", 1), KANGAROO_WRONG_ARGUMENT, "removal of no cache");
    expect_status(kangaroo_remove(cache, NULL, 1), KANGAROO_WRONG_ARGUMENT, "removal of no key");
    expect_status(kangaroo_lease_drop(NULL, &lease), KANGAROO_WRONG_ARGUMENT, "drop of no cache");
    expect_status(kangaroo_lease_drop(cache, NULL), KANGAROO_WRONG_ARGUMENT, "drop of no lease");
    expect_status(kangaroo_upkeep(NULL, 1, NULL), KANGAROO_WRONG_ARGUMENT, "upkeep of no cache");
    expect_status(kangaroo_counters_read(NULL, &counters, sizeof counters), KANGAROO_WRONG_ARGUMENT, "counters");
    expect_status(kangaroo_counters_read(cache, NULL, sizeof counters), KANGAROO_WRONG_ARGUMENT, "counters");
    expect_status(kangaroo_counters_read(cache, &counters, 7), KANGAROO_WRONG_ARGUMENT, "counters of 7 bytes");
    expect_status(kangaroo_close(NULL), KANGAROO_OK, "close of no cache");
    show("NULL is refused wherever it is not allowed");
}

static void shows_wrong_opens(const char *folder) {
    kangaroo_options options = small_options();
    kangaroo_cache *cache = (kangaroo_cache *)&options;
    int cause = 7;
    expect_status(kangaroo_open(NULL, folder, &cache, &cause), KANGAROO_WRONG_ARGUMENT, "open with no options");
    expect(cache == NULL && cause == 0, "no handle and no errno");
    expect_status(kangaroo_open(&options, NULL, &cache, NULL), KANGAROO_WRONG_ARGUMENT, "open of no folder");
    expect_status(kangaroo_open(&options, folder, NULL, NULL), KANGAROO_WRONG_ARGUMENT, "open to nowhere");
    options.sets = 65537;
    expect_status(kangaroo_open(&options, folder, &cache, &cause), KANGAROO_WRONG_OPTIONS, "too many sets");
    expect(cache == NULL && cause == 0, "no handle and no errno");
    show("an open that is refused gives no handle");
}

static void shows_texts(void) {
    for (int i = -1000; i <= 1000; i++)
        expect(strlen(kangaroo_strerror((kangaroo_status)i)) > 3, "a text for each number");
    expect(strcmp(kangaroo_strerror(KANGAROO_OK), kangaroo_strerror(KANGAROO_STALE)) != 0, "texts differ");
    expect(kangaroo_version() == KANGAROO_VERSION, "the version");
    char version[32];
    int length = snprintf(version, sizeof version, "%d.%d.%d (", KANGAROO_VERSION_MAJOR, KANGAROO_VERSION_MINOR,
                          KANGAROO_VERSION_PATCH);
    expect(strncmp(kangaroo_build(), version, (size_t)length) == 0, "the line of the build begins with the version");
    expect(strstr(kangaroo_build(), "proved)") != NULL, "the line of the build says whether the lanes are proved");
    show("each status has a text, and the version is the header's: %s", kangaroo_build());
}

int main(void) {
    char folder[PATH_BYTES];
    make_folder(folder);
    shows_wrong_opens(folder);
    kangaroo_cache *cache = open_small(folder);
    shows_answers(cache);
    shows_bytes_that_stay(cache);
    shows_wrong_keys(cache);
    shows_too_large(cache);
    shows_wrong_arguments(cache);
    close_cache(cache);
    shows_texts();
    remove_folder(folder);
    return 0;
}
