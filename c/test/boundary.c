/* What a C interface has to stand: keys in the buffer, overlaps, NULL at length 0, bytes at odd places. */
#include "test.h"

static void shows_key_in_buffer(kangaroo_cache *cache) {
    char buffer[64] = "apple";
    put_text(cache, "apple", "a value that is longer than its key");
    expect_status(kangaroo_get(cache, buffer, 5, 0, buffer, sizeof buffer, NULL), KANGAROO_OK, "a key in the buffer");
    expect(memcmp(buffer, "a value that is longer than its key", 35) == 0, "the value over its key");
    show("a key may lie in the buffer");
}

/* Memory of which parts overlap. */
typedef union shared {
    unsigned char bytes[256];
    kangaroo_hit hit;
    kangaroo_lease lease;
} shared;

static void shows_overlaps(kangaroo_cache *cache) {
    shared at, apart;
    memset(&at, 9, sizeof at);
    expect_status(kangaroo_get(cache, "apple", 5, 0, at.bytes, sizeof at, &at.hit), KANGAROO_WRONG_ARGUMENT, "hit in the buffer");
    expect_status(kangaroo_get_or_lease(cache, "apple", 5, 0, at.bytes, sizeof at, NULL, &at.lease),
                  KANGAROO_WRONG_ARGUMENT, "lease in the buffer");
    expect_status(kangaroo_get_or_lease(cache, "apple", 5, 0, apart.bytes, sizeof apart, &at.hit, &at.lease),
                  KANGAROO_WRONG_ARGUMENT, "lease in the hit");
    for (size_t i = 0; i < sizeof at; i++) expect(at.bytes[i] == 9, "a refused overlap writes nothing");
    kangaroo_hit *behind = (kangaroo_hit *)(void *)(at.bytes + 64);
    expect_status(kangaroo_get(cache, "apple", 5, 0, at.bytes, 65, behind), KANGAROO_WRONG_ARGUMENT, "one byte in common");
    expect_status(kangaroo_get(cache, "apple", 5, 0, at.bytes, 64, behind), KANGAROO_OK, "side by side");
    expect_status(kangaroo_get(cache, "apple", 5, 0, at.bytes, 0, &at.hit), KANGAROO_SHORT_BUFFER, "an empty buffer in a hit");
    show("a hit or lease that overlaps the buffer, or one another, is refused, and neighbours are not");
}

static void shows_nothing(kangaroo_cache *cache) {
    kangaroo_hit hit;
    kangaroo_lease lease;
    expect_status(kangaroo_put(cache, "empty", 5, NULL, 0, KANGAROO_NEVER), KANGAROO_OK, "a put of no bytes");
    expect_status(kangaroo_get(cache, "empty", 5, 0, NULL, 0, &hit), KANGAROO_OK, "a get of no bytes");
    expect(hit.length == 0 && hit.tier == KANGAROO_TIER_MEMORY, "a value of no bytes");
    expect_status(kangaroo_put_or_remove(cache, "empty", 5, NULL, 0, KANGAROO_NEVER), KANGAROO_OK, "put or remove");
    expect_status(kangaroo_remove(cache, "empty", 5), KANGAROO_OK, "a removal");
    expect_status(kangaroo_get_or_lease(cache, "empty", 5, 0, NULL, 0, NULL, &lease), KANGAROO_ABSENT, "a lease");
    expect_status(kangaroo_fill(cache, &lease, "empty", 5, NULL, 0, KANGAROO_NEVER), KANGAROO_OK, "a fill of no bytes");
    expect_status(kangaroo_get(cache, NULL, 0, 0, NULL, 0, NULL), KANGAROO_WRONG_KEY, "an empty key");
    show("NULL stands for no bytes");
}

/* Keys and values of each length, at each alignment. */
static void shows_lengths(kangaroo_cache *cache) {
    static unsigned char key[KANGAROO_KEY_MAX + 8], value[KANGAROO_VALUE_MAX + 8], back[KANGAROO_VALUE_MAX + 8];
    kangaroo_hit hit;
    for (size_t i = 0; i < sizeof key; i++) key[i] = (unsigned char)(i * 7);
    for (size_t i = 0; i < sizeof value; i++) value[i] = (unsigned char)(i * 11);
    for (size_t n = 0; n <= KANGAROO_VALUE_MAX; n++) {
        size_t k = n % KANGAROO_KEY_MAX + 1, at = n % 8;
        expect_status(kangaroo_put(cache, key + at, k, value + at, n, n), KANGAROO_OK, "a put");
        memset(back, 0xee, sizeof back);
        expect_status(kangaroo_get(cache, key + at, k, n - 1, back + at, n, &hit), n == 0 ? KANGAROO_EXPIRED : KANGAROO_OK, "a get");
        if (n == 0) continue;
        expect(hit.length == n && memcmp(back + at, value + at, n) == 0, "the value");
        expect(at == 0 || back[at - 1] == 0xee, "the byte before");
        expect(at + n == sizeof back || back[at + n] == 0xee, "the byte behind");
    }
    show("values of 0 to 2,048 bytes, keys of 1 to 255, at any place");
}

int main(void) {
    char folder[PATH_BYTES];
    make_folder(folder);
    kangaroo_cache *cache = open_small(folder);
    shows_key_in_buffer(cache);
    shows_overlaps(cache);
    shows_nothing(cache);
    shows_lengths(cache);
    close_cache(cache);
    remove_folder(folder);
    return 0;
}
