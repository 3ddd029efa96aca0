/* Old and new sizes of each struct: an older program's is read and written to its end and no further, a newer one's is
 * filled with zeros behind what this library knows. */
#include "test.h"

enum { NEWER = 24, OPTIONS_1_0 = 80, SIZES_1_0 = 56 };

typedef union any_options {
    kangaroo_options known;
    unsigned char bytes[sizeof(kangaroo_options) + NEWER];
} any_options;

static bool are(const unsigned char *at, size_t from, size_t to, int byte) {
    for (size_t i = from; i < to; i++)
        if (at[i] != byte) return false;
    return true;
}

static void shows_init(void) {
    any_options any;
    memset(&any, 9, sizeof any);
    expect_status(kangaroo_options_init(NULL, sizeof any.known), KANGAROO_WRONG_ARGUMENT, "init of nothing");
    expect_status(kangaroo_options_init(&any.known, OPTIONS_1_0 - 1), KANGAROO_WRONG_ARGUMENT, "init of too little");
    expect_status(kangaroo_options_init(&any.known, 4097), KANGAROO_WRONG_ARGUMENT, "init of too much");
    expect(are(any.bytes, 0, sizeof any, 9), "a refused init writes nothing");
    expect_status(kangaroo_options_init(&any.known, OPTIONS_1_0), KANGAROO_OK, "init of version 1.0");
    expect(any.known.size == OPTIONS_1_0 && are(any.bytes, OPTIONS_1_0, sizeof any, 9), "no more bytes are written");
    memset(&any, 9, sizeof any);
    expect_status(kangaroo_options_init(&any.known, sizeof any), KANGAROO_OK, "init of a newer version");
    expect(any.known.size == sizeof any && are(any.bytes, sizeof any.known, sizeof any, 0), "newer fields are 0");
    expect(any.known.flash_bytes == (uint64_t)1 << 30 && any.known.memory_bytes == 128u << 20, "the defaults");
    expect(any.known.object_bytes == 100 && any.known.admit == 65536 && any.known.threshold == 0, "the defaults");
    expect(any.known.upkeep_threads == 1 && any.known.flags == 0 && any.known.lanes == 0, "the defaults");
    show("options_init: sizes of version 1.0, and of a newer one");
}

static void shows_newer_options(const char *folder) {
    any_options any;
    const char *field = "";
    kangaroo_cache *cache;
    kangaroo_sizes sizes;
    memset(&any, 0, sizeof any);
    any.known = small_options();
    any.known.size = sizeof any;
    expect_status(kangaroo_open(&any.known, folder, &cache, NULL), KANGAROO_OK, "a newer version's zeros");
    close_cache(cache);
    any.bytes[sizeof any - 1] = 1;
    expect_status(kangaroo_open(&any.known, folder, &cache, NULL), KANGAROO_WRONG_OPTIONS, "a newer version's field");
    expect_status(kangaroo_options_resolve(&any.known, &field), KANGAROO_WRONG_OPTIONS, "a newer version's field");
    expect(field != NULL && strcmp(field, "size") == 0, "its name");
    expect_status(kangaroo_sizes_of(&any.known, &sizes, sizeof sizes), KANGAROO_WRONG_OPTIONS, "sizes");
    uint32_t wrong_sizes[] = {0, OPTIONS_1_0 - 1, 4097, UINT32_MAX};
    for (int i = 0; i < 4; i++) {
        any.known.size = wrong_sizes[i];
        expect_status(kangaroo_options_resolve(&any.known, &field), KANGAROO_WRONG_ARGUMENT, "resolve");
        expect(field == NULL, "no field");
        expect_status(kangaroo_open(&any.known, folder, &cache, NULL), KANGAROO_WRONG_ARGUMENT, "open");
        expect_status(kangaroo_sizes_of(&any.known, &sizes, sizeof sizes), KANGAROO_WRONG_ARGUMENT, "sizes");
    }
    show("options of a newer version: zeros are taken, other bytes refused");
}

static void shows_sizes(void) {
    union { kangaroo_sizes known; unsigned char bytes[sizeof(kangaroo_sizes) + NEWER]; } any;
    kangaroo_options options = small_options();
    memset(&any, 9, sizeof any);
    expect_status(kangaroo_sizes_of(&options, NULL, sizeof any.known), KANGAROO_WRONG_ARGUMENT, "no sizes");
    expect_status(kangaroo_sizes_of(NULL, &any.known, sizeof any.known), KANGAROO_WRONG_ARGUMENT, "no options");
    expect_status(kangaroo_sizes_of(&options, &any.known, SIZES_1_0 - 1), KANGAROO_WRONG_ARGUMENT, "too little");
    expect(are(any.bytes, 0, sizeof any, 9), "a refusal writes nothing");
    expect_status(kangaroo_sizes_of(&options, &any.known, SIZES_1_0), KANGAROO_OK, "sizes of version 1.0");
    expect(any.known.files == 5 && are(any.bytes, SIZES_1_0, sizeof any, 9), "no more bytes are written");
    expect_status(kangaroo_sizes_of(&options, &any.known, sizeof any), KANGAROO_OK, "sizes of a newer version");
    expect(are(any.bytes, sizeof any.known, sizeof any, 0), "newer fields are 0");
    show("sizes of version 1.0, and of a newer one");
}

static void shows_counters(const char *folder) {
    union { kangaroo_counters known; unsigned char bytes[sizeof(kangaroo_counters) + NEWER]; } any;
    kangaroo_cache *cache = open_small(folder);
    put_text(cache, "a", "b");
    expect(hits_text(cache, "a", "b"), "a hit");
    memset(&any, 9, sizeof any);
    expect_status(kangaroo_counters_read(cache, &any.known, 8), KANGAROO_OK, "one counter");
    expect(any.known.memory_hits == 1 && are(any.bytes, 8, sizeof any, 9), "one counter, and no more bytes");
    expect_status(kangaroo_counters_read(cache, &any.known, sizeof any), KANGAROO_OK, "a newer version's counters");
    expect(any.known.puts == 1 && are(any.bytes, sizeof any.known, sizeof any, 0), "newer counters are 0");
    expect_status(kangaroo_counters_read(cache, &any.known, 4097), KANGAROO_WRONG_ARGUMENT, "too much");
    close_cache(cache);
    show("counters from 8 bytes to those of a newer version");
}

int main(void) {
    char folder[PATH_BYTES];
    make_folder(folder);
    expect(sizeof(kangaroo_options) == OPTIONS_1_0 && sizeof(kangaroo_sizes) == SIZES_1_0, "sizes of version 1.0");
    expect(sizeof(kangaroo_hit) == 32 && sizeof(kangaroo_lease) == 32 && sizeof(kangaroo_status) == 4, "fixed sizes");
    shows_init();
    shows_newer_options(folder);
    shows_sizes();
    shows_counters(folder);
    remove_folder(folder);
    return 0;
}
