/* The cache that a command opens. opening.h says what each function is for. */
#include "opening.h"
#include "figures.h"
#include "words.h"
#include <inttypes.h>
#include <string.h>

kangaroo_sizes resolve_cache(kangaroo_options *of) {
    const char *field = NULL;
    kangaroo_sizes made = {0};
    kangaroo_status status = kangaroo_options_resolve(of, &field);
    if (status == KANGAROO_WRONG_OPTIONS && field != NULL) {
        const char *word = word_of_field(field);
        refuse_words("%s does not fit the other options: %s. Of the shape's seven words give all or none; --memory has "
                     "to be enough for the index of --flash", word, right_value(word));
    }
    if (status == KANGAROO_OK) status = kangaroo_sizes_of(of, &made, sizeof made);
    if (status != KANGAROO_OK) refuse_system("the options: %s", kangaroo_strerror(status));
    return made;
}

kangaroo_cache *open_cache(const bench_options *of) {
    kangaroo_cache *cache = NULL;
    int cause = 0;
    kangaroo_status status = kangaroo_open(&of->cache, of->folder, &cache, &cause);
    if (status == KANGAROO_OK) return cache;
    refuse_system("no cache in %s: %s%s%s", of->folder, kangaroo_strerror(status), cause != 0 ? ": " : "",
                  cause != 0 ? strerror(cause) : "");
}

void end_cache(kangaroo_cache *of) {
    if (kangaroo_close(of) != KANGAROO_OK) refuse_system("the cache could not be closed");
}

void measure_opening(bench_options *of) {
    kangaroo_sizes room = resolve_cache(&of->cache);
    uint64_t before = own_memory_of(0);
    kangaroo_cache *cache = open_cache(of);
    uint64_t taken = own_memory_of(0) - before;
    printf("%u lanes of %u sets: estimated %" PRIu64 " bytes, measured %" PRIu64 "\n", of->cache.shards * of->cache.lanes,
           of->cache.sets, room.memory_fixed, taken);
    if (room.set_objects > 0)
        printf("bits an object of the sets: estimated %.1f, measured %.1f\n",
               8.0 * (double)room.memory_fixed / (double)room.set_objects, 8.0 * (double)taken / (double)room.set_objects);
    end_cache(cache);
}
