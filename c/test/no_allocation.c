/* Gets and removals take no memory, whatever they answer. */
#include "memory.h"
#include "test.h"

enum { KEYS = 6000, SIZE = 120 };

int main(void) {
    char folder[PATH_BYTES], value[KANGAROO_VALUE_MAX];
    long hits[4] = {0};
    kangaroo_hit hit;
    kangaroo_lease lease;
    kangaroo_counters counters;
    kangaroo_options options = small_options();
    make_folder(folder);
    options.upkeep_threads = 0;
    options.bring_back = 0;
    options.sets = 255;
    kangaroo_cache *cache = open_with(&options, folder);
    memset(value, 'v', sizeof value);
    for (uint32_t key = 0; key < KEYS; key++) {
        expect_status(kangaroo_put(cache, &key, sizeof key, value, SIZE, KANGAROO_NEVER), KANGAROO_OK, "a put");
        kangaroo_upkeep(cache, 4, NULL);
    }
    long before = allocations;
    for (uint32_t key = 0; key < 2 * KEYS; key++) {
        kangaroo_status status = kangaroo_get(cache, &key, sizeof key, 0, value, sizeof value, &hit);
        hits[status == KANGAROO_OK ? hit.tier : 0]++;
        kangaroo_get(cache, &key, sizeof key, 0, value, SIZE - 1, &hit);
        kangaroo_get_or_lease(cache, &key, sizeof key, 0, value, sizeof value, &hit, &lease);
        kangaroo_lease_drop(cache, &lease);
        expect_status(kangaroo_remove(cache, &key, sizeof key), KANGAROO_OK, "a removal");
    }
    kangaroo_counters_read(cache, &counters, sizeof counters);
    expect(allocations == before, "no allocation");
    show("gets (memory %ld, log %ld, set %ld, absent %ld), leases, %lu removals, counters: no allocation", hits[1],
         hits[2], hits[3], hits[0], counters.removes);
    expect(hits[0] > 0 && hits[1] > 0 && hits[2] > 0 && hits[3] > 0, "gets of each kind");
    close_cache(cache);
    remove_folder(folder);
    return 0;
}
