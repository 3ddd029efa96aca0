/* A cache that lies: linked in place of two calls of the library, it turns a bit of a byte of the 1,000th hit that has
 * one. A test sees that kangaroo-bench finds it. */
#include "kangaroo.h"
#include <stdatomic.h>

kangaroo_status __real_kangaroo_get(kangaroo_cache *cache, const void *key, size_t key_length, uint64_t moment,
                                    void *buffer, size_t buffer_size, kangaroo_hit *hit);
kangaroo_status __wrap_kangaroo_get(kangaroo_cache *cache, const void *key, size_t key_length, uint64_t moment,
                                    void *buffer, size_t buffer_size, kangaroo_hit *hit);
kangaroo_status __real_kangaroo_get_or_lease(kangaroo_cache *cache, const void *key, size_t key_length, uint64_t moment,
                                             void *buffer, size_t buffer_size, kangaroo_hit *hit,
                                             kangaroo_lease *lease);
kangaroo_status __wrap_kangaroo_get_or_lease(kangaroo_cache *cache, const void *key, size_t key_length, uint64_t moment,
                                             void *buffer, size_t buffer_size, kangaroo_hit *hit,
                                             kangaroo_lease *lease);

static void lie(kangaroo_status status, const kangaroo_hit *hit, unsigned char *value) {
    static atomic_int hits;
    if (status == KANGAROO_OK && hit->length > 0 && atomic_fetch_add(&hits, 1) == 999) value[hit->length / 2] ^= 4;
}

kangaroo_status __wrap_kangaroo_get(kangaroo_cache *cache, const void *key, size_t key_length, uint64_t moment,
                                    void *buffer, size_t buffer_size, kangaroo_hit *hit) {
    kangaroo_status status = __real_kangaroo_get(cache, key, key_length, moment, buffer, buffer_size, hit);
    lie(status, hit, buffer);
    return status;
}

kangaroo_status __wrap_kangaroo_get_or_lease(kangaroo_cache *cache, const void *key, size_t key_length, uint64_t moment,
                                             void *buffer, size_t buffer_size, kangaroo_hit *hit,
                                             kangaroo_lease *lease) {
    kangaroo_status status =
        __real_kangaroo_get_or_lease(cache, key, key_length, moment, buffer, buffer_size, hit, lease);
    lie(status, hit, buffer);
    return status;
}
