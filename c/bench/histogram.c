/* Counts of nanoseconds by bucket. histogram.h says what each function is for. */
#include "histogram.h"
#include <math.h>

uint32_t bucket_of(uint64_t value) {
    if (value < 2 * HALF_BUCKETS) return (uint32_t)value;
    uint32_t doublings = 53u - (uint32_t)__builtin_clzll(value); /* how often it is halved until it is below 2,048 */
    if (doublings >= HISTOGRAM_DOUBLINGS) return HISTOGRAM_BUCKETS - 1;
    return doublings * HALF_BUCKETS + (uint32_t)(value >> doublings);
}

uint64_t value_of_bucket(uint32_t bucket) {
    if (bucket < 2 * HALF_BUCKETS) return bucket;
    uint32_t doublings = bucket / HALF_BUCKETS - 1;
    uint64_t within = bucket - (uint64_t)doublings * HALF_BUCKETS;
    return ((within + 1) << doublings) - 1;
}

static uint64_t count_at(const histogram *of, uint32_t bucket) {
    return atomic_load_explicit(&of->counts[bucket], memory_order_relaxed);
}

static void set_count(histogram *of, uint32_t bucket, uint64_t count) {
    atomic_store_explicit(&of->counts[bucket], count, memory_order_relaxed);
}

void count_value(histogram *to, uint64_t value) {
    uint32_t bucket = bucket_of(value);
    set_count(to, bucket, count_at(to, bucket) + 1);
}

void add_histogram(histogram *to, const histogram *from) {
    for (uint32_t i = 0; i < HISTOGRAM_BUCKETS; i++) {
        uint64_t count = count_at(from, i);
        if (count > 0) set_count(to, i, count_at(to, i) + count);
    }
}

void subtract_histogram(histogram *from, const histogram *older) {
    for (uint32_t i = 0; i < HISTOGRAM_BUCKETS; i++) {
        uint64_t count = count_at(older, i);
        if (count > 0) set_count(from, i, count_at(from, i) - count);
    }
}

uint64_t values_counted(const histogram *of) {
    uint64_t sum = 0;
    for (uint32_t i = 0; i < HISTOGRAM_BUCKETS; i++) sum += count_at(of, i);
    return sum;
}

uint64_t value_at(const histogram *of, double percent) {
    uint64_t all = values_counted(of), sum = 0;
    uint64_t wanted = (uint64_t)ceil((double)all * percent / 100);
    if (all == 0) return 0;
    if (wanted == 0) wanted = 1;
    if (wanted > all) wanted = all;
    for (uint32_t i = 0; i < HISTOGRAM_BUCKETS; i++) {
        sum += count_at(of, i);
        if (sum >= wanted) return value_of_bucket(i);
    }
    return value_of_bucket(HISTOGRAM_BUCKETS - 1);
}
