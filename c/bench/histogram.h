/* histogram.h: counts of nanoseconds, laid out as HdrHistogram's with 3 significant digits: any value up to an hour is
 * counted in a bucket that is at most one part in 1,024 wide.
 *
 * A bucket of index i below 2,048 is of the value i. After these each 1,024 buckets have twice the width of the 1,024
 * before. One thread counts, and others may read meanwhile: what they read is some moments old. */
#ifndef BENCH_HISTOGRAM_H
#define BENCH_HISTOGRAM_H

#include <stdatomic.h>
#include <stdint.h>

enum { HALF_BUCKETS = 1024, HISTOGRAM_DOUBLINGS = 32, HISTOGRAM_BUCKETS = (HISTOGRAM_DOUBLINGS + 1) * HALF_BUCKETS };

typedef struct histogram {
    _Atomic uint64_t counts[HISTOGRAM_BUCKETS];
} histogram;

/* The bucket of a value. A value of an hour or more is in the last bucket. */
uint32_t bucket_of(uint64_t value);
/* The greatest value that a bucket counts. */
uint64_t value_of_bucket(uint32_t bucket);
/* Counts a value. Only one thread may. */
void count_value(histogram *to, uint64_t value);
/* Adds the counts of one histogram to those of another, which no other thread reads or writes. */
void add_histogram(histogram *to, const histogram *from);
/* Takes the counts of an older state of a histogram away from it. */
void subtract_histogram(histogram *from, const histogram *older);
/* How many values were counted. */
uint64_t values_counted(const histogram *of);
/* The value that `percent` of 100 values do not pass: the greatest value of its bucket, and 0 if there are no values.
 */
uint64_t value_at(const histogram *of, double percent);

#endif
