/* sizes.h: how long a key's value is, and which bytes it has. Both follow from the key, so that any hit can be checked.
 */
#ifndef BENCH_SIZES_H
#define BENCH_SIZES_H

#include <stdbool.h>
#include <stddef.h>
#include <stdint.h>

typedef enum sizes_kind { IS_FIXED, IS_BETWEEN, IS_LOGNORMAL } sizes_kind;

typedef struct sizes {
    sizes_kind kind;
    uint32_t least, most; /* bytes */
    double mean, sigma;   /* of the log-normal distribution: the mean in bytes, and sigma of the logarithm */
} sizes;

/* Reads fixed:N, uniform:A:B or lognormal:MEAN:SIGMA. */
bool read_sizes(const char *word, sizes *to);
/* Bytes of the value of a key, whose number or hash is given: the same each time, from `least` to `most`. */
uint32_t size_of(const sizes *of, uint64_t key);
/* Mean bytes of a value, after sizes past `least` and `most` were cut to these: of 65,536 keys. */
double mean_size(const sizes *of);

/* The hash of a key's bytes, by which a replayed key has its size and value. */
uint64_t hash_of_key(const char *key, size_t length);
/* Writes the value of a key in so many bytes. */
void write_value(uint64_t key, uint32_t length, uint8_t *value);
/* The place of the first byte that is not the value's, or `length` if there is none. */
uint32_t wrong_byte(uint64_t key, uint32_t length, const uint8_t *value);

#endif
