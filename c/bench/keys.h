/* keys.h: which key a request is of. A distribution draws ranks, 0 for the most popular key; a rank is then scrambled,
 * so that popularity says nothing of a key's bytes. */
#ifndef BENCH_KEYS_H
#define BENCH_KEYS_H

#include <stdbool.h>
#include <stdint.h>

enum { KEY_BYTES_LEAST = 16, KEY_BYTES_MOST = 250, KEY_ROOM = 256 };

/* Random words (SplitMix64: Steele, Lea and Flood 2014). The same seed gives the same words. */
typedef struct chance {
    uint64_t state;
} chance;

uint64_t next_word(chance *of);
/* A number from 0 up to, and not, 1. */
double next_share(chance *of);
/* A number below `limit`, which is not 0. */
uint64_t next_below(chance *of, uint64_t limit);

/* A bijection of words, each of whose bits depends on all bits (the finalizer of Appleby's MurmurHash3). */
uint64_t mix(uint64_t word);

typedef enum distribution_kind { IS_UNIFORM, IS_ZIPF, IS_HOT } distribution_kind;

typedef struct distribution {
    distribution_kind kind;
    double exponent; /* of Zipf's law: rank r is drawn as often as 1 / (r + 1)^exponent says; up to 0.999 */
    double hot_keys, hot_requests; /* shares of 1: so many keys get so many requests */

    uint64_t keys; /* the rest is worked out by set_keys */
    uint64_t hot_count;
    double zeta, second, alpha, eta;
} distribution;

/* Reads uniform, zipf:EXPONENT or hot:SHARE:SHARE. */
bool read_distribution(const char *word, distribution *to);
/* Sets how many keys there are, at least 2. */
void set_keys(distribution *of, uint64_t keys);
/* Draws a rank: a number below `keys`. */
uint64_t next_rank(const distribution *of, chance *from);
/* The sum of 1 / i^exponent for i from 1 to `count`. */
double zeta(uint64_t count, double exponent);

/* The number of the key that has a rank: other ranks have other numbers. */
uint64_t number_of_rank(uint64_t rank);
/* Spells a key of `length` bytes, from KEY_BYTES_LEAST on: 16 digits of the number, and letters after them. */
void spell_key(uint64_t number, uint32_t length, char *key);

#endif
