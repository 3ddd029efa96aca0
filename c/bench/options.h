/* options.h: the words of kangaroo-bench, of its commands calls and memory, and of rivals. Each of these programs takes some of
 * them. */
#ifndef BENCH_OPTIONS_H
#define BENCH_OPTIONS_H

#include "kangaroo.h"
#include "keys.h"
#include "sizes.h"
#include "traces.h"

typedef enum program { THE_DRIVER = 1, THE_RIVALS = 2, THE_CALLS = 4, THE_OPENING = 8 } program;

/* A length of time or a number of operations. */
typedef struct amount {
    bool is_seconds;
    uint64_t number;
} amount;

typedef struct bench_options {
    /* the load */
    uint64_t keys;
    distribution drawn;
    sizes values;
    uint32_t key_bytes;
    bool is_plain; /* the pattern is plain, and not look-aside */
    double percent[ACTS];
    uint64_t expiry; /* seconds; 0 is never */
    const char *replay;
    uint64_t seed;

    /* the run */
    uint32_t threads;
    uint64_t seconds, operations; /* 0 is no limit */
    amount warmup;
    double rate; /* operations a second of all threads; 0 is as fast as they go */

    /* the cache */
    const char *folder;
    kangaroo_options cache;
    double admit; /* per cent */
    bool is_sparse;

    /* the server */
    const char *server;
    uint32_t pipeline;
    uint64_t server_process;
    bool keeps; /* what the server holds */

    /* the report */
    const char *series;
    bool is_json;

    /* the rivals */
    double index_bits, filter_bits;
    uint32_t overhead;
    bool brings_back;

    uint64_t given; /* a bit for each word of the table */
} bench_options;

/* Reads a program's words. Prints the help and ends with status 0 if it is asked for; refuses words that are wrong,
 * that are missing, or that mean nothing beside another. */
bench_options parse_options(program who, int count, char **words);
/* The word that sets a field of kangaroo_options, by the name that the library gives it. */
const char *word_of_field(const char *field);
/* What a right value of this word is. */
const char *right_value(const char *word);

#endif
