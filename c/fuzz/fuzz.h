/* fuzz.h: what the targets share. A target ends by abort() if something is not so, and then libFuzzer keeps the input. */
#ifndef KANGAROO_FUZZ_H
#define KANGAROO_FUZZ_H

#define _GNU_SOURCE
#include "kangaroo.h"
#include <stdbool.h>
#include <stdint.h>
#include <stdio.h>
#include <stdlib.h>
#include <string.h>

int LLVMFuzzerTestOneInput(const uint8_t *data, size_t length);

static inline void expect(bool is_so, const char *what) {
    if (is_so) return;
    fprintf(stderr, "fuzz: not so: %s\n", what);
    abort();
}

/* The bytes of an input, taken from its front. Past its end all are 0. */
typedef struct input {
    const uint8_t *at;
    size_t left;
} input;

static inline uint8_t take_byte(input *from) {
    if (from->left == 0) return 0;
    from->left--;
    return *from->at++;
}

/* A number below `bound`, which is at most 65,536. */
static inline uint32_t take_below(input *from, uint32_t bound) {
    uint32_t high = bound > 256 ? take_byte(from) : 0;
    return (high << 8 | take_byte(from)) % bound;
}

#endif
