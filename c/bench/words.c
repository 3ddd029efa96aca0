/* Numbers of the command line, refusals, and memory. words.h says what each function is for. */
#include "words.h"
#include <ctype.h>
#include <math.h>
#include <stdarg.h>
#include <stdio.h>
#include <stdlib.h>
#include <string.h>
#include <unistd.h>

const char *program_name = "kangaroo-bench";

static void print_refusal(const char *format, va_list given) {
    fprintf(stderr, "%s: ", program_name);
    vfprintf(stderr, format, given);
    fprintf(stderr, "\n");
}

/* Threads may be running, so no exit handler is. */
void refuse_words(const char *format, ...) {
    va_list given;
    va_start(given, format);
    print_refusal(format, given);
    va_end(given);
    _exit(STATUS_BAD_WORDS);
}

void refuse_system(const char *format, ...) {
    va_list given;
    va_start(given, format);
    print_refusal(format, given);
    va_end(given);
    _exit(STATUS_REFUSED);
}

/* Reads digits and at most one letter of `letters`, each of which multiplies by `step` once more than the one before.
 */
static bool read_scaled(const char *word, const char *letters, uint64_t step, uint64_t *number) {
    uint64_t sum = 0;
    const char *at = word;
    for (; isdigit((unsigned char)*at); at++)
        if (__builtin_mul_overflow(sum, 10u, &sum) || __builtin_add_overflow(sum, (uint64_t)(*at - '0'), &sum))
            return false;
    if (at == word) return false;
    if (*at != 0) {
        const char *letter = strchr(letters, *at);
        if (letter == NULL || at[1] != 0) return false;
        for (long times = letter - letters; times >= 0; times--)
            if (__builtin_mul_overflow(sum, step, &sum)) return false;
    }
    *number = sum;
    return true;
}

bool read_count(const char *word, uint64_t *count) { return read_scaled(word, "KMG", 1000, count); }

bool read_bytes(const char *word, uint64_t *bytes) { return read_scaled(word, "KMGT", 1024, bytes); }

bool read_number(const char *word, double *number) { return read_numbers(word, number, 1); }

bool read_numbers(const char *word, double *numbers, int count) {
    for (int i = 0; i < count; i++) {
        char *end;
        if (!isdigit((unsigned char)*word)) return false; /* no sign, no "inf" and no "nan" */
        if (word[0] == '0' && tolower((unsigned char)word[1]) == 'x') return false;
        numbers[i] = strtod(word, &end);
        if (!isfinite(numbers[i]) || *end != (i + 1 < count ? ':' : 0)) return false;
        word = end + 1;
    }
    return true;
}

void *take_memory(uint64_t count, uint64_t bytes) {
    uint64_t all;
    void *block = NULL;
    if (!__builtin_mul_overflow(count, bytes, &all)) block = malloc(all > 0 ? all : 1);
    if (block == NULL)
        refuse_system("no memory for %llu times %llu bytes", (unsigned long long)count, (unsigned long long)bytes);
    memset(block, 0, all);
    return block;
}
