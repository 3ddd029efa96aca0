/* words.h: numbers as a command line spells them, and the two ways in which these programs refuse. */
#ifndef BENCH_WORDS_H
#define BENCH_WORDS_H

#include <stdbool.h>
#include <stdint.h>

/* Statuses of the programs. */
enum { STATUS_RIGHT = 0, STATUS_WRONG_HIT = 1, STATUS_BAD_WORDS = 2, STATUS_REFUSED = 3 };

/* The program's name, which begins each line on standard error. main writes it first. */
extern const char *program_name;

/* Each writes a line on standard error and ends the process, from any thread: bad words with 2, a refusal of the
 * system, of the cache or of the server with 3. */
void refuse_words(const char *format, ...) __attribute__((noreturn, format(printf, 1, 2)));
void refuse_system(const char *format, ...) __attribute__((noreturn, format(printf, 1, 2)));

/* Reads a count: digits, and K, M or G after them for 10^3, 10^6 and 10^9. False if it is none, or above 2^64 - 1. */
bool read_count(const char *word, uint64_t *count);
/* Reads bytes: digits, and K, M, G or T after them for 2^10, 2^20, 2^30 and 2^40. */
bool read_bytes(const char *word, uint64_t *bytes);
/* Reads a decimal number without a sign. */
bool read_number(const char *word, double *number);
/* Reads `count` numbers that colons part, and nothing after them. */
bool read_numbers(const char *word, double *numbers, int count);

/* Memory that is all zeros and touched, so that what the process takes later is not the driver's; refuses if there is
 * none. */
void *take_memory(uint64_t count, uint64_t bytes);

#endif
