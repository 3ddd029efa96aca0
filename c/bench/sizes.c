/* Sizes and bytes of values. sizes.h says what each function is for. */
#include "sizes.h"
#include "kangaroo.h"
#include "keys.h"
#include "words.h"
#include <math.h>
#include <string.h>

/* Whether a number is a whole one from 0 to the longest value. */
static bool is_size(double number) { return number <= KANGAROO_VALUE_MAX && number == floor(number); }

bool read_sizes(const char *word, sizes *to) {
    double numbers[2];
    if (strncmp(word, "fixed:", 6) == 0 && read_number(word + 6, numbers) && is_size(numbers[0])) {
        *to = (sizes){.kind = IS_FIXED, .least = (uint32_t)numbers[0], .most = (uint32_t)numbers[0]};
        return true;
    }
    if (strncmp(word, "uniform:", 8) == 0 && read_numbers(word + 8, numbers, 2)) {
        *to = (sizes){.kind = IS_BETWEEN};
        if (!is_size(numbers[0]) || !is_size(numbers[1]) || numbers[0] > numbers[1]) return false;
        to->least = (uint32_t)numbers[0];
        to->most = (uint32_t)numbers[1];
        return true;
    }
    if (strncmp(word, "lognormal:", 10) == 0 && read_numbers(word + 10, numbers, 2)) {
        *to = (sizes){IS_LOGNORMAL, 1, KANGAROO_VALUE_MAX, numbers[0], numbers[1]};
        return numbers[0] >= 1 && numbers[0] <= KANGAROO_VALUE_MAX && numbers[1] > 0 && numbers[1] <= 5;
    }
    return false;
}

uint32_t size_of(const sizes *of, uint64_t key) {
    if (of->kind == IS_FIXED) return of->least;
    chance drawn = {mix(key ^ 0x53697a65)}; /* other words than those that draw keys */
    if (of->kind == IS_BETWEEN) return of->least + (uint32_t)next_below(&drawn, of->most - of->least + 1);
    double radius = sqrt(-2 * log(1 - next_share(&drawn))); /* a normal number, by Box and Muller 1958 */
    double normal = radius * cos(2 * 3.14159265358979323846 * next_share(&drawn));
    double size = round(exp(log(of->mean) - of->sigma * of->sigma / 2 + of->sigma * normal));
    return size < of->least ? of->least : size > of->most ? of->most : (uint32_t)size;
}

double mean_size(const sizes *of) {
    enum { KEYS = 65536 };
    double sum = 0;
    for (uint64_t rank = 0; rank < KEYS; rank++) sum += size_of(of, number_of_rank(rank));
    return sum / KEYS;
}

uint64_t hash_of_key(const char *key, size_t length) {
    uint64_t hash = 0xcbf29ce484222325u; /* FNV-1a (Fowler, Noll and Vo) */
    for (size_t i = 0; i < length; i++) hash = (hash ^ (uint8_t)key[i]) * 0x100000001b3u;
    return mix(hash);
}

/* The word of a value that stands at a place; the length is in it, so that a value cut short is a wrong one. */
static uint64_t word_at(uint64_t key, uint32_t length, uint32_t place) {
    return mix(key + ((uint64_t)length << 32 | place) * 0x9e3779b97f4a7c15u);
}

void write_value(uint64_t key, uint32_t length, uint8_t *value) {
    for (uint32_t at = 0; at < length; at += 8) {
        uint64_t word = word_at(key, length, at);
        memcpy(value + at, &word, length - at < 8 ? length - at : 8);
    }
}

uint32_t wrong_byte(uint64_t key, uint32_t length, const uint8_t *value) {
    for (uint32_t at = 0; at < length; at += 8) {
        uint64_t word = word_at(key, length, at);
        const uint8_t *wanted = (const uint8_t *)&word;
        if (memcmp(value + at, wanted, length - at < 8 ? length - at : 8) == 0) continue;
        while (value[at] == *wanted) at++, wanted++;
        return at;
    }
    return length;
}
