/* Random words, distributions of keys, and how a key is spelled. keys.h says what each function is for. */
#include "keys.h"
#include "words.h"
#include <math.h>
#include <string.h>

uint64_t mix(uint64_t word) {
    word ^= word >> 33;
    word *= 0xff51afd7ed558ccdu;
    word ^= word >> 33;
    word *= 0xc4ceb9fe1a85ec53u;
    return word ^ word >> 33;
}

uint64_t next_word(chance *of) {
    of->state += 0x9e3779b97f4a7c15u;
    uint64_t word = of->state;
    word = (word ^ word >> 30) * 0xbf58476d1ce4e5b9u;
    word = (word ^ word >> 27) * 0x94d049bb133111ebu;
    return word ^ word >> 31;
}

double next_share(chance *of) { return (double)(next_word(of) >> 11) / 9007199254740992.0; /* 2^53 */ }

uint64_t next_below(chance *of, uint64_t limit) {
    __extension__ typedef unsigned __int128 wide;
    return (uint64_t)((wide)next_word(of) * limit >> 64);
}

static const double EXPONENT_MOST = 0.999;

bool read_distribution(const char *word, distribution *to) {
    double shares[2];
    if (strcmp(word, "uniform") == 0) {
        *to = (distribution){.kind = IS_UNIFORM};
        return true;
    }
    if (strncmp(word, "zipf:", 5) == 0 && read_number(word + 5, shares)) {
        *to = (distribution){.kind = IS_ZIPF, .exponent = shares[0]};
        return shares[0] > 0 && shares[0] <= EXPONENT_MOST;
    }
    if (strncmp(word, "hot:", 4) == 0 && read_numbers(word + 4, shares, 2)) {
        *to = (distribution){.kind = IS_HOT, .hot_keys = shares[0], .hot_requests = shares[1]};
        return shares[0] > 0 && shares[0] < 1 && shares[1] > 0 && shares[1] < 1;
    }
    return false;
}

/* The first terms one by one, and the rest by the formula of Euler and Maclaurin, whose error is below 10^-12 there. */
double zeta(uint64_t count, double exponent) {
    enum { FIRST = 10000 };
    double sum = 0, from = FIRST, to = (double)count;
    for (uint64_t i = count < FIRST ? count : FIRST; i >= 1; i--) sum += pow((double)i, -exponent);
    if (count <= FIRST) return sum;
    sum += (pow(to, 1 - exponent) - pow(from, 1 - exponent)) / (1 - exponent);
    sum += (pow(to, -exponent) - pow(from, -exponent)) / 2;
    return sum - exponent * (pow(to, -exponent - 1) - pow(from, -exponent - 1)) / 12;
}

void set_keys(distribution *of, uint64_t keys) {
    of->keys = keys;
    if (of->kind == IS_HOT) {
        of->hot_count = (uint64_t)((double)keys * of->hot_keys);
        if (of->hot_count == 0) of->hot_count = 1;
    }
    if (of->kind != IS_ZIPF) return;
    of->zeta = zeta(keys, of->exponent);
    of->second = 1 + pow(0.5, of->exponent);
    of->alpha = 1 / (1 - of->exponent);
    of->eta = (1 - pow(2 / (double)keys, 1 - of->exponent)) / (1 - of->second / of->zeta);
}

/* Gray and others, "Quickly generating billion-record synthetic databases" (1994), as YCSB has it. The first two ranks
 * are drawn exactly as Zipf's law has it, the next two up to 16 per cent too often, those past the tenth up to 3 too
 * seldom. */
static uint64_t next_zipf(const distribution *of, chance *from) {
    double share = next_share(from), reached = share * of->zeta;
    if (reached < 1) return 0;
    if (reached < of->second) return 1;
    double rank = (double)of->keys * pow(of->eta * share - of->eta + 1, of->alpha);
    return rank < (double)of->keys ? (uint64_t)rank : of->keys - 1;
}

uint64_t next_rank(const distribution *of, chance *from) {
    if (of->kind == IS_ZIPF) return next_zipf(of, from);
    if (of->kind == IS_UNIFORM) return next_below(from, of->keys);
    if (next_share(from) < of->hot_requests) return next_below(from, of->hot_count);
    return of->hot_count + next_below(from, of->keys - of->hot_count);
}

uint64_t number_of_rank(uint64_t rank) { return mix(rank * 0x9e3779b97f4a7c15u + 12345); }

void spell_key(uint64_t number, uint32_t length, char *key) {
    static const char digits[] = "0123456789abcdef";
    for (int i = 0; i < 16; i++) key[i] = digits[number >> (60 - 4 * i) & 15];
    memset(key + 16, 'k', length - 16);
}
