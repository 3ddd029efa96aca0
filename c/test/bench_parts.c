/* The parts of kangaroo-bench: counts of a stream against its probabilities, sizes and values by key, the histogram
 * against sorted values, words, and lines of traces. */
#include "test.h"
#include "histogram.h"
#include "keys.h"
#include "lru.h"
#include "sizes.h"
#include "traces.h"
#include "words.h"
#include <math.h>

enum { DRAWN = 2000000, KEYS = 10000 };

/* ---------------------------------------------------------------------------------------------------------- streams */

static uint64_t *count_ranks(const distribution *of, uint64_t seed) {
    uint64_t *counts = take_memory(of->keys, sizeof *counts);
    chance drawn = {seed};
    for (int i = 0; i < DRAWN; i++) {
        uint64_t rank = next_rank(of, &drawn);
        expect(rank < of->keys, "a rank below the number of keys");
        counts[rank]++;
    }
    return counts;
}

/* Whether a count is near what a share of 1 lets expect: five standard deviations, and a part of it besides. */
static bool is_near(uint64_t count, double share, double part) {
    double expected = share * DRAWN;
    return fabs((double)count - expected) <= 5 * sqrt(expected) + part * expected;
}

static uint64_t sum_of(const uint64_t *counts, uint64_t from, uint64_t to) {
    uint64_t sum = 0;
    for (uint64_t i = from; i < to; i++) sum += counts[i];
    return sum;
}

/* The method is exact for the first two ranks. The next two are drawn up to 16 per cent too often, and others are up to
 * 4 per cent off by groups. */
static void test_zipf(double exponent) {
    distribution of = {.kind = IS_ZIPF, .exponent = exponent};
    set_keys(&of, KEYS);
    uint64_t *counts = count_ranks(&of, 1);
    double all = zeta(KEYS, exponent);
    expect(is_near(counts[0], 1 / all, 0), "Zipf: the first rank");
    expect(is_near(counts[1], pow(2, -exponent) / all, 0), "Zipf: the second rank");
    for (uint64_t from = 2, to; from < KEYS; from = to) {
        to = from == 2 ? 4 : from * 4 < KEYS ? from * 4 : KEYS;
        double share = (zeta(to, exponent) - zeta(from, exponent)) / all;
        expect(is_near(sum_of(counts, from, to), share, from == 2 ? 0.16 : 0.04), "Zipf: a group of ranks");
    }
    free(counts);
    show("Zipf's law, exponent %.2f: %d draws of %d keys are as its probabilities have it", exponent, DRAWN, KEYS);
}

static void test_uniform(void) {
    distribution of = {.kind = IS_UNIFORM};
    set_keys(&of, KEYS);
    uint64_t *counts = count_ranks(&of, 2);
    double squares = 0, each = (double)DRAWN / KEYS;
    for (int i = 0; i < KEYS; i++) squares += ((double)counts[i] - each) * ((double)counts[i] - each) / each;
    expect(fabs(squares - KEYS) < 6 * sqrt(2.0 * KEYS), "uniform: chi square");
    free(counts);
    show("uniform: chi square of %d draws of %d keys is %.0f", DRAWN, KEYS, squares);
}

static void test_hot(void) {
    distribution of;
    expect(read_distribution("hot:0.1:0.9", &of), "hot:0.1:0.9");
    set_keys(&of, KEYS);
    uint64_t *counts = count_ranks(&of, 3);
    expect(is_near(sum_of(counts, 0, KEYS / 10), 0.9, 0), "hot keys get their share");
    expect(is_near(sum_of(counts, 0, KEYS / 20), 0.45, 0), "half of the hot keys get half of it");
    expect(is_near(sum_of(counts, KEYS / 10, KEYS / 2), 0.1 * 4 / 9, 0), "the others share the rest");
    free(counts);
    show("hot: a tenth of the keys gets nine of ten draws");
}

static void test_zeta(void) {
    for (double exponent = 0.3; exponent < 1.6; exponent += 0.23) {
        double sum = 0;
        for (int i = 1000000; i >= 1; i--) sum += pow(i, -exponent);
        expect(fabs(zeta(1000000, exponent) - sum) < 1e-9 * sum, "zeta by formula is the sum");
    }
    show("the sum of Zipf's weights by its formula is that term by term");
}

static int by_number(const void *a, const void *b) {
    uint64_t x = *(const uint64_t *)a, y = *(const uint64_t *)b;
    return (x > y) - (x < y);
}

/* Ranks have numbers of their own, and the most popular ones are no more alike than others. */
static void test_scramble(void) {
    enum { RANKS = 1000000, PARTS = 64, TOP = 64000 };
    uint64_t *numbers = take_memory(RANKS, sizeof *numbers), parts[2][PARTS] = {{0}};
    for (uint64_t i = 0; i < RANKS; i++) numbers[i] = number_of_rank(i);
    for (int i = 0; i < TOP; i++) parts[0][numbers[i] % PARTS]++, parts[1][numbers[i] >> 58]++;
    for (int i = 0; i < PARTS; i++)
        expect(llabs((long long)parts[0][i] - TOP / PARTS) < 200 && llabs((long long)parts[1][i] - TOP / PARTS) < 200,
               "a part");
    qsort(numbers, RANKS, sizeof *numbers, by_number);
    for (int i = 1; i < RANKS; i++) expect(numbers[i] != numbers[i - 1], "two ranks, two numbers");
    free(numbers);
    char key[KEY_ROOM];
    spell_key(0x0123456789abcdef, 20, key);
    expect(memcmp(key, "0123456789abcdefkkkk", 20) == 0, "a key as it is spelled");
    show("%d ranks have keys of their own, spread evenly", RANKS);
}

/* ------------------------------------------------------------------------------------------------- sizes and values */

static void test_sizes(const char *word, double mean, double part) {
    sizes of, again;
    expect(read_sizes(word, &of) && read_sizes(word, &again), word);
    for (uint64_t rank = 0; rank < KEYS; rank++) {
        uint64_t key = number_of_rank(rank);
        uint32_t size = size_of(&of, key);
        expect(size == size_of(&again, key), "a size that is the same twice");
        expect(size >= of.least && size <= of.most, "a size within its limits");
    }
    expect(fabs(mean_size(&of) - mean) <= part * mean, "the mean of sizes");
    show("%s: sizes are the same twice, their mean is %.1f", word, mean_size(&of));
}

static void test_values(void) {
    uint8_t value[KANGAROO_VALUE_MAX], other[KANGAROO_VALUE_MAX];
    for (uint32_t length = 0; length <= 100; length++) {
        uint64_t key = number_of_rank(length);
        write_value(key, length, value);
        expect(wrong_byte(key, length, value) == length, "a value is its key's");
        for (uint32_t at = 0; at < length; at++) {
            value[at] ^= 16;
            expect(wrong_byte(key, length, value) == at, "a byte that was changed");
            value[at] ^= 16;
        }
        write_value(key + 1, length, other);
        expect(length < 8 || memcmp(value, other, length) != 0, "another key's value");
        expect(length < 9 || wrong_byte(key, length - 1, value) < length - 1, "a value cut short");
    }
    write_value(7, KANGAROO_VALUE_MAX, value);
    expect(wrong_byte(7, KANGAROO_VALUE_MAX, value) == KANGAROO_VALUE_MAX, "the longest value");
    show("each byte that is changed in a value is found, and so are other keys' values and values cut short");
}

/* -------------------------------------------------------------------------------------------------------- histogram */

static void test_buckets(void) {
    expect(bucket_of(0) == 0 && bucket_of(2047) == 2047 && bucket_of(2048) == 2048, "the first buckets");
    for (uint32_t i = 0; i + 1 < HISTOGRAM_BUCKETS; i++) {
        uint64_t last = value_of_bucket(i);
        expect(bucket_of(last) == i && bucket_of(last + 1) == i + 1, "a bucket ends where the next begins");
        expect((last - (i > 0 ? value_of_bucket(i - 1) : 0)) * 1000 <= last || last < 2048, "three digits");
    }
    expect(bucket_of(3600u * 1000000000ull) < HISTOGRAM_BUCKETS - 1, "an hour");
    expect(bucket_of(UINT64_MAX) == HISTOGRAM_BUCKETS - 1, "more than an hour");
    show("%d buckets, each next to the other, for up to an hour with three digits", HISTOGRAM_BUCKETS);
}

/* Percentiles of two merged halves are those of the sorted values. */
static void test_percentiles(void) {
    enum { VALUES = 100000 };
    static const double percents[] = {0, 1, 50, 90, 99, 99.9, 99.99, 100};
    static histogram half, all, copy;
    static uint64_t values[VALUES];
    chance drawn = {4};
    expect(value_at(&all, 50) == 0, "no values");
    for (int i = 0; i < VALUES; i++) {
        values[i] = next_word(&drawn) >> (22 + next_below(&drawn, 40));
        count_value(i < VALUES / 2 ? &half : &all, values[i]);
    }
    add_histogram(&copy, &all);
    add_histogram(&all, &half);
    qsort(values, VALUES, sizeof *values, by_number);
    for (size_t i = 0; i < sizeof percents / sizeof *percents; i++) {
        uint64_t rank = (uint64_t)ceil(percents[i] * VALUES / 100), exact = values[rank > 0 ? rank - 1 : 0];
        uint64_t found = value_at(&all, percents[i]);
        expect(found == value_of_bucket(bucket_of(exact)), "the bucket of the sorted value");
        expect(found >= exact && (found - exact) * 1000 <= exact, "within a part in a thousand");
    }
    subtract_histogram(&all, &half);
    expect(values_counted(&all) == VALUES / 2 && memcmp(&all, &copy, sizeof all) == 0, "what was added is taken away");
    show("percentiles of %d values in two merged parts are those of the sorted values", VALUES);
}

/* ------------------------------------------------------------------------------------------------------------ a list */

/* Numbers of keys, the oldest first: what a list must hold. */
typedef struct plain_list {
    uint64_t numbers[64];
    uint32_t held;
} plain_list;

static bool take_out(plain_list *of, uint64_t number) {
    uint32_t place = 0;
    while (place < of->held && of->numbers[place] != number) place++;
    if (place == of->held) return false;
    of->held--;
    memmove(of->numbers + place, of->numbers + place + 1, (of->held - place) * sizeof *of->numbers);
    return true;
}

/* One step: an object is touched or removed if it is held, and added otherwise; the oldest leaves if there are many. */
static void step_lists(lru *of, plain_list *plain, uint64_t number, bool removes) {
    lru_object *found = find_object(of, number);
    bool is_held = take_out(plain, number);
    expect((found != NULL) == is_held, "held as in the plain list");
    if (found != NULL && removes) {
        remove_object(of, found);
        return;
    }
    if (found != NULL) touch_object(of, found);
    else add_object(of, &(lru_object){.number = number, .cost = 3});
    plain->numbers[plain->held++] = number;
    if (plain->held < 60) return;
    lru_object oldest = take_oldest(of);
    expect(oldest.number == plain->numbers[0] && take_out(plain, oldest.number), "the oldest is that of the plain list");
}

static void test_list(void) {
    enum { STEPS = 300000, MANY = 5000 };
    lru of = new_lru();
    plain_list plain = {.held = 0};
    chance drawn = {5};
    for (int i = 0; i < STEPS; i++) {
        step_lists(&of, &plain, next_below(&drawn, 100), next_below(&drawn, 4) == 0);
        expect(of.held == plain.held && of.used == 3 * of.held, "as many as in the plain list");
    }
    while (of.held > 0) (void)take_oldest(&of);
    for (uint64_t i = 0; i < MANY; i++) add_object(&of, &(lru_object){.number = number_of_rank(i), .cost = 1});
    for (uint64_t i = 0; i < MANY; i++) expect(take_oldest(&of).number == number_of_rank(i), "a queue of many");
    end_lru(&of);
    show("the list of rivals is a plain list's in %d steps, and a queue of %d", STEPS, MANY);
}

/* -------------------------------------------------------------------------------------------------- words and lines */

static void test_words(void) {
    uint64_t number;
    double share;
    expect(read_bytes("64G", &number) && number == 64ull << 30, "64G");
    expect(read_bytes("4K", &number) && number == 4096, "4K");
    expect(read_bytes("100M", &number) && number == 100ull << 20, "100M");
    expect(read_bytes("16777215T", &number) && !read_bytes("16777216T", &number), "the most bytes");
    expect(read_count("5M", &number) && number == 5000000, "5M as a count");
    expect(read_count("18446744073709551615", &number) && number == UINT64_MAX, "the greatest count");
    static const char *const wrong[] = {"",     "-1",  "+1", " 1", "1 ", "1KB", "k", "1k", "18446744073709551616",
                                        "0x10", "1.5", "1T"};
    for (size_t i = 0; i < sizeof wrong / sizeof *wrong; i++) expect(!read_count(wrong[i], &number), wrong[i]);
    expect(read_number("0.99", &share) && fabs(share - 0.99) < 1e-12, "0.99");
    static const char *const no_numbers[] = {"", "-1", "nan", "inf", "0x1p3", "1:2", "1e999", "1,5"};
    for (size_t i = 0; i < sizeof no_numbers / sizeof *no_numbers; i++)
        expect(!read_number(no_numbers[i], &share), no_numbers[i]);
    show("counts, bytes and numbers of the command line, and what is none");
}

static const char *fault_of(trace_form form, const char *line, trace_call *call) {
    return read_trace_line(form, line, strlen(line), call);
}

static void test_lines(void) {
    trace_call call;
    expect(fault_of(FORM_KVCACHE, "91,GET_LEASE,120,3,25", &call) == NULL, "a line of kvcache");
    expect(call.what == ACT_GET && call.key_length == 2 && call.key_size == 25 && call.value_length == 120 &&
               call.times == 3,
           "what it says");
    expect(fault_of(FORM_TWITTER, "17,abc,3,40,9,delete,0", &call) == NULL && call.what == ACT_REMOVE,
           "a line of twitter");
    expect(fault_of(FORM_TWITTER, "17,abc,3,40,9,set,86400", &call) == NULL && call.what == ACT_PUT &&
               call.seconds == 17 && call.lifetime == 86400,
           "what it says");
    static const char *const wrong[] = {"",
                                        "1",
                                        "91,GET,120,3",
                                        "91,GOT,120,3,25",
                                        "91,GET,x,3,25",
                                        "91,GET,120,,25",
                                        ",GET,120,3,25",
                                        "91,GET,120,3,251",
                                        "91,GET,120,3,25,1",
                                        "91,GET,-1,3,25",
                                        "91,GET,1234567890123456789,3,25",
                                        "17,abc,3,40,9,get",
                                        "17,abc,3,40,9,fetch,0",
                                        "x,abc,3,40,9,get,0",
                                        "17,abc,3,40,9,get,0,0"};
    for (size_t i = 0; i < sizeof wrong / sizeof *wrong; i++)
        expect(fault_of(FORM_KVCACHE, wrong[i], &call) != NULL && fault_of(FORM_TWITTER, wrong[i], &call) != NULL,
               wrong[i]);
    show("lines of both forms of trace, and %zu that are of none", sizeof wrong / sizeof *wrong);
}

int main(void) {
    test_zeta();
    test_zipf(0.5);
    test_zipf(0.9);
    test_zipf(0.99);
    test_uniform();
    test_hot();
    test_scramble();
    test_sizes("fixed:0", 0, 0);
    test_sizes("fixed:2048", 2048, 0);
    test_sizes("uniform:20:180", 100, 0.01);
    test_sizes("lognormal:100:0.5", 100, 0.01);
    test_values();
    test_buckets();
    test_percentiles();
    test_list();
    test_words();
    test_lines();
    return 0;
}
