/* rivals: simulates the two designs that Kangaroo's paper (McAllister et al. 2021) compares with, on the stream that
 * kangaroo-bench makes of the same words: a set-associative cache, and a log-structured one whose index takes 30 bits
 * an object. It prints hit ratio and bytes written to flash for each byte stored.
 *
 * Parameters: bytes of flash and of memory; how many of 100 objects that leave memory are admitted to flash; bits of
 * memory for each object on flash (4 for the filters of sets, 30 for the index of the log); 60 bytes of memory for an
 * object in memory beside its key and value; whether a hit on flash brings the object back to memory.
 *
 * Simplified: only memory and pages are modelled, and no time, no threads, no garbage collection of the device and no
 * expiry. An object on flash takes 12 bytes beside key and value, and a page of 4,096 has room for 4,078, as in this
 * repository's cache. Filters have no false hits. FIFO is by object. In the sets a removal, or a newer value that is
 * not admitted, writes a page if the set has the key; in the log it costs nothing. The index takes at most 90 of 100
 * bytes of memory, so with little memory the log uses only a part of the flash. The mean object, by which memory for
 * index and filters is set aside, is --object-bytes. */
#include "lru.h"
#include "report.h"
#include "words.h"
#include <errno.h>
#include <math.h>
#include <stdlib.h>
#include <string.h>

enum { PAGE_ROOM = 4078, RECORD_BYTES = 12, RECORD_LEAST = RECORD_BYTES + 1 };

/* Pages by the hash of a key. Of each the oldest object is first. */
typedef struct set_pages {
    uint64_t count;
    uint32_t most; /* objects of a page */
    uint64_t *numbers;
    uint16_t *bytes;
    uint16_t *held, *used; /* objects of a page, and their bytes */
} set_pages;

/* Pages one after another, and an index of what they hold. */
typedef struct log_pages {
    lru held; /* as a queue; a cost is bytes of pages */
    uint64_t objects_most, bytes_most;
    uint32_t page_used; /* bytes of the page that is being filled */
} log_pages;

typedef struct rival rival;

/* A design is how it keeps objects on flash. */
typedef struct design {
    const char *name;
    count_name hits;
    bool (*has)(const rival *of, uint64_t number);
    void (*insert)(rival *of, uint64_t number, uint32_t bytes); /* in place of an older object of the key */
    void (*remove)(rival *of, uint64_t number);
} design;

struct rival {
    const design *as;
    const bench_options *options;
    lru memory;
    uint64_t memory_room, memory_set_aside; /* bytes: for objects, and for the index or the filters */
    set_pages sets;
    log_pages log;
    chance drawn;
    figures counted;
};

static void write_page(rival *of) { of->counted.flash_bytes += PAGE_BYTES; }

/* ------------------------------------------------------------------------------------------------------------- sets */

static uint64_t set_of(const set_pages *of, uint64_t number) { return mix(number ^ 0x736574) % of->count; }

/* The place of a key in its set, or `held`. */
static uint32_t place_in(const set_pages *of, uint64_t set, uint64_t number) {
    const uint64_t *numbers = of->numbers + set * of->most;
    uint32_t place = 0;
    while (place < of->held[set] && numbers[place] != number) place++;
    return place;
}

static bool set_has(const rival *of, uint64_t number) {
    uint64_t set = set_of(&of->sets, number);
    return place_in(&of->sets, set, number) < of->sets.held[set];
}

static void take_place(set_pages *of, uint64_t set, uint32_t place) {
    uint64_t *numbers = of->numbers + set * of->most;
    uint16_t *bytes = of->bytes + set * of->most;
    uint32_t after = --of->held[set] - place;
    of->used[set] = (uint16_t)(of->used[set] - bytes[place]);
    memmove(numbers + place, numbers + place + 1, after * sizeof *numbers);
    memmove(bytes + place, bytes + place + 1, after * sizeof *bytes);
}

static void insert_in_set(rival *of, uint64_t number, uint32_t bytes) {
    set_pages *sets = &of->sets;
    uint64_t set = set_of(sets, number);
    uint32_t place = place_in(sets, set, number), taken = bytes + RECORD_BYTES;
    if (place < sets->held[set]) take_place(sets, set, place);
    while (sets->used[set] + taken > PAGE_ROOM || sets->held[set] == sets->most) take_place(sets, set, 0);
    sets->numbers[set * sets->most + sets->held[set]] = number;
    sets->bytes[set * sets->most + sets->held[set]] = (uint16_t)taken;
    sets->held[set]++;
    sets->used[set] = (uint16_t)(sets->used[set] + taken);
    write_page(of);
}

static void remove_from_set(rival *of, uint64_t number) {
    uint64_t set = set_of(&of->sets, number);
    uint32_t place = place_in(&of->sets, set, number);
    if (place == of->sets.held[set]) return;
    take_place(&of->sets, set, place);
    write_page(of);
}

static const design set_associative = {"set-associative", HITS_SET, set_has, insert_in_set, remove_from_set};

/* The most objects that a page can have, where all sizes are known. */
static uint32_t objects_of_page(const bench_options *of) {
    if (of->replay != NULL) return PAGE_ROOM / RECORD_LEAST;
    return PAGE_ROOM / (RECORD_BYTES + of->key_bytes + of->values.least);
}

static set_pages new_sets(const bench_options *of) {
    set_pages made = {.count = of->cache.flash_bytes / PAGE_BYTES, .most = objects_of_page(of)};
    made.numbers = take_memory(made.count * made.most, sizeof *made.numbers);
    made.bytes = take_memory(made.count * made.most, sizeof *made.bytes);
    made.held = take_memory(made.count, sizeof *made.held);
    made.used = take_memory(made.count, sizeof *made.used);
    return made;
}

/* -------------------------------------------------------------------------------------------------------------- log */

static bool log_has(const rival *of, uint64_t number) { return find_object(&of->log.held, number) != NULL; }

static void remove_from_log(rival *of, uint64_t number) {
    lru_object *found = find_object(&of->log.held, number);
    if (found != NULL) remove_object(&of->log.held, found);
}

static void insert_in_log(rival *of, uint64_t number, uint32_t bytes) {
    log_pages *log = &of->log;
    uint32_t taken = bytes + RECORD_BYTES;
    lru_object added = {.number = number, .bytes = bytes, .cost = taken};
    remove_from_log(of, number);
    if (log->page_used + taken > PAGE_ROOM) {
        added.cost += PAGE_BYTES - log->page_used; /* the rest of the page stays empty */
        log->page_used = 0;
        write_page(of);
    }
    log->page_used += taken;
    add_object(&log->held, &added);
    while (log->held.used > log->bytes_most || log->held.held > log->objects_most) take_oldest(&log->held);
}

static const design log_structured = {"log-structured", HITS_LOG, log_has, insert_in_log, remove_from_log};

/* ---------------------------------------------------------------------------------------------------------- a rival */

/* Sets memory aside for the index or the filters, and leaves the rest for objects. */
static void share_memory(rival *of) {
    const bench_options *options = of->options;
    const kangaroo_options *cache = &options->cache;
    double memory = (double)cache->memory_bytes, bits = options->index_bits;
    double objects = (double)cache->flash_bytes / (cache->object_bytes + RECORD_BYTES);
    if (of->as == &log_structured) objects = fmin(objects, memory * 0.9 * 8 / bits);
    else bits = options->filter_bits;
    of->memory_set_aside = (uint64_t)(objects * bits / 8);
    if (of->memory_set_aside >= cache->memory_bytes)
        refuse_words(
            "--memory is too small: the filters of --flash would take %llu bytes of it; give more memory or less flash",
            (unsigned long long)of->memory_set_aside);
    of->memory_room = cache->memory_bytes - of->memory_set_aside;
    of->log.objects_most = (uint64_t)objects;
    of->log.bytes_most = cache->flash_bytes;
}

static rival new_rival(const design *as, const bench_options *options) {
    rival made = {.as = as, .options = options, .memory = new_lru(), .drawn = {mix(options->seed ^ 0x61646d6974)}};
    share_memory(&made);
    if (as == &set_associative) made.sets = new_sets(options);
    else made.log.held = new_lru();
    return made;
}

static void end_rival(rival *of) {
    end_lru(&of->memory);
    if (of->as == &log_structured) end_lru(&of->log.held);
    free(of->sets.numbers);
    free(of->sets.bytes);
    free(of->sets.held);
    free(of->sets.used);
}

/* Brings an object that leaves memory to flash, or declines it: then an older one of its key must go. */
static void push_out(rival *of, const lru_object *leaving) {
    if (leaving->is_on_flash && of->as->has(of, leaving->number)) return;
    if (next_share(&of->drawn) * 100 < of->options->admit) of->as->insert(of, leaving->number, leaving->bytes);
    else of->as->remove(of, leaving->number);
}

static void keep_in_memory(rival *of, uint64_t number, uint32_t bytes, bool is_on_flash) {
    lru_object added = {
        .number = number, .bytes = bytes, .cost = bytes + of->options->overhead, .is_on_flash = is_on_flash};
    lru_object *older = find_object(&of->memory, number);
    if (older != NULL) remove_object(&of->memory, older);
    add_object(&of->memory, &added);
    while (of->memory.used > of->memory_room) {
        lru_object leaving = take_oldest(&of->memory);
        push_out(of, &leaving);
    }
}

static void drop(rival *of, uint64_t number) {
    lru_object *held = find_object(&of->memory, number);
    if (held != NULL) remove_object(&of->memory, held);
    of->as->remove(of, number);
}

/* Stores a value that was put, or filled in after a miss. */
static void store(rival *of, const request *asked, count_name as) {
    if (asked->value_length > KANGAROO_VALUE_MAX) {
        of->counted.counts[TOO_LARGE]++;
        drop(of, asked->number);
        return;
    }
    uint32_t bytes = asked->key_length + (uint32_t)asked->value_length;
    of->counted.counts[as]++;
    of->counted.counts[BYTES_STORED] += bytes;
    keep_in_memory(of, asked->number, bytes, false);
}

static void get(rival *of, const request *asked) {
    lru_object *found = find_object(&of->memory, asked->number);
    of->counted.counts[GETS]++;
    if (found != NULL) {
        touch_object(&of->memory, found);
        of->counted.counts[HITS_MEMORY]++;
    } else if (of->as->has(of, asked->number)) {
        of->counted.counts[of->as->hits]++;
        of->counted.pages_read++;
        if (of->options->brings_back && asked->value_length <= KANGAROO_VALUE_MAX)
            keep_in_memory(of, asked->number, asked->key_length + (uint32_t)asked->value_length, true);
    } else if (!of->options->is_plain) {
        store(of, asked, FILLS);
    }
}

static void serve(rival *of, const request *asked) {
    of->counted.counts[OPERATIONS]++;
    if (asked->what == ACT_GET) {
        get(of, asked);
    } else if (asked->what == ACT_PUT) {
        store(of, asked, PUTS);
    } else {
        drop(of, asked->number);
        of->counted.counts[REMOVALS]++;
    }
}

/* ------------------------------------------------------------------------------------------------------------- runs */

/* Serves so many requests, or all if the number is 0. */
static void serve_some(rival *of, stream *from, uint64_t operations) {
    request asked;
    for (uint64_t i = 0; operations == 0 || i < operations; i++) {
        if (!next_request(from, 0, &asked)) return;
        serve(of, &asked);
    }
}

/* What one design came to: with a warm-up, and after it. */
typedef struct outcome {
    const design *as;
    uint64_t memory_room, memory_set_aside;
    figures all, measured;
} outcome;

static outcome simulate(const design *as, const bench_options *options) {
    load of = {
        .values = options->values, .drawn = options->drawn, .key_bytes = options->key_bytes, .seed = options->seed};
    memcpy(of.percent, options->percent, sizeof of.percent);
    if (options->replay != NULL) of.replayed = open_trace(options->replay);
    stream from = new_stream(&of, 0);
    rival made = new_rival(as, options);
    if (options->warmup.number > 0) serve_some(&made, &from, options->warmup.number);
    figures before = made.counted;
    serve_some(&made, &from, options->operations);
    outcome of_design = {as, made.memory_room, made.memory_set_aside, made.counted, made.counted};
    for (int i = 0; i < COUNTS; i++) of_design.measured.counts[i] -= before.counts[i];
    of_design.measured.flash_bytes -= before.flash_bytes;
    of_design.measured.pages_read -= before.pages_read;
    end_rival(&made);
    end_stream(&from);
    close_trace(of.replayed);
    return of_design;
}

static void print_design_json(json *to, const outcome *of) {
    begin_object(to, NULL);
    json_text(to, "design", of->as->name);
    json_count(to, "memory_for_objects", of->memory_room);
    json_count(to, "memory_for_index", of->memory_set_aside);
    begin_object(to, "measured");
    json_figures(to, &of->measured);
    end_object(to);
    begin_object(to, "all");
    json_figures(to, &of->all);
    end_object(to);
    end_object(to);
}

static void print_json(const bench_options *options, const outcome *outcomes, int count) {
    json to = {.to = stdout};
    begin_object(&to, NULL);
    json_text(&to, "program", "rivals");
    begin_object(&to, "options");
    json_count(&to, "flash_bytes", options->cache.flash_bytes);
    json_count(&to, "memory_bytes", options->cache.memory_bytes);
    json_count(&to, "object_bytes", options->cache.object_bytes);
    json_number(&to, "admit_percent", options->admit);
    json_number(&to, "index_bits", options->index_bits);
    json_number(&to, "filter_bits", options->filter_bits);
    json_count(&to, "memory_overhead", options->overhead);
    json_truth(&to, "brings_back", options->brings_back);
    end_object(&to);
    json_load(&to, options);
    begin_array(&to, "designs");
    for (int i = 0; i < count; i++) print_design_json(&to, &outcomes[i]);
    end_array(&to);
    end_object(&to);
}

static void print_text(const outcome *outcomes, int count) {
    printf("%-24s %16s %16s %16s %16s\n", "after the warm-up", "hit ratio", "in memory", "flash / stored", "gets");
    for (int i = 0; i < count; i++) {
        const figures *of = &outcomes[i].measured;
        double memory = (double)of->counts[HITS_MEMORY] / (double)of->counts[GETS];
        printf("%-24s %16.4f %16.4f %16.3f %16llu\n", outcomes[i].as->name, hit_ratio_of(of), memory,
               write_amplification_of(of), (unsigned long long)of->counts[GETS]);
    }
}

int main(int count, char **words) {
    program_name = "rivals";
    bench_options options = parse_options(THE_RIVALS, count, words);
    const design *designs[] = {&set_associative, &log_structured};
    outcome outcomes[2];
    for (int i = 0; i < 2; i++) outcomes[i] = simulate(designs[i], &options);
    if (options.is_json) print_json(&options, outcomes, 2);
    else print_text(outcomes, 2);
    if (fflush(stdout) != 0) refuse_system("the report could not be printed: %s", strerror(errno));
    return STATUS_RIGHT;
}
