/* The report of a run. report.h says what each function is for. */
#include "report.h"
#include <inttypes.h>
#include <math.h>
#include <string.h>

void spell_distribution(const distribution *of, char *text, size_t room) {
    if (of->kind == IS_UNIFORM) snprintf(text, room, "uniform");
    else if (of->kind == IS_ZIPF) snprintf(text, room, "zipf:%g", of->exponent);
    else snprintf(text, room, "hot:%g:%g", of->hot_keys, of->hot_requests);
}

void spell_sizes(const sizes *of, char *text, size_t room) {
    if (of->kind == IS_FIXED) snprintf(text, room, "fixed:%u", of->least);
    else if (of->kind == IS_BETWEEN) snprintf(text, room, "uniform:%u:%u", of->least, of->most);
    else snprintf(text, room, "lognormal:%g:%g", of->mean, of->sigma);
}

/* ------------------------------------------------------------------------------------------------------------- JSON */

void json_load(json *to, const bench_options *of) {
    char text[128];
    begin_object(to, "load");
    if (of->replay != NULL) {
        json_text(to, "replay", of->replay);
    } else {
        json_count(to, "keys", of->keys);
        spell_distribution(&of->drawn, text, sizeof text);
        json_text(to, "distribution", text);
        json_count(to, "key_bytes", of->key_bytes);
        json_count(to, "expiry", of->expiry);
        snprintf(text, sizeof text, "%g:%g:%g", of->percent[ACT_GET], of->percent[ACT_PUT], of->percent[ACT_REMOVE]);
        json_text(to, "mix", text);
    }
    spell_sizes(&of->values, text, sizeof text);
    json_text(to, "sizes", text);
    json_text(to, "pattern", of->is_plain ? "plain" : "lookaside");
    json_count(to, "threads", of->threads);
    json_number(to, "rate", of->rate);
    json_count(to, "seed", of->seed);
    end_object(to);
}

static void json_cache(json *to, const kangaroo_options *of, const kangaroo_sizes *room) {
    begin_object(to, "options");
    json_count(to, "flash_bytes", of->flash_bytes);
    json_count(to, "memory_bytes", of->memory_bytes);
    json_count(to, "object_bytes", of->object_bytes);
    json_count(to, "threads", of->threads);
    json_count(to, "upkeep_threads", of->upkeep_threads);
    json_number(to, "admit_percent", of->admit * 100 / 65536.0);
    json_count(to, "threshold", of->threshold);
    json_count(to, "bring_back", of->bring_back);
    json_count(to, "lease_slots", of->lease_slots);
    json_count(to, "shards", of->shards);
    json_count(to, "lanes", of->lanes);
    json_count(to, "sets", of->sets);
    json_count(to, "memory_objects", of->memory_objects);
    json_count(to, "segments", of->segments);
    json_count(to, "segment_pages", of->segment_pages);
    json_count(to, "log_objects", of->log_objects);
    json_truth(to, "sparse", of->flags & KANGAROO_SPARSE);
    end_object(to);
    begin_object(to, "estimate");
    json_count(to, "file_bytes", room->file_bytes);
    json_count(to, "files", room->files);
    json_count(to, "memory_fixed", room->memory_fixed);
    json_count(to, "memory_full", room->memory_full);
    json_count(to, "memory_objects", room->memory_objects);
    json_count(to, "log_objects", room->log_objects);
    json_count(to, "set_objects", room->set_objects);
    end_object(to);
}

/* Bits of memory for each object that flash has room for. */
static double bits_an_object(const kangaroo_sizes *of, double bytes) {
    return 8 * bytes / (double)(of->set_objects + of->log_objects);
}

static void json_memory(json *to, const report *of) {
    begin_object(to, "memory");
    json_count(to, "own_before_open", of->memory.before_open);
    json_count(to, "own_after_open", of->memory.after_open);
    json_count(to, "own_at_end", of->memory.at_end);
    if (of->options->server == NULL) {
        json_number(to, "bits_per_object_estimated", bits_an_object(&of->sizes, (double)of->sizes.memory_fixed));
        json_number(to, "bits_per_object_measured",
                    bits_an_object(&of->sizes, (double)of->memory.after_open - (double)of->memory.before_open));
    }
    end_object(to);
}

static void json_counters(json *to, const kangaroo_counters *of) {
    uint64_t counts[sizeof *of / sizeof(uint64_t)];
    memcpy(counts, of, sizeof counts);
    begin_object(to, "counters");
    for (size_t i = 0; i < sizeof *of / sizeof(uint64_t) && kangaroo_counter_name(i) != NULL; i++)
        json_count(to, kangaroo_counter_name(i), counts[i]);
    end_object(to);
}

static void json_part(json *to, const char *name, const figures *of) {
    begin_object(to, name);
    json_figures(to, of);
    end_object(to);
}

void print_json_report(const report *of) {
    json to = {.to = stdout};
    begin_object(&to, NULL);
    json_text(&to, "program", "kangaroo-bench");
    json_text(&to, "command", of->command);
    json_text(&to, "target", of->options->server != NULL ? "memcached" : "cache");
    if (of->options->server != NULL) {
        json_text(&to, "server", of->options->server);
        json_count(&to, "pipeline", of->options->pipeline);
    } else {
        json_count(&to, "library_version", kangaroo_version());
        json_cache(&to, &of->options->cache, &of->sizes);
    }
    json_load(&to, of->options);
    if (of->has_warmup) json_part(&to, "warmup", &of->warmup);
    begin_object(&to, "measured");
    json_figures(&to, &of->measured);
    json_latencies(&to, &of->measured, of->between);
    end_object(&to);
    json_part(&to, "all", &of->all);
    json_memory(&to, of);
    if (of->options->server == NULL) json_counters(&to, &of->counters);
    end_object(&to);
}

/* ------------------------------------------------------------------------------------------------------------- text */

void print_row(const char *name, int decimals, int count, const double *numbers) {
    printf("%-24s", name);
    for (int i = 0; i < count; i++) {
        if (isfinite(numbers[i])) printf(" %16.*f", decimals, numbers[i]);
        else printf(" %16s", "-");
    }
    printf("\n");
}

typedef double of_figures(const figures *of);

/* Prints a row of the parts of the run: with a warm-up three of them, and without only the whole. */
static void print_parts(const report *of, const char *name, int decimals, of_figures *number) {
    const double numbers[] = {number(&of->warmup), number(&of->measured), number(&of->all)};
    if (of->has_warmup) print_row(name, decimals, 3, numbers);
    else print_row(name, decimals, 1, numbers + 2);
}

static double share(const figures *of, count_name hits) {
    return of->counts[GETS] > 0 ? (double)of->counts[hits] / (double)of->counts[GETS] : NAN;
}

static double seconds(const figures *of) { return of->seconds; }
static double in_memory(const figures *of) { return share(of, HITS_MEMORY); }
static double in_log(const figures *of) { return share(of, HITS_LOG); }
static double in_set(const figures *of) { return share(of, HITS_SET); }
static double stored(const figures *of) { return (double)of->counts[BYTES_STORED]; }
static double flash(const figures *of) { return (double)of->flash_bytes; }

static void print_counts(const report *of) {
    const figures *parts[] = {&of->warmup, &of->measured, &of->all};
    for (int i = 0; i < COUNTS; i++) {
        bool has_own_row = (i >= HITS_MEMORY && i <= HITS_SERVER) || i == BYTES_STORED;
        if (has_own_row || of->all.counts[i] == 0) continue;
        double numbers[3];
        for (int j = 0; j < 3; j++) numbers[j] = (double)parts[j]->counts[i];
        if (of->has_warmup) print_row(count_names[i], 0, 3, numbers);
        else print_row(count_names[i], 0, 1, numbers + 2);
    }
}

static void print_latencies(const report *of) {
    printf("\n%-24s %12s %10s %10s %10s %10s %10s\n", of->has_warmup ? "latency after it, us" : "latency, us", "calls",
           "p50", "p90", "p99", "p99.9", "most");
    for (int i = 0; i < LATENCY_ROWS; i++) {
        const latency_figures *row = &of->measured.latencies[(i + ALL_GETS) % LATENCY_ROWS];
        if (row->calls == 0) continue;
        printf("%-24s %12" PRIu64 " %10.2f %10.2f %10.2f %10.2f %10.2f\n", latency_names[(i + ALL_GETS) % LATENCY_ROWS],
               row->calls, (double)row->p50 / 1e3, (double)row->p90 / 1e3, (double)row->p99 / 1e3,
               (double)row->p999 / 1e3, (double)row->most / 1e3);
    }
}

static void print_memory(const report *of) {
    const memory_report *memory = &of->memory;
    printf("\n");
    if (of->options->server != NULL) {
        if (of->options->server_process > 0)
            printf("memory of the server: %" PRIu64 " bytes before the run, %" PRIu64 " after it\n",
                   memory->before_open, memory->at_end);
        return;
    }
    double opened = (double)memory->after_open - (double)memory->before_open,
           at_end = (double)memory->at_end - (double)memory->before_open;
    printf("memory of the cache: %.0f bytes after open (estimate %" PRIu64
           "), %.0f at the end (estimate when full %" PRIu64 ")\n",
           opened, of->sizes.memory_fixed, at_end, of->sizes.memory_full);
    printf("objects that flash has room for: %" PRIu64 "; bits of memory for each: %.1f after open (estimate %.1f)\n",
           of->sizes.set_objects + of->sizes.log_objects, bits_an_object(&of->sizes, opened),
           bits_an_object(&of->sizes, (double)of->sizes.memory_fixed));
}

static void print_heading(const report *of) {
    const bench_options *options = of->options;
    const kangaroo_options *cache = &options->cache;
    char keys[64], values[64];
    spell_distribution(&options->drawn, keys, sizeof keys);
    spell_sizes(&options->values, values, sizeof values);
    if (options->server != NULL)
        printf("server %s, %u requests in flight a connection\n", options->server, options->pipeline);
    else
        printf("cache of %" PRIu64
               " bytes of files in %u lanes, threshold %u, bringing back %u, admitting %.4g of 100, %u upkeep threads\n",
               of->sizes.file_bytes, cache->shards * cache->lanes, cache->threshold, cache->bring_back, cache->admit * 100 / 65536.0,
               cache->upkeep_threads);
    if (options->replay != NULL) printf("replay of %s", options->replay);
    else printf("%" PRIu64 " keys of %u bytes, %s, values %s", options->keys, options->key_bytes, keys, values);
    printf(", %s, %u thread%s\n\n", options->is_plain ? "plain" : "look-aside", options->threads,
           options->threads == 1 ? "" : "s");
    if (of->has_warmup) printf("%-24s %16s %16s %16s\n", "", "warm-up", "after it", "all");
}

void print_text_report(const report *of) {
    print_heading(of);
    print_parts(of, "seconds", 3, seconds);
    print_parts(of, "operations a second", 0, operations_a_second);
    print_counts(of);
    print_parts(of, "hit ratio of gets", 4, hit_ratio_of);
    if (of->options->server == NULL) {
        print_parts(of, "  in memory", 4, in_memory);
        print_parts(of, "  in the log", 4, in_log);
        print_parts(of, "  in a set", 4, in_set);
        print_parts(of, "    of them by copies", 4, copies_share_of);
    }
    print_parts(of, "bytes stored", 0, stored);
    print_parts(of, "bytes written to flash", 0, flash);
    print_parts(of, "  for each byte stored", 3, write_amplification_of);
    if (of->options->server == NULL) print_parts(of, "pages read for each get", 4, pages_read_a_get);
    if (of->options->server_process > 0) print_parts(of, "server's us a request", 3, processor_a_request);
    print_latencies(of);
    print_memory(of);
}
