/* What a part of a run amounts to. figures.h says what each function is for. */
#define _GNU_SOURCE
#include "figures.h"
#include "words.h"
#include <errno.h>
#include <inttypes.h>
#include <math.h>
#include <string.h>
#include <time.h>

const char *const count_names[COUNTS] = {"operations",  "gets",      "hits_memory", "hits_log",    "hits_set",
                                         "hits_server", "puts",      "fills",       "fills_stale", "removals",
                                         "too_large",   "no_memory", "bytes_stored"};
const char *const latency_names[LATENCY_ROWS] = {"get_miss", "get_memory", "get_log", "get_set", "get_server",
                                                 "put",      "fill",       "removal", "get"};

uint64_t own_memory_of(uint64_t process) {
    char path[64] = "/proc/self/smaps_rollup", line[256];
    uint64_t kib = 0;
    if (process > 0) snprintf(path, sizeof path, "/proc/%" PRIu64 "/smaps_rollup", process);
    FILE *file = fopen(path, "r");
    if (file == NULL) refuse_system("%s: %s", path, strerror(errno));
    while (fgets(line, sizeof line, file) != NULL)
        if (sscanf(line, "Anonymous: %" SCNu64, &kib) == 1) break;
    fclose(file);
    return kib * 1024;
}

/* Nanoseconds that a process's threads have run, for themselves and in the system. */
static uint64_t processor_time_of(uint64_t process) {
    clockid_t clock;
    struct timespec used = {0};
    int cause = clock_getcpuclockid((pid_t)process, &clock);
    if (cause == 0 && clock_gettime(clock, &used) != 0) cause = errno;
    if (cause != 0) refuse_system("the clock of process %" PRIu64 ": %s", process, strerror(cause));
    return (uint64_t)used.tv_sec * 1000000000 + (uint64_t)used.tv_nsec;
}

static void add_tally(const tally *from, snapshot *to) {
    for (int i = 0; i < COUNTS; i++) to->counts[i] += atomic_load_explicit(&from->counts[i], memory_order_relaxed);
    for (int i = 0; i < LATENCIES; i++) add_histogram(&to->latencies[i], &from->latencies[i]);
}

/* Bytes that a server says it has written to flash: memcached with extstore, or kangarood. */
static uint64_t bytes_written_by(connection *server) {
    uint64_t bytes = 0, log_pages = 0, set_pages = 0;
    if (read_statistic(server, "extstore_bytes_written", &bytes)) return bytes;
    (void)read_statistic(server, "kangaroo_log_pages_written", &log_pages);
    (void)read_statistic(server, "kangaroo_set_pages_written", &set_pages);
    return (log_pages + set_pages) * PAGE_BYTES;
}

void take_snapshot(const run *of, connection *control, snapshot *to) {
    memset(to, 0, sizeof *to);
    to->at = now_ns();
    for (uint32_t i = 0; i < of->options->threads; i++) add_tally(of->workers[i].counted, to);
    for (int i = GET_MISS; i <= GET_SERVER; i++) add_histogram(&to->latencies[ALL_GETS], &to->latencies[i]);
    if (of->cache != NULL) kangaroo_counters_read(of->cache, &to->counters, sizeof to->counters);
    if (control != NULL) to->server_written = bytes_written_by(control);
    if (of->cache != NULL || of->options->server_process > 0)
        to->own_memory = own_memory_of(of->options->server_process);
    if (of->options->server_process > 0) to->server_processor = processor_time_of(of->options->server_process);
}

static latency_figures latency_of(const histogram *of) {
    return (latency_figures){values_counted(of), value_at(of, 50),   value_at(of, 90),
                             value_at(of, 99),   value_at(of, 99.9), value_at(of, 100)};
}

static uint64_t flash_bytes_of(const snapshot *of) {
    return (of->counters.log_pages_written + of->counters.set_pages_written) * PAGE_BYTES + of->server_written;
}

figures figures_between(const snapshot *earlier, const snapshot *later, histogram between[LATENCY_ROWS]) {
    figures made = {.seconds = (double)(later->at - earlier->at) / 1e9,
                    .flash_bytes = flash_bytes_of(later) - flash_bytes_of(earlier),
                    .pages_read = later->counters.pages_read - earlier->counters.pages_read,
                    .copy_hits = later->counters.copy_hits - earlier->counters.copy_hits,
                    .own_memory = later->own_memory,
                    .server_processor = later->server_processor - earlier->server_processor};
    for (int i = 0; i < COUNTS; i++) made.counts[i] = later->counts[i] - earlier->counts[i];
    for (int i = 0; i < LATENCY_ROWS; i++) {
        memset(&between[i], 0, sizeof between[i]);
        add_histogram(&between[i], &later->latencies[i]);
        subtract_histogram(&between[i], &earlier->latencies[i]);
        made.latencies[i] = latency_of(&between[i]);
    }
    return made;
}

static double ratio(uint64_t part, uint64_t whole) { return whole > 0 ? (double)part / (double)whole : NAN; }

uint64_t hits_of(const figures *of) {
    return of->counts[HITS_MEMORY] + of->counts[HITS_LOG] + of->counts[HITS_SET] + of->counts[HITS_SERVER];
}

double hit_ratio_of(const figures *of) { return ratio(hits_of(of), of->counts[GETS]); }

double write_amplification_of(const figures *of) { return ratio(of->flash_bytes, of->counts[BYTES_STORED]); }

double pages_read_a_get(const figures *of) { return ratio(of->pages_read, of->counts[GETS]); }

double copies_share_of(const figures *of) { return ratio(of->copy_hits, of->counts[GETS]); }

double operations_a_second(const figures *of) {
    return of->seconds > 0 ? (double)of->counts[OPERATIONS] / of->seconds : NAN;
}

double processor_a_request(const figures *of) {
    if (of->server_processor == 0) return NAN;
    return ratio(of->server_processor, of->counts[OPERATIONS] + of->counts[FILLS] + of->counts[NO_MEMORY]) / 1e3;
}

void json_figures(json *to, const figures *of) {
    json_number(to, "seconds", of->seconds);
    json_number(to, "operations_per_second", operations_a_second(of));
    for (int i = 0; i < COUNTS; i++) json_count(to, count_names[i], of->counts[i]);
    json_count(to, "copy_hits", of->copy_hits);
    json_count(to, "hits", hits_of(of));
    json_number(to, "hit_ratio", hit_ratio_of(of));
    json_count(to, "flash_bytes_written", of->flash_bytes);
    json_number(to, "write_amplification", write_amplification_of(of));
    json_count(to, "pages_read", of->pages_read);
    json_number(to, "pages_read_per_get", pages_read_a_get(of));
    json_count(to, "own_memory", of->own_memory);
    json_count(to, "server_processor_ns", of->server_processor);
    json_number(to, "server_processor_us_per_request", processor_a_request(of));
}

static void json_point(json *to, double percent, uint64_t value) {
    begin_array(to, NULL);
    json_number(to, NULL, percent);
    json_count(to, NULL, value);
    end_array(to);
}

/* Percentiles 0, 50, 75, 87.5 and so on, each half as far from 100 as the one before, and 100. */
static void json_curve(json *to, const histogram *of) {
    uint64_t calls = values_counted(of);
    begin_array(to, "curve");
    for (double left = 100; calls > 0 && left * (double)calls >= 100; left /= 2)
        json_point(to, 100 - left, value_at(of, 100 - left));
    if (calls > 0) json_point(to, 100, value_at(of, 100));
    end_array(to);
}

void json_latencies(json *to, const figures *of, const histogram between[LATENCY_ROWS]) {
    begin_object(to, "latency_ns");
    for (int i = 0; i < LATENCY_ROWS; i++) {
        const latency_figures *row = &of->latencies[i];
        if (row->calls == 0) continue;
        begin_object(to, latency_names[i]);
        json_count(to, "calls", row->calls);
        json_count(to, "p50", row->p50);
        json_count(to, "p90", row->p90);
        json_count(to, "p99", row->p99);
        json_count(to, "p99.9", row->p999);
        json_count(to, "most", row->most);
        json_curve(to, &between[i]);
        end_object(to);
    }
    end_object(to);
}
