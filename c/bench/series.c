/* A line of figures a second. series.h says what each function is for. */
#include "series.h"
#include "words.h"
#include <errno.h>
#include <inttypes.h>
#include <math.h>
#include <stdlib.h>
#include <string.h>

static const char *const percentile_names[] = {"p50", "p90", "p99", "p99.9", "most"};
enum { PERCENTILES = 5 };

static void write_names(FILE *to) {
    fprintf(to,
            "seconds,phase,operations_per_second,hit_ratio,memory_ratio,log_ratio,set_ratio,server_ratio,bytes_stored,"
            "flash_bytes_written,write_amplification,pages_read_per_get,own_memory");
    for (int i = 0; i < LATENCY_ROWS; i++)
        for (int j = 0; j < PERCENTILES; j++) fprintf(to, ",%s_%s_us", latency_names[i], percentile_names[j]);
    fprintf(to, "\n");
}

series open_series(const char *path, connection *control) {
    series made = {.path = path, .control = control};
    if (path == NULL) return made;
    made.to = fopen(path, "w");
    if (made.to == NULL) refuse_words("--series %s: %s", path, strerror(errno));
    made.before = take_memory(1, sizeof *made.before);
    made.now = take_memory(1, sizeof *made.now);
    made.between = take_memory(LATENCY_ROWS, sizeof *made.between);
    write_names(made.to);
    return made;
}

void begin_phase(series *of, const run *from, const char *phase) {
    if (of->to == NULL) return;
    if (of->began == 0) of->began = now_ns();
    of->phase = phase;
    take_snapshot(from, of->control, of->before);
}

/* A number, or an empty field if there is none. */
static void write_number(FILE *to, double number) {
    if (isfinite(number)) fprintf(to, ",%.6g", number);
    else fprintf(to, ",");
}

static void write_ratio(FILE *to, const figures *of, count_name hits) {
    write_number(to, of->counts[GETS] > 0 ? (double)of->counts[hits] / (double)of->counts[GETS] : NAN);
}

static void write_latency(FILE *to, const latency_figures *of) {
    const uint64_t values[PERCENTILES] = {of->p50, of->p90, of->p99, of->p999, of->most};
    for (int i = 0; i < PERCENTILES; i++) write_number(to, of->calls > 0 ? (double)values[i] / 1000 : NAN);
}

static void write_line(const series *of, double seconds, const figures *second) {
    fprintf(of->to, "%.3f,%s", seconds, of->phase);
    write_number(of->to, operations_a_second(second));
    write_number(of->to, hit_ratio_of(second));
    write_ratio(of->to, second, HITS_MEMORY);
    write_ratio(of->to, second, HITS_LOG);
    write_ratio(of->to, second, HITS_SET);
    write_ratio(of->to, second, HITS_SERVER);
    fprintf(of->to, ",%" PRIu64 ",%" PRIu64, second->counts[BYTES_STORED], second->flash_bytes);
    write_number(of->to, write_amplification_of(second));
    write_number(of->to, pages_read_a_get(second));
    fprintf(of->to, ",%" PRIu64, second->own_memory);
    for (int i = 0; i < LATENCY_ROWS; i++) write_latency(of->to, &second->latencies[i]);
    fprintf(of->to, "\n");
    if (fflush(of->to) != 0) refuse_system("--series %s: %s", of->path, strerror(errno));
}

void write_second(run *from, void *given) {
    series *of = given;
    if (of->to == NULL) return;
    take_snapshot(from, of->control, of->now);
    figures second = figures_between(of->before, of->now, of->between);
    write_line(of, (double)(of->now->at - of->began) / 1e9, &second);
    snapshot *older = of->before;
    of->before = of->now;
    of->now = older;
}

void end_phase(series *of, run *from) {
    if (of->to != NULL && now_ns() - of->before->at >= 500000000) write_second(from, of);
}

void close_series(series *of) {
    if (of->to == NULL) return;
    if (fclose(of->to) != 0) refuse_system("--series %s: %s", of->path, strerror(errno));
    free(of->before);
    free(of->now);
    free(of->between);
}
