/* figures.h: what a part of a run amounts to: the difference of two states of its counts. */
#ifndef BENCH_FIGURES_H
#define BENCH_FIGURES_H

#include "json.h"
#include "run.h"

enum { PAGE_BYTES = 4096, LATENCY_ROWS = LATENCIES + 1, ALL_GETS = LATENCIES };

/* All counts at one moment. Some 2 MB. */
typedef struct snapshot {
    uint64_t at; /* nanoseconds */
    uint64_t counts[COUNTS];
    kangaroo_counters counters; /* of the cache; all 0 if the target is a server */
    uint64_t server_written;    /* bytes that the server says it has written to flash */
    uint64_t own_memory;        /* bytes of the process's own memory that it has touched */
    uint64_t server_processor;  /* nanoseconds of processors that the server's process has used; 0 if its number is not given */
    histogram latencies[LATENCY_ROWS];
} snapshot;

/* Latencies in nanoseconds. */
typedef struct latency_figures {
    uint64_t calls, p50, p90, p99, p999, most;
} latency_figures;

typedef struct figures {
    double seconds;
    uint64_t counts[COUNTS];
    uint64_t flash_bytes; /* written */
    uint64_t pages_read;
    uint64_t copy_hits; /* of those in sets, by copies in memory */
    uint64_t own_memory; /* at the end */
    uint64_t server_processor;
    latency_figures latencies[LATENCY_ROWS];
} figures;

/* Names of counts and of latencies, as the report has them. */
extern const char *const count_names[COUNTS];
extern const char *const latency_names[LATENCY_ROWS];

/* Bytes of a process's own memory that it has touched: of this one if the number is 0. Refuses if there is no such
 * process. */
uint64_t own_memory_of(uint64_t process);
/* Reads all counts of a run. `control` is a connection to the server, or NULL. */
void take_snapshot(const run *of, connection *control, snapshot *to);
/* What lies between two snapshots. The latencies in between are written to `between`. */
figures figures_between(const snapshot *earlier, const snapshot *later, histogram between[LATENCY_ROWS]);

uint64_t hits_of(const figures *of);
/* Hits by gets; not a number if there were no gets. */
double hit_ratio_of(const figures *of);
/* Bytes written to flash by bytes stored; not a number if none were stored. */
double write_amplification_of(const figures *of);
double pages_read_a_get(const figures *of);
/* Hits of copies by gets; not a number if there were no gets. */
double copies_share_of(const figures *of);
double operations_a_second(const figures *of);
/* Microseconds of processors that the server used for each request, a fill being one too. Not a number if there were none, or
 * if the server's process is not known. */
double processor_a_request(const figures *of);

/* Writes a member with the figures, but the latencies. */
void json_figures(json *to, const figures *of);
/* Writes the latencies of a part of a run: percentiles, and a curve that goes on to the most by halves. */
void json_latencies(json *to, const figures *of, const histogram between[LATENCY_ROWS]);

#endif
