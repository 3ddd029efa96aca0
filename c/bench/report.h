/* report.h: what a run of the driver prints at its end, as text or as JSON. */
#ifndef BENCH_REPORT_H
#define BENCH_REPORT_H

#include "figures.h"

typedef struct memory_report {
    uint64_t before_open, after_open,
        at_end; /* bytes of own memory: before the cache was opened, then, and at the end */
} memory_report;

typedef struct report {
    const char *command;
    const bench_options *options; /* of the cache they are resolved */
    kangaroo_sizes sizes;
    memory_report memory;
    bool has_warmup;
    figures warmup, measured, all; /* measured: after the warm-up */
    kangaroo_counters counters;    /* of the cache at the end */
    const histogram *between;      /* latencies after the warm-up */
} report;

void print_text_report(const report *of);
void print_json_report(const report *of);
/* Writes members with what the load was. */
void json_load(json *to, const bench_options *of);
/* Spells a distribution, or sizes, as the command line does. */
void spell_distribution(const distribution *of, char *text, size_t room);
void spell_sizes(const sizes *of, char *text, size_t room);
/* Prints a row of the text: a name, and up to three numbers with so many decimals; what is no number is a dash. */
void print_row(const char *name, int decimals, int count, const double *numbers);

#endif
