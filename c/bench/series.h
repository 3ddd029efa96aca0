/* series.h: a file with a line of figures for each second of a run. */
#ifndef BENCH_SERIES_H
#define BENCH_SERIES_H

#include "figures.h"

typedef struct series {
    const char *path;
    FILE *to; /* NULL if no file is wanted: then nothing is written */
    connection *control;
    const char *phase;
    uint64_t began; /* nanoseconds */
    snapshot *before, *now;
    histogram *between;
} series;

/* Opens the file, if there is to be one, and writes the line of names. Refuses a path that cannot be written. */
series open_series(const char *path, connection *control);
/* Begins a phase, before the workers run; the run is of no phase before. */
void begin_phase(series *of, const run *from, const char *phase);
/* Writes the line of the second that has passed; an every_second. */
void write_second(run *from, void *given);
/* Writes the line of what is left of the phase, if that is half a second or more. */
void end_phase(series *of, run *from);
void close_series(series *of);

#endif
