/* calls.h: what single calls take, without a reading of the clock for each. */
#ifndef BENCH_CALLS_H
#define BENCH_CALLS_H

#include "options.h"

/* Prints nanoseconds of a put, of a get by the tier that has the value, of a get of nothing and of a removal, by one
 * thread; then operations a second of 1, 2 and 4 threads, for gets alone, and for 70 gets, 28 puts and 2 removals of 100;
 * then the process's own memory before and after ten times as many operations. */
void measure_calls(const bench_options *of);

#endif
