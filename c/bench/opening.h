/* opening.h: the cache that a command opens, and what its opening takes of memory. */
#ifndef BENCH_OPENING_H
#define BENCH_OPENING_H

#include "options.h"

/* Resolves the options of the cache, or refuses, and says which word is wrong. */
kangaroo_sizes resolve_cache(kangaroo_options *of);
/* Opens the cache of resolved options, or refuses. */
kangaroo_cache *open_cache(const bench_options *of);
void end_cache(kangaroo_cache *of);

/* Opens a cache, and prints the estimate of kangaroo_sizes_of, the memory of the process's own that the opening took, and
 * both as bits for each object that the sets have room for. */
void measure_opening(bench_options *of);

#endif
