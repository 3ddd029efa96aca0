/* run.h: one run of the driver: its workers, what each counts, and the target that they ask. */
#ifndef BENCH_RUN_H
#define BENCH_RUN_H

#include "histogram.h"
#include "load.h"
#include "options.h"
#include <pthread.h>

typedef enum count_name {
    OPERATIONS, /* gets, puts and removals */
    GETS,
    HITS_MEMORY,
    HITS_LOG,
    HITS_SET,
    HITS_SERVER, /* of a server, which does not say where a value was */
    PUTS,        /* that were stored */
    FILLS,       /* that were stored */
    FILLS_STALE,
    REMOVALS,
    TOO_LARGE, /* puts and fills of values that no cache of this kind stores */
    NO_MEMORY, /* puts and fills that were refused for want of memory */
    BYTES_STORED,
    COUNTS
} count_name;

/* Latencies are counted apart for each of these. */
typedef enum latency_name {
    GET_MISS,
    GET_MEMORY,
    GET_LOG,
    GET_SET,
    GET_SERVER,
    PUT,
    FILL,
    REMOVAL,
    LATENCIES
} latency_name;

/* What one worker counted. It alone writes; others may read meanwhile. */
typedef struct tally {
    _Atomic uint64_t counts[COUNTS];
    histogram latencies[LATENCIES];
} tally;

/* Adds to a count of the caller's own tally. */
void add_count(tally *to, count_name name, uint64_t number);

typedef struct run run;
typedef struct connection connection;

typedef struct worker {
    run *of;
    stream requests;
    request next;
    tally *counted;
    connection *to; /* to the server; NULL if the target is a cache */
    uint64_t left;  /* operations that it is still to make in this phase */
    uint64_t now;   /* nanoseconds, when its last call ended */
    double due;     /* nanoseconds, when its next call is due, if the rate is limited */
} worker;

struct run {
    const bench_options *options;
    load requests;
    kangaroo_cache *cache; /* NULL if the target is a server */
    worker *workers;
    uint64_t began;    /* nanoseconds */
    uint64_t deadline; /* of this phase, in nanoseconds; UINT64_MAX if there is none */

    pthread_mutex_t lock;
    pthread_cond_t ended;
    uint32_t running; /* workers that run */
};

/* Nanoseconds of a clock that does not jump. */
uint64_t now_ns(void);

/* Asks the cache for what a request says, and fills after a miss. A call that was due at `from` nanoseconds counts from
 * then; 0 is a call that counts from its start. Ends the process at a wrong hit, or if the cache refuses. */
void ask_cache(worker *me, uint64_t from);

/* Connects to a server. Refuses if there is none. */
connection *connect_to(const bench_options *options);
void end_connection(connection *of);
/* Has the server drop all that it holds. */
void empty_server(connection *of);
/* Puts a request on the connection, which sends when it has as many as it is to. */
void ask_server(worker *me, uint64_t from);
/* Sends what is left, and the fills that follow from it, and reads the answers. */
void finish_with_server(worker *me);
/* Reads a number of the server's statistics; false if it has none of this name. */
bool read_statistic(connection *of, const char *name, uint64_t *number);

/* Ends the process with status 1, and says what was hit in place of what. */
_Noreturn void report_wrong_hit(const char *operation, const request *asked, const uint8_t *found, size_t length);
/* Checks the bytes of a hit. In a load that is drawn the length is known too. */
void check_hit(const worker *me, const char *operation, const request *asked, const uint8_t *found, size_t length);

/* Called while workers run, and once a second. */
typedef void every_second(run *of, void *given);

/* Makes the workers and their connections; opens no cache. */
void make_workers(run *of);
void end_workers(run *of);
/* Runs the workers until each has made its part of so many operations, or for so many seconds, or to the end of the
 * trace; 0 is no limit. Calls `each` once a second. */
void run_phase(run *of, uint64_t operations, uint64_t seconds, every_second *each, void *given);
/* Has the workers stop soon, as at the end of a phase. A signal handler may call it. */
void stop_soon(void);
bool is_stopped(void);

#endif
