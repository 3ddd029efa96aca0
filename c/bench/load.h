/* load.h: the requests of a run. A load is drawn by chance, or read from a trace. Each worker has a stream of it. */
#ifndef BENCH_LOAD_H
#define BENCH_LOAD_H

#include "keys.h"
#include "sizes.h"
#include "traces.h"

/* What all streams of a load share. */
typedef struct load {
    trace *replayed; /* or NULL: then all below but the sizes decides */
    sizes values;
    distribution drawn;
    uint32_t key_bytes;
    double percent[ACTS]; /* of requests, by act: 100 together */
    uint64_t lifetime;    /* milliseconds that a value lives; 0 is for ever */
    uint64_t seed;
} load;

typedef struct request {
    act what;
    uint64_t number; /* decides size and bytes of the value: the key's number, or the hash of a replayed key */
    uint32_t key_length;
    uint64_t value_length; /* of a put, or of a fill after a miss; above KANGAROO_VALUE_MAX it is not to be stored */
    uint64_t moment;       /* milliseconds since the run began, or by the trace's clock */
    uint64_t expires;      /* milliseconds by the same clock, or KANGAROO_NEVER */
    char key[KEY_ROOM];
} request;

/* The requests of one worker. */
typedef struct stream {
    const load *of;
    chance drawn;
    trace_block block;
    trace_call call;
    uint64_t times; /* how often the call is still to be made */
} stream;

stream new_stream(const load *of, uint32_t worker);
void end_stream(stream *of);
/* The next request at a moment; false at the end of a trace. Refuses a bad line of the trace. */
bool next_request(stream *from, uint64_t moment, request *to);

#endif
