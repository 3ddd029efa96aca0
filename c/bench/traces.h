/* traces.h: published traces of caches, read as a stream. Two forms are known, a call a line, fields parted by commas:
 *
 *   kvcache  key,op,size,op_count,key_size                             of CacheLib; a first line of these names is
 * passed over twitter  time,key,key size,value size,client,operation,TTL         of Twitter (Yang, Yue and Rashmi 2020)
 *
 * The first line decides the form, and each later one has to be of it. */
#ifndef BENCH_TRACES_H
#define BENCH_TRACES_H

#include <stdbool.h>
#include <stddef.h>
#include <stdint.h>

typedef enum act { ACT_GET, ACT_PUT, ACT_REMOVE } act;
enum { ACTS = 3 };

/* What one line asks for. */
typedef struct trace_call {
    act what;
    const char *key;       /* in the line */
    uint32_t key_length;   /* bytes that stand in the line */
    uint32_t key_size;     /* bytes that the key is to have: 1 to KEY_BYTES_MOST */
    uint64_t value_length; /* 0 if the line does not know it */
    uint64_t seconds;      /* when the call was made, by the trace's clock; 0 in the kvcache form */
    uint64_t lifetime;     /* seconds from then on that a value lives; 0 is for ever */
    uint64_t times;        /* how often the call is made */
} trace_call;

typedef enum trace_form { FORM_UNKNOWN, FORM_KVCACHE, FORM_TWITTER } trace_form;

/* Some whole lines of a trace. One thread has it. */
typedef struct trace_block {
    char *bytes;
    size_t length, at;
    uint64_t line; /* the number of the line at `at`, from 1 */
} trace_block;

/* An open trace, from which threads take blocks. */
typedef struct trace trace;

/* Opens a trace, and finds its form by its first line; the path - is the standard input. Refuses what is no trace. */
trace *open_trace(const char *path);
void close_trace(trace *of);
trace_form form_of(const trace *of);
/* Takes a block that next_block fills. */
trace_block new_block(void);
/* Takes the next lines in place of those that the block has. False at the end of the trace. Refuses a line of more than
 * 4,096 bytes. Any thread may call it. */
bool next_block(trace *from, trace_block *block);
/* Takes the next call of a block; false at its end. Refuses a line that is not of the trace's form by its number. */
bool next_call(const trace *of, trace_block *block, trace_call *call);

/* Reads a line of a form, without its line feed. NULL if it is one, or what is wrong with it. */
const char *read_trace_line(trace_form form, const char *line, size_t length, trace_call *call);

#endif
