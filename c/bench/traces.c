/* Published traces as a stream of lines. traces.h says what each function is for. */
#define _GNU_SOURCE
#include "traces.h"
#include "keys.h"
#include "words.h"
#include <errno.h>
#include <pthread.h>
#include <stdio.h>
#include <stdlib.h>
#include <string.h>

enum { BLOCK_BYTES = 65536, LINE_MOST = 4096, FIELDS_MOST = 7, KVCACHE_FIELDS = 5, TWITTER_FIELDS = 7 };

static const char kvcache_names[] = "key,op,size,op_count,key_size";

struct trace {
    const char *path;
    FILE *file;
    trace_form form;
    pthread_mutex_t lock;   /* of all below */
    char rest[BLOCK_BYTES]; /* what was read after the last whole line of a block */
    size_t rest_length;
    uint64_t line; /* the number of the line with which the next block begins */
};

/* --------------------------------------------------------------------------------------------------------- one line */

typedef struct field {
    const char *at;
    size_t length;
} field;

/* Cuts a line at its commas. The count of fields, or one more than FIELDS_MOST. */
static int cut(const char *line, size_t length, field fields[FIELDS_MOST]) {
    const char *end = line + length;
    for (int count = 1;; count++) {
        const char *comma = memchr(line, ',', (size_t)(end - line));
        if (count > FIELDS_MOST) return count;
        fields[count - 1] = (field){line, (size_t)((comma != NULL ? comma : end) - line)};
        if (comma == NULL) return count;
        line = comma + 1;
    }
}

static bool is_field(const field *of, const char *word) {
    return of->length == strlen(word) && memcmp(of->at, word, of->length) == 0;
}

/* Reads a number of up to 18 digits. */
static bool read_field(const field *of, uint64_t *number) {
    if (of->length == 0 || of->length > 18) return false;
    *number = 0;
    for (size_t i = 0; i < of->length; i++) {
        if (of->at[i] < '0' || of->at[i] > '9') return false;
        *number = *number * 10 + (uint64_t)(of->at[i] - '0');
    }
    return true;
}

typedef struct act_word {
    const char *word;
    act what;
} act_word;

static const act_word kvcache_acts[] = {{"GET", ACT_GET},       {"GET_LEASE", ACT_GET}, {"SET", ACT_PUT},
                                        {"SET_LEASE", ACT_PUT}, {"DELETE", ACT_REMOVE}, {NULL, ACT_GET}};
static const act_word twitter_acts[] = {{"get", ACT_GET},    {"gets", ACT_GET},      {"set", ACT_PUT},
                                        {"add", ACT_PUT},    {"replace", ACT_PUT},   {"cas", ACT_PUT},
                                        {"append", ACT_PUT}, {"prepend", ACT_PUT},   {"incr", ACT_PUT},
                                        {"decr", ACT_PUT},   {"delete", ACT_REMOVE}, {NULL, ACT_GET}};

static bool read_act(const field *of, const act_word *words, act *what) {
    for (; words->word != NULL; words++) {
        if (!is_field(of, words->word)) continue;
        *what = words->what;
        return true;
    }
    return false;
}

/* The key of a call, whose bytes stand in a field and whose size stands in another. */
static const char *read_key(const field *key, const field *size, trace_call *call) {
    uint64_t bytes;
    if (!read_field(size, &bytes)) return "its key size is no number";
    if (key->length == 0) return "it has no key";
    if (bytes < key->length) bytes = key->length;
    if (bytes > KEY_BYTES_MOST) return "its key has more than 250 bytes";
    call->key = key->at;
    call->key_length = (uint32_t)key->length;
    call->key_size = (uint32_t)bytes;
    return NULL;
}

static const char *read_kvcache(const field *fields, trace_call *call) {
    *call = (trace_call){.times = 1};
    if (!read_act(&fields[1], kvcache_acts, &call->what))
        return "its op is none of GET, GET_LEASE, SET, SET_LEASE and DELETE";
    if (!read_field(&fields[2], &call->value_length)) return "its size is no number";
    if (!read_field(&fields[3], &call->times)) return "its op_count is no number";
    return read_key(&fields[0], &fields[4], call);
}

static const char *read_twitter(const field *fields, trace_call *call) {
    *call = (trace_call){.times = 1};
    if (!read_act(&fields[5], twitter_acts, &call->what))
        return "its operation is none of get, gets, set, add, replace, cas, append, prepend, incr, decr and delete";
    if (!read_field(&fields[0], &call->seconds)) return "its time is no number";
    if (!read_field(&fields[3], &call->value_length)) return "its value size is no number";
    if (!read_field(&fields[6], &call->lifetime)) return "its TTL is no number";
    return read_key(&fields[1], &fields[2], call);
}

const char *read_trace_line(trace_form form, const char *line, size_t length, trace_call *call) {
    field fields[FIELDS_MOST];
    int count = cut(line, length, fields);
    if (form == FORM_KVCACHE)
        return count == KVCACHE_FIELDS ? read_kvcache(fields, call)
                                       : "it has not the 5 fields key,op,size,op_count,key_size";
    return count == TWITTER_FIELDS ? read_twitter(fields, call)
                                   : "it has not the 7 fields time,key,key size,value size,client,operation,TTL";
}

/* --------------------------------------------------------------------------------------------------------- a stream */

/* Reads on until the rest is full or the file ends. */
static void read_on(trace *from) {
    from->rest_length += fread(from->rest + from->rest_length, 1, BLOCK_BYTES - from->rest_length, from->file);
    if (ferror(from->file)) refuse_system("%s: %s", from->path, strerror(errno));
}

static size_t line_at(const char *bytes, size_t length) {
    const char *feed = memchr(bytes, '\n', length);
    return feed != NULL ? (size_t)(feed - bytes) : length;
}

static void find_form(trace *of) {
    field fields[FIELDS_MOST];
    read_on(of);
    size_t length = line_at(of->rest, of->rest_length);
    int count = cut(of->rest, length, fields);
    of->form = count == KVCACHE_FIELDS ? FORM_KVCACHE : count == TWITTER_FIELDS ? FORM_TWITTER : FORM_UNKNOWN;
    if (of->rest_length == 0) refuse_words("%s has no lines: --replay wants a trace", of->path);
    if (of->form == FORM_UNKNOWN)
        refuse_words("%s:1: no line of a trace: it has neither the 5 fields %s nor the 7 fields "
                     "time,key,key size,value size,client,operation,TTL",
                     of->path, kvcache_names);
    if (length != sizeof kvcache_names - 1 || memcmp(of->rest, kvcache_names, length) != 0) return;
    of->line = 2; /* names, and no call */
    size_t taken = length < of->rest_length ? length + 1 : length;
    of->rest_length -= taken;
    memmove(of->rest, of->rest + taken, of->rest_length);
}

trace *open_trace(const char *path) {
    trace *of = take_memory(1, sizeof *of);
    of->path = path;
    of->file = strcmp(path, "-") == 0 ? stdin : fopen(path, "r");
    of->line = 1;
    pthread_mutex_init(&of->lock, NULL);
    if (of->file == NULL) refuse_words("--replay %s: %s", path, strerror(errno));
    find_form(of);
    return of;
}

void close_trace(trace *of) {
    if (of == NULL) return;
    if (of->file != stdin) fclose(of->file);
    pthread_mutex_destroy(&of->lock);
    free(of);
}

trace_form form_of(const trace *of) { return of->form; }

trace_block new_block(void) { return (trace_block){.bytes = take_memory(1, BLOCK_BYTES)}; }

/* The length of the whole lines with which some bytes begin: the last line of a file may lack its line feed. */
static size_t whole_lines(const trace *from) {
    const char *last = memrchr(from->rest, '\n', from->rest_length);
    if (feof(from->file)) return from->rest_length;
    return last != NULL ? (size_t)(last - from->rest) + 1 : 0;
}

static uint64_t count_lines(const char *bytes, size_t length) {
    uint64_t lines = 0;
    for (const char *end = bytes + length; (bytes = memchr(bytes, '\n', (size_t)(end - bytes))) != NULL; bytes++)
        lines++;
    return lines;
}

bool next_block(trace *from, trace_block *block) {
    pthread_mutex_lock(&from->lock);
    read_on(from);
    block->length = whole_lines(from);
    block->at = 0;
    block->line = from->line;
    if (block->length == 0 && from->rest_length > 0)
        refuse_words("%s:%llu: a line of more than 4,096 bytes", from->path, (unsigned long long)from->line);
    memcpy(block->bytes, from->rest, block->length);
    from->rest_length -= block->length;
    memmove(from->rest, from->rest + block->length, from->rest_length);
    from->line += count_lines(block->bytes, block->length);
    pthread_mutex_unlock(&from->lock);
    return block->length > 0;
}

bool next_call(const trace *of, trace_block *block, trace_call *call) {
    if (block->at >= block->length) return false;
    const char *line = block->bytes + block->at;
    size_t length = line_at(line, block->length - block->at);
    const char *fault = length > LINE_MOST ? "it has more than 4,096 bytes" : NULL;
    block->at += length + 1;
    if (length > 0 && line[length - 1] == '\r') length--;
    if (fault == NULL) fault = read_trace_line(of->form, line, length, call);
    if (fault != NULL)
        refuse_words("%s:%llu: no line of a trace of %s's form: %s", of->path, (unsigned long long)block->line,
                     of->form == FORM_KVCACHE ? "CacheLib" : "Twitter", fault);
    block->line++;
    return true;
}
