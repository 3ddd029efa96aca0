/* json.h: writes one JSON value, with commas and indents where they belong. */
#ifndef BENCH_JSON_H
#define BENCH_JSON_H

#include <stdbool.h>
#include <stdint.h>
#include <stdio.h>

typedef struct json {
    FILE *to;
    int depth;
    bool has_before; /* a value stands before the next one, at this depth */
} json;

/* A name is NULL for a value that is no member of an object. */
void begin_object(json *to, const char *name);
void end_object(json *to);
void begin_array(json *to, const char *name);
void end_array(json *to);
void json_count(json *to, const char *name, uint64_t count);
/* A number; null if it is none, as 0 / 0 is. */
void json_number(json *to, const char *name, double number);
void json_text(json *to, const char *name, const char *text);
void json_truth(json *to, const char *name, bool is_so);

#endif
