/* A writer of JSON. json.h says what each function is for. */
#include "json.h"
#include <inttypes.h>
#include <math.h>

static void print_text(json *to, const char *text) {
    fputc('"', to->to);
    for (; *text != 0; text++) {
        unsigned char byte = (unsigned char)*text;
        if (byte == '"' || byte == '\\') fprintf(to->to, "\\%c", byte);
        else if (byte < 32 || byte > 126) fprintf(to->to, "\\u%04x", byte);
        else fputc(byte, to->to);
    }
    fputc('"', to->to);
}

/* What stands before a value: a comma, a new line, and its name. */
static void begin_value(json *to, const char *name) {
    if (to->has_before) fputc(',', to->to);
    if (to->depth > 0) fprintf(to->to, "\n%*s", 2 * to->depth, "");
    if (name != NULL) {
        print_text(to, name);
        fputs(": ", to->to);
    }
    to->has_before = true;
}

static void begin(json *to, const char *name, char bracket) {
    begin_value(to, name);
    fputc(bracket, to->to);
    to->depth++;
    to->has_before = false;
}

static void end(json *to, char bracket) {
    to->depth--;
    if (to->has_before) fprintf(to->to, "\n%*s", 2 * to->depth, "");
    fputc(bracket, to->to);
    to->has_before = true;
    if (to->depth == 0) fputc('\n', to->to);
}

void begin_object(json *to, const char *name) { begin(to, name, '{'); }

void end_object(json *to) { end(to, '}'); }

void begin_array(json *to, const char *name) { begin(to, name, '['); }

void end_array(json *to) { end(to, ']'); }

void json_count(json *to, const char *name, uint64_t count) {
    begin_value(to, name);
    fprintf(to->to, "%" PRIu64, count);
}

void json_number(json *to, const char *name, double number) {
    begin_value(to, name);
    if (isfinite(number)) fprintf(to->to, "%.9g", number);
    else fputs("null", to->to);
}

void json_text(json *to, const char *name, const char *text) {
    begin_value(to, name);
    print_text(to, text);
}

void json_truth(json *to, const char *name, bool is_so) {
    begin_value(to, name);
    fputs(is_so ? "true" : "false", to->to);
}
