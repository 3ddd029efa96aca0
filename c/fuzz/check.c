/* check: any bytes as a trace. What kangaroo_check says of them is what a second checker says, which is written here after
 * docs/TRACES.md and docs/JUDGING.md, plainly and in quadratic time. */
#include "fuzz.h"
#include <inttypes.h>

enum { CALLS_MOST = 400, COUNT_MOST = 1 << 28, PUT = 1, REMOVE = 2, HIT = 3, MISS = 4, LINE_BYTES = 80 };

typedef struct bytes {
    const uint8_t *at;
    size_t length;
} bytes;

typedef struct call {
    uint8_t kind;
    uint64_t start, end, time;
    bytes key, value;
} call;

/* A trace that is being read. Once a fault is named nothing more is read. */
typedef struct reader {
    const uint8_t *from;
    size_t length, at;
    const char *fault;
    size_t offset;
} reader;

static void name_fault(reader *of, const char *fault, size_t offset) {
    if (of->fault != NULL) return;
    of->fault = fault;
    of->offset = offset;
}

static const uint8_t *take(reader *of, size_t length) {
    static const uint8_t zeros[KANGAROO_VALUE_MAX];
    if (of->fault == NULL && of->length - of->at < length) name_fault(of, "Truncated", of->length);
    if (of->fault != NULL) return zeros;
    of->at += length;
    return of->from + of->at - length;
}

static uint64_t take_number(reader *of, size_t length) {
    const uint8_t *from = take(of, length);
    uint64_t number = 0;
    for (size_t i = 0; i < length; i++) number = number << 8 | from[i];
    return number;
}

/* Whether the trace is timed. The magic is judged once all of it is there. */
static bool take_magic(reader *of) {
    static const char timed[] = "KGTRACE2", timeless[] = "KGTRACE1";
    const uint8_t *magic = take(of, 8);
    for (size_t i = 0; i < 8 && of->fault == NULL; i++)
        if (magic[i] != (uint8_t)timed[i] && magic[i] != (uint8_t)timeless[i]) name_fault(of, "BadMagic", i);
    return of->fault == NULL && magic[7] == '2';
}

static call take_call(reader *of, bool is_timed) {
    call read = {0};
    read.kind = *take(of, 1);
    if (of->fault == NULL && (read.kind < PUT || read.kind > MISS)) name_fault(of, "BadKind", of->at - 1);
    take(of, 2);
    read.start = take_number(of, 8);
    read.end = take_number(of, 8);
    read.key.length = (size_t)take_number(of, 1);
    if (of->fault == NULL && read.key.length == 0) name_fault(of, "BadKey", of->at - 1);
    read.key.at = take(of, read.key.length);
    if (read.kind == REMOVE || read.kind == MISS) return read;
    read.value.length = (size_t)take_number(of, 2);
    if (of->fault == NULL && read.value.length > KANGAROO_VALUE_MAX) name_fault(of, "BadValue", of->at - 2);
    if (of->fault == NULL) read.value.at = take(of, read.value.length);
    read.time = is_timed ? take_number(of, 8) : read.kind == PUT ? UINT64_MAX : 0;
    return read;
}

static bool are_equal(bytes a, bytes b) {
    return a.length == b.length && (a.length == 0 || memcmp(a.at, b.at, a.length) == 0);
}

/* Whether a hit reads its key's latest value, live at its moment, after the calls at the places before. */
static bool is_right_hit(const call calls[], const uint32_t places[], uint32_t place) {
    const call *hit = &calls[places[place]];
    for (uint32_t i = place; i-- > 0;) {
        const call *before = &calls[places[i]];
        if (!are_equal(before->key, hit->key)) continue;
        if (before->kind == REMOVE) return false;
        if (before->kind != PUT) continue;
        return are_equal(before->value, hit->value) && (before->time == UINT64_MAX || hit->time < before->time);
    }
    return false;
}

static const char *fault_at(const call calls[], const uint32_t places[], uint32_t count, uint32_t place) {
    if (places[place] >= count) return "NotAPlace";
    for (uint32_t i = 0; i < place; i++)
        if (places[i] == places[place]) return "Repeated";
    for (uint32_t i = 0; i < place; i++)
        if (calls[places[place]].end < calls[places[i]].start) return "OutOfOrder";
    if (calls[places[place]].kind == HIT && !is_right_hit(calls, places, place)) return "WrongHit";
    return NULL;
}

static kangaroo_status judge(const call calls[], const uint32_t places[], uint32_t count, char line[LINE_BYTES]) {
    for (uint32_t i = 0; i < count; i++)
        if (calls[i].end < calls[i].start) {
            snprintf(line, LINE_BYTES, "rejected BadInterval position %" PRIu32, i);
            return KANGAROO_REJECTED;
        }
    for (uint32_t i = 0; i < count; i++) {
        const char *fault = fault_at(calls, places, count, i);
        if (fault == NULL) continue;
        snprintf(line, LINE_BYTES, "rejected %s place %" PRIu32, fault, i);
        return KANGAROO_REJECTED;
    }
    snprintf(line, LINE_BYTES, "accepted %" PRIu32 " calls", count);
    return KANGAROO_OK;
}

/* The verdict, or -1 for a trace of more calls than are judged here. */
static int verdict(const uint8_t *data, size_t length, char line[LINE_BYTES]) {
    static call calls[CALLS_MOST];
    static uint32_t places[CALLS_MOST];
    reader of = {.from = data, .length = length};
    bool is_timed = take_magic(&of);
    uint64_t count = take_number(&of, 4);
    if (of.fault == NULL && count > COUNT_MOST) name_fault(&of, "TooMany", 8);
    for (uint64_t i = 0; i < count && of.fault == NULL; i++) {
        if (i == CALLS_MOST) return -1;
        calls[i] = take_call(&of, is_timed);
    }
    for (uint64_t i = 0; i < count && of.fault == NULL; i++) places[i] = (uint32_t)take_number(&of, 4);
    if (of.fault == NULL && of.at < length) name_fault(&of, "TrailingBytes", of.at);
    if (of.fault == NULL) return judge(calls, places, (uint32_t)count, line);
    snprintf(line, LINE_BYTES, "bad trace %s at %zu", of.fault, of.offset);
    return KANGAROO_BAD_TRACE;
}

int LLVMFuzzerTestOneInput(const uint8_t *data, size_t length) {
    char line[KANGAROO_LINE_BYTES + 1], wanted[LINE_BYTES];
    memset(line, 9, sizeof line);
    kangaroo_status status = kangaroo_check(data, length, line, KANGAROO_LINE_BYTES);
    expect(line[KANGAROO_LINE_BYTES] == 9, "no byte after the line is written");
    expect(memchr(line, 0, KANGAROO_LINE_BYTES) != NULL, "the line ends");
    expect(kangaroo_check(data, length, NULL, 0) == status, "the same without a line");
    int known = verdict(data, length, wanted);
    if (known < 0) return 0;
    if ((int)status != known || strcmp(line, wanted) != 0) fprintf(stderr, "fuzz: %s, and not %s\n", line, wanted);
    expect((int)status == known && strcmp(line, wanted) == 0, "the second checker's verdict");
    return 0;
}
