/* The check of a trace in a buffer. */
#include "test.h"

/* A timed trace of one put of `a`, and certificate 0: docs/TRACES.md spells it. */
static size_t read_example(unsigned char *to, size_t room) {
    const char *named = getenv("KANGAROO_TRACE");
    FILE *from = fopen(named != NULL ? named : "../examples/first.trace", "rb");
    expect(from != NULL, "examples/first.trace");
    size_t read = fread(to, 1, room, from);
    fclose(from);
    return read;
}

static void shows_verdicts(void) {
    unsigned char trace[4096];
    char line[KANGAROO_LINE_BYTES + 1];
    memset(line, 9, sizeof line);
    size_t length = read_example(trace, sizeof trace);
    expect_status(kangaroo_check(trace, length, line, KANGAROO_LINE_BYTES), KANGAROO_OK, "the example");
    expect(strcmp(line, "accepted 3 calls") == 0, line);
    expect(line[KANGAROO_LINE_BYTES] == 9, "no more bytes of the line are written");
    expect_status(kangaroo_check(trace, length, NULL, 0), KANGAROO_OK, "without a line");
    show("%s", line);
    expect_status(kangaroo_check(trace, length - 1, line, sizeof line), KANGAROO_BAD_TRACE, "one byte less");
    expect(strncmp(line, "bad trace ", 10) == 0, line);
    show("%s", line);
    expect_status(kangaroo_check(NULL, 0, line, sizeof line), KANGAROO_BAD_TRACE, "no bytes");
    show("%s", line);
    trace[0] ^= 1;
    expect_status(kangaroo_check(trace, length, line, sizeof line), KANGAROO_BAD_TRACE, "another first byte");
    show("%s", line);
}

/* Each byte of the example changed: whatever comes, an answer. */
static void shows_any_bytes(void) {
    unsigned char trace[4096];
    char line[KANGAROO_LINE_BYTES];
    size_t length = read_example(trace, sizeof trace), answers[3] = {0};
    for (size_t i = 0; i < length; i++)
        for (int bit = 0; bit < 8; bit++) {
            trace[i] ^= (unsigned char)(1 << bit);
            kangaroo_status status = kangaroo_check(trace, length, line, sizeof line);
            trace[i] ^= (unsigned char)(1 << bit);
            expect(status == KANGAROO_OK || status == KANGAROO_REJECTED || status == KANGAROO_BAD_TRACE, "an answer");
            expect(strlen(line) > 0 && strlen(line) < KANGAROO_LINE_BYTES, "a line");
            answers[status == KANGAROO_OK ? 0 : status == KANGAROO_REJECTED ? 1 : 2]++;
        }
    show("each bit changed: accepted %zu, rejected %zu, bad %zu", answers[0], answers[1], answers[2]);
}

static void shows_refusals(void) {
    char line[2 * KANGAROO_LINE_BYTES];
    memset(line, 9, sizeof line);
    expect_status(kangaroo_check(NULL, 3, line, sizeof line), KANGAROO_WRONG_ARGUMENT, "no trace of 3 bytes");
    expect_status(kangaroo_check("abc", 3, NULL, 64), KANGAROO_WRONG_ARGUMENT, "no line of 64 bytes");
    expect_status(kangaroo_check("abc", 3, line, 1), KANGAROO_WRONG_ARGUMENT, "a line of 1 byte");
    expect_status(kangaroo_check("abc", 3, line, 63), KANGAROO_WRONG_ARGUMENT, "a line of 63 bytes");
    expect_status(kangaroo_check(line, 10, line, sizeof line), KANGAROO_WRONG_ARGUMENT, "a line over the trace");
    for (size_t i = 0; i < sizeof line; i++) expect(line[i] == 9, "a refusal writes nothing");
    show("NULL, a short line and one over the trace are refused");
}

int main(void) {
    shows_verdicts();
    shows_any_bytes();
    shows_refusals();
    return 0;
}
