/* Requests that took long, by --slow. Without it no clock is read for them. What the bytes of a client mean is not looked at here: a
 * line shows the front of those that a step took, which are a request's line, or a key of a get. */
#define _GNU_SOURCE
#include "server.h"
#include <stdio.h>
#include <string.h>
#include <time.h>

enum {
    LINES_A_SECOND = 10,
    SHOWN_BYTES = 100,
    ESCAPED_BYTES = 4, /* a byte as \x and two digits */
    SPELLED_BYTES = SHOWN_BYTES * ESCAPED_BYTES + 5,
    LANE_BYTES = 16,
    NANOSECONDS = 1000000000,
    NANOSECONDS_OF_MS = 1000000
};

static uint64_t nanoseconds_now(void) {
    struct timespec now;
    clock_gettime(CLOCK_MONOTONIC, &now);
    return (uint64_t)now.tv_sec * NANOSECONDS + (uint64_t)now.tv_nsec;
}

void begin_timing(timing *it, const settings *of) {
    if (of->slow_ms != NEVER_SLOW) it->began = nanoseconds_now();
}

/* ------------------------------------------------------------------------------------------------------------- the lane */

/* Where the counters of a lane stand: hits by tier, and then pages that were read. */
#define PLACE_OF(counter) offsetof(kangaroo_counters, counter) / sizeof(uint64_t)
static const size_t places[LOOKED_AT] = {PLACE_OF(memory_hits), PLACE_OF(log_hits), PLACE_OF(set_hits), PLACE_OF(pages_read)};

static void read_counters(kl_lane *lane, uint64_t to[LOOKED_AT]) {
    kl_counters all;
    kl_count(lane, &all);
    for (size_t i = 0; i < LOOKED_AT; i++) to[i] = all.numbers[places[i]];
}

void look_before(timing *it, kl_lane *lane) {
    if (it->began != 0) read_counters(lane, it->counts);
}

void look_after(timing *it, kl_lane *lane) {
    uint64_t now[LOOKED_AT];
    if (it->began == 0) return;
    read_counters(lane, now);
    for (size_t i = 0; i < LOOKED_AT; i++) it->counts[i] = now[i] - it->counts[i];
}

/* ------------------------------------------------------------------------------------------------------------- the line */

static const char *name_of(const char *const names[], size_t count, size_t which) {
    return which < count && names[which] != NULL ? names[which] : "-";
}

static const char *name_of_command(const timed_step *what) {
    static const char *const names[] = {
        [KS_GET] = "get", [KS_GAT] = "gat", [KS_SET] = "set", [KS_ADD] = "add", [KS_REPLACE] = "replace", [KS_APPEND] = "append",
        [KS_PREPEND] = "prepend", [KS_CAS] = "cas", [KS_DELETE] = "delete", [KS_INCR] = "incr", [KS_DECR] = "decr",
        [KS_TOUCH] = "touch", [KS_FLUSH_ALL] = "flush_all", [KS_META_GET] = "mg", [KS_META_SET] = "ms", [KS_META_DELETE] = "md",
        [KS_META_ARITHMETIC] = "ma", [KS_META_DEBUG] = "me"};
    if (what->wanted->wants == KS_STATS) return "stats";
    return name_of(names, sizeof names / sizeof *names, what->done->command);
}

static const char *name_of_outcome(const timed_step *what) {
    static const char *const names[] = {
        [KS_HIT] = "hit", [KS_MISS] = "miss", [KS_STORED] = "stored", [KS_NOT_STORED] = "not_stored", [KS_EXISTS] = "exists",
        [KS_DELETED] = "deleted", [KS_TOUCHED] = "touched", [KS_COUNTED] = "counted", [KS_NOT_NUMBER] = "not_number",
        [KS_TOO_LARGE] = "too_large", [KS_NO_MEMORY] = "no_memory", [KS_REFUSED] = "refused"};
    return name_of(names, sizeof names / sizeof *names, what->done->outcome);
}

/* The tier that had a hit, if just one had. */
static const char *name_of_tier(const timing *it) {
    static const char *const names[] = {"memory", "log", "set"};
    const char *name = NULL;
    for (size_t i = 0; i < sizeof names / sizeof *names; i++)
        if (it->counts[i] != 0) name = name == NULL ? names[i] : "-";
    return name == NULL ? "-" : name;
}

/* How many of some bytes are shown: those of their first line, if it is not too long. */
static size_t shown_of(const uint8_t *bytes, size_t length) {
    size_t count = 0;
    while (count < length && count < SHOWN_BYTES && bytes[count] != '\r' && bytes[count] != '\n') count++;
    return count;
}

/* Spells bytes between quotation marks, with each that is not plain as \x and two digits. */
static void spell_bytes(char to[SPELLED_BYTES], const uint8_t *bytes, size_t length) {
    char *at = to;
    *at++ = '"';
    for (size_t i = 0; i < length; i++) {
        bool is_plain = bytes[i] >= ' ' && bytes[i] <= '~' && bytes[i] != '"' && bytes[i] != '\\';
        at += snprintf(at, ESCAPED_BYTES + 1, is_plain ? "%c" : "\\x%02x", bytes[i]);
    }
    strcpy(at, length < SHOWN_BYTES ? "\"" : "\"..");
}

/* Tells of a step. Of one without a lane no byte is shown, since it has no key. */
static void tell_slow(worker *by, const timed_step *what, uint64_t nanoseconds) {
    char spelled[SPELLED_BYTES] = "-", lane[LANE_BYTES] = "-";
    if (what->wanted->wants == KS_LANE) {
        spell_bytes(spelled, what->bytes, shown_of(what->bytes, what->done->taken));
        snprintf(lane, sizeof lane, "%u", (unsigned)what->wanted->place.lane);
    }
    tell(TELL_NOTE, "slow: us=%llu command=%s outcome=%s tier=%s pages=%llu lane=%s untold=%llu bytes=%s",
         (unsigned long long)(nanoseconds / 1000), name_of_command(what), name_of_outcome(what), name_of_tier(what->timing),
         (unsigned long long)what->timing->counts[PAGES_READ], lane, (unsigned long long)by->slow.untold, spelled);
    by->slow.untold = 0;
}

/* Whether a worker may tell one more in this second. If not, it is counted, and the next line has the count. */
static bool may_tell(worker *by, uint64_t second) {
    if (by->slow.second != second) {
        by->slow.second = second;
        by->slow.told = 0;
    }
    if (by->slow.told < LINES_A_SECOND) {
        by->slow.told++;
        return true;
    }
    by->slow.untold++;
    return false;
}

void end_timing(worker *by, const timed_step *what) {
    if (what->timing->began == 0) return;
    uint64_t now = nanoseconds_now(), took = now - what->timing->began;
    bool is_request = what->done->command != KS_NO_COMMAND || what->wanted->wants == KS_STATS;
    if (!is_request || took <= by->of->settings.slow_ms * NANOSECONDS_OF_MS) return;
    if (may_tell(by, now / NANOSECONDS)) tell_slow(by, what, took);
}
