/* Names of statuses and counters, and the version. */
#include "build_line.h" /* the makefile makes it */
#include "inside.h"

static const char *answer_text(kangaroo_status status) {
    switch (status) {
    case KANGAROO_OK: return "done";
    case KANGAROO_ABSENT: return "no value of this key";
    case KANGAROO_EXPIRED: return "the key's value had expired";
    case KANGAROO_UNREADABLE: return "a page could not be read";
    case KANGAROO_DAMAGED: return "a page was not the one that was written";
    case KANGAROO_SHORT_BUFFER: return "the value is longer than the buffer";
    case KANGAROO_STALE: return "the lease does not hold any more";
    case KANGAROO_REJECTED: return "the certificate is not right";
    case KANGAROO_BAD_TRACE: return "the bytes are no trace";
    default: return "an answer that this version has no name for";
    }
}

static const char *refusal_text(kangaroo_status status) {
    switch (status) {
    case KANGAROO_WRONG_ARGUMENT: return "an argument that is not allowed";
    case KANGAROO_WRONG_KEY: return "a key has 1 to 255 bytes";
    case KANGAROO_TOO_LARGE: return "a value has at most 2,048 bytes";
    case KANGAROO_NO_MEMORY: return "memory was refused";
    case KANGAROO_WRONG_OPTIONS: return "an option is out of its range";
    case KANGAROO_IN_USE: return "another cache has this folder";
    case KANGAROO_SYSTEM: return "the system refused something";
    case KANGAROO_FORKED: return "the cache was opened by another process";
    default: return "a refusal that this version has no name for";
    }
}

const char *kangaroo_strerror(kangaroo_status status) {
    return status < 0 ? refusal_text(status) : answer_text(status);
}

uint32_t kangaroo_version(void) {
    return KANGAROO_VERSION;
}

const char *kangaroo_build(void) {
    return KANGAROO_BUILD;
}

/* The counters in their order: those that a lane counts, in the order of counters_with in
 * crates/c_lane/specs/Counting.antt, but that its last three come after those that are counted in C. */
#define COUNTERS \
    COUNTER(memory_hits) COUNTER(log_hits) COUNTER(set_hits) COUNTER(absent) COUNTER(expired) COUNTER(unreadable) \
    COUNTER(damaged) COUNTER(puts) COUNTER(removes) COUNTER(leases_given) COUNTER(fills_stored) COUNTER(fills_stale) \
    COUNTER(declined) COUNTER(logged) COUNTER(log_full) COUNTER(index_full) COUNTER(log_pages_written) \
    COUNTER(set_pages_written) COUNTER(pages_read) COUNTER(log_pages_lost) COUNTER(sets_forgotten) \
    COUNTER(readmitted) COUNTER(dropped) COUNTER(segments_freed) COUNTER(upkeep_steps) COUNTER(put_steps) \
    COUNTER(upkeep_no_memory) COUNTER(bytes_put) COUNTER(memory_objects_now) COUNTER(log_objects_now) \
    COUNTER(segments_now) COUNTER(short_buffers) COUNTER(put_too_large) COUNTER(put_no_memory) \
    COUNTER(leases_dropped) COUNTER(fills_wrong_lease) COUNTER(copy_hits) COUNTER(brought_back) \
    COUNTER(pushed_copies)

#define COUNTER(name) #name,
static const char *const counter_names[] = {COUNTERS};
#undef COUNTER

/* Each is a uint64_t of kangaroo_counters, which stands there in this order. */
#define COUNTER(name) PLACE_OF_##name,
enum { COUNTERS COUNTER_COUNT };
#undef COUNTER
#define COUNTER(name) \
    _Static_assert(offsetof(kangaroo_counters, name) == PLACE_OF_##name * sizeof(uint64_t) && \
                       sizeof(((kangaroo_counters *)0)->name) == sizeof(uint64_t), \
                   #name);
COUNTERS
#undef COUNTER
_Static_assert(COUNTER_COUNT * sizeof(uint64_t) == sizeof(kangaroo_counters), "each counter has a name");

const char *kangaroo_counter_name(size_t index) {
    return index < COUNTER_COUNT ? counter_names[index] : NULL;
}
