/* The layout of each struct that crosses between C and the lanes, as the repr(C) struct in Rattle has it. A difference
 * stops the compiler. The numbers are written by hand, from the Rattle source that stands above them. There a u32 has 4
 * bytes, and a u64, a usize or a pointer 8. Each field lies at the next multiple of its size. The file has no code. */
#include "inside.h"
#include "session.h"

/* Where a field lies, and how many bytes it has. */
#define FIELD(type, field, at, bytes) \
    _Static_assert(offsetof(type, field) == (at) && sizeof(((type *)0)->field) == (bytes), #type "." #field)
/* How many bytes a struct has, and how it is aligned. */
#define WHOLE(type, bytes, alignment) _Static_assert(sizeof(type) == (bytes) && alignof(type) == (alignment), #type)

/* Handle, kangaroo_c/src/handle.rt: its field alloc has no bytes. */
FIELD(kl_lane, at, 0, 8);
WHOLE(kl_lane, 8, 8);

/* LentPages, kangaroo_c/src/lent_pages.rt */
FIELD(kl_pages, at, 0, 8);
FIELD(kl_pages, count, 8, 4);
WHOLE(kl_pages, 16, 8);

/* Seed, c_lane/src/seed.rt */
FIELD(kl_seed, first, 0, 8);
FIELD(kl_seed, second, 8, 8);
WHOLE(kl_seed, 16, 8);

/* LaneShape, c_lane/src/lane_shape.rt: there memory_objects is memory, and log_objects is entries. */
FIELD(kl_shape, shards, 0, 4);
FIELD(kl_shape, lanes, 4, 4);
FIELD(kl_shape, sets, 8, 4);
FIELD(kl_shape, memory_objects, 12, 4);
FIELD(kl_shape, segments, 16, 4);
FIELD(kl_shape, segment_pages, 20, 4);
FIELD(kl_shape, log_objects, 24, 4);
FIELD(kl_shape, lease_slots, 28, 4);
FIELD(kl_shape, threshold, 32, 4);
FIELD(kl_shape, admit, 36, 4);
FIELD(kl_shape, bring_back, 40, 4);
WHOLE(kl_shape, 44, 4);

/* WantedSizes, c_lane/src/wanted.rt */
FIELD(kl_wanted, flash_bytes, 0, 8);
FIELD(kl_wanted, memory_bytes, 8, 8);
FIELD(kl_wanted, object_bytes, 16, 4);
FIELD(kl_wanted, threads, 20, 4);
WHOLE(kl_wanted, 24, 8);

/* Sizes, c_lane/src/sizes.rt */
FIELD(kl_sizes, file_bytes, 0, 8);
FIELD(kl_sizes, lane_pages, 8, 8);
FIELD(kl_sizes, memory_fixed, 16, 8);
FIELD(kl_sizes, memory_full, 24, 8);
FIELD(kl_sizes, memory_objects, 32, 8);
FIELD(kl_sizes, log_objects, 40, 8);
FIELD(kl_sizes, set_objects, 48, 8);
WHOLE(kl_sizes, 56, 8);

/* Hit, c_lane/src/hit.rt */
FIELD(kl_hit, length, 0, 8);
FIELD(kl_hit, expires, 8, 8);
FIELD(kl_hit, tier, 16, 4);
FIELD(kl_hit, reserved, 20, 4);
WHOLE(kl_hit, 24, 8);

/* Lease, service_lane/src/lease.rt */
FIELD(kl_leased, writes, 0, 8);
FIELD(kl_leased, hash, 8, 8);
FIELD(kl_leased, lane, 16, 4);
WHOLE(kl_leased, 24, 8);

/* Step, c_lane/src/step.rt */
FIELD(kl_step, did, 0, 4);
FIELD(kl_step, asked_device, 4, 4);
FIELD(kl_step, is_due, 8, 4);
WHOLE(kl_step, 12, 4);

/* KeyPlace, c_lane/src/key_place.rt */
FIELD(kl_place, lane, 0, 4);
FIELD(kl_place, word, 4, 4);
WHOLE(kl_place, 8, 4);

/* Counters, c_lane/src/counters.rt. The counters of a cache begin with all of them but three, in the same order (names.c). */
FIELD(kl_counters, numbers, 0, 34 * 8);
WHOLE(kl_counters, 34 * 8, 8);
_Static_assert(offsetof(kangaroo_counters, short_buffers) == KL_FIRST_COUNTERS * sizeof(uint64_t) &&
                   KL_COUNTERS == KL_FIRST_COUNTERS + 3,
               "then come those that C counts, and the last three");

/* What a key's length, a value's length and an answer are: usize and i32 in the exports of kangaroo_c. */
_Static_assert(sizeof(size_t) == 8 && sizeof(int32_t) == 4, "lengths and statuses");
_Static_assert(sizeof(kangaroo_status) == sizeof(int32_t), "a status is what an export answers");

/* Session, memcached_session/src/session.rt */
FIELD(ks_session, skipped, 0, 8);
FIELD(ks_session, place, 8, 4);
FIELD(ks_session, expiry, 12, 4);
FIELD(ks_session, seconds, 16, 4);
FIELD(ks_session, with_cas, 20, 4);
WHOLE(ks_session, 24, 8);

/* RegisterTurn, turn_register/src/turn.rt */
FIELD(ks_turn, at, 0, 4);
FIELD(ks_turn, kind, 4, 4);
FIELD(ks_turn, lane, 8, 4);
FIELD(ks_turn, reserved, 12, 4);
FIELD(ks_turn, word, 16, 8);
FIELD(ks_turn, moment, 24, 8);
FIELD(ks_turn, later, 32, 8);
FIELD(ks_turn, cas, 40, 8);
FIELD(ks_turn, flushed, 48, 8);
WHOLE(ks_turn, 56, 8);

/* SessionDone, memcached_session/src/done.rt */
FIELD(ks_done, taken, 0, 8);
FIELD(ks_done, answered, 8, 8);
FIELD(ks_done, command, 16, 4);
FIELD(ks_done, outcome, 20, 4);
WHOLE(ks_done, 24, 8);

/* SessionWanted, c_lane/src/session_want.rt */
FIELD(ks_wanted, wants, 0, 4);
FIELD(ks_wanted, argument, 4, 4);
FIELD(ks_wanted, place, 8, 8);
WHOLE(ks_wanted, 16, 4);
