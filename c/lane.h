/* lane.h: the exports of the proved part, libkangaroo_c.a. Not installed.
 *
 * A lane is one part of a cache. It is given to one call at a time: kangaroo.c has a lock a lane. A pointer to bytes is
 * never NULL, also at length 0, and no two things that are handed to one call overlap where one of them is written.
 * Statuses are the numbers of kangaroo_status; the enums below name every other number. layout.c compares the structs
 * with those of the lanes. */
#ifndef KANGAROO_LANE_H
#define KANGAROO_LANE_H

#include <stddef.h>
#include <stdint.h>

/* Why there is no shape for what is wanted: the first reason. In Rattle SizeFault, by number_of_fault. */
typedef enum kl_size_fault {
    KL_NO_SIZE_FAULT = 0,
    KL_FLASH_TOO_SMALL = 1,
    KL_FLASH_TOO_LARGE = 2,
    KL_NO_OBJECT_BYTES = 3,
    KL_OBJECT_TOO_LARGE = 4,
    KL_NO_THREADS = 5,
    KL_TOO_MANY_THREADS = 6,
    KL_MEMORY_TOO_SMALL = 7
} kl_size_fault;

/* A field of a shape, in the order of kl_shape. In Rattle ShapeField, by its number. */
typedef enum kl_shape_field {
    KL_NO_FIELD = 0,
    KL_SHARDS = 1,
    KL_LANES = 2,
    KL_SETS = 3,
    KL_MEMORY_OBJECTS = 4,
    KL_SEGMENTS = 5,
    KL_SEGMENT_PAGES = 6,
    KL_LOG_OBJECTS = 7,
    KL_LEASE_SLOTS = 8,
    KL_THRESHOLD = 9,
    KL_ADMIT = 10
} kl_shape_field;

/* What a step of upkeep did. In Rattle the field `did` of Step. */
typedef enum kl_step_did {
    KL_NOTHING_WAS_DUE = 0,
    KL_FLUSHED = 1,           /* a page of the log was to be written */
    KL_MOVED = 2,             /* objects were to move to a set */
    KL_MEMORY_WAS_REFUSED = 3 /* to a move */
} kl_step_did;

/* What a call on a key answers if the key is another lane's: a fault of C. Nothing was done, and nothing that the call writes was
 * written. It is no kangaroo_status, and no caller of the library sees it. */
enum { KL_OTHER_LANE = -1000 };

/* A lane, or a place without one: {NULL}. It knows its number, and by what keys are placed among the lanes. */
typedef struct kl_lane {
    void *at;
} kl_lane;

/* 16 random bytes. */
typedef struct kl_seed {
    uint64_t first, second;
} kl_seed;

/* The shape of a cache, as kangaroo_options has it. */
typedef struct kl_shape {
    uint32_t shards, lanes, sets, memory_objects, segments, segment_pages, log_objects, lease_slots, threshold, admit,
        bring_back;
} kl_shape;

/* What a user knows of a cache, as kangaroo_options has it. */
typedef struct kl_wanted {
    uint64_t flash_bytes, memory_bytes;
    uint32_t object_bytes, threads;
} kl_wanted;

/* What a cache takes and holds, as kangaroo_sizes has it; lane_pages is of one lane. */
typedef struct kl_sizes {
    uint64_t file_bytes, lane_pages, memory_fixed, memory_full, memory_objects, log_objects, set_objects;
} kl_sizes;

/* Where a value was found, and when it expires: `tier` is one of KANGAROO_TIER_.., `reserved` is 0. */
typedef struct kl_hit {
    uint64_t length, expires;
    uint32_t tier, reserved;
} kl_hit;

/* A lease of a key: how many writes its slot had seen, the hash of the key by the seed of its lane, and the number of the
 * lane. In Rattle Lease. */
typedef struct kl_leased {
    uint64_t writes, hash;
    uint32_t lane;
} kl_leased;

/* What a step did, whether it may have asked the device, and whether more is due after it: 0 or 1 each. */
typedef struct kl_step {
    uint32_t did; /* one of kl_step_did */
    uint32_t asked_device, is_due;
} kl_step;

/* The numbers of one lane, in the order of the fields of kangaroo_counters: those up to segments_now, and then copy_hits,
 * brought_back and pushed_copies. */
enum { KL_COUNTERS = 34, KL_FIRST_COUNTERS = 31 };
typedef struct kl_counters {
    uint64_t numbers[KL_COUNTERS];
} kl_counters;

/* Which of some lanes has a key, and 32 bits of its hash that tell leases of different keys apart. */
typedef struct kl_place {
    uint32_t lane, word;
} kl_place;

/* The place of a key among lanes, 1 at least. */
void kl_place_of(const kl_seed *seed, uint32_t lanes, const uint8_t *key, size_t key_length, kl_place *to);

/* Writes a shape for what is wanted, except threshold, admit and bring_back, and answers KL_NO_SIZE_FAULT; or answers another
 * kl_size_fault and writes nothing. */
uint32_t kl_shape_of(const kl_wanted *wanted, kl_shape *to);

/* If shape->lease_slots is 0, it becomes what kl_shape_of gives with as many sets; if shape->threshold is 0, it becomes
 * that for objects of so many bytes. Answers the kl_shape_field that is the first out of its range then, or KL_NO_FIELD. */
uint32_t kl_complete_shape(kl_shape *shape, uint32_t object_bytes);

/* Sizes of a shape: all zeros for one with a field out of its range. */
void kl_sizes_of(const kl_shape *shape, uint32_t object_bytes, kl_sizes *to);

/* Pages of 4,096 bytes that are lent; at is not NULL, also where there are none. */
typedef struct kl_pages {
    uint8_t *at;
    uint32_t count;
} kl_pages;

/* Opens an empty lane over pages, which are the lane's until kl_close: nobody else reads or writes them. `number` is
 * the lane's among those of the shape: by it and the seed it has random words of its own, and knows its keys, as kl_place_of
 * places them. *to must be without a lane. KANGAROO_OK; or KANGAROO_WRONG_OPTIONS (the shape,
 * or too few pages), or KANGAROO_NO_MEMORY: then *to is as it was, and the pages are the caller's. */
int32_t kl_open(const kl_shape *shape, const kl_seed *seed, uint32_t number, kl_pages pages, kl_lane *to);

/* Closes a lane. *lane becomes {NULL}; all memory that it took is given back, and the pages are the caller's. */
void kl_close(kl_lane *lane);

/* KANGAROO_OK: the value is at the front of `into`, and *hit is filled. KANGAROO_SHORT_BUFFER: *hit is filled, and
 * nothing is copied. KANGAROO_ABSENT, KANGAROO_EXPIRED, KANGAROO_UNREADABLE or KANGAROO_DAMAGED (the misses), or
 * KANGAROO_WRONG_KEY: *hit is all zeros. A key of another lane is
 * KL_OTHER_LANE, of each call up to kl_remove. */
int32_t kl_get(kl_lane *lane, const uint8_t *key, size_t key_length, uint64_t moment, uint8_t *into, size_t into_length,
               kl_hit *hit);

/* The same; at a miss *lease is given. */
int32_t kl_get_or_lease(kl_lane *lane, const uint8_t *key, size_t key_length, uint64_t moment, uint8_t *into,
                        size_t into_length, kl_hit *hit, kl_leased *lease);

/* KANGAROO_OK: *lease is one of the key, whether it is there or not. KANGAROO_WRONG_KEY: *lease is as it was. */
int32_t kl_lease(kl_lane *lane, const uint8_t *key, size_t key_length, kl_leased *lease);

/* KANGAROO_OK: stored. KANGAROO_WRONG_KEY, KANGAROO_TOO_LARGE or KANGAROO_NO_MEMORY: only counters have changed. It does
 * upkeep itself if the log is nearly full. *is_due becomes 1 if upkeep is due after it, else 0, whatever it answers. */
int32_t kl_put(kl_lane *lane, const uint8_t *key, size_t key_length, const uint8_t *value, size_t value_length,
               uint64_t expires, uint32_t *is_due);

/* The same, but at KANGAROO_TOO_LARGE and KANGAROO_NO_MEMORY the key is removed. */
int32_t kl_put_or_remove(kl_lane *lane, const uint8_t *key, size_t key_length, const uint8_t *value,
                         size_t value_length, uint64_t expires, uint32_t *is_due);

/* KANGAROO_OK: stored. KANGAROO_STALE: the lease has ended, or is of another lane or of a key with another hash, and only
 * a counter has changed. Refusals, and *is_due, as of a put. */
int32_t kl_fill(kl_lane *lane, const kl_leased *lease, const uint8_t *key, size_t key_length, const uint8_t *value,
                size_t value_length, uint64_t expires, uint32_t *is_due);

/* KANGAROO_OK, or KANGAROO_WRONG_KEY. */
int32_t kl_remove(kl_lane *lane, const uint8_t *key, size_t key_length);

/* Does one step of upkeep, if one is due. */
void kl_upkeep_step(kl_lane *lane, kl_step *to);

void kl_count(kl_lane *lane, kl_counters *to);

/* Judges a trace: KANGAROO_OK (accepted), KANGAROO_REJECTED, KANGAROO_BAD_TRACE or KANGAROO_NO_MEMORY. The line, without
 * line feed or NUL, is at the front of `line`, which has room for 63 bytes at least; *length is its length. */
int32_t kl_check(const kl_seed *seed, const uint8_t *trace, size_t trace_length, uint8_t *line, size_t line_length,
                 size_t *length);

#endif
