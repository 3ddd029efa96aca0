/* Options and sizes. What the cache can be is decided by the proved part; here are the structs' sizes, the defaults,
 * and what is C's own: flags and upkeep threads. */
#include "inside.h"
#include <string.h>
#include <unistd.h>

enum {
    OPTIONS_BYTES_1_0 = 80, /* of version 1.0 */
    SIZES_BYTES_1_0 = 56,
    BRING_BACK = 8, /* docs/BENCHMARKS.md says why */
    THREADS_MAX = 4096
};
_Static_assert(sizeof(kangaroo_options) >= OPTIONS_BYTES_1_0, "options only grow");
_Static_assert(sizeof(kangaroo_sizes) >= SIZES_BYTES_1_0, "sizes only grow");

static size_t less_of(size_t a, size_t b) {
    return a < b ? a : b;
}

void write_struct(void *to, size_t to_bytes, const void *from, size_t known_bytes) {
    size_t known = less_of(to_bytes, known_bytes);
    memcpy(to, from, known);
    memset((uint8_t *)to + known, 0, to_bytes - known);
}

kangaroo_status kangaroo_options_init(kangaroo_options *options, size_t size) {
    if (options == NULL || size < OPTIONS_BYTES_1_0 || size > STRUCT_BYTES_MAX) return KANGAROO_WRONG_ARGUMENT;
    kangaroo_options defaults = {0};
    defaults.size = (uint32_t)size;
    defaults.flash_bytes = (uint64_t)1 << 30;
    defaults.memory_bytes = (uint64_t)128 << 20;
    defaults.object_bytes = 100;
    defaults.upkeep_threads = 1;
    defaults.admit = 65536;
    defaults.bring_back = BRING_BACK;
    write_struct(options, size, &defaults, sizeof defaults);
    return KANGAROO_OK;
}

static bool are_zeros(const uint8_t *at, size_t bytes) {
    for (size_t i = 0; i < bytes; i++)
        if (at[i] != 0) return false;
    return true;
}

/* Names the faulty field. */
static kangaroo_status wrong(const char **field, const char *name) {
    *field = name;
    return KANGAROO_WRONG_OPTIONS;
}

kangaroo_status read_options(const kangaroo_options *from, kangaroo_options *to, const char **field) {
    uint32_t size;
    if (from == NULL) return KANGAROO_WRONG_ARGUMENT;
    memcpy(&size, from, sizeof size);
    if (size < OPTIONS_BYTES_1_0 || size > STRUCT_BYTES_MAX) return KANGAROO_WRONG_ARGUMENT;
    size_t known = less_of(size, sizeof *to);
    memset(to, 0, sizeof *to);
    memcpy(to, from, known);
    return are_zeros((const uint8_t *)from + known, size - known) ? KANGAROO_OK : wrong(field, "size");
}

static uint32_t processors(void) {
    long count = sysconf(_SC_NPROCESSORS_ONLN);
    if (count < 1) return 1;
    return count > THREADS_MAX ? THREADS_MAX : (uint32_t)count;
}

static kangaroo_status shape_of_wanted(const kl_wanted *wanted, kl_shape *shape, const char **field) {
    switch (kl_shape_of(wanted, shape)) {
    case KL_NO_SIZE_FAULT: return KANGAROO_OK;
    case KL_FLASH_TOO_SMALL: case KL_FLASH_TOO_LARGE: return wrong(field, "flash_bytes");
    case KL_NO_OBJECT_BYTES: case KL_OBJECT_TOO_LARGE: return wrong(field, "object_bytes");
    case KL_NO_THREADS: case KL_TOO_MANY_THREADS: return wrong(field, "threads");
    case KL_MEMORY_TOO_SMALL: default: return wrong(field, "memory_bytes");
    }
}

/* A field of a shape, which options have too: its name, and its place in each of the two structs. */
typedef struct shape_field {
    const char *name;
    size_t in_options, in_shape;
} shape_field;

#define SHAPE_FIELD(name) {#name, offsetof(kangaroo_options, name), offsetof(kl_shape, name)}
static const shape_field shape_fields[] = {
    [KL_SHARDS] = SHAPE_FIELD(shards),
    [KL_LANES] = SHAPE_FIELD(lanes),
    [KL_SETS] = SHAPE_FIELD(sets),
    [KL_MEMORY_OBJECTS] = SHAPE_FIELD(memory_objects),
    [KL_SEGMENTS] = SHAPE_FIELD(segments),
    [KL_SEGMENT_PAGES] = SHAPE_FIELD(segment_pages),
    [KL_LOG_OBJECTS] = SHAPE_FIELD(log_objects),
    [KL_LEASE_SLOTS] = SHAPE_FIELD(lease_slots),
    [KL_THRESHOLD] = SHAPE_FIELD(threshold),
    [KL_ADMIT] = SHAPE_FIELD(admit),
};

/* Copies fields of a shape out of options. */
static void take_fields(const kangaroo_options *from, kl_shape *to, kl_shape_field first, kl_shape_field last) {
    for (size_t i = first; i <= (size_t)last; i++)
        memcpy((uint8_t *)to + shape_fields[i].in_shape, (const uint8_t *)from + shape_fields[i].in_options,
               sizeof(uint32_t));
}

/* Copies all fields of a shape into options. */
static void give_fields(const kl_shape *from, kangaroo_options *to) {
    for (size_t i = KL_SHARDS; i <= KL_ADMIT; i++)
        memcpy((uint8_t *)to + shape_fields[i].in_options, (const uint8_t *)from + shape_fields[i].in_shape,
               sizeof(uint32_t));
}

/* Whether options give a number of the shape, of the seven that are all given or all 0. */
static bool is_shape_given(const kangaroo_options *options) {
    kl_shape given = {0};
    take_fields(options, &given, KL_SHARDS, KL_LOG_OBJECTS);
    return !are_zeros((const uint8_t *)&given, sizeof given);
}

/* Works the shape out of what is wanted, or takes it over if all seven numbers are given. Then flash and memory are
 * not looked at: plenty of both is asked for, so that only the other two are judged. */
static kangaroo_status find_shape(const kangaroo_options *options, kl_shape *shape, const char **field) {
    kl_wanted wanted = {options->flash_bytes, options->memory_bytes, options->object_bytes, options->threads};
    bool is_given = is_shape_given(options);
    if (is_given) {
        wanted.flash_bytes = (uint64_t)1 << 30;
        wanted.memory_bytes = (uint64_t)1 << 50;
    }
    kangaroo_status status = shape_of_wanted(&wanted, shape, field);
    if (status == KANGAROO_OK && is_given) take_fields(options, shape, KL_SHARDS, KL_LOG_OBJECTS);
    return status;
}

static kangaroo_status test_own_fields(const kangaroo_options *options, const char **field) {
    if ((options->flags & ~KANGAROO_SPARSE) != 0) return wrong(field, "flags");
    if (options->upkeep_threads > UPKEEP_THREADS_MAX) return wrong(field, "upkeep_threads");
    return KANGAROO_OK;
}

kangaroo_status resolve_options(kangaroo_options *options, kl_shape *shape, const char **field) {
    memset(shape, 0, sizeof *shape);
    kangaroo_status status = test_own_fields(options, field);
    if (status != KANGAROO_OK) return status;
    if (options->threads == 0) options->threads = processors();
    status = find_shape(options, shape, field);
    if (status != KANGAROO_OK) return status;
    take_fields(options, shape, KL_LEASE_SLOTS, KL_ADMIT);
    shape->bring_back = options->bring_back;
    uint32_t fault = kl_complete_shape(shape, options->object_bytes);
    if (fault != KL_NO_FIELD) return wrong(field, shape_fields[fault <= KL_ADMIT ? fault : KL_SHARDS].name);
    give_fields(shape, options);
    return KANGAROO_OK;
}

kangaroo_status kangaroo_options_resolve(kangaroo_options *options, const char **field) {
    const char *name = NULL;
    kangaroo_options known;
    kl_shape shape;
    kangaroo_status status = read_options(options, &known, &name);
    if (status == KANGAROO_OK) status = resolve_options(&known, &shape, &name);
    if (status == KANGAROO_OK) memcpy(options, &known, less_of(options->size, sizeof known));
    if (field != NULL) *field = name;
    return status;
}

kangaroo_status kangaroo_sizes_of(const kangaroo_options *options, kangaroo_sizes *sizes, size_t size) {
    const char *field = NULL;
    kangaroo_options known;
    kl_shape shape;
    kl_sizes found = {0};
    if (sizes == NULL || size < SIZES_BYTES_1_0 || size > STRUCT_BYTES_MAX) return KANGAROO_WRONG_ARGUMENT;
    kangaroo_status status = read_options(options, &known, &field);
    if (status == KANGAROO_OK) status = resolve_options(&known, &shape, &field);
    if (status != KANGAROO_OK) return status;
    kl_sizes_of(&shape, known.object_bytes, &found);
    kangaroo_sizes all = {
        .file_bytes = found.file_bytes,
        .files = (uint64_t)shape.shards * shape.lanes + 1,
        .memory_fixed = found.memory_fixed,
        .memory_full = found.memory_full,
        .memory_objects = found.memory_objects,
        .log_objects = found.log_objects,
        .set_objects = found.set_objects,
    };
    write_struct(sizes, size, &all, sizeof all);
    return KANGAROO_OK;
}
