/* Options: bytes become a shape and a shape bytes, and each faulty field is named. */
#include "test.h"

static kangaroo_options defaults(void) {
    kangaroo_options options;
    expect_status(kangaroo_options_init(&options, sizeof options), KANGAROO_OK, "init");
    return options;
}

static void expect_fault(kangaroo_options options, const char *name) {
    const char *field = NULL;
    kangaroo_options before = options;
    kangaroo_sizes sizes;
    expect_status(kangaroo_options_resolve(&options, &field), KANGAROO_WRONG_OPTIONS, name);
    if (field == NULL || strcmp(field, name) != 0) printf("  named %s\n", field == NULL ? "none" : field);
    expect(field != NULL && strcmp(field, name) == 0, name);
    expect(memcmp(&options, &before, sizeof options) == 0, "refused options are unchanged");
    expect_status(kangaroo_options_resolve(&options, NULL), KANGAROO_WRONG_OPTIONS, "without a place for the name");
    expect_status(kangaroo_sizes_of(&options, &sizes, sizeof sizes), KANGAROO_WRONG_OPTIONS, name);
}

static void shows_resolved(void) {
    kangaroo_options options = defaults(), again;
    kangaroo_sizes before, after;
    const char *field = "";
    expect_status(kangaroo_sizes_of(&options, &before, sizeof before), KANGAROO_OK, "sizes");
    expect_status(kangaroo_options_resolve(&options, &field), KANGAROO_OK, "the defaults");
    expect(field == NULL, "no faulty field");
    expect(options.shards >= 1 && options.lanes >= 1 && options.sets >= 1 && options.memory_objects >= 1 &&
               options.segments >= 2 && options.segment_pages >= 1 && options.log_objects >= 1 &&
               options.lease_slots >= 1 && options.threads >= 1, "all is worked out");
    again = options;
    expect_status(kangaroo_options_resolve(&again, NULL), KANGAROO_OK, "a second time");
    expect(memcmp(&again, &options, sizeof again) == 0, "a second call changes nothing");
    expect_status(kangaroo_sizes_of(&options, &after, sizeof after), KANGAROO_OK, "sizes of the shape");
    expect(memcmp(&before, &after, sizeof before) == 0, "the same sizes");
    expect(after.file_bytes <= options.flash_bytes && after.memory_full <= options.memory_bytes, "within the bytes");
    expect(after.files == (uint64_t)options.shards * options.lanes + 1, "files");
    show("defaults: %u lanes of %u sets; %lu bytes of files, %lu of memory, %lu objects in sets", options.lanes,
         options.sets, after.file_bytes, after.memory_full, after.set_objects);
}

static void shows_the_example(void) {
    kangaroo_options options = defaults();
    kangaroo_sizes sizes;
    options.flash_bytes = (uint64_t)12 << 30;
    options.memory_bytes = (uint64_t)1 << 30;
    options.threads = 8;
    expect_status(kangaroo_options_resolve(&options, NULL), KANGAROO_OK, "12 GiB");
    expect_status(kangaroo_sizes_of(&options, &sizes, sizeof sizes), KANGAROO_OK, "sizes");
    show("12 GiB, 8 threads, 1 GiB of memory: %u shards of %u lanes, %lu files, memory %lu to %lu, objects %lu + %lu + %lu",
         options.shards, options.lanes, sizes.files, sizes.memory_fixed, sizes.memory_full, sizes.memory_objects,
         sizes.log_objects, sizes.set_objects);
    expect(sizes.set_objects > 100000000, "10^8 objects of 100 bytes");
}

static void shows_faults_of_what_is_wanted(void) {
    kangaroo_options o = defaults();
    o.flags = 2, expect_fault(o, "flags"), o = defaults();
    o.flash_bytes = 12287, expect_fault(o, "flash_bytes"), o = defaults();
    o.flash_bytes = UINT64_MAX, expect_fault(o, "flash_bytes"), o = defaults();
    o.memory_bytes = 0, expect_fault(o, "memory_bytes"), o = defaults();
    o.object_bytes = 0, expect_fault(o, "object_bytes"), o = defaults();
    o.object_bytes = 2304, expect_fault(o, "object_bytes"), o = defaults();
    o.threads = 4097, expect_fault(o, "threads"), o = defaults();
    o.upkeep_threads = 17, expect_fault(o, "upkeep_threads"), o = defaults();
    o.admit = 65537, expect_fault(o, "admit"), o = defaults();
    o.threshold = 33, expect_fault(o, "threshold"), o = defaults();
    o.lease_slots = 1048577, expect_fault(o, "lease_slots"), o = defaults();
    show("each faulty field of what is wanted is named");
}

static void shows_faults_of_a_shape(void) {
    static const struct { size_t at; const char *name; uint32_t most; } fields[] = {
        {offsetof(kangaroo_options, shards), "shards", 1024},
        {offsetof(kangaroo_options, lanes), "lanes", 16},
        {offsetof(kangaroo_options, sets), "sets", 65536},
        {offsetof(kangaroo_options, memory_objects), "memory_objects", 1048576},
        {offsetof(kangaroo_options, segments), "segments", 256},
        {offsetof(kangaroo_options, segment_pages), "segment_pages", 64},
        {offsetof(kangaroo_options, log_objects), "log_objects", 1048576}};
    for (size_t i = 0; i < sizeof fields / sizeof fields[0]; i++) {
        kangaroo_options options = small_options();
        uint32_t *field = (uint32_t *)(void *)((char *)&options + fields[i].at);
        *field = fields[i].most + 1;
        expect_fault(options, fields[i].name);
        *field = 0; /* the other six are given */
        expect_fault(options, fields[i].name);
        *field = fields[i].most;
        expect_status(kangaroo_options_resolve(&options, NULL), KANGAROO_OK, fields[i].name);
    }
    kangaroo_options options = small_options();
    options.segments = 1;
    expect_fault(options, "segments");
    options = small_options();
    options.flash_bytes = 0;
    options.memory_bytes = 0;
    expect_status(kangaroo_options_resolve(&options, NULL), KANGAROO_OK, "bytes beside a shape are not looked at");
    options.object_bytes = 0;
    expect_fault(options, "object_bytes");
    show("each faulty field of a shape is named, and one that is missing beside the others");
}

/* The slots for leases of a shape of one's own, beside so many sets, where so many are given. */
static uint32_t slots_with(uint32_t sets, uint32_t given) {
    kangaroo_options options = small_options();
    options.sets = sets;
    options.lease_slots = given;
    expect_status(kangaroo_options_resolve(&options, NULL), KANGAROO_OK, "a shape of one's own");
    return options.lease_slots;
}

static void shows_slots_of_a_shape(void) {
    expect(slots_with(4099, 0) == 1024 && slots_with(4100, 0) == 1025, "a slot for four sets, 1,024 at least");
    expect(slots_with(1025, 1) == 1 && slots_with(1, 1048576) == 1048576, "slots that are given stay");
    show("slots for leases of a shape of one's own: worked out where 0 are given");
}

/* The threshold for objects of so many bytes, where one is given. */
static uint32_t threshold_with(uint32_t object_bytes, uint32_t given) {
    kangaroo_options options = defaults();
    options.object_bytes = object_bytes;
    options.threshold = given;
    expect_status(kangaroo_options_resolve(&options, NULL), KANGAROO_OK, "a threshold");
    return options.threshold;
}

static void shows_thresholds(void) {
    expect(threshold_with(100, 0) == 2 && threshold_with(1000, 0) == 1, "small objects move by twos, large ones alone");
    expect(threshold_with(1000, 2) == 2 && threshold_with(100, 32) == 32, "a threshold that is given stays");
    show("the threshold: by object_bytes where 0 is given");
}

int main(void) {
    expect_status(kangaroo_options_resolve(NULL, NULL), KANGAROO_WRONG_ARGUMENT, "no options");
    shows_resolved();
    shows_the_example();
    shows_faults_of_what_is_wanted();
    shows_faults_of_a_shape();
    shows_slots_of_a_shape();
    shows_thresholds();
    return 0;
}
