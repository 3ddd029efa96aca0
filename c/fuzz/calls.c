/* calls: a sequence of calls on a small cache, decoded from the input, beside a model: what each key's latest value is, and
 * which leases hold. A hit is the latest value and live; a fill is stored only if its lease holds. */
#include "folder.h"

enum { KEYS = 24, LEASES = 6, CALLS_MOST = 4000, GUARD = 0x5a };

/* What the model knows of a key: the latest value, of which all bytes follow from its number. */
typedef struct known {
    bool is_put;
    uint32_t number;
    size_t length;
    uint64_t expires;
    uint64_t writes; /* how often it was put, filled or removed */
} known;

typedef struct held_lease {
    kangaroo_lease lease;
    bool is_given;
    uint32_t key;
    uint64_t writes, all_writes; /* of the key, and of the cache, at the miss */
} held_lease;

typedef struct model {
    kangaroo_cache *cache;
    known keys[KEYS];
    held_lease leases[LEASES];
    uint64_t all_writes, gets, puts, removes, fills, stale, refused;
    uint32_t next_number;
} model;

/* ------------------------------------------------------------------------------------------- keys and values */

/* The bytes of a key: their number differs by key, and some keys begin alike. */
static size_t spell_key(uint32_t key, uint8_t to[KANGAROO_KEY_MAX]) {
    size_t length = key % 8 == 7 ? KANGAROO_KEY_MAX - key / 8 : 1 + key;
    memset(to, 'k', length);
    to[length - 1] = (uint8_t)key;
    return length;
}

static void spell_value(uint32_t number, size_t length, uint8_t to[]) {
    for (size_t i = 0; i < length; i++) to[i] = (uint8_t)(number * 31 + i * 7 + (number >> 8));
}

/* Lengths of all kinds, with those at the ends of the range and above it. */
static size_t take_length(input *from) {
    uint8_t word = take_byte(from);
    if (word < 200) return word % 64;
    if (word < 250) return (size_t)(word - 199) * 40;
    static const size_t ends[] = {0, 2047, KANGAROO_VALUE_MAX, KANGAROO_VALUE_MAX + 1, KANGAROO_VALUE_MAX, 4096};
    return ends[word - 250];
}

static uint64_t take_expiry(input *from) {
    uint8_t word = take_byte(from);
    if (word < 128) return KANGAROO_NEVER;
    return word == 255 ? UINT64_MAX - 1 : word % 16;
}

static bool is_live(const known *of, uint64_t moment) {
    return of->expires == KANGAROO_NEVER || moment < of->expires;
}

/* ------------------------------------------------------------------------------------------------------------- calls */

static void note_write(model *of, uint32_t key) {
    of->keys[key].writes++;
    of->all_writes++;
}

static void expect_value(const known *of, const uint8_t got[], const kangaroo_hit *hit) {
    uint8_t wanted[KANGAROO_VALUE_MAX];
    spell_value(of->number, of->length, wanted);
    expect(hit->length == of->length && memcmp(got, wanted, of->length) == 0, "the latest value");
}

/* What a get may answer, by what the model knows, and what it leaves in the buffer. */
static void expect_get(const known *of, uint64_t moment, kangaroo_status status, const kangaroo_hit *hit,
                       const uint8_t got[], size_t room) {
    size_t written = 0;
    if (status == KANGAROO_OK || status == KANGAROO_SHORT_BUFFER) {
        expect(of->is_put && is_live(of, moment), "a hit only of a live value");
        expect(hit->length == of->length && hit->tier >= 1 && hit->tier <= 3, "its length and tier");
        expect(hit->expires == of->expires, "when it expires");
        expect((status == KANGAROO_OK) == (room >= of->length), "short only if it is");
        if (status == KANGAROO_OK) expect_value(of, got, hit);
        if (status == KANGAROO_OK) written = of->length;
    } else if (status == KANGAROO_EXPIRED)
        expect(of->is_put && !is_live(of, moment), "expired only if it is");
    else
        expect(status == KANGAROO_ABSENT, "a miss whose cause can be");
    if (status != KANGAROO_OK && status != KANGAROO_SHORT_BUFFER)
        expect(hit->length == 0 && hit->tier == KANGAROO_TIER_NONE, "no hit at a miss");
    for (size_t i = written; i < KANGAROO_VALUE_MAX; i++) expect(got[i] == GUARD, "no other byte is written");
}

static void do_get(model *of, input *from, bool leases) {
    uint8_t bytes[KANGAROO_KEY_MAX], got[KANGAROO_VALUE_MAX];
    uint32_t key = take_below(from, KEYS);
    uint64_t moment = take_byte(from) % 16;
    uint8_t word = take_byte(from);
    size_t length = spell_key(key, bytes), room = word < 200 ? KANGAROO_VALUE_MAX : (size_t)(word - 200);
    kangaroo_hit hit;
    held_lease *held = &of->leases[take_below(from, LEASES)];
    memset(got, GUARD, sizeof got);
    kangaroo_lease lease;
    kangaroo_status status =
        leases ? kangaroo_get_or_lease(of->cache, bytes, length, moment, got, room, &hit, &lease)
               : kangaroo_get(of->cache, bytes, length, moment, got, room, &hit);
    expect_get(&of->keys[key], moment, status, &hit, got, room);
    of->gets++;
    if (!leases) return;
    static const kangaroo_lease none;
    bool is_miss = status == KANGAROO_ABSENT || status == KANGAROO_EXPIRED;
    expect((memcmp(&lease, &none, sizeof none) != 0) == is_miss, "a lease at a miss alone");
    *held = (held_lease){lease, is_miss, key, of->keys[key].writes, of->all_writes};
}

static void note_stored(model *of, uint32_t key, uint32_t number, size_t length, uint64_t expires) {
    known *is = &of->keys[key];
    *is = (known){true, number, length, expires, is->writes};
    note_write(of, key);
}

static void note_removed(model *of, uint32_t key) {
    of->keys[key].is_put = false;
    note_write(of, key);
}

static void do_put(model *of, input *from, bool removes) {
    uint8_t bytes[KANGAROO_KEY_MAX], value[4096];
    uint32_t key = take_below(from, KEYS), number = of->next_number++;
    size_t length = take_length(from), key_length = spell_key(key, bytes);
    uint64_t expires = take_expiry(from);
    spell_value(number, length, value);
    kangaroo_status status = removes ? kangaroo_put_or_remove(of->cache, bytes, key_length, value, length, expires)
                                     : kangaroo_put(of->cache, bytes, key_length, value, length, expires);
    expect(status == (length > KANGAROO_VALUE_MAX ? KANGAROO_TOO_LARGE : KANGAROO_OK), "a put is stored if it fits");
    of->puts += status == KANGAROO_OK;
    of->refused += status != KANGAROO_OK;
    of->removes += status != KANGAROO_OK && removes;
    if (status == KANGAROO_OK)
        note_stored(of, key, number, length, expires);
    else if (removes)
        note_removed(of, key);
}

static void do_remove(model *of, input *from) {
    uint8_t bytes[KANGAROO_KEY_MAX];
    uint32_t key = take_below(from, KEYS);
    size_t length = spell_key(key, bytes);
    expect(kangaroo_remove(of->cache, bytes, length) == KANGAROO_OK, "a removal");
    of->removes++;
    note_removed(of, key);
}

/* What a fill may answer: it is stored if nothing was written since the miss, and never if its own key was. */
static void expect_fill(const model *of, const held_lease *held, uint32_t key, size_t length, kangaroo_status status) {
    bool is_its = held->is_given && held->key == key;
    bool holds = is_its && held->writes == of->keys[key].writes;
    bool must = is_its && held->all_writes == of->all_writes;
    expect(status == KANGAROO_OK || status == KANGAROO_STALE || status == KANGAROO_TOO_LARGE, "a fill's answer");
    if (status == KANGAROO_OK) expect(holds && length <= KANGAROO_VALUE_MAX, "stored only if the lease holds");
    if (must) expect(status == (length > KANGAROO_VALUE_MAX ? KANGAROO_TOO_LARGE : KANGAROO_OK), "stored if it must");
    if (!is_its) expect(status == KANGAROO_STALE, "of another key, or none, it is stale");
}

static void do_fill(model *of, input *from) {
    uint8_t bytes[KANGAROO_KEY_MAX], value[4096];
    held_lease *held = &of->leases[take_below(from, LEASES)];
    uint8_t word = take_byte(from);
    uint32_t key = word < 224 ? held->key : word % KEYS, number = of->next_number++;
    size_t length = take_length(from), key_length = spell_key(key, bytes);
    uint64_t expires = take_expiry(from);
    kangaroo_lease lease = held->lease;
    static const kangaroo_lease none;
    spell_value(number, length, value);
    kangaroo_status status = kangaroo_fill(of->cache, &lease, bytes, key_length, value, length, expires);
    expect_fill(of, held, key, length, status);
    expect(memcmp(&lease, status < 0 ? &held->lease : &none, sizeof lease) == 0, "the lease is used, or stays");
    of->refused += status == KANGAROO_TOO_LARGE;
    of->fills += status == KANGAROO_OK;
    of->stale += status == KANGAROO_STALE;
    if (status == KANGAROO_OK) note_stored(of, key, number, length, expires);
}

static void do_upkeep(model *of, input *from) {
    uint32_t steps = take_byte(from), taken = UINT32_MAX;
    expect(kangaroo_upkeep(of->cache, steps, &taken) == KANGAROO_OK, "upkeep");
    expect(taken <= steps, "no more steps than were asked for");
}

/* A call that is refused, and changes nothing. */
static void do_misuse(model *of, input *from) {
    uint8_t bytes[KANGAROO_KEY_MAX + 1] = {0}, got[8] = {0};
    kangaroo_hit hit;
    uint32_t taken;
    switch (take_byte(from) % 5) {
    case 0: expect(kangaroo_get(of->cache, bytes, 0, 0, got, 8, &hit) == KANGAROO_WRONG_KEY, "no key"); break;
    case 1: expect(kangaroo_put(of->cache, bytes, 256, got, 0, 0) == KANGAROO_WRONG_KEY, "a long key"); break;
    case 2: expect(kangaroo_remove(of->cache, NULL, 3) == KANGAROO_WRONG_ARGUMENT, "NULL for a key"); break;
    case 3: expect(kangaroo_get(of->cache, bytes, 1, 0, NULL, 8, &hit) == KANGAROO_WRONG_ARGUMENT, "NULL room"); break;
    default: expect(kangaroo_upkeep(of->cache, 0, &taken) == KANGAROO_OK && taken == 0, "no step"); break;
    }
}

/* ---------------------------------------------------------------------------------------------- a cache, and its end */

static kangaroo_cache *open_cache(input *from) {
    kangaroo_options options;
    kangaroo_cache *cache = NULL;
    int cause = 0;
    expect(kangaroo_options_init(&options, sizeof options) == KANGAROO_OK, "defaults");
    options.flags = KANGAROO_SPARSE;
    options.upkeep_threads = 0;
    options.shards = 1 + take_below(from, 2);
    options.lanes = 1 + take_below(from, 2);
    options.sets = 1 + take_below(from, 4);
    options.memory_objects = 1 + take_below(from, 6);
    options.segments = 2 + take_below(from, 3);
    options.segment_pages = 1 + take_below(from, 2);
    options.log_objects = 1 + take_below(from, 40);
    options.threshold = 1 + take_below(from, 3);
    options.lease_slots = 1 + take_below(from, 5);
    options.admit = take_byte(from) < 200 ? 65536 : 32768;
    expect(kangaroo_open(&options, folder, &cache, &cause) == KANGAROO_OK, "open");
    return cache;
}

static void expect_counters(const model *of) {
    kangaroo_counters is;
    expect(kangaroo_counters_read(of->cache, &is, sizeof is) == KANGAROO_OK, "counters");
    uint64_t gets = is.memory_hits + is.log_hits + is.set_hits + is.absent + is.expired + is.unreadable + is.damaged;
    expect(gets == of->gets, "each get is counted once");
    expect(is.unreadable + is.damaged == 0, "no page is lost");
    expect(is.puts == of->puts && is.removes == of->removes, "puts and removals");
    expect(is.fills_stored == of->fills, "fills that were stored");
    expect(is.fills_stale + is.fills_wrong_lease == of->stale, "fills that were stale");
    expect(is.put_too_large == of->refused && is.put_no_memory == 0, "refused puts and fills");
}

static void do_call(model *of, input *from) {
    switch (take_byte(from) % 16) {
    case 0: case 1: case 2: case 3: do_get(of, from, false); break;
    case 4: case 5: do_get(of, from, true); break;
    case 6: case 7: case 8: case 9: do_put(of, from, false); break;
    case 10: do_put(of, from, true); break;
    case 11: do_remove(of, from); break;
    case 12: case 13: do_fill(of, from); break;
    case 14: do_upkeep(of, from); break;
    default: do_misuse(of, from); break;
    }
}

int LLVMFuzzerTestOneInput(const uint8_t *data, size_t length) {
    static model of;
    input from = {data, length};
    make_folder();
    memset(&of, 0, sizeof of);
    of.cache = open_cache(&from);
    for (int i = 0; i < CALLS_MOST && from.left > 0; i++) do_call(&of, &from);
    expect_counters(&of);
    expect(kangaroo_close(of.cache) == KANGAROO_OK, "close");
    return 0;
}
