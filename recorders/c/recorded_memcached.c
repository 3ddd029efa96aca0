/* recorded_memcached.c: the recorded calls of recorded_memcached.h. */
#define _GNU_SOURCE
#include "recorded_memcached.h"
#include <stdlib.h>
#include <string.h>

/* By LATE seconds memcached's clock, which it reads once a second, can make an expiry late. Above MOST_RELATIVE it is a date. */
enum { LATE = 2, MOST_RELATIVE = 30 * 86400, NAME_ROOM = 512 };
static const uint64_t SECOND = 1000000000u;

/* A key as the server knows it, with the client's prefix. */
struct name {
    unsigned char bytes[NAME_ROOM];
    size_t size;
};

/* The call that puts a value; `kind` says which. */
struct putting {
    const struct recorded *with;
    const char *key;
    size_t key_length;
    enum { SET, ADD, REPLACE, CAS, DELETE } kind;
    time_t expiration;
    uint32_t flags;
    uint64_t cas;
    memcached_return_t answer;
};

/* The call that reads a value. */
struct reading {
    const struct recorded *with;
    const char *key;
    size_t key_length;
    int wants_cas;
    char *value;
    size_t size;
    uint32_t flags;
    uint64_t cas;
    memcached_return_t answer;
};

/* Returns the key that is recorded: none, which is never recorded, if it is too long. */
static struct recorder_bytes name_of(const struct recorded *with, const char *key, size_t key_length, struct name *room) {
    memcached_return_t unused;
    const char *prefix = memcached_callback_get(with->client, MEMCACHED_CALLBACK_PREFIX_KEY, &unused);
    size_t before = prefix ? strlen(prefix) : 0;
    room->size = before < NAME_ROOM && key_length < NAME_ROOM - before ? before + key_length : 0;
    if (room->size > 0 && before > 0) memcpy(room->bytes, prefix, before);
    if (room->size > 0) memcpy(room->bytes + before, key, key_length);
    return (struct recorder_bytes){room->bytes, room->size};
}

/* Returns whether the client's writes wait for their answers. */
static int waits(const struct recorded *with) {
    return !memcached_behavior_get(with->client, MEMCACHED_BEHAVIOR_NOREPLY) &&
           !memcached_behavior_get(with->client, MEMCACHED_BEHAVIOR_BUFFER_REQUESTS);
}

/* Returns after how many nanoseconds a value has surely expired: 0 for never, or for a date. */
static uint64_t lifetime_of(time_t expiration) {
    return expiration > 0 && expiration <= MOST_RELATIVE ? ((uint64_t)expiration + LATE) * SECOND : 0;
}

/* Returns what a recorder_write returns for an answer. */
static int outcome_of(memcached_return_t answer) {
    switch (answer) {
        case MEMCACHED_SUCCESS: case MEMCACHED_STORED: case MEMCACHED_DELETED: return 0;
        case MEMCACHED_NOTSTORED: case MEMCACHED_DATA_EXISTS: case MEMCACHED_NOTFOUND: return RECORDER_UNDONE;
        default: return -1;
    }
}

static int send_put(void *words, struct recorder_bytes stored) {
    struct putting *p = words;
    memcached_st *c = p->with->client;
    const char *value = (const char *)stored.at;
    switch (p->kind) {
        case SET: p->answer = memcached_set(c, p->key, p->key_length, value, stored.size, p->expiration, p->flags); break;
        case ADD: p->answer = memcached_add(c, p->key, p->key_length, value, stored.size, p->expiration, p->flags); break;
        case REPLACE: p->answer = memcached_replace(c, p->key, p->key_length, value, stored.size, p->expiration, p->flags); break;
        case CAS: p->answer = memcached_cas(c, p->key, p->key_length, value, stored.size, p->expiration, p->flags, p->cas); break;
        case DELETE: p->answer = memcached_delete(c, p->key, p->key_length, p->expiration); break;
    }
    if (p->kind == DELETE && p->answer == MEMCACHED_NOTFOUND) return 0;  /* the key is gone, as it should be */
    return outcome_of(p->answer);
}

static memcached_return_t put(struct putting p, const char *value, size_t value_length) {
    struct name room;
    struct recorder_bytes stored = {(const unsigned char *)value, value_length};
    if (!waits(p.with)) return MEMCACHED_NOT_SUPPORTED;
    struct recorder_bytes name = name_of(p.with, p.key, p.key_length, &room);
    if (p.kind == DELETE) recorder_remove(p.with->recorder, p.with->caller, name, send_put, &p);
    else recorder_put(p.with->recorder, p.with->caller, name, stored, lifetime_of(p.expiration), send_put, &p);
    return p.answer;
}

memcached_return_t recorded_set(const struct recorded *with, const char *key, size_t key_length, const char *value, size_t value_length,
                                time_t expiration, uint32_t flags) {
    return put((struct putting){with, key, key_length, SET, expiration, flags, 0, MEMCACHED_FAILURE}, value, value_length);
}

memcached_return_t recorded_add(const struct recorded *with, const char *key, size_t key_length, const char *value, size_t value_length,
                                time_t expiration, uint32_t flags) {
    return put((struct putting){with, key, key_length, ADD, expiration, flags, 0, MEMCACHED_FAILURE}, value, value_length);
}

memcached_return_t recorded_replace(const struct recorded *with, const char *key, size_t key_length, const char *value,
                                    size_t value_length, time_t expiration, uint32_t flags) {
    return put((struct putting){with, key, key_length, REPLACE, expiration, flags, 0, MEMCACHED_FAILURE}, value, value_length);
}

memcached_return_t recorded_cas(const struct recorded *with, const char *key, size_t key_length, const char *value, size_t value_length,
                                time_t expiration, uint32_t flags, uint64_t cas) {
    return put((struct putting){with, key, key_length, CAS, expiration, flags, cas, MEMCACHED_FAILURE}, value, value_length);
}

memcached_return_t recorded_delete(const struct recorded *with, const char *key, size_t key_length, time_t expiration) {
    return put((struct putting){with, key, key_length, DELETE, expiration, 0, 0, MEMCACHED_FAILURE}, NULL, 0);
}

/* Reads a value and its number by libmemcached's call of several keys, the only one that tells the number. */
static void fetch(struct reading *r) {
    memcached_st *c = r->with->client;
    r->answer = memcached_mget(c, &r->key, &r->key_length, 1);
    if (r->answer != MEMCACHED_SUCCESS) return;
    memcached_result_st *found = memcached_fetch_result(c, NULL, &r->answer);
    if (!found) {
        if (r->answer == MEMCACHED_END) r->answer = MEMCACHED_NOTFOUND;
        return;
    }
    r->flags = memcached_result_flags(found), r->cas = memcached_result_cas(found), r->size = memcached_result_length(found);
    r->value = malloc(r->size + 1);
    if (r->value) memcpy(r->value, memcached_result_value(found), r->size), r->value[r->size] = 0;
    memcached_result_free(found);
    while (memcached_fetch_result(c, NULL, &r->answer)) continue;  /* up to the end of the answer */
    r->answer = r->value ? MEMCACHED_SUCCESS : MEMCACHED_MEMORY_ALLOCATION_FAILURE;
}

static enum recorder_answer send_get(void *words, struct recorder_bytes *found) {
    struct reading *r = words;
    if (r->wants_cas) fetch(r);
    else r->value = memcached_get(r->with->client, r->key, r->key_length, &r->size, &r->flags, &r->answer);
    *found = (struct recorder_bytes){(const unsigned char *)r->value, r->value ? r->size : 0};
    return r->answer == MEMCACHED_SUCCESS ? RECORDER_HIT : r->answer == MEMCACHED_NOTFOUND ? RECORDER_MISS : RECORDER_FAILED;
}

static char *get(struct reading *r, size_t *value_length, uint32_t *flags, memcached_return_t *error) {
    struct name room;
    struct recorder_bytes value;
    recorder_get(r->with->recorder, r->with->caller, name_of(r->with, r->key, r->key_length, &room), send_get, r, &value);
    if (r->value && value.size < r->size) {  /* a tag is taken off */
        memmove(r->value, value.at, value.size);
        r->value[value.size] = 0;
    }
    if (r->value && value.size == 0) free(r->value), r->value = NULL;
    *value_length = value.size;
    if (flags) *flags = r->flags;
    if (error) *error = r->answer;
    return r->value;
}

char *recorded_get(const struct recorded *with, const char *key, size_t key_length, size_t *value_length, uint32_t *flags,
                   memcached_return_t *error) {
    struct reading r = {with, key, key_length, 0, NULL, 0, 0, 0, MEMCACHED_FAILURE};
    return get(&r, value_length, flags, error);
}

char *recorded_gets(const struct recorded *with, const char *key, size_t key_length, size_t *value_length, uint32_t *flags, uint64_t *cas,
                    memcached_return_t *error) {
    struct reading r = {with, key, key_length, 1, NULL, 0, 0, 0, MEMCACHED_FAILURE};
    char *value = get(&r, value_length, flags, error);
    *cas = r.cas;
    return value;
}
