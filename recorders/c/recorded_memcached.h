/* recorded_memcached.h: libmemcached's calls of single keys, recorded. The page is ../README.md.
 *
 * Each call has the words of the call of libmemcached after which it is named, and returns what that returned. In the place of the
 * memcached_st stands a struct recorded. A value that is put gets a tag in front, and one that is read comes without it.
 *
 * Refused. With the behaviors NOREPLY or BUFFER_REQUESTS a write returns before its answer has come: it is not sent, and
 *   MEMCACHED_NOT_SUPPORTED is returned. Append, prepend, increment, decrement and touch have no recorded call, since no line describes
 *   them, nor have calls of several keys: use them only on keys that no recorded call uses.
 * Threads. A memcached_st serves one thread; the recorder may be shared. */
#ifndef RECORDED_MEMCACHED_H
#define RECORDED_MEMCACHED_H
#include "recorder.h"
#include <libmemcached/memcached.h>

/* What a call is made with: a recorder, a client, and a caller's name. */
struct recorded {
    struct recorder *recorder;
    memcached_st *client;
    const char *caller;
};

/* Puts a value, always, or only if there is none (add), one (replace), or still the one of which a get has told the number (cas).
 * A value that the server says it did not store has no line; what else fails is recorded with the END `-`. */
memcached_return_t recorded_set(const struct recorded *with, const char *key, size_t key_length, const char *value, size_t value_length,
                                time_t expiration, uint32_t flags);
memcached_return_t recorded_add(const struct recorded *with, const char *key, size_t key_length, const char *value, size_t value_length,
                                time_t expiration, uint32_t flags);
memcached_return_t recorded_replace(const struct recorded *with, const char *key, size_t key_length, const char *value,
                                    size_t value_length, time_t expiration, uint32_t flags);
memcached_return_t recorded_cas(const struct recorded *with, const char *key, size_t key_length, const char *value, size_t value_length,
                                time_t expiration, uint32_t flags, uint64_t cas);

/* Removes a key. MEMCACHED_NOTFOUND says that there was none. */
memcached_return_t recorded_delete(const struct recorded *with, const char *key, size_t key_length, time_t expiration);

/* Gets a value, which is freed by free(). As memcached_get, it returns NULL for a miss, an error, and an empty value. */
char *recorded_get(const struct recorded *with, const char *key, size_t key_length, size_t *value_length, uint32_t *flags,
                   memcached_return_t *error);

/* The same, and the number for a cas. The client needs the behavior SUPPORT_CAS. */
char *recorded_gets(const struct recorded *with, const char *key, size_t key_length, size_t *value_length, uint32_t *flags, uint64_t *cas,
                    memcached_return_t *error);

#endif
