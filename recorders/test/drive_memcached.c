/* Drives the recorded calls of libmemcached: `drive_memcached session PORT` makes each call alone, and prints the lines without names,
 * tags and numbers; `drive_memcached calls PORT OUT` has four threads. test/run says what. */
#define _GNU_SOURCE
#include "../c/recorded_memcached.h"
#include <assert.h>
#include <fcntl.h>
#include <inttypes.h>
#include <pthread.h>
#include <stdio.h>
#include <stdlib.h>
#include <string.h>
#include <unistd.h>

struct worker { struct recorder *recorder; in_port_t port; uint64_t seed; };

static memcached_st *client_of(in_port_t port) {
    memcached_st *c = memcached_create(NULL);
    assert(c && memcached_server_add(c, "127.0.0.1", port) == MEMCACHED_SUCCESS);
    assert(memcached_behavior_set(c, MEMCACHED_BEHAVIOR_SUPPORT_CAS, 1) == MEMCACHED_SUCCESS);
    return c;
}

static int finds(const struct recorded *with, const char *key, const char *value) {
    size_t size;
    memcached_return_t error;
    char *found = recorded_get(with, key, strlen(key), &size, NULL, &error);
    int is_right = value == NULL ? error == MEMCACHED_NOTFOUND && !found
                 : error == MEMCACHED_SUCCESS && size == strlen(value) && (size == 0 ? !found : memcmp(found, value, size + 1) == 0);
    free(found);
    return is_right;
}

static char large[2000000];

static void session(const struct recorded *with) {
    size_t size;
    uint32_t flags;
    uint64_t cas;
    memcached_return_t error;
    char *found;
    assert(finds(with, "k", NULL));
    assert(recorded_replace(with, "k", 1, "v", 1, 0, 0) == MEMCACHED_NOTSTORED);
    assert(recorded_set(with, "k", 1, "v", 1, 3, 5) == MEMCACHED_SUCCESS);
    assert(recorded_add(with, "k", 1, "w", 1, 0, 0) == MEMCACHED_NOTSTORED);
    assert(finds(with, "k", "v"));
    found = recorded_gets(with, "k", 1, &size, &flags, &cas, &error);
    assert(error == MEMCACHED_SUCCESS && size == 1 && *found == 'v' && flags == 5 && cas > 0);
    free(found);
    assert(recorded_cas(with, "k", 1, "x", 1, 0, 0, cas) == MEMCACHED_SUCCESS);
    assert(recorded_cas(with, "k", 1, "y", 1, 0, 0, cas) == MEMCACHED_DATA_EXISTS);
    assert(recorded_cas(with, "absent", 6, "y", 1, 0, 0, cas) == MEMCACHED_NOTFOUND);
    assert(recorded_replace(with, "k", 1, "", 0, 0, 0) == MEMCACHED_SUCCESS);
    assert(finds(with, "k", ""));
    assert(recorded_delete(with, "k", 1, 0) == MEMCACHED_SUCCESS);
    assert(recorded_delete(with, "k", 1, 0) == MEMCACHED_NOTFOUND);
    assert(!recorded_gets(with, "k", 1, &size, &flags, &cas, &error) && error == MEMCACHED_NOTFOUND);
    assert(recorded_set(with, "k", 1, large, sizeof large, 0, 0) == MEMCACHED_E2BIG);
    memcached_behavior_set(with->client, MEMCACHED_BEHAVIOR_NOREPLY, 1);
    assert(recorded_set(with, "k", 1, "v", 1, 0, 0) == MEMCACHED_NOT_SUPPORTED);
    memcached_behavior_set(with->client, MEMCACHED_BEHAVIOR_NOREPLY, 0);
    memcached_callback_set(with->client, MEMCACHED_CALLBACK_PREFIX_KEY, "shop:");
    assert(recorded_add(with, "k", 1, "z", 1, 0, 0) == MEMCACHED_SUCCESS);
    memcached_callback_set(with->client, MEMCACHED_CALLBACK_PREFIX_KEY, NULL);
    assert(finds(with, "shop:k", "z"));
}

static void swap(const struct recorded *with, const char *key, const char *value, size_t size) {
    size_t found_size;
    uint64_t cas;
    memcached_return_t error;
    char *found = recorded_gets(with, key, strlen(key), &found_size, NULL, &cas, &error);
    if (error == MEMCACHED_SUCCESS) recorded_cas(with, key, strlen(key), value, size, 0, 0, cas);
    else recorded_replace(with, key, strlen(key), value, size, 0, 0);
    free(found);
}

static void *work(void *words) {
    struct worker *w = words;
    char name[16], key[16], value[100];
    struct recorded with = {w->recorder, client_of(w->port), name};
    uint64_t chance = w->seed;
    snprintf(name, sizeof name, "c-%" PRIu64, w->seed);
    for (size_t number = 0; number < 600; number++) {
        chance = chance * 6364136223846793005u + 1442695040888963407u;
        uint64_t kind = (chance >> 40) % 100;
        size_t size = number % 100, found_size;
        int key_size = snprintf(key, sizeof key, "key%" PRIu64, (chance >> 33) % 8);
        memset(value, (int)('a' + number % 26), sizeof value);
        if (kind < 55) free(recorded_get(&with, key, (size_t)key_size, &found_size, NULL, NULL));
        else if (kind < 75) assert(recorded_set(&with, key, (size_t)key_size, value, size, kind < 65, 0) == MEMCACHED_SUCCESS);
        else if (kind < 83) recorded_add(&with, key, (size_t)key_size, value, size, 0, 0);
        else if (kind < 91) swap(&with, key, value, size);
        else recorded_delete(&with, key, (size_t)key_size, 0);
    }
    memcached_free(with.client);
    return NULL;
}

int main(int count, char **words) {
    int is_session = count == 3, out = is_session ? 1 : open(words[3], O_WRONLY | O_APPEND | O_CREAT, 0666);
    struct recorder *r = recorder_open(out, 1);
    struct worker workers[4];
    pthread_t threads[4];
    in_port_t port = (in_port_t)atoi(words[2]);
    assert(out >= 0 && r);
    if (is_session) {
        struct recorded with = {r, client_of(port), "me"};
        session(&with);
        memcached_free(with.client);
    }
    for (size_t i = 0; i < 4 && !is_session; i++) {
        workers[i] = (struct worker){r, port, i + 1};
        assert(pthread_create(&threads[i], NULL, work, &workers[i]) == 0);
    }
    for (size_t i = 0; i < 4 && !is_session; i++) pthread_join(threads[i], NULL);
    return recorder_close(r) > 0;
}
