/* Drives the C recorder: `drive calls PORT OUT` over memcached, `drive table OUT ONE_OF` over a table. test/run says what. */
#define _GNU_SOURCE
#include "../c/recorder.h"
#include <arpa/inet.h>
#include <assert.h>
#include <errno.h>
#include <fcntl.h>
#include <inttypes.h>
#include <pthread.h>
#include <stdio.h>
#include <stdlib.h>
#include <string.h>
#include <unistd.h>

struct client { FILE *stream; const char *key; char line[128]; unsigned char found[512]; int expiry; };
struct worker { struct recorder *recorder; uint16_t port; uint64_t seed; };

static int answers_done(struct client *c) {
    if (fflush(c->stream) != 0 || !fgets(c->line, sizeof c->line, c->stream)) return -1;
    return strncmp(c->line, "STORED", 6) != 0 && strncmp(c->line, "DELETED", 7) != 0 && strncmp(c->line, "NOT_FOUND", 9) != 0;
}

static int send_set(void *with, struct recorder_bytes stored) {
    struct client *c = with;
    fprintf(c->stream, "set %s 0 %d %zu\r\n", c->key, c->expiry, stored.size);
    fwrite(stored.at, 1, stored.size, c->stream);
    fputs("\r\n", c->stream);
    return answers_done(c);
}

static int send_delete(void *with, struct recorder_bytes nothing) {
    struct client *c = with;
    fprintf(c->stream, "delete %s\r\n", c->key);
    return nothing.size == 0 ? answers_done(c) : -1;
}

static enum recorder_answer send_get(void *with, struct recorder_bytes *found) {
    struct client *c = with;
    size_t size;
    fprintf(c->stream, "get %s\r\n", c->key);
    if (fflush(c->stream) != 0 || !fgets(c->line, sizeof c->line, c->stream)) return RECORDER_FAILED;
    if (strncmp(c->line, "END", 3) == 0) return RECORDER_MISS;
    if (sscanf(c->line, "VALUE %*s %*d %zu", &size) != 1 || size + 7 > sizeof c->found) return RECORDER_FAILED;
    if (fread(c->found, 1, size + 7, c->stream) != size + 7) return RECORDER_FAILED;
    *found = (struct recorder_bytes){c->found, size};
    return RECORDER_HIT;
}

static FILE *stream_to(uint16_t port) {
    struct sockaddr_in to = {.sin_family = AF_INET, .sin_port = htons(port), .sin_addr = {htonl(INADDR_LOOPBACK)}};
    int s = socket(AF_INET, SOCK_STREAM, 0);
    assert(s >= 0 && connect(s, (struct sockaddr *)&to, sizeof to) == 0);
    return fdopen(s, "r+");
}

static void *work(void *with) {
    struct worker *w = with;
    struct client c = {.stream = stream_to(w->port)};
    uint64_t chance = w->seed;
    char name[16], key[16];
    unsigned char value[100];
    snprintf(name, sizeof name, "c-%" PRIu64, w->seed);
    for (size_t number = 0; number < 600; number++) {
        chance = chance * 6364136223846793005u + 1442695040888963407u;
        uint64_t kind = (chance >> 40) % 100;
        snprintf(key, sizeof key, "key%" PRIu64, (chance >> 33) % 8);
        memset(value, (int)('a' + number % 26), sizeof value);
        struct recorder_bytes k = {(const unsigned char *)key, strlen(key)}, v = {value, number % 100};
        c.key = key, c.expiry = kind < 70;
        if (kind < 60) assert(recorder_get(w->recorder, name, k, send_get, &c, &v) != RECORDER_FAILED);
        else if (kind < 92) assert(recorder_put(w->recorder, name, k, v, c.expiry ? 3000000000u : 0, send_set, &c) == 0);
        else assert(recorder_remove(w->recorder, name, k, send_delete, &c) == 0);
    }
    fclose(c.stream);
    return NULL;
}

struct cell { unsigned char bytes[512]; size_t size; int is_there; };

static int cell_put(void *with, struct recorder_bytes stored) {
    struct cell *c = with;
    assert(stored.size <= sizeof c->bytes);
    memcpy(c->bytes, stored.at, stored.size);
    c->size = stored.size, c->is_there = 1, errno = EDOM;
    return 0;
}
static int cell_remove(void *with, struct recorder_bytes nothing) { return ((struct cell *)with)->is_there = (int)nothing.size; }
static int cell_refuse(void *with, struct recorder_bytes stored) { return with || stored.size ? -1 : -2; }
static enum recorder_answer cell_get(void *with, struct recorder_bytes *found) {
    struct cell *c = with;
    *found = (struct recorder_bytes){c->bytes, c->size};
    return c->is_there ? RECORDER_HIT : RECORDER_MISS;
}

static void table_key(struct recorder *r, struct recorder_bytes key, struct recorder_bytes value) {
    struct cell c = {{0}, 0, 0};
    struct recorder_bytes found;
    assert(recorder_get(r, "a #-%", key, cell_get, &c, &found) == RECORDER_MISS && found.size == 0);
    assert(recorder_put(r, "-", key, value, 0, cell_put, &c) == 0 && errno == EDOM);
    assert(recorder_get(r, "a #-%", key, cell_get, &c, &found) == RECORDER_HIT && found.size == value.size);
    assert(memcmp(found.at, value.at, value.size) == 0);
    assert(recorder_remove(r, "", key, cell_remove, &c) == 0);
    assert(recorder_put(r, "late", key, (struct recorder_bytes){NULL, 0}, 1000000000, cell_refuse, &c) != 0);
}

static void table(struct recorder *r) {
    unsigned char value[300];
    for (unsigned b = 0; b < 256; b++) {
        unsigned char key = (unsigned char)b;
        memset(value, (int)b, sizeof value);
        table_key(r, (struct recorder_bytes){&key, 1}, (struct recorder_bytes){value, b});
    }
    memset(value, 'x', sizeof value);
    for (size_t n = 0; n < 300; n++) {
        char key[16];
        size_t size = (size_t)snprintf(key, sizeof key, "key%zu", n);
        table_key(r, (struct recorder_bytes){(unsigned char *)key, size}, (struct recorder_bytes){value, n});
    }
}

int main(int count, char **words) {
    int is_table = count == 4 && strcmp(words[1], "table") == 0;
    int out = open(words[is_table ? 2 : 3], O_WRONLY | O_APPEND | O_CREAT, 0666);
    struct recorder *r = recorder_open(out, is_table ? strtoull(words[3], NULL, 10) : 1);
    struct worker workers[4];
    pthread_t threads[4];
    assert(out >= 0 && r);
    if (is_table) table(r);
    for (size_t i = 0; i < 4 && !is_table; i++) {
        workers[i] = (struct worker){r, (uint16_t)atoi(words[2]), i + 1};
        assert(pthread_create(&threads[i], NULL, work, &workers[i]) == 0);
    }
    for (size_t i = 0; i < 4 && !is_table; i++) pthread_join(threads[i], NULL);
    printf("lost %" PRIu64 "\n", recorder_close(r));
    return close(out);
}
