/* recorder.c: the recorder of recorder.h. A line is built on the stack, by line.c, and written whole, under the lock. */
#define _GNU_SOURCE
#include "recorder.h"
#include "line.h"
#include <errno.h>
#include <inttypes.h>
#include <pthread.h>
#include <stdatomic.h>
#include <stdio.h>
#include <stdlib.h>
#include <string.h>
#include <sys/random.h>
#include <time.h>
#include <unistd.h>

enum { NAME_MOST = 64, KEY_MOST = 255 };
static const uint64_t NEVER_ENDED = UINT64_MAX, MOST_NUMBER = INT64_MAX;

struct recorder {
    pthread_mutex_t lock; /* of the descriptor, and of the next three */
    uint64_t calls, lost;
    int stopped, descriptor;
    pid_t process;
    uint64_t one_of, run;
    _Atomic uint64_t puts;
};
struct stamps { uint64_t start, end; };

static uint64_t now(void) {
    struct timespec t;
    clock_gettime(CLOCK_MONOTONIC, &t);
    return (uint64_t)t.tv_sec * 1000000000u + (uint64_t)t.tv_nsec;
}

static int is_recorded(const struct recorder *r, struct recorder_bytes key) {
    return key.size >= 1 && key.size <= KEY_MOST && getpid() == r->process && key_hash(key) % r->one_of == 0;
}

/* Writes a line, or counts it as lost. With no line it stops the recording. */
static void put_line(struct recorder *r, const struct line *l) {
    pthread_mutex_lock(&r->lock);
    if (!r->stopped) r->stopped = l == NULL || write_all(r->descriptor, l->text, l->size) != 0;
    *(r->stopped ? &r->lost : &r->calls) += 1;
    pthread_mutex_unlock(&r->lock);
}

static void note(struct recorder *r, const char *caller, struct stamps s, const char *act, struct recorder_bytes key,
                 const struct recorder_bytes *value, uint64_t time) {
    struct line l = {0, {0}};
    const char *name = caller ? caller : "";
    add_word(&l, (struct recorder_bytes){(const unsigned char *)name, strnlen(name, NAME_MOST)});
    add_number(&l, s.start);
    if (s.end == NEVER_ENDED) add_text(&l, " -");
    else add_number(&l, s.end);
    add_text(&l, act);
    add_word(&l, key);
    if (value) add_value(&l, *value);
    if (time > 0 && time <= MOST_NUMBER) add_number(&l, time);
    add_text(&l, "\n");
    put_line(r, &l);
}

struct recorder *recorder_open(int descriptor, uint64_t one_of) {
    struct recorder *r = calloc(1, sizeof *r);
    struct line l = {0, {0}};
    if (!r || pthread_mutex_init(&r->lock, NULL) != 0) return free(r), NULL;
    r->descriptor = descriptor, r->process = getpid(), r->one_of = one_of > 0 ? one_of : 1;
    int failed = getrandom(&r->run, sizeof r->run, 0) != (ssize_t)sizeof r->run;
    r->run >>= 16;
    l.size = (size_t)snprintf(l.text, sizeof l.text, "# recorder rec.%012" PRIx64 ", 1 of %" PRIu64 " keys\n", r->run, r->one_of);
    put_line(r, failed ? NULL : &l);
    r->calls = 0;
    return r;
}

int recorder_put(struct recorder *r, const char *caller, struct recorder_bytes key, struct recorder_bytes value, uint64_t lifetime,
                 recorder_write *write, void *with) {
    if (!is_recorded(r, key)) return write(with, value);
    unsigned char *copy = value.size < SIZE_MAX - TAG_MOST ? malloc(TAG_MOST + value.size) : NULL;
    struct recorder_bytes stored = value;
    if (copy) {
        uint64_t count = atomic_fetch_add(&r->puts, 1) + 1;
        size_t tag = (size_t)snprintf((char *)copy, TAG_MOST, "rec.%012" PRIx64 ".%" PRIu64 "|", r->run, count);
        if (value.size > 0) memcpy(copy + tag, value.at, value.size);
        stored = (struct recorder_bytes){copy, tag + value.size};
    }
    uint64_t start = now();
    int failed = write(with, stored), error = errno;
    uint64_t end = failed ? NEVER_ENDED : now();
    if (!copy) put_line(r, NULL);
    else if (failed != RECORDER_UNDONE) note(r, caller, (struct stamps){start, end}, " put ", key, &stored, failed || !lifetime ? 0 : end + lifetime);
    free(copy);
    errno = error;
    return failed;
}

int recorder_remove(struct recorder *r, const char *caller, struct recorder_bytes key, recorder_write *write, void *with) {
    struct recorder_bytes nothing = {NULL, 0};
    if (!is_recorded(r, key)) return write(with, nothing);
    uint64_t start = now();
    int failed = write(with, nothing), error = errno;
    uint64_t end = failed ? NEVER_ENDED : now();
    if (failed != RECORDER_UNDONE) note(r, caller, (struct stamps){start, end}, " remove ", key, NULL, 0);
    errno = error;
    return failed;
}

enum recorder_answer recorder_get(struct recorder *r, const char *caller, struct recorder_bytes key, recorder_read *read, void *with,
                                  struct recorder_bytes *value) {
    struct recorder_bytes found = {NULL, 0};
    uint64_t start = now();
    enum recorder_answer answer = read(with, &found);
    int error = errno;
    struct stamps s = {start, now()};
    if (answer != RECORDER_HIT) found = (struct recorder_bytes){NULL, 0};
    size_t tag = tag_size(found);
    if (answer != RECORDER_FAILED && is_recorded(r, key))
        note(r, caller, s, answer == RECORDER_HIT ? " hit " : " miss ", key, answer == RECORDER_HIT ? &found : NULL,
             answer == RECORDER_HIT ? start : 0);
    *value = (struct recorder_bytes){tag > 0 ? found.at + tag : found.at, found.size - tag};
    errno = error;
    return answer;
}

uint64_t recorder_lost(struct recorder *r) {
    pthread_mutex_lock(&r->lock);
    uint64_t lost = r->lost;
    pthread_mutex_unlock(&r->lock);
    return lost;
}

uint64_t recorder_close(struct recorder *r) {
    struct line l = {0, {0}};
    if (!r) return 0;
    if (!r->stopped) l.size = (size_t)snprintf(l.text, sizeof l.text, "# whole: %" PRIu64 " calls\n", r->calls);
    if (l.size > 0 && getpid() == r->process) put_line(r, &l);
    l.size = (size_t)snprintf(l.text, sizeof l.text, "  cut\n# not whole: %" PRIu64 " lines were not written\n", r->lost);
    if (r->stopped && getpid() == r->process) write_all(r->descriptor, l.text, l.size);
    uint64_t lost = r->lost;
    pthread_mutex_destroy(&r->lock);
    free(r);
    return lost;
}
