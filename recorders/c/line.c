/* line.c: the words of a line, as docs/FORMATS.md has them in "Histories as text", and the tags of values. */
#define _GNU_SOURCE
#include "line.h"
#include <errno.h>
#include <inttypes.h>
#include <pthread.h>
#include <signal.h>
#include <stdio.h>
#include <string.h>
#include <time.h>
#include <unistd.h>

enum { VALUE_MOST = 64, DIGITS = 32 };
static const char HASH[] = "sha256.";

uint64_t key_hash(struct recorder_bytes key) {
    uint64_t hash = 14695981039346656037u;
    for (size_t i = 0; i < key.size; i++) hash = (hash ^ key.at[i]) * 1099511628211u;
    return hash ^ hash >> 32;
}

size_t tag_size(struct recorder_bytes v) {
    size_t i = 4;
    if (v.size < 19 || memcmp(v.at, "rec.", 4) != 0) return 0;
    while (i < 16 && ((v.at[i] >= '0' && v.at[i] <= '9') || (v.at[i] >= 'a' && v.at[i] <= 'f'))) i++;
    if (i < 16 || v.at[i] != '.') return 0;
    for (i = 17; i < v.size && i < 37 && v.at[i] >= '0' && v.at[i] <= '9';) i++;
    return i > 17 && i < v.size && v.at[i] == '|' ? i + 1 : 0;
}

void add_text(struct line *l, const char *text) { while (*text) l->text[l->size++] = *text++; }

void add_number(struct line *l, uint64_t number) {
    l->size += (size_t)snprintf(l->text + l->size, 22, " %" PRIu64, number);
}

void add_word(struct line *l, struct recorder_bytes w) {
    if (w.size == 0) add_text(l, "-");
    for (size_t i = 0; i < w.size; i++)
        if (w.at[i] < 33 || w.at[i] > 126 || w.at[i] == '%' || w.at[i] == '#' || (w.at[i] == '-' && w.size == 1))
            l->size += (size_t)snprintf(l->text + l->size, 4, "%%%02X", w.at[i]);
        else l->text[l->size++] = (char)w.at[i];
}

void add_value(struct line *l, struct recorder_bytes v) {
    size_t tag = tag_size(v), mark = sizeof HASH - 1;
    unsigned char hashed[TAG_MOST + sizeof HASH + DIGITS + 1];
    if (v.size - tag > VALUE_MOST) {
        if (tag > 0) memcpy(hashed, v.at, tag);
        memcpy(hashed + tag, HASH, mark);
        sha256_half(v.at + tag, v.size - tag, (char *)hashed + tag + mark);
        v = (struct recorder_bytes){hashed, tag + mark + DIGITS};
    }
    add_text(l, " ");
    add_word(l, v);
}

int write_all(int descriptor, const char *text, size_t size) {
    const struct timespec none = {0, 0};
    sigset_t raised, before;
    int failed = 0;
    sigemptyset(&raised);
    sigaddset(&raised, SIGPIPE);
    sigaddset(&raised, SIGXFSZ);
    pthread_sigmask(SIG_BLOCK, &raised, &before);
    while (size > 0 && !failed) {
        ssize_t written = write(descriptor, text, size);
        if (written > 0) text += written, size -= (size_t)written;
        else failed = written == 0 || errno != EINTR;
    }
    while (failed && sigtimedwait(&raised, NULL, &none) == -1 && errno == EINTR) continue;
    pthread_sigmask(SIG_SETMASK, &before, NULL);
    return failed ? -1 : 0;
}
