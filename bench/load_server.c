/* load_server.c: a load on a server of memcached's text protocol, for bench/compare_servers.py.
 *
 *   load_server SOCKET NAME=N..
 *
 * Names: threads, connections (in all), flight (requests that a connection has in flight), keys (how many there are), of_get (keys on
 * the line of a get), bytes (of a value), sets (of 100 requests), ms (how long; 0: each key is set once), churn (1: a connection for
 * each request), cpu (thread i runs on the processor cpu + i; without it on any) and seed. Keys are drawn alike.
 * It prints: seconds, requests, keys asked for, hits, and p50, p99 and p99.9 of a batch in microseconds. A wrong answer ends it. */
#define _GNU_SOURCE
#include <errno.h>
#include <pthread.h>
#include <sched.h>
#include <stdatomic.h>
#include <stdbool.h>
#include <stdint.h>
#include <stdio.h>
#include <stdlib.h>
#include <string.h>
#include <sys/epoll.h>
#include <sys/socket.h>
#include <sys/un.h>
#include <time.h>
#include <unistd.h>

enum { BUCKETS = 64 * 32, KEY_BYTES = 16, EVENTS = 64, HEAD_BYTES = 64 };
enum { THREADS, CONNECTIONS, FLIGHT, KEYS, OF_GET, BYTES, SETS, MS, CHURN, CPU, SEED, NAMES };
static const char *const names[NAMES] = {"threads", "connections", "flight", "keys", "of_get", "bytes", "sets", "ms", "churn", "cpu", "seed"};
static uint64_t is[NAMES] = {[THREADS] = 1, [CONNECTIONS] = 1, [FLIGHT] = 1, [KEYS] = 100000, [OF_GET] = 1, [BYTES] = 100,
                             [MS] = 1000, [CPU] = UINT64_MAX, [SEED] = 1};
static const char *path;
static atomic_bool is_over;

/* A connection: what it asked for, and what of the answers has come. */
typedef struct client {
    int fd;
    size_t batch, left, have, room; /* requests of its batch; answers to come; bytes that wait for their rest, and room for them */
    uint64_t began, asked, hits;
    char *bytes;
} client;

typedef struct caller {
    pthread_t thread;
    uint64_t random, next, requests, asked, hits, took[BUCKETS];
    size_t number, count;
    client *clients;
    char *out, *value;
} caller;

static _Noreturn void end(const char *what) {
    fprintf(stderr, "load_server: %s: %s\n", what, strerror(errno));
    exit(1);
}

static uint64_t now(void) {
    struct timespec at;
    clock_gettime(CLOCK_MONOTONIC, &at);
    return (uint64_t)at.tv_sec * 1000000000u + (uint64_t)at.tv_nsec;
}

static uint64_t draw(caller *of) {
    of->random ^= of->random << 13;
    of->random ^= of->random >> 7;
    of->random ^= of->random << 17;
    return of->random * 0x2545F4914F6CDD1Du >> 11;
}

/* ------------------------------------------------------------------------------------------------------------ latencies */

/* Buckets of a thirty-second of a power of two. */
static size_t bucket_of(uint64_t ns) {
    if (ns < 32) return ns;
    unsigned high = 63 - (unsigned)__builtin_clzll(ns);
    return (high - 4) * 32 + ((ns >> (high - 5)) & 31);
}

static double ns_of(size_t bucket) {
    return bucket < 32 ? (double)bucket : (double)((uint64_t)(32 + bucket % 32) << (bucket / 32 - 1)) * 1.016;
}

static double percentile(const uint64_t took[BUCKETS], double share) {
    uint64_t all = 0, sum = 0;
    size_t at = 0;
    for (size_t i = 0; i < BUCKETS; i++) all += took[i];
    while (at + 1 < BUCKETS && (double)(sum += took[at]) < share * (double)all) at++;
    return ns_of(at) / 1000;
}

/* ------------------------------------------------------------------------------------------------------------- requests */

static int dial(void) {
    struct sockaddr_un to = {.sun_family = AF_UNIX};
    int fd = socket(AF_UNIX, SOCK_STREAM | SOCK_CLOEXEC, 0);
    if (strlen(path) >= sizeof to.sun_path) errno = ENAMETOOLONG, end(path);
    strcpy(to.sun_path, path);
    if (fd < 0 || connect(fd, (struct sockaddr *)&to, sizeof to) != 0) end(path);
    return fd;
}

static char *put_key(char *to, uint64_t key) {
    return to + sprintf(to, " key_%012llu", (unsigned long long)key);
}

static char *put_set(caller *of, char *to, uint64_t key) {
    to += sprintf(to, "set key_%012llu 0 0 %llu\r\n", (unsigned long long)key, (unsigned long long)is[BYTES]);
    to = (char *)memcpy(to, of->value, is[BYTES]) + is[BYTES];
    return (char *)memcpy(to, "\r\n", 2) + 2;
}

static char *put_get(caller *of, char *to) {
    to = (char *)memcpy(to, "get", 3) + 3;
    for (uint64_t i = 0; i < is[OF_GET]; i++) to = put_key(to, draw(of) % is[KEYS]);
    return (char *)memcpy(to, "\r\n", 2) + 2;
}

static void send_all(int fd, const char *from, size_t length) {
    while (length != 0) {
        ssize_t sent = send(fd, from, length, MSG_NOSIGNAL);
        if (sent < 0) end("send");
        from += sent;
        length -= (size_t)sent;
    }
}

/* Sends a batch. False: there is no more to be asked. */
static bool ask(caller *of, client *by) {
    char *at = of->out;
    by->left = by->have = 0;
    by->asked = by->hits = 0;
    for (uint64_t i = 0; i < is[FLIGHT]; i++) {
        if (is[MS] == 0 && of->next >= is[KEYS]) break;
        if (is[MS] == 0) at = put_set(of, at, of->next), of->next += is[THREADS];
        else if (draw(of) % 100 < is[SETS]) at = put_set(of, at, draw(of) % is[KEYS]);
        else at = put_get(of, at), by->asked += is[OF_GET];
        by->left++;
    }
    by->batch = by->left;
    by->began = now();
    if (by->left != 0) send_all(by->fd, of->out, (size_t)(at - of->out));
    return by->left != 0;
}

/* Takes one whole line, or value, of the answers. 0: there is none. */
static size_t take_one(client *by, const char *from, size_t length) {
    const char *past = memchr(from, '\n', length);
    if (past == NULL) return 0;
    size_t line = (size_t)(past - from) + 1;
    if (*from == 'V') {
        if (length < line + is[BYTES] + 2) return 0;
        by->hits++;
        return line + is[BYTES] + 2;
    }
    if (strncmp(from, "END\r", 4) != 0 && strncmp(from, "STORED\r", 7) != 0) errno = EBADMSG, end("an answer");
    by->left--;
    return line;
}

/* Reads once. True: the batch is answered. */
static bool take(caller *of, client *by) {
    ssize_t more = recv(by->fd, by->bytes + by->have, by->room - by->have, 0);
    if (more < 0 && errno == EINTR) return false;
    if (more <= 0) end("recv");
    size_t have = by->have + (size_t)more, taken = 0, one;
    while (by->left != 0 && (one = take_one(by, by->bytes + taken, have - taken)) != 0) taken += one;
    by->have = have - taken;
    memmove(by->bytes, by->bytes + taken, by->have);
    if (by->left != 0) return false;
    of->took[bucket_of(now() - by->began)]++;
    of->requests += by->batch;
    of->asked += by->asked;
    of->hits += by->hits;
    return true;
}

/* -------------------------------------------------------------------------------------------------------------- callers */

static bool goes_on(void) {
    return !atomic_load_explicit(&is_over, memory_order_relaxed);
}

static void call_one(caller *of, client *by) {
    while (goes_on() && ask(of, by))
        while (!take(of, by)) continue;
}

static void call_anew(caller *of, client *by) {
    while (goes_on()) {
        close(by->fd);
        by->fd = dial();
        if (!ask(of, by)) return;
        while (!take(of, by)) continue;
    }
}

static void call_many(caller *of) {
    struct epoll_event events[EVENTS];
    int poll = epoll_create1(EPOLL_CLOEXEC);
    size_t live = of->count;
    for (size_t i = 0; i < of->count; i++) {
        struct epoll_event event = {.events = EPOLLIN, .data.ptr = &of->clients[i]};
        if (poll < 0 || epoll_ctl(poll, EPOLL_CTL_ADD, of->clients[i].fd, &event) != 0) end("epoll");
        if (!ask(of, &of->clients[i])) live--;
    }
    while (live != 0 && goes_on()) {
        int count = epoll_wait(poll, events, EVENTS, 100);
        for (int i = 0; i < count; i++)
            if (take(of, events[i].data.ptr) && !ask(of, events[i].data.ptr)) live--;
    }
    close(poll);
}

static void *call(void *it) {
    caller *of = it;
    cpu_set_t one;
    CPU_ZERO(&one);
    if (is[CPU] != UINT64_MAX) CPU_SET(is[CPU] + of->number, &one);
    if (is[CPU] != UINT64_MAX && sched_setaffinity(0, sizeof one, &one) != 0) end("cpu");
    if (is[CHURN] != 0) call_anew(of, &of->clients[0]);
    else if (of->count == 1) call_one(of, &of->clients[0]);
    else call_many(of);
    return NULL;
}

static void *room(size_t count, size_t bytes) {
    void *at = calloc(count, bytes);
    if (at == NULL) end("memory");
    return at;
}

static void make_caller(caller *of, size_t number) {
    of->number = of->next = number;
    of->count = is[CONNECTIONS] / is[THREADS];
    of->random = (is[SEED] * 1000 + number + 1) * 0x9E3779B97F4A7C15u | 1;
    of->clients = room(of->count, sizeof(client));
    of->out = room(is[FLIGHT], HEAD_BYTES + is[BYTES] + is[OF_GET] * (KEY_BYTES + 2));
    of->value = memset(room(1, is[BYTES] + 1), 'x', is[BYTES]);
    for (size_t i = 0; i < of->count; i++) {
        client *it = &of->clients[i];
        it->room = is[FLIGHT] * is[OF_GET] * (HEAD_BYTES + is[BYTES]) + HEAD_BYTES;
        it->bytes = room(1, it->room);
        it->fd = dial();
    }
}

/* --------------------------------------------------------------------------------------------------------------- all of it */

static void read_word(const char *word) {
    for (size_t i = 0; i < NAMES; i++) {
        size_t length = strlen(names[i]);
        if (strncmp(word, names[i], length) != 0 || word[length] != '=') continue;
        is[i] = strtoull(word + length + 1, NULL, 10);
        return;
    }
    errno = EINVAL;
    end(word);
}

int main(int count, char **words) {
    if (count < 2) errno = EINVAL, end("give a socket");
    path = words[1];
    for (int i = 2; i < count; i++) read_word(words[i]);
    if (is[THREADS] == 0 || is[CONNECTIONS] < is[THREADS] || is[FLIGHT] == 0 || is[KEYS] == 0) errno = EINVAL, end("the words");
    caller *callers = room(is[THREADS], sizeof *callers), all = {0};
    for (size_t i = 0; i < is[THREADS]; i++) make_caller(&callers[i], i);
    uint64_t began = now();
    for (size_t i = 0; i < is[THREADS]; i++)
        if (pthread_create(&callers[i].thread, NULL, call, &callers[i]) != 0) end("a thread");
    if (is[MS] != 0) {
        usleep((useconds_t)is[MS] * 1000);
        atomic_store(&is_over, true);
    }
    for (size_t i = 0; i < is[THREADS]; i++) {
        pthread_join(callers[i].thread, NULL);
        all.requests += callers[i].requests;
        all.asked += callers[i].asked;
        all.hits += callers[i].hits;
        for (size_t b = 0; b < BUCKETS; b++) all.took[b] += callers[i].took[b];
    }
    printf("%.6f %llu %llu %llu %.2f %.2f %.2f\n", (double)(now() - began) / 1e9, (unsigned long long)all.requests,
           (unsigned long long)all.asked, (unsigned long long)all.hits, percentile(all.took, 0.5), percentile(all.took, 0.99),
           percentile(all.took, 0.999));
    return 0;
}
