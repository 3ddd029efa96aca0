/* The threads that serve connections: each has an epoll loop, and its connections for good. */
#define _GNU_SOURCE
#include "server.h"
#include <sched.h>
#include <stdlib.h>
#include <string.h>
#include <sys/epoll.h>
#include <sys/eventfd.h>
#include <unistd.h>

enum { EVENTS_AT_ONCE = 64, IDLE_LOOK_MS = 500 };

/* --------------------------------------------------------------------------------------------------------- idle clients */

/* A client that was silent for too long, or NULL. */
static conn *find_idle(worker *by, uint64_t now) {
    uint64_t most = by->of->settings.idle_seconds;
    pthread_mutex_lock(&by->list_lock);
    conn *it = by->conns;
    while (it != NULL && now <= atomic_load_explicit(&it->last_moment, memory_order_relaxed) + most) it = it->after;
    pthread_mutex_unlock(&by->list_lock);
    return it;
}

static void close_idle(worker *by) {
    uint64_t now = moment_now();
    for (conn *it; (it = find_idle(by, now)) != NULL;) {
        count_up(by, COUNT_idle_kicks, 1);
        conn_close(by, it);
    }
}

/* ------------------------------------------------------------------------------------------------------------- the loop */

static void serve_events(worker *by, const struct epoll_event *events, int count) {
    for (int i = 0; i < count; i++)
        if (events[i].data.ptr != NULL) conn_serve(by, events[i].data.ptr, events[i].events);
}

static void close_all(worker *by) {
    while (by->conns != NULL) {
        conn_send_last(by, by->conns);
        conn_close(by, by->conns);
    }
}

static void *work(void *of) {
    worker *by = of;
    bool looks = by->of->settings.idle_seconds != 0;
    struct epoll_event events[EVENTS_AT_ONCE];
    uint64_t looked = 0;
    while (!atomic_load(&by->of->is_stopping)) {
        int count = epoll_wait(by->poll, events, EVENTS_AT_ONCE, looks ? IDLE_LOOK_MS : -1);
        if (count < 0 && errno != EINTR) usleep(1000); /* refused: not to be had at once */
        serve_events(by, events, count);
        if (looks && moment_now() != looked) {
            looked = moment_now();
            close_idle(by);
        }
    }
    close_all(by);
    return NULL;
}

/* ----------------------------------------------------------------------------------------------------------------- start */

/* What a worker has before its thread runs. */
static bool make_worker(worker *by, server *of) {
    struct epoll_event event = {.events = EPOLLIN, .data.ptr = NULL};
    by->of = of;
    pthread_mutex_init(&by->list_lock, NULL);
    by->in = malloc(READ_BYTES + KS_MOST_KEPT);
    by->poll = epoll_create1(EPOLL_CLOEXEC);
    by->wake = eventfd(0, EFD_CLOEXEC | EFD_NONBLOCK);
    if (by->in == NULL || by->poll < 0 || by->wake < 0) return false;
    if (!make_room(&by->answers, ANSWERS_ENOUGH + KS_MOST_ANSWER)) return false;
    return epoll_ctl(by->poll, EPOLL_CTL_ADD, by->wake, &event) == 0;
}

static bool start_worker(worker *by, server *of) {
    if (!make_worker(by, of)) return false;
    int cause = pthread_create(&by->thread, NULL, work, by);
    by->has_thread = cause == 0;
    errno = cause;
    return by->has_thread;
}

bool start_workers(server *of) {
    size_t bytes = of->settings.threads * sizeof *of->workers;
    if (!make_shown(of)) return false;
    of->workers = aligned_alloc(LANE_ALIGNMENT, bytes);
    if (of->workers == NULL) return false;
    memset(of->workers, 0, bytes);
    for (uint64_t i = 0; i < of->settings.threads; i++) of->workers[i].poll = of->workers[i].wake = NO_FILE;
    for (uint64_t i = 0; i < of->settings.threads; i++)
        if (!start_worker(&of->workers[i], of)) return false;
    return true;
}

/* ----------------------------------------------------------------------------------------------------------- processors */

uint64_t processors(void) {
    cpu_set_t all;
    return sched_getaffinity(0, sizeof all, &all) == 0 ? (uint64_t)CPU_COUNT(&all) : 0;
}

/* Keeps a thread on one of some processors, by its place among them. Gives why not, or 0. */
static int keep_on(pthread_t thread, const cpu_set_t *all, uint64_t place) {
    cpu_set_t one;
    CPU_ZERO(&one);
    for (size_t at = 0; at < CPU_SETSIZE; at++)
        if (CPU_ISSET(at, all) && place-- == 0) CPU_SET(at, &one);
    return pthread_setaffinity_np(thread, sizeof one, &one); /* of none, the system refuses it */
}

bool pin_workers(server *of) {
    cpu_set_t all;
    if (of->settings.pins_threads == 0) return true;
    if (sched_getaffinity(0, sizeof all, &all) != 0) return false;
    for (uint64_t i = 0; i < of->settings.threads; i++) {
        errno = keep_on(of->workers[i].thread, &all, i);
        if (errno != 0) return false;
    }
    return true;
}

/* ------------------------------------------------------------------------------------------------------------------ stop */

static void stop_worker(worker *by) {
    uint64_t one = 1;
    if (by->has_thread) {
        (void)!write(by->wake, &one, sizeof one);
        pthread_join(by->thread, NULL);
    }
    if (by->poll >= 0) close(by->poll);
    if (by->wake >= 0) close(by->wake);
    free(by->in);
    free_buffer(&by->answers);
}

void stop_workers(server *of) {
    if (of->workers == NULL) return;
    atomic_store(&of->is_stopping, true);
    for (uint64_t i = 0; i < of->settings.threads; i++) stop_worker(&of->workers[i]);
    free(of->workers);
    of->workers = NULL;
    free(of->shown);
    of->shown = NULL;
}
