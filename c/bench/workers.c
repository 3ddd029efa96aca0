/* The workers of a run: what they count, when they call, and how they are waited for. run.h says what each function is
 * for. */
#define _GNU_SOURCE
#include "run.h"
#include "words.h"
#include <errno.h>
#include <stdio.h>
#include <stdlib.h>
#include <string.h>
#include <sys/prctl.h>
#include <time.h>
#include <unistd.h>

static const uint64_t second_ns = 1000000000;
static atomic_bool stopped;

uint64_t now_ns(void) {
    struct timespec now;
    clock_gettime(CLOCK_MONOTONIC, &now);
    return (uint64_t)now.tv_sec * second_ns + (uint64_t)now.tv_nsec;
}

static struct timespec timespec_of(uint64_t moment) {
    return (struct timespec){.tv_sec = (time_t)(moment / second_ns), .tv_nsec = (long)(moment % second_ns)};
}

void stop_soon(void) { atomic_store_explicit(&stopped, true, memory_order_relaxed); }

bool is_stopped(void) { return atomic_load_explicit(&stopped, memory_order_relaxed); }

void add_count(tally *to, count_name name, uint64_t number) {
    uint64_t before = atomic_load_explicit(&to->counts[name], memory_order_relaxed);
    atomic_store_explicit(&to->counts[name], before + number, memory_order_relaxed);
}

/* ------------------------------------------------------------------------------------------------------------- hits */

static void print_bytes(const char *name, const uint8_t *bytes, size_t length) {
    enum { SHOWN = 32 };
    fprintf(stderr, "  %s %zu bytes", name, length);
    for (size_t i = 0; i < length && i < SHOWN; i++) fprintf(stderr, "%s%02x", i == 0 ? ": " : "", bytes[i]);
    fprintf(stderr, "%s\n", length > SHOWN ? ".." : "");
}

_Noreturn void report_wrong_hit(const char *operation, const request *asked, const uint8_t *found, size_t length) {
    uint8_t expected[KANGAROO_VALUE_MAX];
    uint32_t wanted = (uint32_t)(asked->value_length <= KANGAROO_VALUE_MAX ? asked->value_length : KANGAROO_VALUE_MAX);
    static atomic_flag is_reported = ATOMIC_FLAG_INIT;
    if (atomic_flag_test_and_set(&is_reported)) pause(); /* another thread reports one, and ends the process */
    write_value(asked->number, wanted, expected);
    fprintf(stderr, "%s: a wrong hit by %s of the key %.*s\n", program_name, operation, (int)asked->key_length,
            asked->key);
    print_bytes("expected", expected, wanted);
    print_bytes("found   ", found, length);
    _exit(STATUS_WRONG_HIT);
}

/* A replayed key may have had values of several sizes, so there the bytes are those of the found length. */
void check_hit(const worker *me, const char *operation, const request *asked, const uint8_t *found, size_t length) {
    uint64_t wanted = me->of->requests.replayed != NULL ? length : asked->value_length;
    if (length == wanted && length <= KANGAROO_VALUE_MAX &&
        wrong_byte(asked->number, (uint32_t)length, found) == length)
        return;
    request of_length = *asked;
    of_length.value_length = wanted;
    report_wrong_hit(operation, &of_length, found, length);
}

/* --------------------------------------------------------------------------------------------------------- a worker */

/* Waits until a moment, or until the run is to stop. */
static void wait_until(uint64_t moment) {
    const uint64_t look_again = second_ns / 10;
    for (uint64_t now = now_ns(); now < moment && !is_stopped(); now = now_ns()) {
        struct timespec until = timespec_of(moment - now < look_again ? moment : now + look_again);
        clock_nanosleep(CLOCK_MONOTONIC, TIMER_ABSTIME, &until, NULL);
    }
}

/* Waits until the next call is due. When it was due, or 0 if no rate is set, or if the worker waited: then the call
 * counts from its start, and not from a wake-up that came late. */
static uint64_t wait_until_due(worker *me) {
    const bench_options *options = me->of->options;
    if (options->rate <= 0) return 0;
    uint64_t due = (uint64_t)me->due, now = now_ns();
    me->due += (double)second_ns * options->threads / options->rate;
    if (due <= now) return due;
    wait_until(due < me->of->deadline ? due : me->of->deadline);
    me->now = now_ns();
    return 0;
}

static bool has_more(const worker *me) { return me->left > 0 && me->now < me->of->deadline && !is_stopped(); }

static void *work(void *given) {
    worker *me = given;
    run *of = me->of;
    prctl(PR_SET_TIMERSLACK, 1ul); /* a wait ends when it is due, and not 50 us later */
    me->now = now_ns();
    me->due = (double)me->now;
    if (of->options->rate > 0) me->due += (double)(me - of->workers) * (double)second_ns / of->options->rate;
    while (has_more(me)) {
        uint64_t from = wait_until_due(me);
        if (!has_more(me)) break;
        if (!next_request(&me->requests, (me->now - of->began) / 1000000, &me->next)) break;
        me->left--;
        if (me->to != NULL) ask_server(me, from);
        else ask_cache(me, from);
    }
    if (me->to != NULL) finish_with_server(me);
    pthread_mutex_lock(&of->lock);
    of->running--;
    pthread_cond_signal(&of->ended);
    pthread_mutex_unlock(&of->lock);
    return NULL;
}

void make_workers(run *of) {
    pthread_condattr_t clock;
    pthread_mutex_init(&of->lock, NULL);
    pthread_condattr_init(&clock);
    pthread_condattr_setclock(&clock, CLOCK_MONOTONIC);
    pthread_cond_init(&of->ended, &clock);
    pthread_condattr_destroy(&clock);
    of->workers = take_memory(of->options->threads, sizeof *of->workers);
    for (uint32_t i = 0; i < of->options->threads; i++) {
        worker *made = &of->workers[i];
        *made = (worker){.of = of, .requests = new_stream(&of->requests, i), .counted = take_memory(1, sizeof(tally))};
        if (of->options->server != NULL) made->to = connect_to(of->options);
    }
}

void end_workers(run *of) {
    for (uint32_t i = 0; i < of->options->threads; i++) {
        end_stream(&of->workers[i].requests);
        end_connection(of->workers[i].to);
        free(of->workers[i].counted);
    }
    free(of->workers);
    pthread_cond_destroy(&of->ended);
    pthread_mutex_destroy(&of->lock);
}

/* ----------------------------------------------------------------------------------------------------------- phases */

/* Waits for all workers, and calls `each` once a second meanwhile. */
static void wait_for_workers(run *of, every_second *each, void *given) {
    uint64_t tick = now_ns() + second_ns;
    pthread_mutex_lock(&of->lock);
    while (of->running > 0) {
        struct timespec until = timespec_of(tick);
        if (pthread_cond_timedwait(&of->ended, &of->lock, &until) != ETIMEDOUT) continue;
        pthread_mutex_unlock(&of->lock);
        each(of, given);
        tick += second_ns;
        if (tick < now_ns()) tick = now_ns() + second_ns;
        pthread_mutex_lock(&of->lock);
    }
    pthread_mutex_unlock(&of->lock);
}

void run_phase(run *of, uint64_t operations, uint64_t seconds, every_second *each, void *given) {
    uint32_t threads = of->options->threads;
    pthread_t *running = take_memory(threads, sizeof *running);
    uint64_t from = now_ns();
    of->deadline = seconds > 0 ? from + seconds * second_ns : UINT64_MAX;
    of->running = threads;
    for (uint32_t i = 0; i < threads; i++) {
        uint64_t part = operations / threads + (i < operations % threads);
        of->workers[i].left = operations > 0 ? part : UINT64_MAX;
        int cause = pthread_create(&running[i], NULL, work, &of->workers[i]);
        if (cause != 0) refuse_system("thread %u of %u: %s", i + 1, threads, strerror(cause));
    }
    wait_for_workers(of, each, given);
    for (uint32_t i = 0; i < threads; i++) pthread_join(running[i], NULL);
    free(running);
}
