/* One step of a client's session, in a hold of its key's lane; and the words that number items and flush them. What a step takes,
 * does and answers, and in which order those words are read and written, is decided behind session.h. */
#define _GNU_SOURCE
#include "server.h"
#include <signal.h>
#include <time.h>
#include <unistd.h>

enum { NANOSECONDS = 1000000000 };

/* ------------------------------------------------------------------------------------------------------------ numbers */

/* How far the wall clock was before the time since boot when the server started, in nanoseconds. */
static int64_t wall_before_boot;

static int64_t nanoseconds_of(clockid_t clock) {
    struct timespec now;
    clock_gettime(clock, &now);
    return (int64_t)now.tv_sec * NANOSECONDS + now.tv_nsec;
}

void start_clock(void) {
    wall_before_boot = nanoseconds_of(CLOCK_REALTIME) - nanoseconds_of(CLOCK_BOOTTIME);
}

/* The time since boot never falls, is one for all threads, goes on while the machine sleeps, and nobody sets it. It is read at
 * each step: that takes some 30 ns, without a call of the system from Linux 5.3 on. */
uint64_t moment_now(void) {
    return (uint64_t)((wall_before_boot + nanoseconds_of(CLOCK_BOOTTIME)) / NANOSECONDS);
}

void start_numbers(numbers *of) {
    struct timespec now;
    clock_gettime(CLOCK_REALTIME, &now);
    atomic_init(&of->next, ks_first_number((uint64_t)now.tv_sec * 1000000 + (uint64_t)now.tv_nsec / 1000));
    atomic_init(&of->flushed, 0);
    atomic_init(&of->pending, 0);
    init_lock(&of->flush_lock);
}

/* Makes the access that a turn asks for next. Gives what was read, or 0. */
static uint64_t make_access(numbers *of, const ks_turn *by) {
    switch (by->at) {
    case KS_DRAW: case KS_DRAW_FLUSH: return atomic_fetch_add(&of->next, 1);
    case KS_SEE_FLUSHED: return atomic_load(&of->flushed);
    case KS_SEE_PENDING: case KS_SEE_LOCKED: return atomic_load(&of->pending);
    case KS_HIDE: case KS_SHOW: atomic_store(&of->flushed, by->word); return 0;
    case KS_CLEAR: case KS_SET_LATER: atomic_store(&of->pending, by->word); return 0;
    case KS_LOCK: pthread_mutex_lock(&of->flush_lock); return 0;
    case KS_UNLOCK: pthread_mutex_unlock(&of->flush_lock); return 0;
    default: return 0;
    }
}

/* Makes a turn, or a flush, whole. */
static void make_whole(numbers *of, ks_turn *it) {
    while (it->at != KS_WHOLE) ks_go_on(it, make_access(of, it));
}

/* -------------------------------------------------------------------------------------------------------------- steps */

/* What a step is given and what it did. */
typedef struct step {
    worker *by;
    conn *of;
    const uint8_t *bytes;
    size_t length;
    ks_wanted wanted;
    uint32_t refuses; /* 1: what is wanted is not done, and the answer says so */
    ks_done done;
    bool is_part; /* it was a part of an answer, and its request is still to be taken */
    timing timing;
} step;

/* Where a step answers: after the other answers. There is room, KS_MOST_ANSWER bytes: conns.c sees to it. */
static uint8_t *place_of_answer(const step *it) {
    return it->by->answers.at + it->by->answers.length;
}

static void step_without_lane(step *it) {
    ks_step(&it->of->session, it->refuses, it->bytes, it->length, place_of_answer(it), KS_MOST_ANSWER, &it->done);
}

/* Ends the server if a lane refused a step. */
static void end_if_refused(uint32_t stepped) {
    if (stepped == KS_OTHER_LANE) end_by_fault("a step was made on another lane than its key's");
    if (stepped == KS_WRONG_TURN) end_by_fault("a step was made by a turn that may not follow the last one of its lane");
}

/* The turn is made in the hold of the lane, so its number is above those of the lane's items, and what it sees of flushes is not of
 * before another step. */
static void step_in_lane(step *it) {
    kangaroo_cache *cache = it->by->of->cache;
    guarded_lane *lane = &cache->lanes[it->wanted.place.lane];
    uint64_t now = moment_now();
    uint32_t is_due;
    ks_turn turn;
    pthread_mutex_lock(&lane->lock);
    ks_begin_turn(&lane->lane, &it->wanted, now, &turn);
    make_whole(&it->by->of->numbers, &turn);
    look_before(&it->timing, &lane->lane);
    is_due = ks_lane_step(&it->of->session, &lane->lane, &turn, it->bytes, it->length, place_of_answer(it), KS_MOST_ANSWER,
                          &it->done);
    end_if_refused(is_due);
    look_after(&it->timing, &lane->lane);
    if (is_due != 0) hand_over(cache, it->wanted.place.lane);
    pthread_mutex_unlock(&lane->lock);
}

static void step_with_flush(step *it) {
    ks_turn flush;
    it->refuses = it->by->of->settings.no_flush != 0;
    if (it->refuses == 0) {
        ks_begin_flush(it->wanted.argument, moment_now(), &flush);
        make_whole(&it->by->of->numbers, &flush);
    }
    step_without_lane(it);
}

/* The lines of stats, and once these are all the step that ends them. It needs room anew. */
static bool step_with_stats(step *it) {
    bool is_all;
    if (!write_stats(it->by, it->of, (ks_stats)it->wanted.argument, &is_all)) return false;
    if (!make_room(&it->by->answers, KS_MOST_ANSWER)) return false;
    it->is_part = !is_all;
    if (is_all) step_without_lane(it);
    return true;
}

/* Main reads the signal from its descriptor: no thread has it open. */
static void step_with_shutdown(step *it) {
    it->refuses = it->by->of->settings.may_shut_down == 0;
    step_without_lane(it);
    if (it->refuses == 0) kill(getpid(), SIGTERM);
}

/* Does what is wanted, and makes the step. False: the client is to be closed. */
static bool do_wanted(step *it) {
    switch (it->wanted.wants) {
    case KS_LANE: step_in_lane(it); break;
    case KS_FLUSH: step_with_flush(it); break;
    case KS_STATS: if (!step_with_stats(it)) return false; break;
    case KS_VERBOSE:
        set_verbosity(it->wanted.argument > VERBOSITY_MOST ? VERBOSITY_MOST : it->wanted.argument);
        step_without_lane(it);
        break;
    case KS_SHUTDOWN: step_with_shutdown(it); break;
    default: step_without_lane(it); break;
    }
    return it->done.outcome != KS_LOST;
}

static void tell_step(const step *it) {
    tell_bytes(TELL_STEP, it->of->fd, '<', it->bytes, it->done.taken);
    if (it->done.answered != 0) tell_bytes(TELL_STEP, it->of->fd, '>', place_of_answer(it), it->done.answered);
}

step_end make_step(worker *by, conn *of, const uint8_t *bytes, size_t length, size_t *taken) {
    const kangaroo_cache *cache = by->of->cache;
    step it = {.by = by, .of = of, .bytes = bytes, .length = length};
    *taken = 0;
    begin_timing(&it.timing, &by->of->settings);
    ks_want(&of->session, &cache->seed, cache->lane_count, bytes, length, &it.wanted);
    if (it.wanted.wants == KS_MORE) return STEP_NEEDS_MORE;
    if (it.wanted.wants == KS_CLOSE) return STEP_ENDS;
    if (!do_wanted(&it)) return STEP_ENDS;
    if (it.is_part) return by->looks_left == 0 ? STEP_ENDS_TURN : STEP_WENT_ON;
    if (verbosity() >= VERBOSITY_MOST) tell_step(&it);
    end_timing(by, &(timed_step){&it.timing, &it.wanted, &it.done, bytes});
    count_step(by, &it.done);
    by->answers.length += it.done.answered;
    *taken = it.done.taken;
    return it.done.taken == 0 ? STEP_NEEDS_MORE : STEP_WENT_ON;
}
