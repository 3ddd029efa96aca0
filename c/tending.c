/* Upkeep by threads of the library's own. They sleep until a lane is due, do one step of the lane that waits longest,
 * and put it after the others if more of it is due. So there is no clock, and nobody wakes while nothing is due. */
#define _GNU_SOURCE
#include "inside.h"
#include <signal.h>
#include <stdlib.h>

/* A lock that spins for a while before its thread sleeps, where the C library has such a kind: a lane is held for a
 * microsecond or less, and to wake a thread takes longer. None of these calls is refused. */
void init_lock(pthread_mutex_t *lock) {
    pthread_mutexattr_t kind;
    pthread_mutexattr_init(&kind);
#ifdef __GLIBC__
    pthread_mutexattr_settype(&kind, PTHREAD_MUTEX_ADAPTIVE_NP);
#endif
    pthread_mutex_init(lock, &kind);
    pthread_mutexattr_destroy(&kind);
}

kangaroo_status queue_open(due_queue *queue, uint32_t lane_count) {
    *queue = (due_queue){.room = lane_count};
    queue->numbers = calloc(lane_count, sizeof *queue->numbers);
    if (queue->numbers == NULL) return KANGAROO_NO_MEMORY;
    init_lock(&queue->lock);
    pthread_cond_init(&queue->is_wanted, NULL); /* not refused either, for the same reason */
    return KANGAROO_OK;
}

void queue_close(due_queue *queue) {
    if (queue->numbers == NULL) return;
    pthread_cond_destroy(&queue->is_wanted);
    pthread_mutex_destroy(&queue->lock);
    free(queue->numbers);
    queue->numbers = NULL;
}

/* Puts a lane after the others, in a queue that is held. */
static void append(due_queue *queue, uint32_t number) {
    uint64_t place = (uint64_t)queue->first + queue->count;
    queue->numbers[place % queue->room] = number;
    queue->count++;
}

static void enter(due_queue *queue, uint32_t number) {
    pthread_mutex_lock(&queue->lock);
    append(queue, number);
    pthread_cond_signal(&queue->is_wanted);
    pthread_mutex_unlock(&queue->lock);
}

/* Waits for the lane that is due longest. False: the threads are to end. */
static bool next_due(due_queue *queue, uint32_t *number) {
    pthread_mutex_lock(&queue->lock);
    while (queue->count == 0 && !queue->is_stopping) pthread_cond_wait(&queue->is_wanted, &queue->lock);
    bool is_found = !queue->is_stopping;
    if (is_found) {
        *number = queue->numbers[queue->first];
        queue->first = (queue->first + 1) % queue->room;
        queue->count--;
    }
    pthread_mutex_unlock(&queue->lock);
    return is_found;
}

void hand_over(kangaroo_cache *cache, uint32_t number) {
    guarded_lane *lane = &cache->lanes[number];
    if (cache->thread_count == 0 || lane->is_queued) return;
    lane->is_queued = true;
    enter(&cache->due, number);
}

/* Puts a lane after the others that are due. False: no other is. */
static bool give_way(due_queue *queue, uint32_t number) {
    pthread_mutex_lock(&queue->lock);
    bool is_given = queue->count != 0;
    if (is_given) append(queue, number);
    pthread_mutex_unlock(&queue->lock);
    return is_given;
}

/* One step of a lane that is held. A lane that was refused memory waits for its next put: to try again at once would
 * not help. */
static void tend_held(kangaroo_cache *cache, uint32_t number) {
    guarded_lane *lane = &cache->lanes[number];
    kl_step step = {0};
    kl_upkeep_step(&lane->lane, &step);
    lane->is_queued = step.is_due != 0 && step.did != KL_MEMORY_WAS_REFUSED;
    if (lane->is_queued) enter(&cache->due, number);
    pthread_mutex_unlock(&lane->lock);
}

/* Does one step of a lane. If a call holds it, the lane lets the others that are due go first. A thread that was held
 * up as often as there are lanes waits: whoever holds them then may have been stopped by the system. */
static void tend(kangaroo_cache *cache, uint32_t number, uint32_t *held_up) {
    pthread_mutex_t *lock = &cache->lanes[number].lock;
    if (pthread_mutex_trylock(lock) != 0) {
        if (*held_up < cache->lane_count && give_way(&cache->due, number)) {
            ++*held_up;
            return;
        }
        pthread_mutex_lock(lock);
    }
    *held_up = 0;
    tend_held(cache, number);
}

static void *tend_for_good(void *of) {
    kangaroo_cache *cache = of;
    uint32_t number, held_up = 0;
    while (next_due(&cache->due, &number)) tend(cache, number, &held_up);
    return NULL;
}

/* The signals that a fault of a thread itself raises stay open: a handler of the program's is to see them. */
static void signals_of_own_threads(sigset_t *blocked) {
    sigfillset(blocked);
    sigdelset(blocked, SIGBUS);
    sigdelset(blocked, SIGFPE);
    sigdelset(blocked, SIGILL);
    sigdelset(blocked, SIGSEGV);
}

/* Starts one thread. It may begin before its number is counted, so it does not look at the count. */
static int start_one(kangaroo_cache *cache) {
    pthread_t *thread = &cache->threads[cache->thread_count];
    int cause = pthread_create(thread, NULL, tend_for_good, cache);
    if (cause != 0) return cause;
    pthread_setname_np(*thread, "kangaroo");
    cache->thread_count++;
    return 0;
}

outcome threads_start(kangaroo_cache *cache, uint32_t count) {
    sigset_t blocked, before;
    int cause = 0;
    signals_of_own_threads(&blocked);
    pthread_sigmask(SIG_SETMASK, &blocked, &before);
    while (cause == 0 && cache->thread_count < count) cause = start_one(cache);
    pthread_sigmask(SIG_SETMASK, &before, NULL);
    return cause == 0 ? outcome_of(KANGAROO_OK) : refused_with(cause);
}

void threads_stop(kangaroo_cache *cache) {
    if (cache->thread_count == 0) return;
    pthread_mutex_lock(&cache->due.lock);
    cache->due.is_stopping = true;
    pthread_cond_broadcast(&cache->due.is_wanted);
    pthread_mutex_unlock(&cache->due.lock);
    for (uint32_t i = 0; i < cache->thread_count; i++) pthread_join(cache->threads[i], NULL);
    cache->thread_count = 0;
}
