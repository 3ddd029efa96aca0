/* inside.h: what the C files of the library share. Not installed, and no symbol of it is seen from outside. */
#ifndef KANGAROO_INSIDE_H
#define KANGAROO_INSIDE_H

#if !defined(__linux__)
#error "libkangaroo needs Linux: locks of open files, MADV_WIPEONFORK, fallocate and getrandom"
#endif
_Static_assert(sizeof(void *) == 8, "libkangaroo needs pointers of 64 bits: the lanes are built for them");

#include "kangaroo.h"
#include "lane.h"
#include <errno.h>
#include <pthread.h>
#include <stdalign.h>
#include <stdatomic.h>
#include <stdbool.h>

enum {
    PAGE_BYTES = 4096,
    LANE_ALIGNMENT = 128,    /* two cache lines: processors fetch them in pairs */
    STRUCT_BYTES_MAX = 4096, /* no struct with a size is so long */
    UPKEEP_THREADS_MAX = 16,
    FILE_NAME_BYTES = 32, /* room for the name of a file of a cache */
    NO_FILE = -1
};

/* How a function of the library went. `cause` is the errno of a refusal if the status is KANGAROO_SYSTEM, else 0. So
 * errno is read right after the call of the system that set it, and clean-up may change it. */
typedef struct outcome {
    kangaroo_status status;
    int cause;
} outcome;

static inline outcome outcome_of(kangaroo_status status) {
    return (outcome){status, 0};
}

/* The outcome of what the system refused with this errno. */
static inline outcome refused_with(int cause) {
    return cause == ENOMEM ? outcome_of(KANGAROO_NO_MEMORY) : (outcome){KANGAROO_SYSTEM, cause};
}

static inline bool is_done(outcome of) {
    return of.status == KANGAROO_OK;
}

/* The status for a caller of the library, with errno: only here is it set for the caller. */
static inline kangaroo_status status_for_caller(outcome of) {
    if (of.status == KANGAROO_SYSTEM) errno = of.cause;
    return of.status;
}

/* The mapped file of a lane. */
typedef struct mapping {
    uint8_t *at;
    size_t bytes;
} mapping;

/* How often a lane gave an answer that it does not count itself. */
typedef struct answer_counts {
    uint64_t short_buffers, put_too_large, put_no_memory;
} answer_counts;

/* A lane and its lock, on cache lines of their own. What comes after the lock in the struct belongs to its holder. */
typedef struct guarded_lane {
    alignas(LANE_ALIGNMENT) pthread_mutex_t lock;
    kl_lane lane;
    bool is_queued; /* the lane waits for an upkeep thread, or one is at it */
    mapping file;
    answer_counts answers;
} guarded_lane;

/* Numbers of lanes in the order in which they became due: a ring with room for every lane, each at most once in it. */
typedef struct due_queue {
    pthread_mutex_t lock; /* taken after a lane's lock, and no lock is taken after it */
    pthread_cond_t is_wanted;
    uint32_t *numbers;
    uint32_t room, first, count;
    bool is_stopping;
} due_queue;

struct kangaroo_cache {
    uint8_t *own_page; /* a page that the system fills with zeros in a forked child; else its first byte is 1 */
    uint64_t number;   /* random: leases of this cache have it */
    kl_seed seed;
    uint32_t lane_count;
    guarded_lane *lanes;
    int lock_file;
    due_queue due;
    uint32_t thread_count;
    pthread_t threads[UPKEEP_THREADS_MAX];
    atomic_uint next_upkeep; /* the lane at which the next kangaroo_upkeep begins */
    atomic_uint_least64_t leases_dropped, fills_wrong_lease;
};

/* options.c: the shape of the options, or why there is none. The options are resolved if it is KANGAROO_OK. */
kangaroo_status resolve_options(kangaroo_options *options, kl_shape *shape, const char **field);
/* Copies options of any version into those of this one. */
kangaroo_status read_options(const kangaroo_options *from, kangaroo_options *to, const char **field);
/* Writes the front of a struct, and zeros after what this version knows. */
void write_struct(void *to, size_t to_bytes, const void *from, size_t known_bytes);

/* folder.c: files. What is written to the last argument is there only if the outcome is done. */
outcome lock_folder(int folder, int *lock_file);
outcome remove_files_from(int folder, uint32_t first);
outcome map_lane_file(int folder, uint32_t number, size_t bytes, bool is_sparse, mapping *to);
void remove_lane_file(int folder, uint32_t number);
/* After an open of a cache with so many lanes was refused with this errno: gives the name of the file for which, and says in
 * words what is wrong with it; or NULL, if it was not for a file. */
const char *find_refused_file(const char *path, uint32_t lane_count, int cause, char name[FILE_NAME_BYTES]);
void unmap(mapping *file);

/* tending.c: the upkeep threads, and the queue of lanes that they wait for. */
kangaroo_status queue_open(due_queue *queue, uint32_t lane_count);
void queue_close(due_queue *queue);
outcome threads_start(kangaroo_cache *cache, uint32_t count);
void threads_stop(kangaroo_cache *cache);
/* Makes a lock. On Linux one without attributes is a few words that are written: the C library has nothing to ask the
 * system for, so it does not refuse. */
void init_lock(pthread_mutex_t *lock);
/* Hands a lane that is due to the threads; the lane's lock is held. */
void hand_over(kangaroo_cache *cache, uint32_t number);

/* kangaroo.c: says on standard error which fault of the C part was met, and ends the program. */
_Noreturn void end_by_fault(const char *fault);

/* random.c: random bytes of the system. */
outcome draw_random(void *to, size_t bytes);

#endif
