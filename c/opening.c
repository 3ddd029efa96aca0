/* Open and close. */
#define _GNU_SOURCE
#include "inside.h"
#include <fcntl.h>
#include <stdlib.h>
#include <string.h>
#include <sys/mman.h>
#include <unistd.h>

/* What an open is made from. */
typedef struct plan {
    kl_shape shape;
    size_t lane_bytes;
    uint32_t lane_count, upkeep_threads;
    bool is_sparse;
} plan;

static kangaroo_status make_plan(const kangaroo_options *options, plan *to) {
    const char *field = NULL;
    kangaroo_options known;
    kl_sizes sizes = {0};
    kangaroo_status status = read_options(options, &known, &field);
    if (status == KANGAROO_OK) status = resolve_options(&known, &to->shape, &field);
    if (status != KANGAROO_OK) return status;
    kl_sizes_of(&to->shape, known.object_bytes, &sizes);
    to->lane_bytes = (size_t)sizes.lane_pages * PAGE_BYTES;
    to->lane_count = to->shape.shards * to->shape.lanes;
    to->upkeep_threads = known.upkeep_threads;
    to->is_sparse = (known.flags & KANGAROO_SPARSE) != 0;
    return KANGAROO_OK;
}

/* Gives back all that a cache has, however far its opening came. Its threads do not run. */
static void free_cache(kangaroo_cache *cache) {
    for (uint32_t i = 0; cache->lanes != NULL && i < cache->lane_count; i++) {
        guarded_lane *lane = &cache->lanes[i];
        if (lane->lane.at != NULL) kl_close(&lane->lane);
        unmap(&lane->file);
        pthread_mutex_destroy(&lane->lock);
    }
    free(cache->lanes);
    queue_close(&cache->due);
    if (cache->own_page != NULL) munmap(cache->own_page, PAGE_BYTES);
    if (cache->lock_file != NO_FILE) close(cache->lock_file);
    free(cache);
}

/* A page that is 1 here and zeros in each forked child, by the system's own doing: so no handler is installed. */
static outcome make_own_page(kangaroo_cache *cache) {
    void *page = mmap(NULL, PAGE_BYTES, PROT_READ | PROT_WRITE, MAP_PRIVATE | MAP_ANONYMOUS, -1, 0);
    if (page == MAP_FAILED) return refused_with(errno);
    cache->own_page = page;
    if (madvise(page, PAGE_BYTES, MADV_WIPEONFORK) != 0) return refused_with(errno);
    *cache->own_page = 1;
    return outcome_of(KANGAROO_OK);
}

static kangaroo_status make_lanes(kangaroo_cache *cache) {
    size_t bytes = cache->lane_count * sizeof(guarded_lane);
    cache->lanes = aligned_alloc(LANE_ALIGNMENT, bytes);
    if (cache->lanes == NULL) return KANGAROO_NO_MEMORY;
    memset(cache->lanes, 0, bytes);
    for (uint32_t i = 0; i < cache->lane_count; i++) init_lock(&cache->lanes[i].lock);
    return KANGAROO_OK;
}

/* Makes what a cache has in memory. */
static outcome make_parts(kangaroo_cache *cache) {
    outcome is = outcome_of(queue_open(&cache->due, cache->lane_count));
    if (is_done(is)) is = make_own_page(cache);
    if (is_done(is)) is = outcome_of(make_lanes(cache));
    if (is_done(is)) is = draw_random(&cache->seed, sizeof cache->seed);
    if (is_done(is)) is = draw_random(&cache->number, sizeof cache->number);
    cache->number |= 1; /* a lease of zeros is of no cache */
    return is;
}

/* A cache without files, lanes that are open, and threads. */
static outcome make_cache(uint32_t lane_count, kangaroo_cache **to) {
    kangaroo_cache *cache = calloc(1, sizeof *cache);
    if (cache == NULL) return outcome_of(KANGAROO_NO_MEMORY);
    cache->lane_count = lane_count;
    cache->lock_file = NO_FILE;
    outcome made = make_parts(cache);
    if (is_done(made)) *to = cache;
    else free_cache(cache);
    return made;
}

static outcome open_lane(kangaroo_cache *cache, const plan *by, int folder, uint32_t number) {
    guarded_lane *lane = &cache->lanes[number];
    outcome mapped = map_lane_file(folder, number, by->lane_bytes, by->is_sparse, &lane->file);
    if (!is_done(mapped)) return mapped;
    kl_pages pages = {lane->file.at, (uint32_t)(by->lane_bytes / PAGE_BYTES)};
    return outcome_of((kangaroo_status)kl_open(&by->shape, &cache->seed, number, pages, &lane->lane));
}

static outcome open_lanes(kangaroo_cache *cache, const plan *by, int folder) {
    outcome is = lock_folder(folder, &cache->lock_file);
    if (is_done(is)) is = remove_files_from(folder, by->lane_count);
    for (uint32_t i = 0; is_done(is) && i < by->lane_count; i++) is = open_lane(cache, by, folder, i);
    return is;
}

/* A disk that was too small for all lanes is not left full. */
static void remove_files(kangaroo_cache *cache, int folder) {
    for (uint32_t i = 0; i < cache->lane_count; i++)
        if (cache->lanes[i].file.at != NULL) remove_lane_file(folder, i);
}

/* Opens the lanes over the folder's files, and starts the threads. */
static outcome fill_cache(kangaroo_cache *cache, const plan *by, const char *path) {
    int folder = open(path, O_RDONLY | O_DIRECTORY | O_CLOEXEC);
    if (folder < 0) return refused_with(errno);
    outcome is = open_lanes(cache, by, folder);
    if (is_done(is)) is = threads_start(cache, by->upkeep_threads);
    if (!is_done(is)) remove_files(cache, folder);
    close(folder);
    return is;
}

static outcome open_cache(const kangaroo_options *options, const char *folder, kangaroo_cache **to) {
    plan by;
    kangaroo_cache *cache = NULL;
    outcome is = outcome_of(make_plan(options, &by));
    if (is_done(is)) is = make_cache(by.lane_count, &cache);
    if (!is_done(is)) return is;
    is = fill_cache(cache, &by, folder);
    if (is_done(is)) {
        *to = cache;
        return is;
    }
    threads_stop(cache);
    free_cache(cache);
    return is;
}

kangaroo_status kangaroo_open(const kangaroo_options *options, const char *folder, kangaroo_cache **cache,
                              int *system_errno) {
    int before;
    kangaroo_cache *opened = NULL;
    outcome is = outcome_of(KANGAROO_WRONG_ARGUMENT);
    pthread_setcancelstate(PTHREAD_CANCEL_DISABLE, &before);
    if (folder != NULL && cache != NULL) is = open_cache(options, folder, &opened);
    if (cache != NULL) *cache = opened;
    if (system_errno != NULL) *system_errno = is.cause;
    pthread_setcancelstate(before, NULL);
    return status_for_caller(is);
}

kangaroo_status kangaroo_close(kangaroo_cache *cache) {
    int before;
    if (cache == NULL) return KANGAROO_OK;
    if (*cache->own_page == 0) return KANGAROO_FORKED;
    pthread_setcancelstate(PTHREAD_CANCEL_DISABLE, &before);
    threads_stop(cache);
    free_cache(cache);
    pthread_setcancelstate(before, NULL);
    return KANGAROO_OK;
}
