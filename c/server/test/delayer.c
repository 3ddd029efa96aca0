/* delayer.c: laid before a program by LD_PRELOAD, it has each lock wait before it is taken, for as many microseconds as the first
 * eight bytes of the file DELAY_FILE say. The second eight count how often the program has read the clock CLOCK_MONOTONIC. */
#define _GNU_SOURCE
#include <dlfcn.h>
#include <fcntl.h>
#include <pthread.h>
#include <stdatomic.h>
#include <stdint.h>
#include <stdlib.h>
#include <sys/mman.h>
#include <time.h>
#include <unistd.h>

/* What the file has, or NULL before it is mapped or if there is none. */
static struct {
    _Atomic(int64_t) delay, reads;
} *shared;

__attribute__((constructor)) static void map_file(void) {
    const char *path = getenv("DELAY_FILE");
    int file = path == NULL ? -1 : open(path, O_RDWR | O_CLOEXEC);
    if (file < 0) return;
    void *at = mmap(NULL, sizeof *shared, PROT_READ | PROT_WRITE, MAP_SHARED, file, 0);
    close(file);
    if (at != MAP_FAILED) shared = at;
}

int clock_gettime(clockid_t clock, struct timespec *to) {
    static int (*real)(clockid_t, struct timespec *);
    if (real == NULL) *(void **)&real = dlsym(RTLD_NEXT, "clock_gettime");
    if (shared != NULL && clock == CLOCK_MONOTONIC) atomic_fetch_add(&shared->reads, 1);
    return real(clock, to);
}

int pthread_mutex_lock(pthread_mutex_t *lock) {
    static int (*real)(pthread_mutex_t *);
    if (real == NULL) *(void **)&real = dlsym(RTLD_NEXT, "pthread_mutex_lock");
    int64_t delay = shared == NULL ? 0 : atomic_load(&shared->delay);
    if (delay > 0) usleep((useconds_t)delay);
    return real(lock);
}
