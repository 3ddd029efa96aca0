/* refuser.c: laid before a program by LD_PRELOAD, it has one call of the system refused. REFUSE is "NAME N": the N-th call of
 * NAME is refused; "NAME N starting": the N-th after the first call of signalfd; "NAME N ready": the N-th after the program has
 * told systemd that it is ready. A file REFUSE_MARK is made when a call is refused. */
#define _GNU_SOURCE
#include <dlfcn.h>
#include <errno.h>
#include <fcntl.h>
#include <pthread.h>
#include <sched.h>
#include <stdatomic.h>
#include <stdbool.h>
#include <stdlib.h>
#include <string.h>
#include <sys/epoll.h>
#include <sys/eventfd.h>
#include <sys/signalfd.h>
#include <sys/socket.h>
#include <unistd.h>

/* the C library declares addresses of sockets by a union of its own */
#pragma GCC diagnostic ignored "-Wpedantic"

extern void *__libc_malloc(size_t);
extern void *__libc_calloc(size_t, size_t);
extern void *__libc_realloc(void *, size_t);

static atomic_bool is_starting, is_ready;
static atomic_long calls;

static void mark(void) {
    const char *path = getenv("REFUSE_MARK");
    int file = path == NULL ? -1 : open(path, O_WRONLY | O_CREAT | O_CLOEXEC, 0600);
    if (file >= 0) close(file);
}

/* Whether this call is the one. */
static bool refuses(const char *name) {
    const char *wanted = getenv("REFUSE");
    size_t length = strlen(name);
    if (wanted == NULL || strncmp(wanted, name, length) != 0 || wanted[length] != ' ') return false;
    if (strstr(wanted, " starting") != NULL && !atomic_load(&is_starting)) return false;
    if (strstr(wanted, " ready") != NULL && !atomic_load(&is_ready)) return false;
    if (atomic_fetch_add(&calls, 1) + 1 != atol(wanted + length)) return false;
    mark();
    return true;
}

void *malloc(size_t bytes) {
    if (!refuses("malloc")) return __libc_malloc(bytes);
    errno = ENOMEM;
    return NULL;
}

void *calloc(size_t count, size_t bytes) {
    if (!refuses("malloc")) return __libc_calloc(count, bytes);
    errno = ENOMEM;
    return NULL;
}

void *realloc(void *at, size_t bytes) {
    if (!refuses("malloc")) return __libc_realloc(at, bytes);
    errno = ENOMEM;
    return NULL;
}

/* A call of the system that answers -1 if it is refused. */
#define REFUSABLE(type, name, cause, parameters, arguments) \
    type name parameters { \
        static type(*real) parameters; \
        if (real == NULL) *(void **)&real = dlsym(RTLD_NEXT, #name); \
        if (!refuses(#name)) return real arguments; \
        errno = cause; \
        return -1; \
    }

REFUSABLE(int, accept4, EMFILE, (int fd, struct sockaddr *restrict at, socklen_t *restrict length, int flags),
          (fd, at, length, flags))
REFUSABLE(ssize_t, recv, ENOMEM, (int fd, void *to, size_t length, int flags), (fd, to, length, flags))
REFUSABLE(ssize_t, send, ENOBUFS, (int fd, const void *from, size_t length, int flags), (fd, from, length, flags))
REFUSABLE(int, epoll_ctl, ENOSPC, (int poll, int how, int fd, struct epoll_event *event), (poll, how, fd, event))
REFUSABLE(int, epoll_wait, EINTR, (int poll, struct epoll_event *events, int most, int time), (poll, events, most, time))
REFUSABLE(int, epoll_create1, EMFILE, (int flags), (flags))
REFUSABLE(int, eventfd, EMFILE, (unsigned first, int flags), (first, flags))
REFUSABLE(int, listen, EADDRINUSE, (int fd, int backlog), (fd, backlog))
REFUSABLE(int, socket, EMFILE, (int domain, int type, int protocol), (domain, type, protocol))

/* This one answers the cause itself. */
int pthread_setaffinity_np(pthread_t thread, size_t bytes, const cpu_set_t *set) {
    static int (*real)(pthread_t, size_t, const cpu_set_t *);
    if (real == NULL) *(void **)&real = dlsym(RTLD_NEXT, "pthread_setaffinity_np");
    return refuses("pthread_setaffinity_np") ? EPERM : real(thread, bytes, set);
}

int signalfd(int fd, const sigset_t *set, int flags) {
    static int (*real)(int, const sigset_t *, int);
    if (real == NULL) *(void **)&real = dlsym(RTLD_NEXT, "signalfd");
    atomic_store(&is_starting, true);
    return real(fd, set, flags);
}

ssize_t sendto(int fd, const void *from, size_t length, int flags, const struct sockaddr *to, socklen_t to_length) {
    static ssize_t (*real)(int, const void *, size_t, int, const struct sockaddr *, socklen_t);
    if (real == NULL) *(void **)&real = dlsym(RTLD_NEXT, "sendto");
    ssize_t sent = real(fd, from, length, flags, to, to_length);
    if (length == 7 && memcmp(from, "READY=1", 7) == 0) atomic_store(&is_ready, true);
    return sent;
}
