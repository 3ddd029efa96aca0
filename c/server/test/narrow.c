/* narrow.c: laid before a program by LD_PRELOAD, it changes how the system takes what the program sends. If NARROW says how many
 * bytes, of two sends one is refused, as if the reader had no room, and the other takes at most so many. So each answer that is long
 * goes out in many parts, and a reader has always taken something between two of them. If HOLD_SENDS names a file, a send waits as
 * long as the file is there, 20 s at most, and makes a file of this name and ".held". */
#define _GNU_SOURCE
#include <dlfcn.h>
#include <errno.h>
#include <fcntl.h>
#include <stdatomic.h>
#include <stdio.h>
#include <stdlib.h>
#include <sys/socket.h>
#include <unistd.h>

enum { PATH_BYTES = 512, PAUSES_MAX = 20000, PAUSE_US = 1000 };

static atomic_uint sends;

static size_t most(void) {
    const char *wanted = getenv("NARROW");
    return wanted == NULL ? (size_t)-1 : (size_t)atol(wanted);
}

static void make_file(const char *name, const char *ending) {
    char path[PATH_BYTES];
    snprintf(path, sizeof path, "%s%s", name, ending);
    int file = open(path, O_WRONLY | O_CREAT | O_CLOEXEC, 0600);
    if (file >= 0) close(file);
}

static void wait_if_held(void) {
    const char *name = getenv("HOLD_SENDS");
    if (name == NULL || access(name, F_OK) != 0) return;
    make_file(name, ".held");
    for (int i = 0; i < PAUSES_MAX && access(name, F_OK) == 0; i++) usleep(PAUSE_US);
}

ssize_t send(int fd, const void *from, size_t length, int flags) {
    static ssize_t (*real)(int, const void *, size_t, int);
    if (real == NULL) *(void **)&real = dlsym(RTLD_NEXT, "send");
    wait_if_held();
    if (most() != (size_t)-1 && atomic_fetch_add(&sends, 1) % 2 == 0) {
        errno = EAGAIN;
        return -1;
    }
    return real(fd, from, length < most() ? length : most(), flags);
}
