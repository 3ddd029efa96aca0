/* Refuses a read or a write to the program that it is loaded into, or cuts it short: see refuse_io.py. */
#define _GNU_SOURCE
#include <dlfcn.h>
#include <errno.h>
#include <stdlib.h>
#include <sys/syscall.h>
#include <unistd.h>

static size_t calls;

static int number(const char *name) {
    const char *text = getenv(name);
    return text ? atoi(text) : 0;
}

/* Whether this call is the one that is met, or one of each so many calls of a device. Its letter on the descriptor of
   REFUSE_TOLD tells it. */
static int is_met(char letter) {
    static int at, each;
    if (!at && !each) {
        each = number("REFUSE_EACH");
        at = number("REFUSE_AT");
    }
    if (each && letter != 'p' && letter != 'q')
        return 0;
    size_t mine = __atomic_add_fetch(&calls, 1, __ATOMIC_SEQ_CST);
    if (each ? mine % each : mine != (size_t)at)
        return 0;
    syscall(SYS_write, number("REFUSE_TOLD"), &letter, 1);
    return 1;
}

/* How many bytes are asked for in place of these, or -1 where the call is refused with the error of REFUSE_ERROR. */
static ssize_t asked(char letter, size_t bytes) {
    if (!is_met(letter))
        return bytes;
    if (number("REFUSE_ERROR") == 0)
        return bytes / 2;
    errno = number("REFUSE_ERROR");
    return -1;
}

ssize_t read(int file, void *into, size_t bytes) {
    ssize_t some = asked('r', bytes);
    return some < 0 ? -1 : syscall(SYS_read, file, into, some);
}

ssize_t write(int file, const void *from, size_t bytes) {
    ssize_t some = asked('w', bytes);
    return some < 0 ? -1 : syscall(SYS_write, file, from, some);
}

/* The library's own reading and writing calls this one. */
ssize_t __write(int file, const void *from, size_t bytes) {
    return write(file, from, bytes);
}

ssize_t pread(int file, void *into, size_t bytes, off_t at) {
    ssize_t some = asked('p', bytes);
    return some < 0 ? -1 : syscall(SYS_pread64, file, into, some, at);
}

ssize_t pwrite(int file, const void *from, size_t bytes, off_t at) {
    ssize_t some = asked('q', bytes);
    return some < 0 ? -1 : syscall(SYS_pwrite64, file, from, some, at);
}
