/* Refuses memory to the program that it is loaded into: see refuse_memory.py. */
#define _GNU_SOURCE
#include <dlfcn.h>
#include <errno.h>
#include <malloc.h>
#include <stdlib.h>
#include <unistd.h>

static size_t requests;

static size_t number(const char *name) {
    const char *text = getenv(name);
    return text ? strtoull(text, NULL, 10) : 0;
}

/* Whether a request is refused: the one with this number, or each of more bytes than this. A byte on the
   descriptor of REFUSE_TOLD tells it. */
static int refused(size_t bytes) {
    size_t at = number("REFUSE_AT"), above = number("REFUSE_ABOVE");
    size_t mine = __atomic_add_fetch(&requests, 1, __ATOMIC_SEQ_CST);
    if (mine != at && (above == 0 || bytes <= above))
        return 0;
    write((int)number("REFUSE_TOLD"), "x", 1);
    errno = ENOMEM;
    return 1;
}

void *malloc(size_t bytes) {
    static void *(*next)(size_t);
    if (!next)
        next = dlsym(RTLD_NEXT, "malloc");
    return refused(bytes) ? NULL : next(bytes);
}

/* A block that does not grow is no request. */
void *realloc(void *old, size_t bytes) {
    static void *(*next)(void *, size_t);
    if (!next)
        next = dlsym(RTLD_NEXT, "realloc");
    if (old && bytes <= malloc_usable_size(old))
        return next(old, bytes);
    return refused(bytes) ? NULL : next(old, bytes);
}
