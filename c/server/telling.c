/* Messages on standard error, and what systemd is told. */
#define _GNU_SOURCE
#include "server.h"
#include <poll.h>
#include <stdio.h>
#include <stdlib.h>
#include <string.h>
#include <sys/socket.h>
#include <sys/stat.h>
#include <sys/un.h>
#include <time.h>
#include <unistd.h>

enum {
    HEAD_BYTES = 32,
    SHOWN_BYTES = 100,
    WAITING_BYTES = 1 << 18,
    AT_ONCE_BYTES = 4096, /* what a pipe takes whole or not at all */
    STACK_BYTES = 1 << 17,
    LAST_WAIT_MS = 500
};

/* The level of each kind of line, and the verbosity from which it is told. */
static const struct {
    const char *level;
    unsigned from;
} kinds[] = {[TELL_ERROR] = {"error", 0}, [TELL_NOTE] = {"warning", 0}, [TELL_FAULT] = {"warning", 1}, [TELL_EVENT] = {"info", 1},
             [TELL_STEP] = {"debug", VERBOSITY_MOST}};

static atomic_uint level_now;

void set_verbosity(unsigned level) {
    atomic_store_explicit(&level_now, level, memory_order_relaxed);
}

unsigned verbosity(void) {
    return atomic_load_explicit(&level_now, memory_order_relaxed);
}

/* ----------------------------------------------------------------------------------------------------- lines that wait */

/* Whole lines that wait for the thread that writes them: a ring of bytes. */
static struct {
    pthread_mutex_t lock;
    pthread_cond_t is_wanted, is_empty;
    atomic_bool has_writer;
    bool is_writing;
    size_t first, length;
    uint64_t lost; /* lines for which there was no room */
    char bytes[WAITING_BYTES];
} waiting = {.lock = PTHREAD_MUTEX_INITIALIZER, .is_wanted = PTHREAD_COND_INITIALIZER};

/* Puts a line after those that wait. False: there is no room. The lock is held. */
static bool put_line(const char *line, size_t length) {
    if (length > WAITING_BYTES - waiting.length) return false;
    size_t past = (waiting.first + waiting.length) % WAITING_BYTES, to_end = WAITING_BYTES - past;
    size_t front = length < to_end ? length : to_end;
    memcpy(waiting.bytes + past, line, front);
    memcpy(waiting.bytes, line + front, length - front);
    waiting.length += length;
    return true;
}

/* Says in their place how many lines were lost, once there is room. The lock is held. */
static void put_lost(void) {
    char line[LINE_BYTES];
    if (waiting.lost == 0) return;
    int length = snprintf(line, sizeof line, "kangarood: warning: %llu lines were not written: nobody read them in time\n",
                          (unsigned long long)waiting.lost);
    if (length > 0 && put_line(line, (size_t)length)) waiting.lost = 0;
}

static void hand_over_line(const char *line, size_t length) {
    pthread_mutex_lock(&waiting.lock);
    put_lost();
    if (waiting.lost != 0 || !put_line(line, length)) waiting.lost++;
    pthread_cond_signal(&waiting.is_wanted);
    pthread_mutex_unlock(&waiting.lock);
}

/* ------------------------------------------------------------------------------------------------ the thread that writes */

/* How many bytes go out at once: whole lines. The lock is held. */
static size_t length_at_once(void) {
    size_t length = waiting.length < AT_ONCE_BYTES ? waiting.length : AT_ONCE_BYTES;
    while (length != waiting.length && waiting.bytes[(waiting.first + length - 1) % WAITING_BYTES] != '\n') length--;
    return length;
}

/* Waits for lines, and takes some. */
static size_t take_lines(char to[AT_ONCE_BYTES]) {
    pthread_mutex_lock(&waiting.lock);
    waiting.is_writing = false;
    if (waiting.length == 0) put_lost();
    if (waiting.length == 0) pthread_cond_signal(&waiting.is_empty);
    while (waiting.length == 0) pthread_cond_wait(&waiting.is_wanted, &waiting.lock);
    size_t length = length_at_once();
    for (size_t i = 0; i < length; i++) to[i] = waiting.bytes[(waiting.first + i) % WAITING_BYTES];
    waiting.first = (waiting.first + length) % WAITING_BYTES;
    waiting.length -= length;
    waiting.is_writing = true;
    pthread_mutex_unlock(&waiting.lock);
    return length;
}

/* Writes bytes, however long that takes. If the system refuses, they are lost. */
static void write_all(const char *bytes, size_t length) {
    struct pollfd room = {.fd = STDERR_FILENO, .events = POLLOUT};
    while (length != 0) {
        ssize_t written = write(STDERR_FILENO, bytes, length);
        if (written < 0 && errno == EAGAIN) poll(&room, 1, -1); /* somebody has said that it is not to wait */
        else if (written < 0 && errno != EINTR) return;
        if (written <= 0) continue;
        bytes += written;
        length -= (size_t)written;
    }
}

static void *write_lines(void *nothing) {
    char lines[AT_ONCE_BYTES];
    for (;;) write_all(lines, take_lines(lines));
    return nothing;
}

static int start_writer(void) {
    pthread_t thread;
    pthread_attr_t how;
    int refused = pthread_attr_init(&how);
    if (refused != 0) return refused;
    pthread_attr_setstacksize(&how, STACK_BYTES);
    pthread_attr_setdetachstate(&how, PTHREAD_CREATE_DETACHED);
    refused = pthread_create(&thread, &how, write_lines, NULL);
    pthread_attr_destroy(&how);
    return refused;
}

/* The end of the wait is by a clock that nobody sets. */
static int init_is_empty(void) {
    pthread_condattr_t how;
    int refused = pthread_condattr_init(&how);
    if (refused != 0) return refused;
    pthread_condattr_setclock(&how, CLOCK_MONOTONIC);
    refused = pthread_cond_init(&waiting.is_empty, &how);
    pthread_condattr_destroy(&how);
    return refused;
}

/* A plain file has no reader, so it needs no thread: there a line is written before its client is answered. */
bool start_telling(void) {
    struct stat is;
    if (fstat(STDERR_FILENO, &is) != 0 || S_ISREG(is.st_mode)) return true;
    int refused = init_is_empty();
    if (refused == 0) refused = start_writer();
    atomic_store(&waiting.has_writer, refused == 0);
    errno = refused;
    return refused == 0;
}

void wait_until_told(void) {
    struct timespec end;
    int refused = 0;
    if (!atomic_load(&waiting.has_writer)) return;
    clock_gettime(CLOCK_MONOTONIC, &end);
    end.tv_nsec += LAST_WAIT_MS * 1000000;
    end.tv_sec += end.tv_nsec / 1000000000;
    end.tv_nsec %= 1000000000;
    pthread_mutex_lock(&waiting.lock);
    while (refused == 0 && (waiting.length != 0 || waiting.is_writing || waiting.lost != 0))
        refused = pthread_cond_timedwait(&waiting.is_empty, &waiting.lock, &end);
    pthread_mutex_unlock(&waiting.lock);
}

/* --------------------------------------------------------------------------------------------------------------- telling */

/* Puts a line of standard error together. */
static size_t spell_told(char line[LINE_BYTES], tell_kind kind, const char *format, va_list rest) {
    char head[HEAD_BYTES];
    snprintf(head, sizeof head, "kangarood: %s: ", kinds[kind].level);
    return spell_line(line, head, format, rest);
}

static void tell_errors(tell_kind kind, const char *format, va_list rest) {
    char line[LINE_BYTES];
    size_t length = spell_told(line, kind, format, rest);
    if (atomic_load_explicit(&waiting.has_writer, memory_order_acquire)) hand_over_line(line, length);
    else (void)!write(STDERR_FILENO, line, length);
}

/* Whoever starts the program is told what ends it, also if there is a log. */
static void tell_who_starts(tell_kind kind, const char *format, va_list rest) {
    char line[LINE_BYTES];
    if (kind == TELL_ERROR && errors_before() >= 0) (void)!write(errors_before(), line, spell_told(line, kind, format, rest));
}

void tell(tell_kind kind, const char *format, ...) {
    va_list rest, again;
    if (verbosity() < kinds[kind].from) return;
    va_start(rest, format);
    va_copy(again, rest);
    if (has_log()) {
        write_log(kinds[kind].level, format, rest);
        tell_who_starts(kind, format, again);
    } else tell_errors(kind, format, rest);
    va_end(again);
    va_end(rest);
}

void tell_bytes(tell_kind kind, int fd, char arrow, const void *bytes, size_t length) {
    char printed[SHOWN_BYTES + 1];
    const unsigned char *from = bytes;
    size_t count = 0;
    if (verbosity() < kinds[kind].from) return;
    while (count < length && count < SHOWN_BYTES && from[count] != '\r' && from[count] != '\n') {
        printed[count] = from[count] >= ' ' && from[count] <= '~' ? (char)from[count] : '.';
        count++;
    }
    printed[count] = 0;
    tell(kind, "%c%d %s%s", arrow, fd, printed, count == SHOWN_BYTES ? ".." : "");
}

void tell_systemd(const char *state) {
    const char *path = getenv("NOTIFY_SOCKET");
    struct sockaddr_un to = {.sun_family = AF_UNIX};
    if (path == NULL || (path[0] != '/' && path[0] != '@') || strlen(path) >= sizeof to.sun_path) return;
    size_t length = strlen(path);
    memcpy(to.sun_path, path, length);
    if (path[0] == '@') to.sun_path[0] = 0; /* a name that is in no folder */
    int fd = socket(AF_UNIX, SOCK_DGRAM | SOCK_CLOEXEC, 0);
    if (fd < 0) return;
    socklen_t bytes = (socklen_t)(offsetof(struct sockaddr_un, sun_path) + length);
    if (sendto(fd, state, strlen(state), MSG_NOSIGNAL, (struct sockaddr *)&to, bytes) < 0)
        tell(TELL_FAULT, "systemd was not told %s: %s", state, strerror(errno));
    close(fd);
}
