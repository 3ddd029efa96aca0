/* The file of --log, and the form of a line. While there is such a file it is this process's standard error, so what the C library
 * or a sanitizer says before it ends the program is there too. */
#define _GNU_SOURCE
#include "server.h"
#include <fcntl.h>
#include <stdio.h>
#include <string.h>
#include <sys/stat.h>
#include <time.h>
#include <unistd.h>

enum {
    HOW_IT_OPENS = O_WRONLY | O_APPEND | O_CREAT | O_CLOEXEC | O_NOCTTY | O_NONBLOCK, /* a pipe that nobody reads is not waited for */
    MODE_OF_LOG = 0600,
    HEAD_BYTES = 64
};

/* The lock is held from a line's time to its end: times go up in the file, and a line is in one file. */
static struct {
    pthread_mutex_t lock;
    bool is_there;       /* set before another thread runs */
    int errors_before;   /* what standard error was; NO_FILE once the server serves */
    bool is_cut;         /* the last line was written in part */
    uint64_t lost;       /* lines that the system did not take, */
    int cause;           /* and why not the last one */
} to_file = {.lock = PTHREAD_MUTEX_INITIALIZER, .errors_before = NO_FILE};

/* --------------------------------------------------------------------------------------------------------------- the file */

/* Has standard error be a file from now on. NULL, or why not: then it is what it was. */
static const char *become_errors(const char *path) {
    struct stat is;
    int file = open(path, HOW_IT_OPENS, MODE_OF_LOG);
    if (file < 0) return strerror(errno);
    const char *against = fstat(file, &is) == 0 && S_ISREG(is.st_mode) ? NULL : "it is no plain file";
    if (against == NULL && dup2(file, STDERR_FILENO) < 0) against = strerror(errno);
    if (file != STDERR_FILENO) close(file);
    return against;
}

bool has_log(void) {
    return to_file.is_there;
}

const char *open_log(const char *path) {
    to_file.errors_before = fcntl(STDERR_FILENO, F_DUPFD_CLOEXEC, STDERR_FILENO + 1);
    const char *against = become_errors(path);
    to_file.is_there = against == NULL;
    if (against != NULL) leave_errors_before();
    return against;
}

const char *reopen_log(const char *path) {
    pthread_mutex_lock(&to_file.lock);
    const char *against = become_errors(path);
    pthread_mutex_unlock(&to_file.lock);
    return against;
}

int errors_before(void) {
    return to_file.errors_before;
}

void leave_errors_before(void) {
    if (to_file.errors_before >= 0) close(to_file.errors_before);
    to_file.errors_before = NO_FILE;
}

/* ------------------------------------------------------------------------------------------------------------------ lines */

size_t spell_line(char to[LINE_BYTES], const char *head, const char *format, va_list rest) {
    int before = snprintf(to, LINE_BYTES - 1, "%s", head);
    int after = vsnprintf(to + before, LINE_BYTES - 1 - (size_t)before, format, rest);
    size_t length = (size_t)before + (size_t)(after > 0 ? after : 0);
    if (length > LINE_BYTES - 2) length = LINE_BYTES - 2;
    to[length] = '\n';
    return length + 1;
}

/* What a line of the file begins with: the wall clock's time of now, and a level. */
static void spell_head(char to[HEAD_BYTES], const char *level) {
    struct timespec now;
    struct tm at;
    clock_gettime(CLOCK_REALTIME, &now);
    gmtime_r(&now.tv_sec, &at);
    size_t length = strftime(to, HEAD_BYTES, "%Y-%m-%dT%H:%M:%S", &at);
    snprintf(to + length, HEAD_BYTES - length, ".%03dZ %s ", (int)(now.tv_nsec / 1000000), level);
}

/* Writes a line, after the end of one that was cut short. False: the system did not take all of it, and errno says why. */
static bool write_whole(const char *line, size_t length) {
    if (to_file.is_cut && write(STDERR_FILENO, "\n", 1) != 1) return false;
    ssize_t written = write(STDERR_FILENO, line, length);
    to_file.is_cut = written > 0 && (size_t)written < length;
    if (to_file.is_cut) errno = ENOSPC;
    return written == (ssize_t)length;
}

/* Writes a line of the file. The lock is held. */
static bool write_line(const char *level, const char *format, va_list rest) {
    char head[HEAD_BYTES], line[LINE_BYTES];
    spell_head(head, level);
    return write_whole(line, spell_line(line, head, format, rest));
}

/* Says in their place how many lines were lost. False: the system takes no line. */
static bool write_lost(const char *format, ...) __attribute__((format(printf, 1, 2)));
static bool write_lost(const char *format, ...) {
    va_list rest;
    va_start(rest, format);
    bool is_written = write_line("warning", format, rest);
    va_end(rest);
    return is_written;
}

void write_log(const char *level, const char *format, va_list rest) {
    pthread_mutex_lock(&to_file.lock);
    bool is_well = to_file.lost == 0 || write_lost("%llu lines were not written: %s", (unsigned long long)to_file.lost,
                                                   strerror(to_file.cause));
    if (is_well) to_file.lost = 0;
    if (!is_well || !write_line(level, format, rest)) {
        to_file.cause = errno;
        to_file.lost++;
    }
    pthread_mutex_unlock(&to_file.lock);
}
