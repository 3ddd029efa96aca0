/* The files beside those of the cache: the socket's and the pid file. Another server may have the same names: a start that is
 * refused leaves its files as they are, and a stop removes only what is still this server's. */
#define _GNU_SOURCE
#include "server.h"
#include <fcntl.h>
#include <stdio.h>
#include <string.h>
#include <sys/stat.h>
#include <unistd.h>

/* -------------------------------------------------------------------------------------------------- what is one's own */

int open_folder_of(const char *path, int flags) {
    char folder[PATH_MAX];
    const char *slash = strrchr(path, '/');
    size_t length = slash == NULL ? 0 : (size_t)(slash - path);
    if (length >= sizeof folder) {
        errno = ENAMETOOLONG;
        return NO_FILE;
    }
    snprintf(folder, sizeof folder, "%.*s", (int)length, path);
    return open(slash == NULL ? "." : slash == path ? "/" : folder, flags | O_DIRECTORY | O_CLOEXEC);
}

bool note_file(own_file *to, int folder, const char *name) {
    struct stat is;
    if (fstatat(folder, name, &is, AT_SYMLINK_NOFOLLOW) != 0) return false;
    *to = (own_file){.folder = folder, .name = name, .device = is.st_dev, .number = is.st_ino};
    return true;
}

static bool is_own(const own_file *of, const struct stat *is) {
    return is->st_dev == of->device && is->st_ino == of->number;
}

void remove_file(own_file *of, char option, const char *path) {
    struct stat is;
    if (of->name == NULL) return;
    bool is_there = fstatat(of->folder, of->name, &is, AT_SYMLINK_NOFOLLOW) == 0;
    if (is_there && !is_own(of, &is))
        tell(TELL_FAULT, "-%c %s: it is not removed, since it is another's by now", option, path);
    else if (!is_there || unlinkat(of->folder, of->name, 0) != 0)
        tell(TELL_FAULT, "-%c %s: %s", option, path, strerror(errno));
    of->name = NULL;
}

/* -------------------------------------------------------------------------------------------------------- the pid file */

static bool refuse_pid_file(const char *path, const char *why) {
    tell(TELL_ERROR, "-P %s: %s", path, why);
    return false;
}

static const char *name_in(const char *path) {
    const char *slash = strrchr(path, '/');
    return slash == NULL ? path : slash + 1;
}

/* A device, a pipe or a folder is not replaced by the pid file, as it would be by root for -P /dev/null. */
static bool may_be_replaced(const pid_file *it, const char *name) {
    struct stat is;
    if (fstatat(it->folder, name, &is, AT_SYMLINK_NOFOLLOW) != 0) return true;
    return S_ISREG(is.st_mode) || S_ISLNK(is.st_mode);
}

/* Makes the file by a random name. */
static bool write_pid_file(pid_file *to, const char *name) {
    unsigned long long number = 0;
    int flags = O_WRONLY | O_CREAT | O_EXCL | O_NOFOLLOW | O_CLOEXEC;
    outcome drawn = draw_random(&number, sizeof number);
    errno = drawn.cause;
    if (!is_done(drawn)) return false;
    snprintf(to->name_before, sizeof to->name_before, "%.200s.%016llx", name, number);
    to->file = openat(to->folder, to->name_before, flags, 0644);
    if (to->file < 0 || !note_file(&to->own, to->folder, to->name_before)) return false;
    return dprintf(to->file, "%ld\n", (long)getpid()) > 0;
}

bool make_pid_file(pid_file *to, const char *path) {
    if (path == NULL) return true;
    const char *name = name_in(path);
    to->folder = open_folder_of(path, O_PATH);
    if (to->folder < 0) return refuse_pid_file(path, strerror(errno));
    if (name[0] == 0 || !may_be_replaced(to, name)) return refuse_pid_file(path, "this is no plain file: give another name");
    return write_pid_file(to, name) || refuse_pid_file(path, strerror(errno));
}

bool place_pid_file(pid_file *of, const char *path) {
    if (path == NULL) return true;
    const char *name = name_in(path);
    if (renameat(of->folder, of->name_before, of->folder, name) != 0) return refuse_pid_file(path, strerror(errno));
    of->own.name = name;
    return true;
}

/* While the file is open no other gets its number. */
void remove_pid_file(pid_file *of, const char *path) {
    remove_file(&of->own, 'P', path);
    if (of->file >= 0) close(of->file);
    if (of->folder >= 0) close(of->folder);
}
