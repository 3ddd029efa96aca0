/* The files of a cache: the lock of the folder, and a mapped file for each lane. */
#define _GNU_SOURCE
#include "inside.h"
#include <dirent.h>
#include <fcntl.h>
#include <stdio.h>
#include <stdlib.h>
#include <string.h>
#include <sys/mman.h>
#include <sys/stat.h>
#include <unistd.h>

#define LOCK_NAME "kangaroo.lock"

enum { OWNER_ALONE = 0600, OF_OTHERS = S_IRWXG | S_IRWXO };

/* Why a file is not taken, by the errno that an open is refused with; 0: it is taken. The owner of somebody else's could
 * read it, and what is kept by another name would be lost. */
static int cause_against(const struct stat *is) {
    if (!S_ISREG(is->st_mode)) return EINVAL;
    if (is->st_uid != geteuid()) return EPERM;
    return is->st_nlink > 1 ? EMLINK : 0;
}

/* Tests an open file, of which nothing was changed yet. Otherwise it is closed. */
static outcome test_file(int file, struct stat *is) {
    int cause = fstat(file, is) == 0 ? cause_against(is) : errno;
    if (cause == 0) return outcome_of(KANGAROO_OK);
    close(file);
    return refused_with(cause);
}

/* Opens a file of the cache, which is made if it is absent. A link is not followed, and a pipe is not waited for. */
static outcome open_file(int folder, const char *name, int *to, struct stat *is) {
    int flags = O_RDWR | O_CREAT | O_CLOEXEC | O_NOFOLLOW | O_NONBLOCK;
    int file;
    do file = openat(folder, name, flags, OWNER_ALONE);
    while (file < 0 && errno == EINTR);
    if (file < 0) return refused_with(errno);
    outcome tested = test_file(file, is);
    if (is_done(tested)) *to = file;
    return tested;
}

/* Makes a lane's file anew that others could open until now, since one who has it open would read on. It is refused if
 * others can open it again: the file system keeps no modes. */
static outcome replace_file(int folder, const char *name, int *file) {
    struct stat is;
    close(*file);
    *file = NO_FILE;
    if (unlinkat(folder, name, 0) != 0) return refused_with(errno);
    outcome opened = open_file(folder, name, file, &is);
    if (!is_done(opened) || (is.st_mode & OF_OTHERS) == 0) return opened;
    close(*file);
    return refused_with(EPERM);
}

static outcome open_lane_file(int folder, const char *name, int *to) {
    struct stat is;
    outcome opened = open_file(folder, name, to, &is);
    if (!is_done(opened) || (is.st_mode & OF_OTHERS) == 0) return opened;
    return replace_file(folder, name, to);
}

/* The lock's file is not made anew: another cache may have it. */
static outcome open_lock_file(int folder, int *to) {
    struct stat is;
    outcome opened = open_file(folder, LOCK_NAME, to, &is);
    if (!is_done(opened) || (is.st_mode & OF_OTHERS) == 0 || fchmod(*to, OWNER_ALONE) == 0) return opened;
    outcome refused = refused_with(errno);
    close(*to);
    return refused;
}

/* The lock belongs to the open file and not to the process: so a second cache of this process is refused too, and the
 * lock goes with the last descriptor. */
static outcome take_lock(int file) {
    struct flock whole = {.l_type = F_WRLCK, .l_whence = SEEK_SET};
    if (fcntl(file, F_OFD_SETLK, &whole) == 0) return outcome_of(KANGAROO_OK);
    return errno == EAGAIN || errno == EACCES ? outcome_of(KANGAROO_IN_USE) : refused_with(errno);
}

outcome lock_folder(int folder, int *lock_file) {
    int file = NO_FILE;
    outcome opened = open_lock_file(folder, &file);
    if (!is_done(opened)) return opened;
    outcome locked = take_lock(file);
    if (is_done(locked)) *lock_file = file;
    else close(file);
    return locked;
}

static void name_of_lane_file(uint32_t number, char name[FILE_NAME_BYTES]) {
    snprintf(name, FILE_NAME_BYTES, "kangaroo-%u.dev", (unsigned)number);
}

/* Whether a name is that of a lane's file from a number on. A name that only looks like one is left alone. */
static bool is_lane_file_from(const char *name, uint32_t first) {
    char spelled[FILE_NAME_BYTES];
    unsigned number;
    if (sscanf(name, "kangaroo-%9u", &number) != 1) return false;
    name_of_lane_file(number, spelled);
    return number >= first && strcmp(spelled, name) == 0;
}

/* readdir tells its end from a refusal by errno alone. */
static outcome remove_those_from(DIR *list, int folder, uint32_t first) {
    for (;;) {
        errno = 0;
        struct dirent *entry = readdir(list);
        if (entry == NULL) return errno == 0 ? outcome_of(KANGAROO_OK) : refused_with(errno);
        if (is_lane_file_from(entry->d_name, first) && unlinkat(folder, entry->d_name, 0) != 0 && errno != ENOENT)
            return refused_with(errno);
    }
}

/* Lists a folder by a descriptor of its own: closing the list closes that one. */
static outcome open_list(int folder, DIR **list) {
    int again = openat(folder, ".", O_RDONLY | O_DIRECTORY | O_CLOEXEC);
    if (again < 0) return refused_with(errno);
    *list = fdopendir(again);
    if (*list != NULL) return outcome_of(KANGAROO_OK);
    outcome refused = refused_with(errno);
    close(again);
    return refused;
}

/* Removes what a cache with more lanes left. */
outcome remove_files_from(int folder, uint32_t first) {
    DIR *list = NULL;
    outcome opened = open_list(folder, &list);
    if (!is_done(opened)) return opened;
    outcome removed = remove_those_from(list, folder, first);
    closedir(list);
    return removed;
}

/* Makes a file zeros of so many bytes, with blocks of its own unless it is sparse. */
static outcome size_file(int file, size_t bytes, bool is_sparse) {
    int refused;
    if (ftruncate(file, 0) != 0 || ftruncate(file, (off_t)bytes) != 0) return refused_with(errno);
    if (is_sparse) return outcome_of(KANGAROO_OK);
    do refused = fallocate(file, 0, 0, (off_t)bytes);
    while (refused != 0 && errno == EINTR);
    return refused == 0 ? outcome_of(KANGAROO_OK) : refused_with(errno);
}

/* Takes a file's blocks from it, which a refused reservation may have left. If that is refused too, they stay. */
static void give_blocks_back(int file) {
    (void)!ftruncate(file, 0);
}

/* Says how the pages of a mapping are used. They are asked for one at a time, so the system is not to read ahead. A
 * forked child does not get the mapping, so it cannot write the parent's cache. A core dump is to leave them out: a system
 * that refuses this is no reason not to open. */
static outcome advise(void *at, size_t bytes) {
    (void)!madvise(at, bytes, MADV_DONTDUMP);
    bool is_told = madvise(at, bytes, MADV_RANDOM) == 0 && madvise(at, bytes, MADV_DONTFORK) == 0;
    return is_told ? outcome_of(KANGAROO_OK) : refused_with(errno);
}

static outcome map_file(int file, size_t bytes, mapping *to) {
    void *at = mmap(NULL, bytes, PROT_READ | PROT_WRITE, MAP_SHARED, file, 0);
    if (at == MAP_FAILED) return refused_with(errno);
    outcome advised = advise(at, bytes);
    if (is_done(advised)) *to = (mapping){at, bytes};
    else munmap(at, bytes);
    return advised;
}

outcome map_lane_file(int folder, uint32_t number, size_t bytes, bool is_sparse, mapping *to) {
    char name[FILE_NAME_BYTES];
    int file = NO_FILE;
    name_of_lane_file(number, name);
    outcome is = open_lane_file(folder, name, &file);
    if (!is_done(is)) return is;
    is = size_file(file, bytes, is_sparse);
    if (is_done(is)) is = map_file(file, bytes, to);
    if (!is_done(is)) give_blocks_back(file);
    close(file); /* a mapping stays */
    return is;
}

void remove_lane_file(int folder, uint32_t number) {
    char name[FILE_NAME_BYTES];
    name_of_lane_file(number, name);
    unlinkat(folder, name, 0);
}

/* What speaks against a file of the cache by this name, in words, or NULL. One that others may open is made anew, so it
 * counts only if that was refused. */
static const char *words_against(int folder, const char *name, int cause) {
    struct stat is;
    if (fstatat(folder, name, &is, AT_SYMLINK_NOFOLLOW) != 0) return NULL;
    switch (cause_against(&is)) {
    case EINVAL: return "is no plain file";
    case EPERM: return "belongs to another user";
    case EMLINK: return "has another name too";
    default: return cause == EPERM && (is.st_mode & OF_OTHERS) != 0 ? "can be opened by others" : NULL;
    }
}

const char *find_refused_file(const char *path, uint32_t lane_count, int cause, char name[FILE_NAME_BYTES]) {
    int folder = open(path, O_PATH | O_DIRECTORY | O_CLOEXEC);
    if (folder < 0) return NULL;
    strcpy(name, LOCK_NAME);
    const char *words = words_against(folder, name, cause);
    for (uint32_t i = 0; words == NULL && i < lane_count; i++) {
        name_of_lane_file(i, name);
        words = words_against(folder, name, cause);
    }
    close(folder);
    return words;
}

void unmap(mapping *file) {
    if (file->at != NULL) munmap(file->at, file->bytes);
    *file = (mapping){NULL, 0};
}
