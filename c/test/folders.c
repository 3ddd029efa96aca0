/* The folder of a cache: what is refused of it, what the files are, and that a disk that is too small is told at open. */
#include "test.h"
#include <sys/mount.h>
#include <sys/resource.h>
#include <sys/wait.h>

/* What an open is refused with. */
static void expect_refused(const kangaroo_options *options, const char *folder, int wanted, const char *what) {
    kangaroo_cache *cache = (kangaroo_cache *)&cache;
    int cause = 0;
    expect_status(kangaroo_open(options, folder, &cache, &cause), KANGAROO_SYSTEM, what);
    expect(cache == NULL, "no handle");
    errno = cause;
    expect(cause == wanted, what);
}

static void shows_wrong_folders(const char *folder) {
    kangaroo_options options = small_options();
    char path[2 * PATH_BYTES], *longest = malloc(PATH_MAX + 2);
    int descriptors = open_descriptors();
    path_in(folder, "absent", path);
    expect_refused(&options, path, ENOENT, "an absent folder");
    path_in(folder, "file", path);
    close(open(path, O_CREAT | O_WRONLY, 0600));
    expect_refused(&options, path, ENOTDIR, "a file");
    expect_refused(&options, "", ENOENT, "no name");
    expect(longest != NULL, "memory");
    memset(longest, 'x', PATH_MAX + 1);
    longest[PATH_MAX + 1] = 0;
    expect_refused(&options, longest, ENAMETOOLONG, "a name that is too long");
    free(longest);
    unlink(path);
    expect(open_descriptors() == descriptors, "no descriptor is left open");
    show("a folder that is absent, a file, or has too long a name");
}

/* Opens as a user who may not write there. The child ends with the errno. */
static int errno_as_nobody(const kangaroo_options *options, const char *folder) {
    int status = 0;
    pid_t child = fork();
    if (child == 0) {
        kangaroo_cache *cache;
        int cause = 0;
        if (geteuid() == 0 && (setgid(65534) != 0 || setuid(65534) != 0)) _exit(254);
        _exit(kangaroo_open(options, folder, &cache, &cause) == KANGAROO_SYSTEM ? cause : 255);
    }
    expect(child > 0 && waitpid(child, &status, 0) == child && WIFEXITED(status), "a child");
    return WEXITSTATUS(status);
}

static void shows_read_only(const char *folder) {
    kangaroo_options options = small_options();
    expect(chmod(folder, 0555) == 0, "chmod");
    expect(errno_as_nobody(&options, folder) == EACCES, "a folder that may not be written");
    expect(chmod(folder, 0) == 0, "chmod");
    expect(errno_as_nobody(&options, folder) == EACCES, "a folder that may not be read");
    expect(chmod(folder, 0700) == 0, "chmod");
    show("a folder that may not be written, or not be read: EACCES");
}

static void shows_files(const char *folder) {
    kangaroo_options options = small_options();
    kangaroo_sizes sizes;
    struct stat is;
    char path[2 * PATH_BYTES];
    static const char *const left[] = {"kangaroo-4.dev", "kangaroo-77.dev"};
    static const char *const others[] = {"kangaroo-04.dev", "kangaroo-4.device", "kangaroo-x.dev", "notes"};
    for (int i = 0; i < 2; i++) path_in(folder, left[i], path), close(open(path, O_CREAT | O_WRONLY, 0600));
    for (int i = 0; i < 4; i++) path_in(folder, others[i], path), close(open(path, O_CREAT | O_WRONLY, 0600));
    expect_status(kangaroo_sizes_of(&options, &sizes, sizeof sizes), KANGAROO_OK, "sizes");
    kangaroo_cache *cache = open_with(&options, folder);
    uint64_t bytes = 0, blocks = 0;
    for (int i = 0; i < 4; i++) {
        char name[32];
        snprintf(name, sizeof name, "kangaroo-%d.dev", i);
        path_in(folder, name, path);
        expect(stat(path, &is) == 0 && S_ISREG(is.st_mode) && (is.st_mode & 0777) == 0600, "a file of mode 0600");
        bytes += (uint64_t)is.st_size;
        blocks += (uint64_t)is.st_blocks * 512;
    }
    expect(bytes == sizes.file_bytes && blocks >= bytes && sizes.files == 5, "the bytes of sizes_of, reserved");
    for (int i = 0; i < 2; i++) path_in(folder, left[i], path), expect(stat(path, &is) != 0, "a larger cache's file goes");
    for (int i = 0; i < 4; i++) path_in(folder, others[i], path), expect(stat(path, &is) == 0, "other files stay");
    close_cache(cache);
    options.flags = KANGAROO_SPARSE;
    cache = open_with(&options, folder);
    path_in(folder, "kangaroo-0.dev", path);
    expect(stat(path, &is) == 0 && is.st_blocks == 0, "no block is reserved where it is declined");
    close_cache(cache);
    show("files of mode 0600 and of just the bytes of sizes_of, reserved, or not where it is declined; a larger cache's go");
}

static void shows_wrong_files(const char *folder) {
    kangaroo_options options = small_options();
    char path[2 * PATH_BYTES], victim[2 * PATH_BYTES];
    struct stat is;
    path_in(folder, "notes", victim);
    int file = open(victim, O_CREAT | O_WRONLY, 0600);
    expect(write(file, "mine", 4) == 4 && close(file) == 0, "a file of somebody's");
    path_in(folder, "kangaroo-1.dev", path);
    unlink(path);
    expect(symlink(victim, path) == 0, "a link");
    expect_refused(&options, folder, ELOOP, "a link in the place of a lane's file");
    expect(stat(victim, &is) == 0 && is.st_size == 4, "what it leads to is left alone");
    expect(unlink(path) == 0, "the link itself too");
    expect(mkfifo(path, 0600) == 0, "a pipe");
    expect_refused(&options, folder, EINVAL, "a pipe in the place of a lane's file");
    unlink(path);
    show("a link or a pipe in the place of a lane's file is refused, and left alone");
}

/* Makes a file of four bytes with a mode. */
static void make_file(const char *path, mode_t mode) {
    int file = open(path, O_CREAT | O_EXCL | O_WRONLY, 0600);
    expect(write(file, "mine", 4) == 4 && fchmod(file, mode) == 0 && close(file) == 0, "a file of somebody's");
}

/* Whether a file has its four bytes still. */
static bool is_untouched(const char *path) {
    struct stat is;
    return stat(path, &is) == 0 && is.st_size == 4;
}

static void shows_files_with_other_names(const char *folder) {
    kangaroo_options options = small_options();
    char path[2 * PATH_BYTES], victim[2 * PATH_BYTES];
    static const char *const names[] = {"kangaroo.lock", "kangaroo-1.dev"};
    path_in(folder, "mine", victim);
    make_file(victim, 0600);
    for (int i = 0; i < 2; i++) {
        path_in(folder, names[i], path);
        unlink(path);
        expect(link(victim, path) == 0, "another name");
        expect_refused(&options, folder, EMLINK, "a file with another name");
        expect(is_untouched(victim), "it is left alone");
        unlink(path);
    }
    unlink(victim);
    show("a file of the cache that has another name too is refused, and left alone: EMLINK");
}

static void shows_files_of_others(const char *folder) {
    kangaroo_options options = small_options();
    char path[2 * PATH_BYTES];
    static const char *const names[] = {"kangaroo.lock", "kangaroo-1.dev"};
    for (int i = 0; i < 2; i++) {
        path_in(folder, names[i], path);
        unlink(path);
        make_file(path, 0666);
        if (chown(path, 65534, 65534) != 0) {
            unlink(path);
            show("no file of another user can be made here: not shown");
            return;
        }
        expect_refused(&options, folder, EPERM, "another user's file");
        expect(is_untouched(path), "it is left alone");
        unlink(path);
    }
    show("another user's file is refused, and left alone: EPERM");
}

/* Who opened a file while its mode let them has nothing of the cache. */
static void shows_files_open_to_others(const char *folder) {
    kangaroo_options options = small_options();
    char lane[2 * PATH_BYTES], lock[2 * PATH_BYTES];
    struct stat was, is;
    path_in(folder, "kangaroo-1.dev", lane);
    path_in(folder, "kangaroo.lock", lock);
    unlink(lane), unlink(lock);
    make_file(lane, 0640);
    make_file(lock, 0606);
    int before = open(lane, O_RDONLY);
    kangaroo_cache *cache = open_with(&options, folder);
    expect(stat(lane, &is) == 0 && (is.st_mode & 07777) == 0600, "the lane's file has mode 0600");
    expect(fstat(before, &was) == 0 && was.st_ino != is.st_ino && was.st_nlink == 0 && was.st_size == 4, "it is a new one");
    expect(stat(lock, &is) == 0 && (is.st_mode & 07777) == 0600, "the lock's file has mode 0600");
    close_cache(cache);
    close(before);
    show("a file that others can open is made anew, the lock's gets mode 0600");
}

/* Whether the mapping of a file has a flag of the system's. */
static bool mapping_has_flag(const char *name, const char *flag) {
    char line[2 * PATH_BYTES];
    bool is_here = false, has_flag = false;
    FILE *maps = fopen("/proc/self/smaps", "r");
    expect(maps != NULL, "the mappings");
    while (fgets(line, sizeof line, maps) != NULL) {
        if (strstr(line, name) != NULL) is_here = true;
        if (strncmp(line, "VmFlags:", 8) != 0) continue;
        if (is_here && strstr(line, flag) != NULL) has_flag = true;
        is_here = false;
    }
    fclose(maps);
    return has_flag;
}

static void shows_dumps(const char *folder) {
    kangaroo_cache *cache = open_small(folder);
    for (int i = 0; i < 4; i++) {
        char name[32];
        snprintf(name, sizeof name, "/kangaroo-%d.dev", i);
        expect(mapping_has_flag(name, " dd"), "the file is left out of a core dump");
    }
    close_cache(cache);
    show("the mapped files are left out of core dumps");
}

static void shows_no_descriptors(const char *folder) {
    kangaroo_options options = small_options();
    struct rlimit before, few;
    expect(getrlimit(RLIMIT_NOFILE, &before) == 0, "the limit");
    for (rlim_t more = 0; more < 4; more++) {
        few = before;
        few.rlim_cur = 3 + more;
        expect(setrlimit(RLIMIT_NOFILE, &few) == 0, "a limit");
        kangaroo_cache *cache = NULL;
        int cause = 0;
        kangaroo_status status = kangaroo_open(&options, folder, &cache, &cause);
        setrlimit(RLIMIT_NOFILE, &before);
        if (status == KANGAROO_OK) close_cache(cache);
        else expect(status == KANGAROO_SYSTEM && cause == EMFILE, "EMFILE");
        expect(more != 0 || status != KANGAROO_OK, "no descriptor at all");
    }
    kangaroo_cache *cache = open_with(&options, folder);
    int open_ones = open_descriptors();
    close_cache(cache);
    expect(open_descriptors() == open_ones - 1, "one descriptor is kept open");
    show("too few descriptors: EMFILE; an open cache keeps one");
}

/* A file system of 1 MiB, for a cache of some 1.3. */
static void shows_a_small_disk(const char *folder) {
    kangaroo_options options = small_options();
    kangaroo_cache *cache;
    char path[2 * PATH_BYTES];
    struct stat is;
    if (mount("none", folder, "tmpfs", 0, "size=1m") != 0) {
        show("no small disk can be mounted here: not shown");
        return;
    }
    expect_refused(&options, folder, ENOSPC, "too small a disk");
    for (int i = 0; i < 4; i++) {
        char name[32];
        snprintf(name, sizeof name, "kangaroo-%d.dev", i);
        path_in(folder, name, path);
        expect(stat(path, &is) != 0 || is.st_blocks == 0, "the disk is not left full");
    }
    options.sets = 7;
    cache = open_with(&options, folder);
    put_text(cache, "a", "b");
    expect(hits_text(cache, "a", "b"), "a smaller cache works there");
    close_cache(cache);
    umount(folder);
    show("too small a disk: ENOSPC at open, and it is not left full");
}

int main(void) {
    char folder[PATH_BYTES];
    make_folder(folder);
    shows_wrong_folders(folder);
    shows_read_only(folder);
    shows_files(folder);
    shows_wrong_files(folder);
    shows_files_with_other_names(folder);
    shows_files_of_others(folder);
    shows_files_open_to_others(folder);
    shows_dumps(folder);
    shows_no_descriptors(folder);
    shows_a_small_disk(folder);
    remove_folder(folder);
    return 0;
}
