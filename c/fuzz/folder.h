/* folder.h: a folder for the files of a target's cache, which is removed when the target ends. */
#ifndef KANGAROO_FUZZ_FOLDER_H
#define KANGAROO_FUZZ_FOLDER_H

#include "fuzz.h"
#include <dirent.h>
#include <fcntl.h>
#include <unistd.h>

enum { PATH_BYTES = 256 };

static char folder[PATH_BYTES];

static void remove_folder(void) {
    DIR *list = opendir(folder);
    struct dirent *entry;
    while (list != NULL && (entry = readdir(list)) != NULL) unlinkat(dirfd(list), entry->d_name, 0);
    if (list != NULL) closedir(list);
    rmdir(folder);
}

/* Makes the folder, below TMPDIR or else in memory, if it is not there. */
static void make_folder(void) {
    const char *at = getenv("TMPDIR");
    if (folder[0] != 0) return;
    snprintf(folder, sizeof folder, "%s/kangaroo-fuzz-XXXXXX", at != NULL && at[0] != 0 ? at : "/dev/shm");
    expect(mkdtemp(folder) != NULL, "a folder");
    atexit(remove_folder);
}

#endif
