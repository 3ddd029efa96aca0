/* test.h: what the tests share. A test prints a line for each thing that it showed, and ends with status 0; or it names
 * what failed and ends with 1. */
#ifndef KANGAROO_TEST_H
#define KANGAROO_TEST_H

#ifndef _GNU_SOURCE
#define _GNU_SOURCE
#endif
#include "kangaroo.h"
#include <dirent.h>
#include <errno.h>
#include <fcntl.h>
#include <limits.h>
#include <stdbool.h>
#include <stdio.h>
#include <stdlib.h>
#include <string.h>
#include <sys/stat.h>
#include <unistd.h>

enum { PATH_BYTES = 512 };

/* Prints what was shown. */
__attribute__((format(printf, 1, 2))) void show(const char *format, ...);
/* Ends the test if something is not so. */
void expect(bool is_so, const char *what);
/* Ends the test if a status is not the one that is wanted. */
void expect_status(kangaroo_status is, kangaroo_status wanted, const char *what);

/* Whether the long tests are to be short. */
bool is_quick(void);
/* Whether a sanitizer runs: it takes memory and threads of its own, and catches signals. */
bool is_sanitized(void);

/* Makes a new folder; TMPDIR says where. */
void make_folder(char path[PATH_BYTES]);
/* Removes a folder and the files in it. */
void remove_folder(const char *path);
/* Spells the path of a file in a folder. */
void path_in(const char *folder, const char *name, char path[2 * PATH_BYTES]);

/* Options of a small cache: 4 lanes of 63 sets, 100 objects in memory, and a log of 8 segments of 2 pages. */
kangaroo_options small_options(void);
/* Opens a cache, or ends the test. */
kangaroo_cache *open_with(const kangaroo_options *options, const char *folder);
/* The same with small_options, but for so many lanes of 255 sets, and so many threads that tend them. */
kangaroo_cache *open_lanes_of(const char *folder, uint32_t lanes, uint32_t threads);
/* Opens a small cache. */
kangaroo_cache *open_small(const char *folder);
/* Closes a cache, or ends the test. */
void close_cache(kangaroo_cache *cache);
/* Puts a text that does not expire. */
void put_text(kangaroo_cache *cache, const char *key, const char *value);
/* Whether a get hits exactly this text. */
bool hits_text(kangaroo_cache *cache, const char *key, const char *wanted);

/* A number of /proc/self/status, or of another process. */
long number_of_process(const char *file, const char *name);
/* KiB of memory that are the process's own: mapped files do not count. */
long own_memory(void);
/* Open descriptors of this process. */
int open_descriptors(void);

/* Random numbers, the same in each run (Marsaglia 2003). */
uint32_t next_random(uint32_t *state);

#endif
