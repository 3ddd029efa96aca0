/* What the tests share, linked into each. test.h says what each function is for. */
#include "test.h"
#include <stdarg.h>

void show(const char *format, ...) {
    va_list given;
    va_start(given, format);
    printf("  ");
    vprintf(format, given);
    printf("\n");
    va_end(given);
    fflush(stdout);
}

void expect(bool is_so, const char *what) {
    if (is_so) return;
    printf("  FAILED: %s (errno %d)\n", what, errno);
    fflush(stdout);
    _exit(1);
}

void expect_status(kangaroo_status is, kangaroo_status wanted, const char *what) {
    if (is == wanted) return;
    printf("  FAILED: %s: %d (%s), and not %d\n", what, is, kangaroo_strerror(is), wanted);
    fflush(stdout);
    _exit(1);
}

bool is_quick(void) {
    const char *word = getenv("QUICK");
    return word != NULL && word[0] != 0 && word[0] != '0';
}

bool is_sanitized(void) {
#ifdef SANITIZED
    return true;
#else
    return false;
#endif
}

void make_folder(char path[PATH_BYTES]) {
    const char *at = getenv("TMPDIR");
    snprintf(path, PATH_BYTES, "%s/kangaroo-test-XXXXXX", at != NULL && at[0] != 0 ? at : "/tmp");
    expect(mkdtemp(path) != NULL, "a folder for the test");
}

void remove_folder(const char *path) {
    DIR *list = opendir(path);
    struct dirent *entry;
    while (list != NULL && (entry = readdir(list)) != NULL) unlinkat(dirfd(list), entry->d_name, 0);
    if (list != NULL) closedir(list);
    rmdir(path);
}

void path_in(const char *folder, const char *name, char path[2 * PATH_BYTES]) {
    snprintf(path, (size_t)2 * PATH_BYTES, "%s/%s", folder, name);
}

kangaroo_options small_options(void) {
    kangaroo_options options;
    expect_status(kangaroo_options_init(&options, sizeof options), KANGAROO_OK, "init");
    options.shards = 1;
    options.lanes = 4;
    options.sets = 63;
    options.memory_objects = 100;
    options.segments = 8;
    options.segment_pages = 2;
    options.log_objects = 1000;
    return options;
}

kangaroo_cache *open_with(const kangaroo_options *options, const char *folder) {
    kangaroo_cache *cache = NULL;
    int cause = 0;
    kangaroo_status status = kangaroo_open(options, folder, &cache, &cause);
    errno = cause;
    expect_status(status, KANGAROO_OK, "open");
    expect(cache != NULL && cause == 0, "an open cache, and no errno");
    return cache;
}

kangaroo_cache *open_lanes_of(const char *folder, uint32_t lanes, uint32_t threads) {
    kangaroo_options options = small_options();
    options.lanes = lanes;
    options.sets = 255;
    options.upkeep_threads = threads;
    return open_with(&options, folder);
}

kangaroo_cache *open_small(const char *folder) {
    kangaroo_options options = small_options();
    return open_with(&options, folder);
}

void close_cache(kangaroo_cache *cache) {
    expect_status(kangaroo_close(cache), KANGAROO_OK, "close");
}

void put_text(kangaroo_cache *cache, const char *key, const char *value) {
    expect_status(kangaroo_put(cache, key, strlen(key), value, strlen(value), KANGAROO_NEVER), KANGAROO_OK, "a put");
}

/* What a get of a text gives. */
static kangaroo_status get_text(kangaroo_cache *cache, const char *key, char *value, size_t room) {
    kangaroo_hit hit;
    kangaroo_status status = kangaroo_get(cache, key, strlen(key), 0, value, room - 1, &hit);
    value[status == KANGAROO_OK ? hit.length : 0] = 0;
    return status;
}

bool hits_text(kangaroo_cache *cache, const char *key, const char *wanted) {
    char value[KANGAROO_VALUE_MAX + 1];
    return get_text(cache, key, value, sizeof value) == KANGAROO_OK && strcmp(value, wanted) == 0;
}

long number_of_process(const char *file, const char *name) {
    char line[256];
    long number = -1;
    FILE *from = fopen(file, "r");
    expect(from != NULL, file);
    while (fgets(line, sizeof line, from) != NULL)
        if (strncmp(line, name, strlen(name)) == 0 && line[strlen(name)] == ':') number = atol(line + strlen(name) + 1);
    fclose(from);
    return number;
}

long own_memory(void) {
    return number_of_process("/proc/self/status", "RssAnon");
}

int open_descriptors(void) {
    int count = 0;
    DIR *list = opendir("/proc/self/fd");
    expect(list != NULL, "/proc/self/fd");
    while (readdir(list) != NULL) count++;
    closedir(list);
    return count - 3; /* . and .. and the list's own */
}

uint32_t next_random(uint32_t *state) {
    *state ^= *state << 13;
    *state ^= *state >> 17;
    *state ^= *state << 5;
    return *state;
}
