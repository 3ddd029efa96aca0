/* A cache before sqlite: readers miss, read the database, and fill by the lease of their miss; a writer commits, and
 * then removes. No read gives a value that is older than a write that had returned before it.
 *
 * cc before_sqlite.c $(pkg-config --cflags --libs kangaroo) -lsqlite3 && ./a.out FOLDER */
#include <kangaroo.h>
#include <sqlite3.h>
#include <stdio.h>
#include <stdlib.h>
#include <string.h>

enum { ROWS = 1000, CALLS = 50000 };

typedef struct store {
    sqlite3 *database;
    sqlite3_stmt *select, *replace;
    kangaroo_cache *cache;
    long asked; /* how often the database was read */
} store;

static void stop(const char *what) {
    fprintf(stderr, "%s\n", what);
    exit(1);
}

/* Reads a row of the database: its length, or -1 where there is none. */
static int read_row(store *of, const char *key, char *value) {
    int length = -1;
    of->asked++;
    sqlite3_bind_text(of->select, 1, key, -1, SQLITE_STATIC);
    if (sqlite3_step(of->select) == SQLITE_ROW) {
        length = sqlite3_column_bytes(of->select, 0);
        if (length <= KANGAROO_VALUE_MAX) memcpy(value, sqlite3_column_blob(of->select, 0), (size_t)length);
        else length = -1; /* none of this program's rows is so long */
    }
    sqlite3_reset(of->select);
    return length;
}

/* Gets a value: from the cache, or else from the database. A fill that is stale or refused is just not kept. */
static int get(store *of, const char *key, char *value) {
    kangaroo_hit hit;
    kangaroo_lease lease;
    size_t n = strlen(key);
    kangaroo_status status = kangaroo_get_or_lease(of->cache, key, n, 0, value, KANGAROO_VALUE_MAX, &hit, &lease);
    if (status == KANGAROO_OK) return (int)hit.length;
    int length = read_row(of, key, value); /* behind the miss: what is committed by now */
    if (length >= 0) kangaroo_fill(of->cache, &lease, key, n, value, (size_t)length, KANGAROO_NEVER);
    else kangaroo_lease_drop(of->cache, &lease);
    return length;
}

/* Writes a value: to the database first, and then the removal. It is refused for a misuse alone. */
static void put(store *of, const char *key, const char *value) {
    sqlite3_bind_text(of->replace, 1, key, -1, SQLITE_STATIC);
    sqlite3_bind_blob(of->replace, 2, value, (int)strlen(value), SQLITE_STATIC);
    if (sqlite3_step(of->replace) != SQLITE_DONE) stop("the database refused a write");
    sqlite3_reset(of->replace);
    if (kangaroo_remove(of->cache, key, strlen(key)) != KANGAROO_OK) stop("an old value may be left");
}

static void open_store(store *of, const char *folder) {
    kangaroo_options options;
    int cause = 0;
    kangaroo_options_init(&options, sizeof options);
    options.flash_bytes = 16 << 20;
    options.memory_bytes = 16 << 20;
    kangaroo_status status = kangaroo_open(&options, folder, &of->cache, &cause);
    if (status != KANGAROO_OK) stop(status == KANGAROO_SYSTEM ? strerror(cause) : kangaroo_strerror(status));
    if (sqlite3_open(":memory:", &of->database) != SQLITE_OK) stop("no database");
    sqlite3_exec(of->database, "create table t (k text primary key, v blob)", NULL, NULL, NULL);
    sqlite3_prepare_v2(of->database, "select v from t where k = ?", -1, &of->select, NULL);
    sqlite3_prepare_v2(of->database, "insert or replace into t values (?, ?)", -1, &of->replace, NULL);
    if (of->select == NULL || of->replace == NULL) stop("no statement");
}

int main(int count, char **words) {
    char key[32], wanted[32], value[KANGAROO_VALUE_MAX];
    static int versions[ROWS];
    long wrong = 0, writes = 0;
    store of = {0};
    if (count != 2) stop("before_sqlite FOLDER: a folder for the cache's files");
    open_store(&of, words[1]);
    for (int i = 0; i < CALLS; i++) {
        int row = rand() % ROWS;
        snprintf(key, sizeof key, "row %d", row);
        snprintf(wanted, sizeof wanted, "version %d", versions[row] + (i % 10 == 0));
        if (i % 10 == 0) {
            versions[row]++;
            put(&of, key, wanted);
            writes++;
        } else {
            int length = get(&of, key, value), none = versions[row] == 0;
            wrong += none ? length != -1 : length != (int)strlen(wanted) || memcmp(value, wanted, strlen(wanted)) != 0;
        }
    }
    printf("%ld writes, %ld reads: %ld asked the database, %ld were wrong\n", writes, CALLS - writes, of.asked, wrong);
    sqlite3_finalize(of.select);
    sqlite3_finalize(of.replace);
    sqlite3_close(of.database);
    kangaroo_close(of.cache);
    return wrong != 0;
}
