/* Counts, and the lines of stats. Names are memcached's where they mean the same; the cache's own come after them, as
 * kangaroo_ and the name that kangaroo.h has. */
#define _GNU_SOURCE
#include "server.h"
#include <arpa/inet.h>
#include <stdarg.h>
#include <stdio.h>
#include <string.h>
#include <sys/resource.h>
#include <sys/socket.h>
#include <sys/un.h>
#include <unistd.h>

enum { STAT_BYTES = 512, ADDRESS_BYTES = 160, ROOM_AT_ONCE = 65536 };

/* ---------------------------------------------------------------------------------------------------------------- counts */

/* Only the worker itself writes its counts. */
void count_up(worker *by, count_number which, uint64_t more) {
    atomic_uint_least64_t *of = &by->counts.of[which];
    atomic_store_explicit(of, atomic_load_explicit(of, memory_order_relaxed) + more, memory_order_relaxed);
}

#define OF(name) ((uint32_t)1 << COUNT_##name)
_Static_assert(COUNT_NUMBERS <= 32, "a set of counts has a bit for each");
#define ALL_STORES OF(cmd_set)
#define STORES \
    { \
        [KS_STORED] = ALL_STORES | OF(total_items), [KS_NOT_STORED] = ALL_STORES, [KS_EXISTS] = ALL_STORES, \
        [KS_MISS] = ALL_STORES, [KS_TOO_LARGE] = OF(store_too_large), [KS_NO_MEMORY] = ALL_STORES | OF(store_no_memory) \
    }
enum { COMMANDS = KS_META_DEBUG + 1, OUTCOMES = KS_LOST + 1 };
static const uint32_t counted[COMMANDS][OUTCOMES] = {
    [KS_GET] = {[KS_HIT] = OF(cmd_get) | OF(get_hits), [KS_MISS] = OF(cmd_get) | OF(get_misses)},
    [KS_GAT] = {[KS_HIT] = OF(cmd_get) | OF(get_hits) | OF(cmd_touch) | OF(touch_hits),
                [KS_TOUCHED] = OF(cmd_get) | OF(get_hits) | OF(cmd_touch) | OF(touch_hits),
                [KS_MISS] = OF(cmd_get) | OF(get_misses) | OF(cmd_touch) | OF(touch_misses),
                [KS_NO_MEMORY] = OF(cmd_get) | OF(cmd_touch) | OF(store_no_memory)},
    [KS_SET] = STORES,
    [KS_ADD] = STORES,
    [KS_REPLACE] = STORES,
    [KS_APPEND] = STORES,
    [KS_PREPEND] = STORES,
    [KS_CAS] = {[KS_STORED] = OF(cmd_set) | OF(cas_hits) | OF(total_items),
                [KS_EXISTS] = OF(cmd_set) | OF(cas_badval),
                [KS_MISS] = OF(cmd_set) | OF(cas_misses),
                [KS_TOO_LARGE] = OF(store_too_large),
                [KS_NO_MEMORY] = OF(cmd_set) | OF(store_no_memory)},
    [KS_DELETE] = {[KS_DELETED] = OF(delete_hits), [KS_MISS] = OF(delete_misses)},
    [KS_INCR] = {[KS_COUNTED] = OF(incr_hits), [KS_MISS] = OF(incr_misses), [KS_NO_MEMORY] = OF(store_no_memory)},
    [KS_DECR] = {[KS_COUNTED] = OF(decr_hits), [KS_MISS] = OF(decr_misses), [KS_NO_MEMORY] = OF(store_no_memory)},
    [KS_TOUCH] = {[KS_TOUCHED] = OF(cmd_touch) | OF(touch_hits),
                  [KS_MISS] = OF(cmd_touch) | OF(touch_misses),
                  [KS_NO_MEMORY] = OF(cmd_touch) | OF(store_no_memory)},
    [KS_FLUSH_ALL] = {[KS_NOTHING] = OF(cmd_flush), [KS_REFUSED] = OF(cmd_flush)},
    [KS_META_GET] = {[KS_HIT] = OF(cmd_meta) | OF(cmd_get) | OF(get_hits),
                     [KS_MISS] = OF(cmd_meta) | OF(cmd_get) | OF(get_misses)},
    [KS_META_SET] = {[KS_STORED] = OF(cmd_meta) | OF(cmd_set) | OF(total_items),
                     [KS_NOT_STORED] = OF(cmd_meta) | OF(cmd_set),
                     [KS_EXISTS] = OF(cmd_meta) | OF(cmd_set) | OF(cas_badval),
                     [KS_MISS] = OF(cmd_meta) | OF(cmd_set) | OF(cas_misses),
                     [KS_TOO_LARGE] = OF(cmd_meta) | OF(store_too_large),
                     [KS_NO_MEMORY] = OF(cmd_meta) | OF(cmd_set) | OF(store_no_memory)},
    [KS_META_DELETE] = {[KS_DELETED] = OF(cmd_meta) | OF(delete_hits),
                        [KS_MISS] = OF(cmd_meta) | OF(delete_misses),
                        [KS_EXISTS] = OF(cmd_meta) | OF(delete_misses)},
    [KS_META_ARITHMETIC] = {[KS_COUNTED] = OF(cmd_meta), [KS_MISS] = OF(cmd_meta), [KS_STORED] = OF(cmd_meta),
                            [KS_EXISTS] = OF(cmd_meta), [KS_NOT_NUMBER] = OF(cmd_meta)},
    [KS_META_DEBUG] = {[KS_HIT] = OF(cmd_meta), [KS_MISS] = OF(cmd_meta)},
};

void count_step(worker *by, const ks_done *done) {
    if (done->command >= COMMANDS || done->outcome >= OUTCOMES) return;
    for (uint32_t set = counted[done->command][done->outcome]; set != 0; set &= set - 1)
        count_up(by, (count_number)__builtin_ctz(set), 1);
}

static uint64_t sum_of(server *of, size_t which) {
    uint64_t sum = 0;
    for (uint64_t i = 0; i < of->settings.threads; i++)
        sum += atomic_load_explicit(&of->workers[i].counts.of[which], memory_order_relaxed);
    return sum;
}

/* ------------------------------------------------------------------------------------------------------ what the cache has */

/* What the cache counts, and what it takes and holds: for objects of the size that it was opened for, and for those of the size that
 * was stored on average. */
typedef struct known {
    kangaroo_counters counted;
    kangaroo_sizes of_options, of_stored;
    uint64_t stored_bytes; /* of an object, on average: key, value and what the server keeps of an item */
} known;

static uint64_t less(uint64_t from, uint64_t what) {
    return from > what ? from - what : 0;
}

static uint64_t least(uint64_t one, uint64_t other) {
    return one < other ? one : other;
}

/* What cannot be had is all zeros: the calls are refused for wrong arguments alone. */
static void read_known(server *of, known *to) {
    kangaroo_options options = of->options;
    *to = (known){0};
    (void)kangaroo_counters_read(of->cache, &to->counted, sizeof to->counted);
    (void)kangaroo_sizes_of(&options, &to->of_options, sizeof to->of_options);
    uint64_t stored = to->counted.puts + to->counted.fills_stored;
    to->stored_bytes = stored != 0 ? to->counted.bytes_put / stored : options.object_bytes;
    options.object_bytes = (uint32_t)to->stored_bytes;
    (void)kangaroo_sizes_of(&options, &to->of_stored, sizeof to->of_stored);
}

/* How many objects moved from the log to a set. Those that left it because their key was stored anew or removed are counted too. */
static uint64_t moved(const known *of) {
    return less(of->counted.logged, of->counted.dropped + of->counted.log_objects_now);
}

/* An estimate: of those that moved to sets, as many as there is room for. */
static uint64_t items(const known *of) {
    uint64_t in_sets = least(moved(of), of->of_stored.set_objects);
    return of->counted.memory_objects_now + of->counted.log_objects_now + in_sets;
}

/* An estimate: those that are counted as lost for want of room, and those that moved to sets beyond their room. It never falls. */
static uint64_t evicted(const known *of) {
    const kangaroo_counters *is = &of->counted;
    return is->declined + is->log_full + is->index_full + is->dropped + less(moved(of), of->of_options.set_objects);
}

/* An estimate of the memory that the cache has taken. */
static uint64_t memory_taken(const known *of) {
    const kangaroo_sizes *is = &of->of_options;
    uint64_t objects = least(of->counted.memory_objects_now, is->memory_objects);
    if (is->memory_objects == 0) return is->memory_fixed;
    return is->memory_fixed + (is->memory_full - is->memory_fixed) / is->memory_objects * objects;
}

static void reset(server *of) {
    for (size_t i = 0; i < COUNT_NUMBERS; i++) atomic_store(&of->at_reset.of[i], sum_of(of, i));
    atomic_store(&of->total_conns, 0);
    atomic_store(&of->rejected_conns, 0);
    known now;
    read_known(of, &now);
    atomic_store(&of->evicted_at_reset, evicted(&now));
    atomic_store(&of->expired_at_reset, now.counted.expired);
}

/* ----------------------------------------------------------------------------------------------------------------- lines */

/* Where lines are written: once memory was refused, no more are. */
typedef struct lines {
    buffer *to;
    bool is_refused;
} lines;

static void line(lines *of, const char *name, const char *format, ...) __attribute__((format(printf, 3, 4)));
static void line(lines *of, const char *name, const char *format, ...) {
    char text[STAT_BYTES];
    va_list rest;
    int before = snprintf(text, sizeof text, "STAT %s ", name);
    va_start(rest, format);
    int after = vsnprintf(text + before, sizeof text - 2 - (size_t)before, format, rest);
    va_end(rest);
    size_t length = (size_t)(before + after);
    if (length > sizeof text - 3) length = sizeof text - 3;
    memcpy(text + length, "\r\n", 2);
    if (of->to->room - of->to->length < sizeof text && !make_room(of->to, ROOM_AT_ONCE)) of->is_refused = true;
    if (!of->is_refused) append_bytes(of->to, text, length + 2);
}

static void number_line(lines *of, const char *name, uint64_t number) {
    line(of, name, "%llu", (unsigned long long)number);
}

static void time_line(lines *of, const char *name, struct timeval it) {
    line(of, name, "%ld.%06ld", (long)it.tv_sec, (long)it.tv_usec);
}

/* --------------------------------------------------------------------------------------------------------------- general */

static void lines_of_process(lines *to, server *of) {
    struct rusage use;
    uint64_t now = moment_now();
    getrusage(RUSAGE_SELF, &use);
    number_line(to, "pid", (uint64_t)getpid());
    number_line(to, "uptime", now - of->started);
    number_line(to, "time", now);
    line(to, "version", SERVED_VERSION);
    line(to, "kangaroo_version", "%.*s", (int)strcspn(kangaroo_build(), " "), kangaroo_build());
    number_line(to, "pointer_size", 8 * sizeof(void *));
    time_line(to, "rusage_user", use.ru_utime);
    time_line(to, "rusage_system", use.ru_stime);
}

static void lines_of_counts(lines *to, server *of) {
#define NAME_OF(name) #name,
    static const char *const names[] = {COUNTS(NAME_OF)};
#undef NAME_OF
    for (size_t i = 0; i < COUNT_NUMBERS; i++) number_line(to, names[i], sum_of(of, i) - atomic_load(&of->at_reset.of[i]));
}

static void lines_of_clients(lines *to, server *of) {
    number_line(to, "max_connections", of->settings.conns);
    number_line(to, "curr_connections", atomic_load(&of->curr_conns));
    number_line(to, "total_connections", atomic_load(&of->total_conns));
    number_line(to, "rejected_connections", atomic_load(&of->rejected_conns));
    number_line(to, "connection_structures", atomic_load(&of->shown_count));
    number_line(to, "accepting_conns", 1);
    number_line(to, "listen_disabled_num", 0); /* it never stops to accept */
    number_line(to, "threads", of->settings.threads);
}

/* What memcached tells of its items. What nobody here counts is 0. */
static void lines_of_items(lines *to, server *of, const known *is) {
    static const char *const uncounted[] = {"get_flushed", "expired_unfetched", "evicted_unfetched", "reclaimed",
                                            "hash_power_level", "hash_bytes", "hash_is_expanding"};
    number_line(to, "limit_maxbytes", (of->settings.memory_mib << 20) + is->of_options.file_bytes);
    number_line(to, "bytes", items(is) * is->stored_bytes);
    number_line(to, "curr_items", items(is));
    number_line(to, "evictions", less(evicted(is), atomic_load(&of->evicted_at_reset)));
    number_line(to, "get_expired", is->counted.expired - atomic_load(&of->expired_at_reset));
    for (size_t i = 0; i < sizeof uncounted / sizeof *uncounted; i++) number_line(to, uncounted[i], 0);
}

static void lines_of_counters(lines *to, const kangaroo_counters *all) {
    uint64_t each[sizeof *all / sizeof(uint64_t)];
    memcpy(each, all, sizeof each);
    for (size_t i = 0; i < sizeof each / sizeof *each; i++) {
        char name[64];
        snprintf(name, sizeof name, "kangaroo_%s", kangaroo_counter_name(i));
        number_line(to, name, each[i]);
    }
}

static void general(lines *to, server *of) {
    known is;
    read_known(of, &is);
    lines_of_process(to, of);
    lines_of_clients(to, of);
    lines_of_counts(to, of);
    lines_of_items(to, of, &is);
    lines_of_counters(to, &is.counted);
}

/* Clients that know slabs are told of none. */
static void slabs(lines *to, server *of) {
    known is;
    read_known(of, &is);
    number_line(to, "active_slabs", 0);
    number_line(to, "total_malloced", memory_taken(&is));
}

/* -------------------------------------------------------------------------------------------------------------- settings */

static const char *yes_or_no(uint64_t is_so) {
    return is_so != 0 ? "yes" : "no";
}

static void of_network(lines *to, const settings *of) {
    bool is_unix = of->socket_path != NULL;
    number_line(to, "tcpport", is_unix ? 0 : of->port);
    number_line(to, "udpport", 0);
    line(to, "inter", "%s", is_unix ? "NULL" : of->listen);
    line(to, "domain_socket", "%s", is_unix ? of->socket_path : "NULL");
    line(to, "umask", "%llo", (unsigned long long)of->socket_mode);
    number_line(to, "tcp_backlog", of->backlog);
    number_line(to, "maxconns", of->conns);
    line(to, "maxconns_fast", "yes");
    number_line(to, "idle_timeout", of->idle_seconds);
    line(to, "binding_protocol", "ascii");
    line(to, "auth_enabled_sasl", "no");
    line(to, "auth_enabled_ascii", "no");
}

static void of_settings(lines *to, const server *of) {
    const settings *is = &of->settings;
    number_line(to, "maxbytes", is->memory_mib << 20);
    of_network(to, is);
    number_line(to, "verbosity", verbosity());
    line(to, "evictions", "on");
    line(to, "shutdown_command", "%s", yes_or_no(is->may_shut_down));
    line(to, "flush_enabled", "%s", yes_or_no(is->no_flush == 0));
    line(to, "dump_enabled", "no");
    line(to, "cas_enabled", "yes");
    number_line(to, "num_threads", is->threads);
    number_line(to, "item_size_max", KANGAROO_VALUE_MAX - ITEM_HEAD_BYTES);
    line(to, "folder", "%s", is->folder);
    number_line(to, "flash_bytes", is->flash_bytes);
    number_line(to, "object_bytes", is->object_bytes);
    number_line(to, "admit", of->options.admit);
    number_line(to, "threshold", of->options.threshold);
    number_line(to, "bring_back", of->options.bring_back);
    number_line(to, "upkeep_threads", is->upkeep_threads);
    number_line(to, "lanes", (uint64_t)of->options.shards * of->options.lanes);
}

/* ----------------------------------------------------------------------------------------------------------------- conns */

typedef int name_of_end(int, struct sockaddr *restrict, socklen_t *restrict);

/* The address of one end of a connection, as memcached spells it. */
static void spell_address(int fd, name_of_end *ask, const settings *of, char to[ADDRESS_BYTES]) {
    struct sockaddr_storage at = {0};
    socklen_t length = sizeof at;
    char host[INET6_ADDRSTRLEN] = "?";
    const struct sockaddr_in *four = (struct sockaddr_in *)&at;
    const struct sockaddr_in6 *six = (struct sockaddr_in6 *)&at;
    if (ask(fd, (struct sockaddr *)&at, &length) != 0) at.ss_family = AF_UNSPEC;
    if (at.ss_family == AF_INET) {
        inet_ntop(AF_INET, &four->sin_addr, host, sizeof host);
        snprintf(to, ADDRESS_BYTES, "tcp:%s:%u", host, (unsigned)ntohs(four->sin_port));
    } else if (at.ss_family == AF_INET6) {
        inet_ntop(AF_INET6, &six->sin6_addr, host, sizeof host);
        snprintf(to, ADDRESS_BYTES, "tcp6:[%s]:%u", host, (unsigned)ntohs(six->sin6_port));
    } else if (at.ss_family == AF_UNIX) {
        snprintf(to, ADDRESS_BYTES, "unix:%s", of->socket_path != NULL ? of->socket_path : "?");
    } else snprintf(to, ADDRESS_BYTES, "?");
}

/* What is told of a socket. */
typedef struct told_socket {
    const char *state;
    uint64_t last_moment; /* when its client last asked */
    char address[ADDRESS_BYTES], listens[ADDRESS_BYTES];
} told_socket;

static void line_of_socket(lines *to, uint32_t fd, const char *what, const char *value) {
    char name[48];
    snprintf(name, sizeof name, "%u:%s", (unsigned)fd, what);
    line(to, name, "%s", value);
}

static void lines_of_socket(lines *to, uint32_t fd, const told_socket *it) {
    char seconds[24];
    snprintf(seconds, sizeof seconds, "%llu", (unsigned long long)less(moment_now(), it->last_moment));
    line_of_socket(to, fd, "addr", it->address);
    line_of_socket(to, fd, "listen_addr", it->listens);
    line_of_socket(to, fd, "state", it->state);
    line_of_socket(to, fd, "secs_since_last_cmd", seconds);
}

static void lines_of_listener(lines *to, const server *of, int fd) {
    told_socket it = {.state = "conn_listening", .last_moment = of->started};
    spell_address(fd, getsockname, &of->settings, it.address);
    spell_address(fd, getsockname, &of->settings, it.listens);
    lines_of_socket(to, (uint32_t)fd, &it);
}

/* The lines of a descriptor. False: no client has it, or another one had it before all was read: then what was read is of both. */
static bool lines_of_client(lines *to, const server *of, uint32_t fd) {
    static const char *const states[] = {
        [CONN_WAITS] = "conn_read", [CONN_HALF] = "conn_nread", [CONN_SENDS] = "conn_mwrite", [CONN_SERVED] = "conn_parse_cmd"};
    showing *shows = &of->shown[fd];
    unsigned changes = atomic_load(&shows->changes);
    if (changes % 2 == 0) return false;
    told_socket it = {.state = states[atomic_load(&shows->state)], .last_moment = atomic_load(&shows->last_moment)};
    spell_address((int)fd, getpeername, &of->settings, it.address);
    spell_address((int)fd, getsockname, &of->settings, it.listens);
    if (atomic_load(&shows->changes) != changes) return false;
    lines_of_socket(to, fd, &it);
    return true;
}

static void look(worker *by, uint32_t looks) {
    by->looks_left -= (uint32_t)least(by->looks_left, looks);
}

/* The lines of the next socket that is shown to a client: of those that listen, and then of all descriptors that clients had. False:
 * there is none left. */
static bool next_socket(lines *to, worker *by, conn *of) {
    const server *all = by->of;
    uint32_t listeners = (uint32_t)all->listener_count, end = listeners + atomic_load(&all->shown_end);
    bool is_shown = false;
    while (!is_shown && by->looks_left != 0 && of->looked_at < end) {
        uint32_t at = of->looked_at++;
        is_shown = at < listeners || lines_of_client(to, all, at - listeners);
        if (at < listeners) lines_of_listener(to, all, all->listeners[at]);
        look(by, is_shown ? LOOKS_OF_LINES : 1);
    }
    if (is_shown || of->looked_at < end) return true;
    of->looked_at = 0;
    return false;
}

static void lines_of(lines *to, server *of, ks_stats which) {
    switch (which) {
    case KS_STATS_GENERAL: general(to, of); break;
    case KS_STATS_SETTINGS: of_settings(to, of); break;
    case KS_STATS_SLABS: slabs(to, of); break;
    case KS_STATS_SIZES: line(to, "sizes_status", "disabled"); break;
    case KS_STATS_RESET: reset(of); break;
    case KS_STATS_CONNS: case KS_STATS_ITEMS: case KS_STATS_UNKNOWN: case KS_STATS_CACHEDUMP: case KS_STATS_DETAIL:
    case KS_STATS_WRONG_DETAIL: default: break;
    }
}

bool write_stats(worker *by, conn *of, ks_stats which, bool *is_all) {
    lines to = {.to = &by->answers};
    *is_all = by->looks_left != 0;
    if (!*is_all) return true;
    if (which == KS_STATS_CONNS) *is_all = !next_socket(&to, by, of);
    else {
        lines_of(&to, by->of, which);
        look(by, LOOKS_OF_LINES);
    }
    return !to.is_refused;
}
