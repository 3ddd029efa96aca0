/* server.h: what the files of kangarood share. kangarood serves a cache by memcached's text protocol. What a client's bytes
 * ask for, what that does to a lane, and what is answered, is decided by the proved part (session.h). Here are sockets,
 * threads, locks, options and counts. Each file uses only those above it in this list:
 *   logs.c       the file of --log
 *   telling.c    messages, and what systemd is told
 *   files.c      the files beside those of the cache: the socket's and the pid file
 *   options.c    the command line
 *   buffers.c    bytes that wait
 *   slow.c       requests that took long
 *   steps.c      one step of a session, in a hold of its key's lane; cas numbers, and flush_all
 *   stats.c      counts, and the lines of stats
 *   conns.c      a connection: reading, answering, waiting
 *   workers.c    the threads that serve connections
 *   listening.c  sockets that listen, the program's own or systemd's, and the accepting of connections
 *   main.c       start and stop */
#ifndef KANGAROO_SERVER_H
#define KANGAROO_SERVER_H

#include "../inside.h"
#include "../session.h"
#include <limits.h>
#include <stdarg.h>
#include <sys/types.h>

#define SERVED_VERSION "1.6.18" /* of memcached: in stats, and as the sessions answer version */

enum {
    READ_BYTES = 16384,      /* read at once from a client */
    ANSWERS_ENOUGH = 65536,  /* with so many bytes to send no further step is made */
    LOOKS_A_TURN = 4096,     /* so many descriptors stats conns looks at in a turn, */
    LOOKS_OF_LINES = 512,    /* where one that it shows counts as so many, and so does any other answer of stats */
    OTHER_DESCRIPTORS = 128, /* that are neither of clients nor of workers */
    MOST_LISTENERS = 64,
    ITEM_HEAD_BYTES = 9,     /* what an item takes beside its key and data, if it has no flags and no expiry */
    ITEM_HEAD_BYTES_MAX = 17
};

/* Statuses of the program: those of sysexits.h, as memcached has them. */
enum { ENDS_WELL = 0, ENDS_BY_WORDS = 64, ENDS_BY_SYSTEM = 71, ENDS_BY_USER = 77 };

typedef struct server server;
typedef struct worker worker;
typedef struct conn conn;

/* ----------------------------------------------------------------------------------------------------------- logs.c */

enum { LINE_BYTES = 1024 };

/* Has standard error be a file, in which each line has a time and a level. Before another thread runs. NULL, or why not. */
const char *open_log(const char *path);
bool has_log(void);
/* Opens the file anew by its path, which may lead to another one by now. NULL, or why not: then the old one is gone on with. */
const char *reopen_log(const char *path);
/* What standard error was before there was a log, or NO_FILE: until the server serves, it is told there too what ends it. */
int errors_before(void);
void leave_errors_before(void);
/* Puts a line together, with its line feed: one that is too long is cut. Gives its length. */
size_t spell_line(char to[LINE_BYTES], const char *head, const char *format, va_list rest) __attribute__((format(printf, 3, 0)));
/* Writes a line of the log. Lines that the system does not take are counted, and the count is written once it takes some. */
void write_log(const char *level, const char *format, va_list rest) __attribute__((format(printf, 2, 0)));

/* -------------------------------------------------------------------------------------------------------- telling.c */

/* What is told, and from which verbosity on. Each kind has a level, by which a line is told from others. */
typedef enum tell_kind {
    TELL_ERROR, /* an error: what ends the program */
    TELL_NOTE,  /* a warning that is always told */
    TELL_FAULT, /* a warning, with -v: what went wrong with a client */
    TELL_EVENT, /* info, with -v */
    TELL_STEP   /* debug, with -vv: each connection and step */
} tell_kind;
enum { VERBOSITY_MOST = 2 };

void set_verbosity(unsigned level);
unsigned verbosity(void);
/* Has a thread write what is told from now on, so that no thread that serves clients waits for a reader. Call it with signals
 * blocked. False: the system refused; errno says why. */
bool start_telling(void);
/* Waits half a second at most until what was told is written. */
void wait_until_told(void);
/* Tells a line on standard error or in the log, if so much is to be told. Lines for which there is no room, since nobody reads, are
 * counted, and the count is told. */
void tell(tell_kind kind, const char *format, ...) __attribute__((format(printf, 2, 3)));
/* Tells the first line of some bytes of a client, with what cannot be printed as dots. */
void tell_bytes(tell_kind kind, int fd, char arrow, const void *bytes, size_t length);
/* Tells systemd, if it started the program and wants to know. */
void tell_systemd(const char *state);

/* ---------------------------------------------------------------------------------------------------------- files.c */

/* A file that this process has made, in an open folder or, with AT_FDCWD, by its path. */
typedef struct own_file {
    int folder;
    const char *name; /* NULL: there is none */
    dev_t device;
    ino_t number;
} own_file;

/* Opens the folder of a path. */
int open_folder_of(const char *path, int flags);
/* Notes which file a name leads to now. False: it was not told; errno says why. */
bool note_file(own_file *to, int folder, const char *name);
/* Removes a file if its name still leads to it, and tells why if not; the option and the path are for that. */
void remove_file(own_file *of, char option, const char *path);

/* The pid file. Until the start has gone well it has another name in its folder. */
typedef struct pid_file {
    int folder, file;
    char name_before[NAME_MAX + 1];
    own_file own;
} pid_file;

/* Makes the pid file by a name of its own beside the one that it is to have. False: it was told why not. */
bool make_pid_file(pid_file *to, const char *path);
/* Gives it its name, in place of a file or link that has it. False: it was told why not. */
bool place_pid_file(pid_file *of, const char *path);
/* Removes it by whichever name it has, if it is there. */
void remove_pid_file(pid_file *of, const char *path);

/* -------------------------------------------------------------------------------------------------------- options.c */

#define NEVER_SLOW UINT64_MAX

typedef struct settings {
    const char *listen, *socket_path, *folder, *pid_file, *user, *log;
    uint64_t port, socket_mode, backlog, threads, conns, memory_mib, idle_seconds;
    uint64_t flash_bytes, object_bytes, admit, threshold, bring_back, upkeep_threads;
    uint64_t slow_ms; /* requests that took longer are told; NEVER_SLOW: none is */
    uint64_t verbosity, is_daemon, is_sparse, no_flush, may_shut_down, pins_threads; /* flags: how often they were given */
} settings;

/* Reads the command line. Ends the program if it is wrong, or asks for help or the version. */
void read_words(int count, char **words, settings *to);
/* The options of the cache, resolved. Ends the program if there are none. */
void options_of_cache(const settings *from, kangaroo_options *to);

/* -------------------------------------------------------------------------------------------------------- buffers.c */

/* Bytes that wait: the first `length` of `room`. */
typedef struct buffer {
    uint8_t *at;
    size_t length, room;
} buffer;

/* Makes room for so many bytes more. False: memory was refused, and nothing has changed. */
bool make_room(buffer *of, size_t bytes);
/* Puts bytes after those that wait. False: memory was refused, and nothing has changed. */
bool append_bytes(buffer *to, const void *bytes, size_t length);
/* Lets the first bytes go. */
void drop_bytes(buffer *of, size_t bytes);
/* Gives the memory of a buffer back. */
void free_buffer(buffer *of);

/* ----------------------------------------------------------------------------------------------------------- slow.c */

/* Counters of a lane that are watched: hits by tier, and pages read. */
enum { PAGES_READ = 3, LOOKED_AT = 4 };

/* A step whose time is taken. All zeros: it is not. */
typedef struct timing {
    uint64_t began;           /* nanoseconds of a clock that nobody sets */
    uint64_t counts[LOOKED_AT]; /* what its lane had counted before it; after it, what it added */
} timing;

/* What a step was that may have taken long. */
typedef struct timed_step {
    const timing *timing;
    const ks_wanted *wanted;
    const ks_done *done;
    const uint8_t *bytes;
} timed_step;

/* What a worker knows of slow requests. */
typedef struct slow_lines {
    uint64_t second, untold; /* the second of its last line; requests since that are only counted */
    unsigned told;           /* lines in that second */
} slow_lines;

/* Takes the time at which a step begins, if the settings ask for that. */
void begin_timing(timing *it, const settings *of);
/* Looks at the lane of a step that is watched, in the hold in which the step is made: before it and after it. */
void look_before(timing *it, kl_lane *lane);
void look_after(timing *it, kl_lane *lane);
/* Tells of the step if it is watched, was a request's and took longer than the settings allow, some times in each second. */
void end_timing(worker *by, const timed_step *what);

/* ---------------------------------------------------------------------------------------------------------- steps.c */

/* Numbers of items. An item is flushed if its number is below the one of the last flush. In which order these words are read and
 * written is decided behind session.h (ks_access). */
typedef struct numbers {
    alignas(LANE_ALIGNMENT) atomic_uint_least64_t next;
    alignas(LANE_ALIGNMENT) atomic_uint_least64_t flushed;
    atomic_uint_least64_t pending; /* the moment of a flush that is to come; 0: none does */
    pthread_mutex_t flush_lock;
} numbers;

void start_numbers(numbers *of);
/* Takes the wall clock as it is now. Before any other thread runs. */
void start_clock(void);
/* Seconds since 1970: what the wall clock had at start_clock, and what has passed since. So a step of the wall clock changes no
 * moment. */
uint64_t moment_now(void);

typedef enum step_end {
    STEP_WENT_ON,    /* there may be more to do */
    STEP_NEEDS_MORE, /* nothing was taken */
    STEP_ENDS_TURN,  /* nothing was taken, and there is more to do in the client's next turn */
    STEP_ENDS        /* the client is closed after its answers */
} step_end;

/* Makes the next step of a client: takes bytes, and answers into by->answers. */
step_end make_step(worker *by, conn *of, const uint8_t *bytes, size_t length, size_t *taken);

/* ---------------------------------------------------------------------------------------------------------- stats.c */

/* What the server counts, by memcached's names. */
#define COUNTS(EACH) \
    EACH(cmd_get) EACH(cmd_set) EACH(cmd_flush) EACH(cmd_touch) EACH(cmd_meta) EACH(get_hits) EACH(get_misses) \
    EACH(delete_misses) EACH(delete_hits) EACH(incr_misses) EACH(incr_hits) EACH(decr_misses) EACH(decr_hits) \
    EACH(cas_misses) EACH(cas_hits) EACH(cas_badval) EACH(touch_hits) EACH(touch_misses) EACH(store_too_large) \
    EACH(store_no_memory) EACH(total_items) EACH(idle_kicks) EACH(bytes_read) EACH(bytes_written) EACH(conn_yields)

#define NUMBER_OF(name) COUNT_##name,
typedef enum count_number { COUNTS(NUMBER_OF) COUNT_NUMBERS } count_number;
#undef NUMBER_OF

/* Counted by one worker, read by any. */
typedef struct counts {
    atomic_uint_least64_t of[COUNT_NUMBERS];
} counts;

void count_up(worker *by, count_number which, uint64_t more);
/* Counts what a step did. */
void count_step(worker *by, const ks_done *done);
/* Writes the lines that a client asks for into by->answers, without what ends them. Of stats conns these are the lines of one more
 * socket. If the turn has no room for them, none is written. *is_all says whether there are no more. False: memory was refused. */
bool write_stats(worker *by, conn *of, ks_stats which, bool *is_all);

/* ---------------------------------------------------------------------------------------------------------- conns.c */

/* What a connection is at, for stats conns. */
typedef enum conn_state {
    CONN_WAITS,  /* for a request */
    CONN_HALF,   /* for the rest of a request */
    CONN_SENDS,  /* for its client to take answers */
    CONN_SERVED  /* it has its turn */
} conn_state;

struct conn {
    int fd;
    bool is_ending;        /* it is closed once its answers are sent */
    bool is_cut;           /* its last turn left an answer of stats for the next */
    bool is_woken_to_send; /* by its worker's epoll, and not to read */
    uint32_t looked_at;    /* so many sockets stats conns has looked at for it */
    atomic_uint_least64_t last_moment;
    ks_session session;
    buffer unread;   /* what was read and not taken */
    buffer unsent;   /* what was answered and not sent */
    conn *before, *after;
};

/* What stats conns shows of a descriptor. It is written by whoever opens, serves and closes its connection, and read by any worker
 * without a lock. */
typedef struct showing {
    atomic_uint changes; /* how often a client got it and left it: odd while one has it */
    atomic_uint state;   /* a conn_state */
    atomic_uint_least64_t last_moment;
    uint8_t apart[48]; /* a neighbour's client may be another worker's: a cache line each, wherever in it the table begins */
} showing;

/* Makes the table of what is shown, for as many descriptors as the settings need. False: memory was refused. */
bool make_shown(server *of);
/* The most descriptors that a server with these settings has. */
uint64_t most_descriptors(const settings *of);
/* Takes a client on. False: the system refused, and the descriptor is closed. */
bool conn_open(worker *by, int fd);
void conn_close(worker *by, conn *of);
/* Does what can be done for a client now; closes it if it is done for. */
void conn_serve(worker *by, conn *of, uint32_t events);
/* Sends what still waits, as far as the client takes it at once. */
void conn_send_last(worker *by, conn *of);

/* -------------------------------------------------------------------------------------------------------- workers.c */

struct worker {
    alignas(LANE_ALIGNMENT) server *of;
    pthread_t thread;
    bool has_thread;
    int poll, wake;
    pthread_mutex_t list_lock; /* of conns: the main thread puts one on the list, and the worker takes it off */
    conn *conns;
    atomic_uint_least64_t conn_count;
    uint32_t looks_left; /* of LOOKS_A_TURN */
    uint8_t *in;    /* room for what a client left and one read more */
    buffer answers;
    counts counts;
    slow_lines slow;
};

/* How many processors this process may use; 0: the system does not tell, and errno says why. */
uint64_t processors(void);
/* Starts all workers. False: the system refused; errno says why. */
bool start_workers(server *of);
/* Keeps each worker on a processor of its own, if the settings ask for that. False: the system refused; errno says why. */
bool pin_workers(server *of);
/* Ends all workers, and their connections. */
void stop_workers(server *of);

/* ------------------------------------------------------------------------------------------------------ listening.c */

/* Opens the TCP sockets that the settings name, or takes those that systemd handed over, or sees that no other server listens at
 * the file of a Unix socket. So it does no harm to another server. False: it was told why not. */
bool open_listeners(server *of);
/* Opens the Unix socket that the settings name, if they do. False: it was told why not. */
bool open_socket_file(server *of);
void close_listeners(server *of);
/* Accepts what waits at a socket. */
void accept_all(server *of, int listener);

/* The whole server. */
struct server {
    settings settings;
    kangaroo_cache *cache;
    kangaroo_options options; /* of the cache, resolved */
    numbers numbers;
    worker *workers;
    uint64_t started; /* seconds since 1970 */
    counts at_reset;  /* what was counted when stats reset was last asked for */
    atomic_uint_least64_t evicted_at_reset, expired_at_reset;
    atomic_bool is_stopping;
    atomic_uint_least64_t curr_conns, total_conns, rejected_conns;
    showing *shown; /* by descriptor */
    uint32_t shown_room;
    atomic_uint shown_end; /* one more than the greatest descriptor that a client had */
    atomic_uint shown_count; /* how many descriptors clients had */
    int listeners[MOST_LISTENERS];
    int listener_count;
    int spare; /* a descriptor that is given up to accept and refuse a client if there are no more */
    own_file socket_file;
    unsigned next_worker;
};

#endif
