/* kangaroo.h, version 1.0: a flash cache for tiny objects.
 *
 * A cache keeps values by key, in memory and in files on flash, and may lose any of them at any time. It promises: a
 * hit is its key's latest value, never one that was replaced or removed, nor one that had expired at the get's moment.
 * The premise: the mapped files keep what was written to them, and nobody else writes to them. There are no checksums.
 * docs/C_LIBRARY.md says what of this is proved.
 *
 *   kangaroo_options_init     writes the default options
 *   kangaroo_options_resolve  checks options, and works out what they leave open
 *   kangaroo_sizes_of         what a cache with these options takes and holds
 *   kangaroo_open             opens an empty cache over files in a folder
 *   kangaroo_close            ends it
 *   kangaroo_get              gets a value
 *   kangaroo_put              puts a value; if that is refused, the older value stays
 *   kangaroo_put_or_remove    puts a value; if that is refused, removes the key
 *   kangaroo_remove           removes a key
 *   kangaroo_get_or_lease     gets a value, or gives a lease after a miss
 *   kangaroo_get_and_lease    gets a value, and gives a lease at a hit too
 *   kangaroo_fill             puts what was read after a miss, if its lease still holds
 *   kangaroo_lease_drop       gives a lease up
 *   kangaroo_upkeep           does steps of upkeep that are due
 *   kangaroo_counters_read    reads the counters
 *   kangaroo_counter_name     the name of a counter
 *   kangaroo_check            checks a recorded history with its certificate
 *   kangaroo_strerror         a text for a status
 *   kangaroo_version          the version of the library that runs
 *   kangaroo_build            the same as text, with commit, toolchain, and whether the lanes are proved
 *
 * CONVENTIONS
 *
 * Ownership. Keys, values, buffers, paths and structs are yours. The library reads or writes them only during the call,
 *   and keeps no pointer to them. It gives you nothing to free except the handle of an open cache, which kangaroo_close
 *   takes back. Strings that it returns are static.
 * Pointers. They may have any alignment that their C type allows; keys, values and buffers any at all. A key, value or
 *   buffer may be NULL if its length is 0. What one call writes must not overlap what else it writes, nor the value or
 *   struct that it reads. A key is copied first, and may lie in the buffer. No other thread may change what the call
 *   reads. `cache` must be a handle from kangaroo_open that was not closed.
 * Statuses. 0 is done. Above 0: an answer that a cache may always give, no fault of the caller. Below 0: refused. After
 *   any get that is not KANGAROO_OK ask your database. A later 1.x may return numbers that this header does not name:
 *   test the sign, and give a switch a default.
 * Order. Each get, put, removal and fill takes effect at one point between its start and its return. All calls that
 *   take effect on one cache have one order, and it agrees with time: what returned before another call began comes
 *   first.
 * Threads. Any thread may make any call on an open cache at any time, except kangaroo_close. The other functions have
 *   no state that threads share. Nothing is kept per thread.
 * Lanes and waiting. A cache consists of lanes: independent parts, each with a lock. A call on a key takes the lock of
 *   the key's lane. It waits for the calls and upkeep steps that hold this lock, and these may be waiting for the
 *   device. No fairness and no time is promised.
 * Stack. A call needs less than 128 KiB of it. No call needs more memory than its comment says.
 * Cancellation. No call is a cancellation point. Each runs with cancellation disabled, so pthread_cancel acts after it.
 *   A thread whose cancellation is asynchronous may make no call. Do not leave a call by longjmp, by an exception, or
 *   by pthread_exit from a signal handler.
 * Signals. Call no function from a signal handler. The library installs no handler. Its threads block all signals
 *   except SIGBUS, SIGFPE, SIGILL and SIGSEGV, so your handlers run in your threads.
 * Fork. After fork an open cache belongs to the parent only. In the child each call on it, kangaroo_close too, answers
 *   KANGAROO_FORKED and does nothing. Its memory and its descriptor stay until exec or exit. To use a cache in
 *   children, open one in each, in a folder of its own. exec closes the descriptor. The child of a vfork may make no
 *   call.
 * Processes. One cache has a folder at a time, by a lock on a file in it. The cache does not know of other processes
 *   that write to the same database: give values an expiry, or tell this process of each write.
 * Storage that fails. Files are mapped into memory. A disk error at a read of a mapped page is the signal SIGBUS, not a
 *   status. A page that the kernel could not write to the disk may come back old: then the premise above is broken, and
 *   the promise with it. Space for the files is reserved at open, so a full disk cannot strike later. With
 *   KANGAROO_SPARSE it can, as SIGBUS. A file that somebody cuts while its cache is open is a SIGBUS too.
 * Platforms. Version 1.0 runs on Linux from 4.14 on, x86-64. Nothing in this header depends on byte order or on the
 *   width of pointers.
 * Output. The library prints nothing, reads no environment, installs no exit handler, and never ends the process. A
 *   process may end with a cache open. Once it is loaded the shared library stays loaded: dlclose leaves it.
 * errno. Any call may change it.
 *
 * Key lengths are 1 to 255 bytes, value lengths 0 to 2,048. Both may hold any bytes. Lengths are in bytes.
 */
#ifndef KANGAROO_H
#define KANGAROO_H

#include <stddef.h>
#include <stdint.h>

#define KANGAROO_VERSION_MAJOR 1
#define KANGAROO_VERSION_MINOR 0
#define KANGAROO_VERSION_PATCH 1
#define KANGAROO_VERSION (KANGAROO_VERSION_MAJOR * 1000000 + KANGAROO_VERSION_MINOR * 1000 + KANGAROO_VERSION_PATCH)

#define KANGAROO_KEY_MAX 255      /* bytes of a key, at least 1 */
#define KANGAROO_VALUE_MAX 2048   /* bytes of a value, at least 0 */
#define KANGAROO_LINE_BYTES 64    /* room for any verdict line, with its NUL */
#define KANGAROO_NEVER UINT64_MAX /* the expiry of a value that does not expire */

#ifndef KANGAROO_API
#if defined(__GNUC__)
#define KANGAROO_API __attribute__((visibility("default")))
#else
#define KANGAROO_API
#endif
#endif

/* The compiler warns if the status of such a function is ignored. */
#if defined(__cplusplus) && __cplusplus >= 201703L
#define KANGAROO_CHECKED [[nodiscard]]
#elif defined(__GNUC__)
#define KANGAROO_CHECKED __attribute__((warn_unused_result))
#else
#define KANGAROO_CHECKED
#endif

#ifdef __cplusplus
extern "C" {
#endif

typedef enum kangaroo_status {
    KANGAROO_OK = 0, /* done: a hit, a stored value, an open cache, an accepted trace */

    /* answers: 1 to 999 are kept for these */
    KANGAROO_ABSENT = 1,       /* no value of this key */
    KANGAROO_EXPIRED = 2,      /* the key's value had expired at this moment */
    KANGAROO_UNREADABLE = 3,   /* a read failed; a version that maps its files, as this one, never returns it */
    KANGAROO_DAMAGED = 4,      /* a page was not the one that was written; the value may be there all the same */
    KANGAROO_SHORT_BUFFER = 5, /* a hit, but the value is longer than the buffer */
    KANGAROO_STALE = 6,        /* of a fill: its lease has ended */
    KANGAROO_REJECTED = 7,     /* of a check: the certificate is not right */
    KANGAROO_BAD_TRACE = 8,    /* of a check: the bytes are no trace */

    /* refusals: -1 to -999 are kept for these */
    KANGAROO_WRONG_ARGUMENT = -1, /* NULL where it is not allowed, an overlap, or an impossible size of a struct */
    KANGAROO_WRONG_KEY = -2,      /* the key has no bytes, or more than 255 */
    KANGAROO_TOO_LARGE = -3,      /* the value has more than 2,048 bytes */
    KANGAROO_NO_MEMORY = -4,      /* memory was refused */
    KANGAROO_WRONG_OPTIONS = -5,  /* an option is out of its range; kangaroo_options_resolve names it */
    KANGAROO_IN_USE = -6,         /* another cache has this folder */
    KANGAROO_SYSTEM = -7,         /* the kernel refused something; kangaroo_open gives its errno */
    KANGAROO_FORKED = -8,         /* the cache was opened by another process than this one */

    /* never returned: they make the type 32 bits wide and signed under every compiler */
    KANGAROO_STATUS_LOWEST_ = -0x7fffffff,
    KANGAROO_STATUS_HIGHEST_ = 0x7fffffff
} kangaroo_status;

/* Where a value was found. If a copy in memory gave it, the tier is that of a set: like a hit in a set, it is right if
 * the file gives back what was written. */
enum { KANGAROO_TIER_NONE = 0, KANGAROO_TIER_MEMORY = 1, KANGAROO_TIER_LOG = 2, KANGAROO_TIER_SET = 3 };

/* An open cache. */
typedef struct kangaroo_cache kangaroo_cache;

/* A text for a status: one static line in English, never NULL, even for numbers that have no name here. */
KANGAROO_API const char *kangaroo_strerror(kangaroo_status status);

/* The version of the library that runs, as KANGAROO_VERSION is that of the header. Same major: what was compiled with
 * an older header runs. */
KANGAROO_API uint32_t kangaroo_version(void);

/* What the library that runs was built from: its version, and in parentheses the commit of its sources, the toolchain,
 * and whether its lanes are proved. An example is "1.0.1 (0123456789ab, rattle-kit-13f logic dac8208d650f15bf, proved)".
 * A plus sign after the commit: there were changes that were not committed. One static line, never NULL. */
KANGAROO_API const char *kangaroo_build(void);

/* ------------------------------------------------------------------------------------------------ options and sizes */

/* How a cache is opened. Fill it by kangaroo_options_init, and change what you like. A later version adds fields at the
 * end; 0 in them means the behaviour of before. */
typedef struct kangaroo_options {
    uint32_t size;  /* bytes of this struct, as kangaroo_options_init wrote it */
    uint32_t flags; /* KANGAROO_SPARSE or 0 */

    uint64_t flash_bytes;    /* files in all, at most: at least 12,288; default 1 GiB */
    uint64_t memory_bytes;   /* memory in all, at most, as kangaroo_sizes_of estimates it: default 128 MiB */
    uint32_t object_bytes;   /* key and value of a typical object: 1 to 2,303; default 100 */
    uint32_t threads;        /* threads that call at once: 0 (default) is one for each processor; at most 4,096 */
    uint32_t upkeep_threads; /* threads of the library's own for upkeep, 0 to 16; default 1; 0: upkeep is yours */
    uint32_t admit;          /* how many of 65,536 objects that leave memory go to flash: 0 to 65,536 (default) */
    uint32_t threshold;      /* the fewest objects that move to a set together: 1 to 32; 0 (default): by object_bytes */
    uint32_t lease_slots;    /* lease slots of a lane: 0 (default) is worked out; 1 to 1,048,576 */

    /* The shape of the cache. All seven 0 (default): worked out from the fields above. Or all seven yours: then
     * flash_bytes and memory_bytes are ignored. */
    uint32_t shards;         /* 1 to 1,024: groups of lanes */
    uint32_t lanes;          /* 1 to 16: lanes of a shard, each a file under a lock of its own */
    uint32_t sets;           /* 1 to 65,536: pages of 4,096 bytes of a lane that objects end in; odd is best */
    uint32_t memory_objects; /* 1 to 1,048,576: objects of a lane in memory */
    uint32_t segments;       /* 2 to 256: segments of a lane's log */
    uint32_t segment_pages;  /* 1 to 64: pages of a segment */
    uint32_t log_objects;    /* 1 to 1,048,576: objects of a lane that its log can hold */

    /* Copy one in so many hits on flash back into memory: default 8; 1: each hit; 0: never, and all of memory is for what
     * is new. Three in four objects in memory are such copies. */
    uint32_t bring_back;
} kangaroo_options;

/* A flag: do not reserve the files' blocks at open. A full disk then shows later, as the signal SIGBUS. */
#define KANGAROO_SPARSE 1u

/* What a cache with some options takes and holds. All bytes but file_bytes are estimates. */
typedef struct kangaroo_sizes {
    uint64_t file_bytes;     /* lengths of all lanes' files together, exact */
    uint64_t files;          /* files in the folder: one for each lane, and kangaroo.lock */
    uint64_t memory_fixed;   /* bytes of memory from open on, without the kernel's copies of file pages */
    uint64_t memory_full;    /* bytes of memory once the memory tier is full of typical objects */
    uint64_t memory_objects; /* typical objects that fit in memory */
    uint64_t log_objects;    /* in the logs */
    uint64_t set_objects;    /* in the sets, at 93 of 100 that their pages have room for */
} kangaroo_sizes;

/* Writes the defaults. `size` is sizeof(kangaroo_options): no more bytes are written, and if the library knows fewer
 * fields the rest is 0. Never blocks.
 *   KANGAROO_OK
 *   KANGAROO_WRONG_ARGUMENT: options is NULL, or size is below that of version 1.0 or above 4,096; then nothing is
 *     written */
KANGAROO_API kangaroo_status kangaroo_options_init(kangaroo_options *options, size_t size);

/* Checks options as kangaroo_open does, and puts the number that open would use into each field that is 0 for "worked
 * out". So bytes become a shape. `options` is changed in place; a second call changes nothing. `field` may be NULL.
 * Otherwise *field becomes NULL, or at KANGAROO_WRONG_OPTIONS the name of the faulty field, a static string. Of several
 * faulty fields it is one of the first group in this list:
 *   1. flags, upkeep_threads, and a newer version's fields (their name is size)
 *   2. flash_bytes, object_bytes, threads
 *   3. memory_bytes
 *   4. the shape, lease_slots, threshold, admit
 * Never blocks, opens nothing.
 *   KANGAROO_OK
 *   KANGAROO_WRONG_OPTIONS: options are unchanged. Also if memory_bytes is too small for the flash (the field is then
 *     memory_bytes), or if flash_bytes is too large for 1,024 shards. Also if some of the seven fields of the shape are
 *     0 and some are not, or if bytes of a newer version's fields are not 0
 *   KANGAROO_WRONG_ARGUMENT: options is NULL, or its size field is below that of version 1.0 or above 4,096 */
KANGAROO_CHECKED KANGAROO_API kangaroo_status kangaroo_options_resolve(kangaroo_options *options, const char **field);

/* Says what a cache with these options would take and hold: a shape becomes bytes. Options need not be resolved first.
 * `size` is sizeof(kangaroo_sizes), handled as in kangaroo_options_init. Never blocks, opens nothing.
 *   KANGAROO_OK
 *   KANGAROO_WRONG_OPTIONS, KANGAROO_WRONG_ARGUMENT: as kangaroo_options_resolve; nothing is written */
KANGAROO_API kangaroo_status kangaroo_sizes_of(const kangaroo_options *options, kangaroo_sizes *sizes, size_t size);

/* --------------------------------------------------------------------------------------------------- open and close */

/* Opens an empty cache over files in a folder. The folder must exist. Its files are kangaroo.lock and, one for each
 * lane, kangaroo-0.dev, kangaroo-1.dev and so on, made with mode 0600. What they held is lost: a cache starts cold.
 * Files of these names that a larger cache left are removed; no others are touched. One that is there already is taken
 * only if it is a plain file of the effective user with no other name. If its mode lets others open it, a lane's file
 * is made anew, and kangaroo.lock gets mode 0600. The files must be on storage of this machine. They hold keys and values
 * in the clear. They are kept out of core dumps, but values in memory are not. A relative path counts from the working
 * directory of this call.
 *
 * Takes memory_fixed bytes (kangaroo_sizes_of), maps file_bytes bytes, keeps one descriptor open, starts upkeep_threads
 * threads, draws random numbers from the system, and may block on the device, for seconds if many GiB are reserved. A
 * file size over the process's limit raises SIGXFSZ.
 *
 * *cache becomes the handle, or NULL at any other status. `system_errno` may be NULL. Otherwise *system_errno becomes
 * the errno at KANGAROO_SYSTEM, and 0 at any other status. After a refusal nothing stays open and no thread runs; files
 * may stay.
 *   KANGAROO_OK
 *   KANGAROO_WRONG_OPTIONS, KANGAROO_WRONG_ARGUMENT (options, folder or cache is NULL)
 *   KANGAROO_NO_MEMORY: also if the system maps no more
 *   KANGAROO_IN_USE: a cache of this or another process has the folder, or a forked child of such a process still lives
 *   KANGAROO_SYSTEM: among others ENOENT, ENOTDIR, EACCES, EROFS, ENAMETOOLONG for the folder; ENOSPC, EDQUOT, EFBIG
 *     for the files' length; EMFILE for descriptors; EAGAIN for threads; ENOLCK if the file system has no locks;
 *     EOPNOTSUPP if it cannot reserve blocks (see KANGAROO_SPARSE). Of what has the name of a file of the cache: ELOOP
 *     or EINVAL for a link, or something else that is no file; EPERM or EACCES for another user's; EMLINK for one with
 *     another name; EPERM also if others can open it and the file system keeps no modes. It is left as it was
 * Threads may open caches at the same time. */
KANGAROO_CHECKED KANGAROO_API kangaroo_status kangaroo_open(const kangaroo_options *options, const char *folder,
                                                            kangaroo_cache **cache, int *system_errno);

/* Ends a cache: stops and joins its threads, unmaps its files, gives all memory back. NULL is allowed and does nothing.
 * No other call on this cache may be running or come later: you must see to that, no status reports it. Waits for the
 * upkeep steps that have begun, at most one a thread, so it may block on the device. The files stay, and may be
 * deleted.
 *   KANGAROO_OK
 *   KANGAROO_FORKED: nothing was done */
KANGAROO_API kangaroo_status kangaroo_close(kangaroo_cache *cache);

/* ---------------------------------------------------------------------------------------------- get, put and remove */

/* What a get found. The struct does not grow. */
typedef struct kangaroo_hit {
    size_t length;        /* the value's length in bytes */
    uint64_t expires;     /* as its put gave it: the first moment at which it is not live, or KANGAROO_NEVER */
    uint32_t tier;        /* one of KANGAROO_TIER_.. */
    uint32_t reserved[3]; /* 0 */
} kangaroo_hit;

/* Gets the value of a key, if it is live at a moment: moment < expires, or expires is KANGAROO_NEVER.
 *
 * Moments and expiries are numbers of your own clock in your own unit, for instance seconds since 1970. Use one clock
 * for all of them. The library reads none. If moments run backwards, a value that had expired may be hit again: the
 * promise speaks of the moment that each get brings. If nothing expires, pass 0.
 *
 * The value is copied into the buffer. At KANGAROO_OK the first hit->length bytes of the buffer are written and no
 * others; at any other status none. A buffer of KANGAROO_VALUE_MAX bytes is always enough. `hit` may be NULL. It is
 * filled at KANGAROO_OK and KANGAROO_SHORT_BUFFER, and is all zeros at any other status. Memory is taken only to bring an
 * object back (bring_back), and where it is refused the object stays on flash. A copy that goes for it enters the log if
 * flash has lost its object; that may make upkeep due, which begins with the next put. May block on the device: it
 * reads the page of each log entry with the key's set and tag until it finds the key, and at most one page of the sets.
 * Mostly it reads one page or none.
 *   KANGAROO_OK: a hit
 *   KANGAROO_ABSENT, KANGAROO_EXPIRED, KANGAROO_UNREADABLE, KANGAROO_DAMAGED: a miss; nothing has changed
 *   KANGAROO_SHORT_BUFFER: a hit that was not copied
 *   KANGAROO_WRONG_KEY, KANGAROO_FORKED: nothing has changed
 *   KANGAROO_WRONG_ARGUMENT: a NULL, or hit overlaps the buffer (then it is not written); nothing has changed */
KANGAROO_API kangaroo_status kangaroo_get(kangaroo_cache *cache, const void *key, size_t key_length, uint64_t moment,
                                          void *buffer, size_t buffer_size, kangaroo_hit *hit);

/* Puts a value of a key, in place of any older one. It expires at the moment `expires`, or never at KANGAROO_NEVER.
 *
 * A PUT THAT IS REFUSED LEAVES THE OLDER VALUE IN PLACE, and later gets return it. If that would be wrong, call
 * kangaroo_remove, or use kangaroo_put_or_remove in the first place.
 *
 * In front of a database, do not put what you have written to it, unless the writes of one key come one after another:
 * two writers may put in another order than they wrote. Write, then remove, and let the next get fill.
 *
 * Takes memory for the object. Touches no page, unless the lane's log is nearly full. Then it does up to four upkeep
 * steps itself, stopping after the first that may touch the device, by up to 33 page reads and one page write. It never
 * waits for upkeep to catch up: if the log is full, the object that it pushes out of memory is lost, and the put is
 * stored.
 *   KANGAROO_OK: stored; the older value is gone. Like any value, the new one may be lost at once
 *   KANGAROO_WRONG_KEY, KANGAROO_TOO_LARGE, KANGAROO_NO_MEMORY, KANGAROO_WRONG_ARGUMENT, KANGAROO_FORKED: nothing has
 *     changed */
KANGAROO_CHECKED KANGAROO_API kangaroo_status kangaroo_put(kangaroo_cache *cache, const void *key, size_t key_length,
                                                           const void *value, size_t value_length, uint64_t expires);

/* The same, but a put that is refused with KANGAROO_TOO_LARGE or KANGAROO_NO_MEMORY removes the key. Afterwards the key
 * shows the new value or none, never an older one. Both are done under one lock. Statuses and the rest as
 * kangaroo_put. */
KANGAROO_API kangaroo_status kangaroo_put_or_remove(kangaroo_cache *cache, const void *key, size_t key_length,
                                                    const void *value, size_t value_length, uint64_t expires);

/* Removes a key. Once it has returned, no get that begins hits a value that was put before, and no fill of a lease
 * that was given before is stored. It takes no memory, reads and writes no page, and is refused only
 * for misuse. A key that is not there may be removed too.
 *   KANGAROO_OK
 *   KANGAROO_WRONG_KEY: no cache holds such a key
 *   KANGAROO_WRONG_ARGUMENT, KANGAROO_FORKED: nothing has changed */
KANGAROO_API kangaroo_status kangaroo_remove(kangaroo_cache *cache, const void *key, size_t key_length);

/* ------------------------------------------------------------------------------------------------------------ leases
 *
 * A cache before a database has a race: a thread misses and reads the database; meanwhile another writes the database
 * and removes the key; then the first puts what it read before. A lease prevents it. The miss gives a lease; the fill
 * with that lease is stored only if the key was neither put, filled nor removed since the miss. A refused put does not
 * count.
 *
 * What it gives: once a writer's kangaroo_remove has returned, no get hits a value older than what the writer wrote.
 * The rules:
 *   - a writer writes to the database, commits, and then removes the key;
 *   - a reader reads the database after the miss has returned, and sees what is committed by then: no transaction or
 *     snapshot that was begun before, no replica that lags;
 *   - what was read comes into the cache by kangaroo_fill with the lease of that miss, not by kangaroo_put.
 * A writer that commits and dies before it removes leaves the old value: if that can happen, give values an expiry.
 *
 * Leases take no memory and need not be used. There may be any number of them, several of one key too: of these the
 * first fill is stored and the others are stale. A lane keeps a count of writes for each of lease_slots slots, and a
 * key has a slot by its hash. So a fill is stale also if another key of its slot was written: with s slots and w writes
 * to the lane while the lease was held, in some w of s cases. Gets, upkeep and losses leave a lease as it is.
 */

/* A lease: a plain value without pointers, which may be copied and handed to other threads. All zeros is no lease. It
 * is of one key and one open cache. The struct does not grow. */
typedef struct kangaroo_lease {
    uint64_t opaque[4];
} kangaroo_lease;

/* Gets a value as kangaroo_get does, and at a miss (KANGAROO_ABSENT, KANGAROO_EXPIRED, KANGAROO_UNREADABLE,
 * KANGAROO_DAMAGED) gives a lease of the key. *lease is all zeros at any other status. Statuses and the rest as
 * kangaroo_get. Besides, KANGAROO_WRONG_ARGUMENT if lease is NULL, or overlaps the buffer or hit; then neither hit nor
 * lease is written. */
KANGAROO_API kangaroo_status kangaroo_get_or_lease(kangaroo_cache *cache, const void *key, size_t key_length,
                                                   uint64_t moment, void *buffer, size_t buffer_size,
                                                   kangaroo_hit *hit, kangaroo_lease *lease);

/* Gets a value as kangaroo_get does, and gives a lease of the key at a hit too. With kangaroo_fill it is a compare and
 * swap without a lock: the fill replaces what was hit, if no put, fill or removal of the key came between. It may be
 * stale without cause, since another key of its slot was written: then get and try again. *lease is all zeros at
 * KANGAROO_WRONG_KEY and KANGAROO_FORKED. Statuses and the rest as kangaroo_get_or_lease. */
KANGAROO_API kangaroo_status kangaroo_get_and_lease(kangaroo_cache *cache, const void *key, size_t key_length,
                                                    uint64_t moment, void *buffer, size_t buffer_size,
                                                    kangaroo_hit *hit, kangaroo_lease *lease);

/* Puts a value if its lease still holds. *lease becomes all zeros at KANGAROO_OK and KANGAROO_STALE, and stays at a
 * refusal, so that the fill may be tried again. Blocking, memory and `expires` are as for kangaroo_put.
 *   KANGAROO_OK: stored. No put, fill or removal of the key took effect between the lease's miss and this fill
 *   KANGAROO_STALE: nothing has changed; what you read from the database is as good as before, but not kept. Also for
 *     a lease of all zeros, of another key, or of another open cache
 *   KANGAROO_WRONG_KEY, KANGAROO_TOO_LARGE, KANGAROO_NO_MEMORY, KANGAROO_WRONG_ARGUMENT (lease is NULL too),
 *     KANGAROO_FORKED: nothing has changed */
KANGAROO_API kangaroo_status kangaroo_fill(kangaroo_cache *cache, kangaroo_lease *lease,
                                           const void *key, size_t key_length,
                                           const void *value, size_t value_length, uint64_t expires);

/* Gives a lease up, if there is nothing to fill; *lease becomes all zeros. A lease that is neither filled nor dropped
 * costs nothing either, but is not counted as dropped. Takes no lock. All zeros may be dropped, and is not
 * counted.
 *   KANGAROO_OK
 *   KANGAROO_WRONG_ARGUMENT (cache or lease is NULL), KANGAROO_FORKED: nothing has changed */
KANGAROO_API kangaroo_status kangaroo_lease_drop(kangaroo_cache *cache, kangaroo_lease *lease);

/* ----------------------------------------------------------------------------------------------------------- upkeep */

/* Does up to `steps` steps of upkeep that are due, going around the lanes. Upkeep brings objects that left memory to
 * the log, and from there to the sets. A step writes one page of a log, or moves the objects of one set from the log to
 * its page (up to 33 pages read and one written), or takes a segment on or off. It holds one lane's lock. With
 * upkeep_threads 0 call it from time to time, or leave it to the puts. Otherwise nobody has to call it, and anybody
 * may. May block on the device. Takes memory for the objects of a move. *taken (may be NULL) becomes the number of
 * steps done, also at KANGAROO_NO_MEMORY. If it is below `steps` at KANGAROO_OK, no more is due.
 *   KANGAROO_OK
 *   KANGAROO_NO_MEMORY: a move was refused memory and was not made; all objects are where they were
 *   KANGAROO_WRONG_ARGUMENT (cache is NULL), KANGAROO_FORKED: nothing was done, and *taken is 0 */
KANGAROO_API kangaroo_status kangaroo_upkeep(kangaroo_cache *cache, uint32_t steps, uint32_t *taken);

/* --------------------------------------------------------------------------------------------------------- counters */

/* Counts since the cache was opened, modulo 2^64, and numbers of the present. All fields are uint64_t; later versions
 * add theirs at the end. If nobody calls meanwhile:
 *   - the calls of get that were not refused are memory_hits + log_hits + set_hits + absent + expired + unreadable +
 *     damaged;
 *   - if no lease was copied, leases_given is at least fills_stored + fills_stale + leases_dropped;
 *   - declined + logged + log_full + index_full objects left memory: by a put or fill, or as copies that flash had lost,
 *     by a get that brought another object back. */
typedef struct kangaroo_counters {
    uint64_t memory_hits, log_hits, set_hits;      /* hits by tier, including those that a buffer was too short for */
    uint64_t absent, expired, unreadable, damaged; /* misses by cause */
    uint64_t puts;                                 /* that were stored */
    uint64_t removes; /* by kangaroo_remove, and by a refused kangaroo_put_or_remove */
    uint64_t leases_given;
    uint64_t fills_stored;         /* not counted in puts */
    uint64_t fills_stale;          /* a key of the slot was written since the miss */
    uint64_t declined, logged;     /* objects that left memory: not admitted, and so lost; in the log */
    uint64_t log_full, index_full; /* and lost, since the log or its index was full */
    uint64_t log_pages_written, set_pages_written, pages_read;
    uint64_t log_pages_lost, sets_forgotten; /* by a failed read or write: 0 where files are mapped */
    uint64_t readmitted, dropped;            /* objects at the log's end: entered it anew; lost */
    uint64_t segments_freed;
    uint64_t upkeep_steps, put_steps; /* steps by threads and kangaroo_upkeep; by puts and fills */
    uint64_t upkeep_no_memory;        /* moves that were refused memory */
    uint64_t bytes_put;               /* keys and values of puts and fills that were stored */
    uint64_t memory_objects_now, log_objects_now, segments_now; /* of the present */
    uint64_t short_buffers;                                     /* hits that were not copied */
    uint64_t put_too_large, put_no_memory;                      /* puts and fills that were refused */
    uint64_t leases_dropped;
    uint64_t fills_wrong_lease; /* KANGAROO_STALE for no lease, or one of another key or cache */
    uint64_t copy_hits;         /* of set_hits, those that a copy in memory answered: flash was not read */
    uint64_t brought_back;      /* objects that came back into memory, as copies */
    uint64_t pushed_copies;     /* copies that left memory and were dropped, since flash may have their object */
} kangaroo_counters;

/* Reads the counters of all lanes, added up: each lane's are of one moment, under its lock; the lanes' are read one
 * after another. `size` is sizeof(kangaroo_counters): no more bytes are written, and if the library knows fewer
 * fields the rest is 0. Takes no memory. Waits for locks, and so for calls and steps that wait for the device: do not
 * call it for each request.
 *   KANGAROO_OK
 *   KANGAROO_WRONG_ARGUMENT: a NULL, or size is below 8 or above 4,096; KANGAROO_FORKED; nothing is written */
KANGAROO_API kangaroo_status kangaroo_counters_read(kangaroo_cache *cache, kangaroo_counters *counters, size_t size);

/* The name of the counter at an index, from 0 in the struct's order, as the library that runs knows it; a static
 * string, such as "memory_hits". NULL after the last one. Never blocks. */
KANGAROO_API const char *kangaroo_counter_name(size_t index);

/* ------------------------------------------------------------------------------------------------- check of a trace */

/* Checks a recorded history of calls with its certificate, of this cache or of another, as `kangaroo check` does. In
 * the certificate's order, did each hit read the right value? docs/TRACES.md has the bytes of a trace, and says how to
 * record one. It needs no open cache and touches none.
 *
 * `line` gets the verdict's line without line feed and with a NUL, for instance "accepted 3 calls"; at refusals the
 * empty string. It may be NULL if line_size is 0; otherwise line_size is at least KANGAROO_LINE_BYTES. Never blocks.
 * The time grows with the length; memory is taken for what was read, some 200 bytes a call beside keys and values, and
 * is given back. Any bytes may be checked, a stranger's too.
 *   KANGAROO_OK: accepted
 *   KANGAROO_REJECTED, KANGAROO_BAD_TRACE: the line names the first fault and its place or offset
 *   KANGAROO_NO_MEMORY
 *   KANGAROO_SYSTEM: the system gave no random number
 *   KANGAROO_WRONG_ARGUMENT: a NULL, a line_size from 1 to 63, or the line overlaps the trace; nothing is written */
KANGAROO_CHECKED KANGAROO_API kangaroo_status kangaroo_check(const void *trace, size_t trace_length,
                                                             char *line, size_t line_size);

#ifdef __cplusplus
}
#endif
#endif
