/* recorder.h: records the calls of a cache's client as lines for `kangaroo judge`. The page is ../README.md.
 *
 * Each of recorder_put, recorder_remove and recorder_get makes one call of yours: it reads the clock, calls your function, reads
 * the clock again, and writes a line. Your function sends the request and returns after the answer has come. A client that
 * returns earlier must not be recorded.
 *
 * Units. Stamps, lifetimes, moments and expiries are nanoseconds; the clock is CLOCK_MONOTONIC.
 * Limits. A key of no byte, or of more than 255, is never recorded. A caller's name is cut after 64 bytes. What a value is worth in
 *   a line is at most its tag and 64 bytes: a longer one is written as a hash.
 * Errors. No error of the recorder reaches your service. After the first one it records nothing more, counts the calls that it did
 *   not write, and goes on making your calls. A write to a closed pipe raises no signal.
 * Threads. Any thread may make any call on an open recorder at any time, except recorder_close. A lock is held only while a line is
 *   written, never during your function.
 * Fork. A recorder belongs to the process that opened it. In a child it records nothing. Open one in each child.
 * Ownership. Nothing that you pass is kept, except the descriptor, which stays yours: close it after recorder_close.
 * Stack. A call needs less than 4 KiB, beside what your function needs. */
#ifndef RECORDER_H
#define RECORDER_H
#include <limits.h>
#include <stddef.h>
#include <stdint.h>

struct recorder;

/* Some bytes that somebody else owns. `at` may be NULL if `size` is 0. */
struct recorder_bytes {
    const unsigned char *at;
    size_t size;
};

/* What a get of yours found. */
enum recorder_answer {
    RECORDER_HIT = 0,
    RECORDER_MISS = 1,
    RECORDER_FAILED = -1 /* no answer came: such a get has no line */
};

/* What a recorder_write returns if the cache answered that the write was surely not done, as an add of a key that is there: it has no line. */
#define RECORDER_UNDONE INT_MIN

/* Sends a put or a removal, and waits for its answer. `stored` is what has to be put: the value, with a tag in front if its key is
 * recorded. It lies there until the function returns. For a removal it is empty. Returns 0 if the cache answered that it was done, and
 * RECORDER_UNDONE if it surely was not. Anything else says that it was refused or no answer came: then it may have happened, or happen
 * yet, and its END is written as `-`. */
typedef int recorder_write(void *with, struct recorder_bytes stored);

/* Sends a get, and waits for its answer. At a hit it sets `found` to what was read, which must lie there until you have used it. */
typedef enum recorder_answer recorder_read(void *with, struct recorder_bytes *found);

/* Begins a recording on a descriptor that is open for writing, with a first line that is a comment. One key in `one_of` is
 * recorded, with all its calls; 0 and 1 mean every key. Returns NULL if there is no memory. If the descriptor or the source of
 * random numbers fails, it returns a recorder that has stopped. A descriptor that makes the writer wait (a full pipe, a slow
 * disk) makes your calls wait, after their END. */
struct recorder *recorder_open(int descriptor, uint64_t one_of);

/* Puts a value by `write`, and records it. `lifetime` is after how many nanoseconds from END the cache surely has let the value
 * expire, 0 for never. Returns what `write` returned. The value is copied, to put the tag in front; if there is no memory for that,
 * recording stops and the value is put without a tag. */
int recorder_put(struct recorder *recorder, const char *caller, struct recorder_bytes key, struct recorder_bytes value,
                 uint64_t lifetime, recorder_write *write, void *with);

/* Removes a key by `write`, and records it. Returns what `write` returned. */
int recorder_remove(struct recorder *recorder, const char *caller, struct recorder_bytes key, recorder_write *write, void *with);

/* Gets a value by `read`, and records a hit or a miss. Returns what `read` returned. At a hit `value` is what was read, without its
 * tag; else it is empty. It points into what `read` found. */
enum recorder_answer recorder_get(struct recorder *recorder, const char *caller, struct recorder_bytes key, recorder_read *read,
                                  void *with, struct recorder_bytes *value);

/* Returns how many calls should have a line and have none: 0 as long as all is well. A recorder that stopped before its first call
 * has at least 1. */
uint64_t recorder_lost(struct recorder *recorder);

/* Ends the recording with a last line, `# whole: ..`, or `# not whole: ..` if it can still be written, and frees the recorder. No
 * other call may be under way. NULL is allowed. Returns what recorder_lost would return after that: 0 if the recording is whole.
 * In the child of a fork it writes nothing. */
uint64_t recorder_close(struct recorder *recorder);

#endif
