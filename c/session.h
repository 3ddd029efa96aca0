/* session.h: sessions of memcached's text protocol, exports of libkangaroo_c.a beside those of lane.h. Not installed.
 *
 * A session is one client's stream of requests. No socket is here. C keeps the bytes that are not taken yet, draws numbers, has
 * the locks, and sends what is answered; it parses nothing, and has no state of the protocol.
 *
 * As long as a client has bytes: ks_want says what the next step needs; the server has it ready; ks_step or ks_lane_step takes the
 * bytes of one request, or of one key of a get, and writes its answer. A step with a lane is given a turn, which a register makes: it
 * says which access to the words of all threads comes next, and the server makes that access. A flush is made so too. As in lane.h, a pointer to bytes is
 * never NULL, and no two things that are handed to one call overlap where one of them is written. layout.c compares the structs. */
#ifndef KANGAROO_SESSION_H
#define KANGAROO_SESSION_H

#include "lane.h"

enum {
    KS_MOST_KEPT = 4090,  /* KS_MORE never comes if so many bytes, or more, are at hand */
    KS_MOST_ANSWER = 4096 /* room for the answer of any one step */
};

/* Where a session stands between two steps. All zeros: a new one. Any other bytes are safe too: what is no state is a session that
 * is to be closed. */
typedef struct ks_session {
    uint64_t skipped;
    uint32_t place, expiry, seconds, with_cas;
} ks_session;

/* What the next step needs. */
typedef enum ks_wants {
    KS_MORE = 0,     /* more bytes: a step would take nothing */
    KS_STEP = 1,     /* nothing: ks_step */
    KS_LANE = 2,     /* the lane of ks_wanted.place: ks_begin_turn, ks_go_on and ks_lane_step, in one hold of its lock. argument is 1 if an
                      * item may get a number, else 0 */
    KS_FLUSH = 3,    /* that all items be flushed after argument seconds, 0 for at once; more than 30 days are seconds since 1970:
                      * ks_begin_flush and ks_go_on. Then ks_step, whose answer is OK */
    KS_STATS = 4,    /* lines of stats: argument is one of ks_stats. The server writes its lines `STAT name value`; then ks_step,
                      * whose answer ends them */
    KS_VERBOSE = 5,  /* that the server says more or less: argument is the level. Then ks_step */
    KS_SHUTDOWN = 6, /* that the server ends after what was answered; argument is 1 if it is to end gracefully. Then ks_step */
    KS_CLOSE = 7     /* nothing more: what was answered is sent, and the client is closed */
} ks_wants;

/* Which stats a client asks for. */
typedef enum ks_stats {
    KS_STATS_GENERAL = 0,  /* stats */
    KS_STATS_SETTINGS = 1, /* stats settings */
    KS_STATS_CONNS = 2,    /* stats conns */
    KS_STATS_ITEMS = 3,    /* stats items */
    KS_STATS_SLABS = 4,    /* stats slabs */
    KS_STATS_SIZES = 5,    /* stats sizes */
    KS_STATS_RESET = 6,    /* stats reset: the server sets its counts to 0, and writes no line */
    KS_STATS_UNKNOWN = 7,   /* any other word: the server writes no line, and the step answers ERROR */
    KS_STATS_CACHEDUMP = 8, /* stats cachedump, stats detail dump: the server writes no line, since no list of items is kept */
    KS_STATS_DETAIL = 9,   /* stats detail on, stats detail off: nothing changes, and the step answers OK */
    KS_STATS_WRONG_DETAIL = 10 /* stats detail with another word or none: the server writes no line, and the step says what to give */
} ks_stats;

typedef struct ks_wanted {
    uint32_t wants;    /* one of ks_wants */
    uint32_t argument; /* see ks_wants; 0 if none is named there */
    kl_place place;    /* KS_LANE: the place of the key among the lanes; else zeros */
} ks_wanted;

/* What the server does next for a turn, or for a flush, with one of three words that all threads share, or with a lock. Each word is read
 * or written by one access that is sequentially consistent, and what was read is handed to ks_go_on; else 0. */
typedef enum ks_access {
    KS_WHOLE = 0,       /* nothing: it is whole */
    KS_DRAW = 1,        /* the next number: reads it, and adds 1 to it */
    KS_SEE_PENDING = 2, /* the moment of a flush that is to come, 0 if none is: reads it */
    KS_SEE_FLUSHED = 3, /* the number of the last flush, 0 before the first: reads it */
    KS_LOCK = 4,        /* takes the lock of flushes; that of a lane may be held, and none is taken after it */
    KS_SEE_LOCKED = 5,  /* as KS_SEE_PENDING */
    KS_HIDE = 6,        /* the number of the last flush: writes ks_turn.word */
    KS_DRAW_FLUSH = 7,  /* as KS_DRAW */
    KS_SHOW = 8,        /* as KS_HIDE */
    KS_CLEAR = 9,       /* the moment of a flush that is to come: writes ks_turn.word */
    KS_SET_LATER = 10,  /* as KS_CLEAR */
    KS_UNLOCK = 11      /* gives the lock of flushes back */
} ks_access;

/* A turn of a step, or a flush. */
typedef struct ks_turn {
    uint32_t at;       /* one of ks_access */
    uint32_t kind;     /* 0: an item gets no number, 1: one may, 2: it is a flush */
    uint32_t lane;     /* the number of the key's lane */
    uint32_t reserved; /* 0 */
    uint64_t word;     /* what is written next, if something is */
    uint64_t moment;   /* seconds since 1970 */
    uint64_t later;    /* of a flush: its moment, 0 for at once */
    uint64_t cas;      /* a number that no other item had: the item's, if one is stored */
    uint64_t flushed;  /* the number of the last flush: an item with a lower one is not live */
} ks_turn;

/* What ks_lane_step says. */
typedef enum ks_stepped {
    KS_NOT_DUE = 0,
    KS_IS_DUE = 1,     /* upkeep of the lane is due */
    KS_OTHER_LANE = 2, /* the turn was begun for another lane, and nothing was done: a fault of C */
    KS_WRONG_TURN = 3  /* the turn is not whole, or may not follow the lane's last one, and nothing was done: a fault of C */
} ks_stepped;

/* What a step was, for counters. */
typedef enum ks_command {
    KS_NO_COMMAND = 0, /* a part of a request, or none that is counted */
    KS_GET = 1,        /* one key of get or gets */
    KS_GAT = 2,        /* one key of gat or gats */
    KS_SET = 3,
    KS_ADD = 4,
    KS_REPLACE = 5,
    KS_APPEND = 6,
    KS_PREPEND = 7,
    KS_CAS = 8,
    KS_DELETE = 9,
    KS_INCR = 10,
    KS_DECR = 11,
    KS_TOUCH = 12,
    KS_FLUSH_ALL = 13,
    KS_META_GET = 14,
    KS_META_SET = 15,
    KS_META_DELETE = 16,
    KS_META_ARITHMETIC = 17,
    KS_META_DEBUG = 18 /* it is refused by name, as the flags b, h and l are */
} ks_command;

/* How it went. */
typedef enum ks_outcome {
    KS_NOTHING = 0,    /* nothing to be counted */
    KS_HIT = 1,        /* a value was found */
    KS_MISS = 2,       /* the key has no value */
    KS_STORED = 3,
    KS_NOT_STORED = 4, /* the command's condition does not hold */
    KS_EXISTS = 5,     /* the item has another cas unique */
    KS_DELETED = 6,
    KS_TOUCHED = 7,
    KS_COUNTED = 8,    /* incr, decr: the number was changed */
    KS_NOT_NUMBER = 9,
    KS_TOO_LARGE = 10, /* the object is too large; after set and ms the key has no value, nor after a store that was made and refused */
    KS_NO_MEMORY = 11, /* memory was refused to the store, and the key has no value */
    KS_REFUSED = 12,   /* the request is refused by its text, or the server refuses it */
    KS_LOST = 13       /* the answer was not written, since it is longer than the room: the session is to be closed. What the request asked
                        * for may have been done. It never comes in a room of KS_MOST_ANSWER bytes */
} ks_outcome;

typedef struct ks_done {
    size_t taken;     /* how many bytes of the front are to be dropped */
    size_t answered;  /* how many bytes of answer were written, at its front; 0 if none is wanted */
    uint32_t command; /* one of ks_command */
    uint32_t outcome; /* one of ks_outcome */
} ks_done;

/* What the next step of a session needs, by the bytes at hand, which begin after those that were taken. Changes nothing. `seed` and
 * `lanes`, 1 at least, are those of the cache, as of kl_place_of. */
void ks_want(const ks_session *session, const kl_seed *seed, uint32_t lanes, const uint8_t *bytes, size_t length, ks_wanted *to);

/* The first number of all, by microseconds since 1970: it is above those that were drawn before a restart, unless more than 256 were in
 * each microsecond, or the clock was set back. */
uint64_t ks_first_number(uint64_t microseconds);

/* Begins a turn on a lane, in the hold of its lock in which it is given to the step. Its moment is `now`, or that of the lane's last turn if
 * that is later. */
void ks_begin_turn(kl_lane *lane, const ks_wanted *wanted, uint64_t now, ks_turn *to);

/* Begins a flush after a delay, as KS_FLUSH has it. One that is to come takes the place of another. */
void ks_begin_flush(uint32_t delay, uint64_t now, ks_turn *to);

/* Goes on with a turn or a flush, after the access that its `at` names, by which this was read. */
void ks_go_on(ks_turn *turn, uint64_t read);

/* A step that needs no lane. If ks_want says KS_LANE of these bytes, it does nothing: taken is 0. `refuses` is 1 if the server does not do
 * what KS_FLUSH or KS_SHUTDOWN asks for, and the answer says so; else 0. */
void ks_step(ks_session *session, uint32_t refuses, const uint8_t *bytes, size_t length, uint8_t *answer, size_t room, ks_done *to);

/* A step with the lane of its key, in one hold of the lane's lock, by a turn that was begun for what ks_want said of these very bytes. If
 * ks_want does not say KS_LANE of these bytes, it does nothing: taken is 0. One of ks_stepped. */
uint32_t ks_lane_step(ks_session *session, kl_lane *lane, const ks_turn *turn, const uint8_t *bytes, size_t length,
                      uint8_t *answer, size_t room, ks_done *to);

#endif
