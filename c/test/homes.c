/* A lane knows which it is: each call on a key of another lane is refused, and so is a step by a turn of another lane, or by one that may
 * not follow the last one of the lane. Nothing has changed then. The library ends the program if it made such a call. */
#include "inside.h"
#include "session.h"
#include "test.h"
#include <signal.h>
#include <sys/wait.h>

enum { LANES = 2, PAGES = 8, ROOM = 64, KEYS = 100, TEXT_BYTES = 64 };

static const kl_seed seed = {17, 29};
static const kl_shape shape = {.shards = 1, .lanes = LANES, .sets = 4, .memory_objects = 4, .segments = 2, .segment_pages = 2,
                               .log_objects = 64, .lease_slots = 8, .threshold = 1, .admit = 65536};

static uint8_t memory[LANES][PAGES * PAGE_BYTES];
static kl_lane lanes[LANES];

/* Spells a key of a lane. */
static size_t key_of(uint32_t lane, char to[ROOM]) {
    kl_place place;
    for (int i = 0; i < KEYS; i++) {
        size_t length = (size_t)snprintf(to, ROOM, "key%d", i);
        kl_place_of(&seed, LANES, (const uint8_t *)to, length, &place);
        if (place.lane == lane) return length;
    }
    expect(false, "each lane has keys");
    return 0;
}

/* ------------------------------------------------------------------------------------------------------------------ calls */

typedef struct answers {
    uint8_t into[ROOM];
    kl_hit hit;
    kl_leased lease;
    uint32_t is_due;
} answers;

/* Makes a call on a lane. */
static int32_t call(int which, kl_lane *lane, const char *text, size_t n, answers *to) {
    const uint8_t *key = (const uint8_t *)text, *value = (const uint8_t *)"value";
    switch (which) {
    case 0: return kl_get(lane, key, n, 0, to->into, ROOM, &to->hit);
    case 1: return kl_get_or_lease(lane, key, n, 0, to->into, ROOM, &to->hit, &to->lease);
    case 2: return kl_lease(lane, key, n, &to->lease);
    case 3: return kl_put(lane, key, n, value, 5, UINT64_MAX, &to->is_due);
    case 4: return kl_put_or_remove(lane, key, n, value, 5, UINT64_MAX, &to->is_due);
    case 5: return kl_fill(lane, &to->lease, key, n, value, 5, UINT64_MAX, &to->is_due);
    default: return kl_remove(lane, key, n);
    }
}

enum { CALLS = 7 };

static void fill_with_marks(answers *to) {
    memset(to, 0x5a, sizeof *to);
}

static void refuses_keys_of_others(void) {
    char key[ROOM];
    static const char long_key[KANGAROO_KEY_MAX + 1];
    kl_counters before, after;
    answers marks, is;
    fill_with_marks(&marks);
    for (uint32_t number = 0; number < LANES; number++) {
        size_t length = key_of(1 - number, key);
        kl_count(&lanes[number], &before);
        for (int which = 0; which < CALLS; which++) {
            fill_with_marks(&is);
            expect(call(which, &lanes[number], key, length, &is) == KL_OTHER_LANE, "a call on a key of another lane is refused");
            expect(memcmp(&is, &marks, sizeof is) == 0, "and writes nothing");
        }
        kl_count(&lanes[number], &after);
        expect(memcmp(&before, &after, sizeof before) == 0, "nor does the lane count it");
        for (int which = 0; which < CALLS; which++) {
            expect(call(which, &lanes[number], key, 0, &is) == KANGAROO_WRONG_KEY, "no key is a wrong key in any lane");
            expect(call(which, &lanes[number], long_key, sizeof long_key, &is) == KANGAROO_WRONG_KEY, "nor is one that is too long");
        }
    }
    show("%d calls on a key of another lane are refused, and change nothing", CALLS);
}

static void takes_its_own_keys(void) {
    char key[ROOM];
    for (uint32_t number = 0; number < LANES; number++) {
        answers is = {.is_due = 0};
        size_t length = key_of(number, key);
        for (int which = 0; which < CALLS; which++) {
            int32_t answer = call(which, &lanes[number], key, length, &is);
            int32_t wanted = which < 2 ? KANGAROO_ABSENT : which == 5 ? KANGAROO_STALE : KANGAROO_OK;
            expect(answer == wanted, "a lane takes the calls on its own keys");
        }
    }
    show("each lane takes them on a key of its own");
}

/* ------------------------------------------------------------------------------------------------------------------ steps */

static uint64_t next = 100, flushed, pending;

static void make_whole(ks_turn *it) {
    while (it->at != KS_WHOLE)
        ks_go_on(it, it->at == KS_DRAW ? next++ : it->at == KS_SEE_FLUSHED ? flushed : pending);
}

/* A turn of a set on the lane of a key, at a moment. */
static ks_turn turn_of(const char *text, uint64_t moment) {
    ks_session session = {0};
    ks_wanted wanted;
    ks_turn turn;
    ks_want(&session, &seed, LANES, (const uint8_t *)text, strlen(text), &wanted);
    expect(wanted.wants == KS_LANE && wanted.argument == 1, "a set wants a lane and a number");
    ks_begin_turn(&lanes[wanted.place.lane], &wanted, moment, &turn);
    make_whole(&turn);
    return turn;
}

/* Makes a step on the lane of a number, and tests that it is answered so. */
static void step(uint32_t number, const ks_turn *turn, const char *text, uint32_t wanted, const char *what) {
    static const ks_session new_session;
    ks_session session = new_session;
    ks_done done = {.taken = 1, .answered = 1, .command = 1, .outcome = 1};
    uint8_t answer[KS_MOST_ANSWER];
    kl_counters before, after;
    memset(answer, 0x5a, sizeof answer);
    kl_count(&lanes[number], &before);
    uint32_t is = ks_lane_step(&session, &lanes[number], turn, (const uint8_t *)text, strlen(text), answer, sizeof answer, &done);
    kl_count(&lanes[number], &after);
    expect(is == wanted, what);
    if (wanted <= KS_IS_DUE) {
        expect(done.outcome == KS_STORED && done.taken == strlen(text), what);
        return;
    }
    expect(done.taken == 0 && done.answered == 0 && done.command == 0 && done.outcome == 0, "a refused step tells nothing");
    expect(memcmp(&session, &new_session, sizeof session) == 0 && answer[0] == 0x5a, "nor does it answer, or change the session");
    expect(memcmp(&before, &after, sizeof before) == 0, "nor does the lane count it");
}

static void takes_turns_that_follow(void) {
    char key[ROOM], text[TEXT_BYTES + ROOM];
    size_t length = key_of(1, key);
    snprintf(text, sizeof text, "set %.*s 0 0 1\r\nx\r\n", (int)length, key);
    ks_turn right = turn_of(text, 50), wrong = right;
    step(0, &right, text, KS_OTHER_LANE, "a turn of another lane is refused");
    wrong.at = KS_SEE_FLUSHED;
    step(1, &wrong, text, KS_WRONG_TURN, "so is one that is not whole");
    wrong = right;
    wrong.kind = 2;
    step(1, &wrong, text, KS_WRONG_TURN, "so is a flush");
    wrong = right;
    wrong.flushed = wrong.cas;
    step(1, &wrong, text, KS_WRONG_TURN, "so is one whose number is not above that of its flush");
    step(1, &right, text, KS_NOT_DUE, "a turn that follows is taken");
    step(1, &right, text, KS_WRONG_TURN, "no number is given twice");
    wrong = turn_of(text, 49);
    expect(wrong.moment == 50, "a turn is never of a moment before the last one of its lane");
    wrong.moment = 49;
    step(1, &wrong, text, KS_WRONG_TURN, "a step of a moment before the last one is refused");
    flushed = next++;
    right = turn_of(text, 50);
    step(1, &right, text, KS_NOT_DUE, "a turn after a flush is taken");
    wrong = turn_of(text, 50);
    wrong.flushed = flushed - 1;
    step(1, &wrong, text, KS_WRONG_TURN, "a flush that was seen is not unseen");
    show("a step is refused by a turn of another lane, and by one that may not follow");
}

/* ---------------------------------------------------------------------------------------------------------------- library */

/* In a child: opens a cache, confuses two lanes of it, and makes a call. */
static void call_of_confused_lanes(const char *folder, int told) {
    kangaroo_cache *cache = open_small(folder);
    kl_lane first = cache->lanes[0].lane;
    dup2(told, STDERR_FILENO);
    cache->lanes[0].lane = cache->lanes[1].lane;
    cache->lanes[1].lane = first;
    for (int i = 0; i < KEYS; i++) {
        char key[ROOM];
        size_t length = (size_t)snprintf(key, ROOM, "key%d", i);
        expect_status(kangaroo_put(cache, key, length, "value", 5, KANGAROO_NEVER), KANGAROO_OK, "a put of another lane's key");
    }
    _exit(0);
}

static void ends_by_a_fault_of_its_own(void) {
    char folder[PATH_BYTES], line[256] = {0};
    int told[2], status;
    make_folder(folder);
    expect(pipe(told) == 0, "a pipe");
    fflush(stdout);
    pid_t child = fork();
    if (child == 0) call_of_confused_lanes(folder, told[1]);
    close(told[1]);
    expect(child > 0 && waitpid(child, &status, 0) == child, "a child");
    expect(WIFSIGNALED(status) && WTERMSIG(status) == SIGABRT, "the library ends a program that would put a key into another lane");
    expect(read(told[0], line, sizeof line - 1) > 0 && strstr(line, "another lane") != NULL, "and says why");
    close(told[0]);
    remove_folder(folder);
    show("the library ends a program in which lanes were confused, and says why");
}

int main(void) {
    for (uint32_t i = 0; i < LANES; i++) {
        kl_pages pages = {memory[i], PAGES};
        expect(kl_open(&shape, &seed, i, pages, &lanes[i]) == KANGAROO_OK, "a lane");
    }
    refuses_keys_of_others();
    takes_its_own_keys();
    takes_turns_that_follow();
    for (uint32_t i = 0; i < LANES; i++) kl_close(&lanes[i]);
    ends_by_a_fault_of_its_own();
    return 0;
}
