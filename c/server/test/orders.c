/* orders.c: every order in which two clients can reach what the threads of a server share. Their commands run in turn, and may
 * change at each lock and at each access to the numbers of steps.c, which is compiled into this program for that. Lanes and
 * sessions are the real ones. What is answered has to be what whole commands answer in some order, in which a command that ended
 * before another began comes first. A clock of the program's own says the moment, and it tends lanes that are handed over. */
#define _GNU_SOURCE
#include "../server.h"
#include "test/test.h"
#include <signal.h>
#include <time.h>
#include <ucontext.h>

/* ------------------------------------------------------------------------------------------------------ what takes turns */

enum { CLIENTS = 2, ALL_CLIENTS = 3, STACK_BYTES = 1 << 18, CHOICES_MAX = 200, HELD_MAX = 4, HANDED_MAX = 16, OPENED = 1800000000 };

/* A client that runs until it reaches something that is shared. */
typedef struct runner {
    ucontext_t at;
    uint8_t *stack;
    bool is_done;
    const pthread_mutex_t *waits_for;
} runner;

static runner runners[CLIENTS];
static ucontext_t chooser;
static int running = -1; /* nobody: what is done before and after does not change */
static const pthread_mutex_t *held[HELD_MAX];
static time_t clock_now = OPENED;

static void change(void) {
    if (running >= 0) swapcontext(&runners[running].at, &chooser);
}

static const pthread_mutex_t **place_of(const pthread_mutex_t *lock) {
    for (int i = 0; i < HELD_MAX; i++)
        if (held[i] == lock) return &held[i];
    return NULL;
}

static int take_lock(pthread_mutex_t *lock) {
    change();
    while (place_of(lock) != NULL) {
        runners[running].waits_for = lock;
        change();
    }
    if (running >= 0) runners[running].waits_for = NULL;
    *place_of(NULL) = lock;
    return 0;
}

static int leave_lock(pthread_mutex_t *lock) {
    *place_of(lock) = NULL;
    return 0;
}

static uint64_t load(const atomic_uint_least64_t *of) {
    change();
    return atomic_load(of);
}

static void store(atomic_uint_least64_t *of, uint64_t it) {
    change();
    atomic_store(of, it);
}

static uint64_t add(atomic_uint_least64_t *of, uint64_t more) {
    change();
    return atomic_fetch_add(of, more);
}

/* Lanes that are due, and were handed over with their lock held. */
static bool is_handed_over[HANDED_MAX];

static __attribute__((unused)) void note_lane(const kangaroo_cache *cache, uint32_t number) {
    expect(number < HANDED_MAX && place_of(&cache->lanes[number].lock) != NULL, "a lane is handed over in a hold of its lock");
    is_handed_over[number] = true;
}

/* A step on a lane is made in a hold of its lock. */
static uint32_t step_noted(ks_session *session, kl_lane *lane, const ks_turn *turn, const uint8_t *bytes, size_t length, uint8_t *to,
                           size_t room, ks_done *done) {
    const guarded_lane *of = (const guarded_lane *)(const void *)((const char *)lane - offsetof(guarded_lane, lane));
    expect(place_of(&of->lock) != NULL, "a step on a lane is made in a hold of its lock");
    uint32_t is_due = ks_lane_step(session, lane, turn, bytes, length, to, room, done);
    expect(place_of(&of->lock) != NULL, "the lock of a lane is held to the end of the step");
    return is_due;
}

static int tell_time(clockid_t clock, struct timespec *to) {
    *to = (struct timespec){.tv_sec = clock == CLOCK_REALTIME ? clock_now : clock_now - OPENED};
    return 0;
}

#undef atomic_load
#undef atomic_load_explicit
#undef atomic_store
#undef atomic_fetch_add
#define atomic_load(of) load(of)
#define atomic_load_explicit(of, order) load(of)
#define atomic_store(of, it) store(of, it)
#define atomic_fetch_add(of, more) add(of, more)
#define pthread_mutex_lock(of) take_lock(of)
#define pthread_mutex_unlock(of) leave_lock(of)
#define clock_gettime(clock, to) tell_time(clock, to)
#define hand_over(cache, number) note_lane(cache, number)
#define ks_lane_step(...) step_noted(__VA_ARGS__)
#include "../steps.c"

/* ------------------------------------------------------------------------------------------------------------- commands */

enum { COMMANDS_MAX = 4, CALLS_MAX = 12, KEYS = 2, TEXT_BYTES = 64, STORES = 10000 };

typedef enum kind { NOTHING, GET, SET, ADD, INCR, FLUSH, LATER } kind;

/* A command: to get a key, to store a number, to add 1 to the number that is there, or to flush all items, now or in a second. */
typedef struct command {
    kind kind;
    int key;
    long number;
} command;

/* A command that was made. */
typedef struct call {
    command is;
    bool is_refused; /* it found no value, or one was there already */
    long number;     /* that was found or made */
    unsigned long long of_item; /* of a get: the number that the server gave the item */
    int from, to;
    bool is_beside_flush;
} call;

static call calls[CALLS_MAX];
static int call_count, events;
static long round_now; /* keys of each round are new */

static server all;
static worker workers[ALL_CLIENTS];
static conn conns[ALL_CLIENTS];

static size_t spell(const command *it, char to[TEXT_BYTES]) {
    char key[24], number[24];
    int digits = snprintf(number, sizeof number, "%ld", it->number);
    snprintf(key, sizeof key, "%c%ld", 'a' + it->key, round_now);
    int length = 0;
    if (it->kind == GET) length = snprintf(to, TEXT_BYTES, "gets %s\r\n", key);
    if (it->kind == SET) length = snprintf(to, TEXT_BYTES, "set %s 0 0 %d\r\n%s\r\n", key, digits, number);
    if (it->kind == ADD) length = snprintf(to, TEXT_BYTES, "add %s 0 0 %d\r\n%s\r\n", key, digits, number);
    if (it->kind == INCR) length = snprintf(to, TEXT_BYTES, "incr %s 1\r\n", key);
    if (it->kind == FLUSH) length = snprintf(to, TEXT_BYTES, "flush_all\r\n");
    if (it->kind == LATER) length = snprintf(to, TEXT_BYTES, "flush_all 1\r\n");
    return (size_t)length;
}

static uint32_t lane_of(int number) {
    char key[24];
    kl_place place;
    size_t length = (size_t)snprintf(key, sizeof key, "%c%ld", 'a' + number, round_now);
    kl_place_of(&all.cache->seed, all.cache->lane_count, (const uint8_t *)key, length, &place);
    return place.lane;
}

/* Keys that nobody had yet, of different lanes: so no lock of a lane orders what is done to one and to the other. */
static void take_new_keys(void) {
    do round_now++;
    while (lane_of(0) == lane_of(1));
}

/* Sends a text to the server's steps, as a client's whole turn. Gives the answer. */
static const char *ask(int client, const char *text, size_t length) {
    worker *by = &workers[client];
    by->answers.length = 0;
    atomic_init(&conns[client].last_moment, (uint64_t)clock_now); /* as a turn begins */
    for (size_t taken, done = 0; done < length; done += taken)
        expect(make_step(by, &conns[client], (const uint8_t *)text + done, length - done, &taken) == STEP_WENT_ON && taken != 0,
               "each step takes something");
    by->answers.at[by->answers.length] = 0;
    return (const char *)by->answers.at;
}

static void read_answer(call *to, const char *answer) {
    const char *data = strstr(answer, "\r\n");
    expect(data != NULL, "an answer has an end");
    to->is_refused = strcmp(answer, "END\r\n") == 0 || strncmp(answer, "NOT_", 4) == 0;
    to->number = to->is.number;
    if (!to->is_refused && to->is.kind == GET) {
        expect(sscanf(answer, "VALUE %*s 0 %*u %llu", &to->of_item) == 1, "an item has a number");
        to->number = atol(data + 2);
    }
    if (!to->is_refused && to->is.kind == INCR) to->number = atol(answer);
}

static void make(int client, const command *it) {
    char text[TEXT_BYTES];
    expect(call_count < CALLS_MAX, "room for a call");
    call *to = &calls[call_count++];
    *to = (call){.is = *it, .from = events++};
    size_t length = spell(it, text);
    read_answer(to, ask(client, text, length));
    to->to = events++;
}

/* ---------------------------------------------------------------------------------------- whether an order of calls exists */

enum { ABSENT = -1 };

/* Does a call in its place in an order. False: there it would have been answered otherwise. A call beside a flush may find less than
 * there is: while the flush is made every item counts as flushed. */
static bool can_be_next(const call *it, long values[KEYS]) {
    long *value = &values[it->is.key];
    bool may_miss = *value == ABSENT || it->is_beside_flush;
    switch (it->is.kind) {
    case FLUSH: for (int i = 0; i < KEYS; i++) values[i] = ABSENT; return true;
    case GET: return it->is_refused ? may_miss : *value == it->number;
    case INCR:
        if (it->is_refused) return may_miss;
        if (*value == ABSENT || *value + 1 != it->number) return false;
        break;
    case ADD:
        if (it->is_refused) return *value != ABSENT;
        if (!may_miss) return false;
        break;
    case LATER: case NOTHING: return true;
    case SET: default: break;
    }
    *value = it->number;
    return true;
}

/* Whether all of a set of calls that ended before some other of it began are done. */
static bool is_first(int which, unsigned done) {
    for (int i = 0; i < call_count; i++)
        if ((done >> i & 1) == 0 && calls[i].to < calls[which].from) return false;
    return true;
}

static bool has_order(unsigned done, const long values[KEYS]) {
    if (done == (1u << call_count) - 1) return true;
    for (int i = 0; i < call_count; i++) {
        long next[KEYS];
        memcpy(next, values, sizeof next);
        bool is_next = (done >> i & 1) == 0 && is_first(i, done) && can_be_next(&calls[i], next);
        if (is_next && has_order(done | 1u << i, next)) return true;
    }
    return false;
}

static void mark_those_beside_a_flush(void) {
    for (call *it = calls; it < calls + call_count; it++)
        for (const call *by = calls; by < calls + call_count; by++)
            if (by->is.kind == FLUSH && by->from < it->to && it->from < by->to) it->is_beside_flush = true;
}

/* Whether no two items had one number. */
static bool are_items_apart(void) {
    for (int i = 0; i < call_count; i++)
        for (int j = 0; j < i; j++)
            if (calls[i].of_item != 0 && calls[i].of_item == calls[j].of_item &&
                (calls[i].is.key != calls[j].is.key || calls[i].number != calls[j].number)) return false;
    return true;
}

static void show_calls(void) {
    static const char *const names[] = {
        [GET] = "gets", [SET] = "set", [ADD] = "add", [INCR] = "incr", [FLUSH] = "flush_all", [LATER] = "flush_all 1"};
    for (int i = 0; i < call_count; i++)
        printf("    %2d to %2d: %s %c, %s %ld\n", calls[i].from, calls[i].to, names[calls[i].is.kind], 'a' + calls[i].is.key,
               calls[i].is_refused ? "refused" : "done", calls[i].number);
}

/* --------------------------------------------------------------------------------------------------------------- all orders */

/* What is tried: commands made before, those of two clients, and those made after. If `waits`, a second passes before the two. */
typedef struct trial {
    const char *what;
    bool waits;
    command before[COMMANDS_MAX], of[CLIENTS][COMMANDS_MAX], after[COMMANDS_MAX];
} trial;

static const trial *trial_now;
static struct { int chosen, of; } choices[CHOICES_MAX];
static int choice_count, known_count;

static void make_all(int client, const command *list) {
    for (int i = 0; i < COMMANDS_MAX && list[i].kind != NOTHING; i++) make(client, &list[i]);
}

static void run_client(int client) {
    make_all(client, trial_now->of[client]);
    runners[client].is_done = true;
}

static void start_client(int client) {
    runner *it = &runners[client];
    it->is_done = false;
    it->waits_for = NULL;
    getcontext(&it->at);
    it->at.uc_stack.ss_sp = it->stack;
    it->at.uc_stack.ss_size = STACK_BYTES;
    it->at.uc_link = &chooser;
    makecontext(&it->at, (void (*)(void))run_client, 1, client);
}

static bool can_run(const runner *it) {
    return !it->is_done && (it->waits_for == NULL || place_of(it->waits_for) == NULL);
}

/* Which client runs next, by the order that is tried. -1: none can. */
static int choose(void) {
    int able[CLIENTS], count = 0;
    for (int i = 0; i < CLIENTS; i++)
        if (can_run(&runners[i])) able[count++] = i;
    if (count < 2) return count == 0 ? -1 : able[0];
    expect(choice_count < CHOICES_MAX, "room for a choice");
    if (choice_count == known_count) {
        choices[known_count].chosen = 0;
        choices[known_count++].of = count;
    }
    return able[choices[choice_count++].chosen];
}

/* Goes to the next order. False: all were tried. */
static bool next_order(void) {
    while (known_count != 0 && choices[known_count - 1].chosen + 1 == choices[known_count - 1].of) known_count--;
    if (known_count == 0) return false;
    choices[known_count - 1].chosen++;
    return true;
}

/* A second passes. A flush whose moment comes then is to be as if made before all commands of that moment. */
static void wait_a_second(void) {
    clock_now++;
    calls[call_count++] = (call){.is = {.kind = FLUSH}, .from = events, .to = events};
    events++;
}

static void run_order(void) {
    static const long nothing[KEYS] = {ABSENT, ABSENT};
    call_count = events = choice_count = 0;
    take_new_keys();
    make_all(CLIENTS, trial_now->before);
    if (trial_now->waits) wait_a_second();
    for (int i = 0; i < CLIENTS; i++) start_client(i);
    while ((running = choose()) >= 0) swapcontext(&chooser, &runners[running].at);
    for (int i = 0; i < CLIENTS; i++) expect(runners[i].is_done, "no two clients wait for each other");
    make_all(CLIENTS, trial_now->after);
    mark_those_beside_a_flush();
    if (has_order(0, nothing) && are_items_apart()) return;
    show_calls();
    expect(false, trial_now->what);
}

static void run_trial(const trial *it) {
    long count = 0;
    trial_now = it;
    known_count = 0;
    do run_order();
    while (count++, next_order());
    show("%s: %ld orders", it->what, count);
}

static const trial trials[] = {
    {.what = "items that two clients store in two lanes have a number each",
     .of = {{{SET, 0, 1}, {SET, 0, 2}}, {{SET, 1, 1}}}, .after = {{GET, 0, 0}, {GET, 1, 0}}},
    {.what = "beside a flush_all, a client that stores a key and is answered hits no other key of before",
     .before = {{SET, 0, 1}}, .of = {{{.kind = FLUSH}}, {{SET, 1, 2}, {GET, 0, 0}}}, .after = {{GET, 0, 0}, {GET, 1, 0}}},
    {.what = "beside a flush_all, a number that grows comes of no flushed item and outlives the flush",
     .before = {{SET, 0, 1}}, .of = {{{.kind = FLUSH}}, {{INCR, 0, 0}}}, .after = {{GET, 0, 0}}},
    {.what = "what is stored after a flush_all is not lost by a command that began before it",
     .before = {{SET, 0, 1}}, .of = {{{.kind = FLUSH}, {SET, 0, 5}}, {{INCR, 0, 0}}}, .after = {{GET, 0, 0}}},
    {.what = "nor by one that stores the same key",
     .before = {{SET, 0, 1}}, .of = {{{.kind = FLUSH}, {SET, 0, 5}}, {{ADD, 0, 7}}}, .after = {{GET, 0, 0}}},
    {.what = "beside another flush_all, what was stored before one that was answered stays flushed",
     .of = {{{SET, 0, 3}, {.kind = FLUSH}}, {{.kind = FLUSH}}}, .after = {{GET, 0, 0}}},
    {.what = "a flush_all whose moment has come is made once, before the commands of that moment",
     .waits = true, .before = {{SET, 0, 1}, {.kind = LATER}}, .of = {{{INCR, 0, 0}}, {{SET, 0, 5}}}, .after = {{GET, 0, 0}}},
    {.what = "two clients that add to a number each count",
     .before = {{SET, 0, 1}}, .of = {{{INCR, 0, 0}, {INCR, 0, 0}}, {{INCR, 0, 0}}}, .after = {{GET, 0, 0}}},
    {.what = "of two clients that add a key one does",
     .of = {{{ADD, 0, 1}}, {{ADD, 0, 2}}}, .after = {{GET, 0, 0}}},
};

/* ------------------------------------------------------------------------------------------------------------------ moments */

static void expect_answer(const char *text, const char *wanted, const char *what) {
    const char *is = ask(0, text, strlen(text));
    if (strcmp(is, wanted) != 0) show("%s was answered %s", text, is);
    expect(strcmp(is, wanted) == 0, what);
}

/* An item goes by the moment of the step that asks for it: it is there up to its last second, and not in the next. */
static void shows_moments(void) {
    char text[TEXT_BYTES];
    expect_answer("set one 0 1 1\r\nx\r\nget one\r\n", "STORED\r\nVALUE one 0 1\r\nx\r\nEND\r\n", "an item of one second, at once");
    snprintf(text, sizeof text, "set dated 0 %ld 1\r\nx\r\n", (long)clock_now + 2);
    expect_answer(text, "STORED\r\n", "an item with a date");
    expect_answer("set kept 0 0 1\r\nx\r\nflush_all 3\r\n", "STORED\r\nOK\r\n", "a flush that is to come");
    clock_now++;
    expect_answer("get one\r\n", "END\r\n", "an item of one second, a second later");
    expect_answer("get dated\r\n", "VALUE dated 0 1\r\nx\r\nEND\r\n", "a second before its date");
    clock_now++;
    expect_answer("get dated\r\n", "END\r\n", "at its date");
    expect_answer("get kept\r\n", "VALUE kept 0 1\r\nx\r\nEND\r\n", "a second before the flush");
    clock_now++;
    expect_answer("get kept\r\n", "END\r\n", "at the moment of the flush");
    show("an item of one second, one with a date, and a flush that is to come: there up to the last second, and not in the next");
}

/* 30 days are the longest delay, and the last flush_all counts: it takes the place of one that is to come. */
static void shows_flushes_to_come(void) {
    expect_answer("set kept 0 0 1\r\nx\r\nflush_all 2592000\r\n", "STORED\r\nOK\r\n", "a flush in 30 days");
    expect_answer("get kept\r\n", "VALUE kept 0 1\r\nx\r\nEND\r\n", "30 days before a flush");
    expect_answer("flush_all 1\r\nflush_all\r\nset kept 0 0 1\r\ny\r\n", "OK\r\nOK\r\nSTORED\r\n", "a flush after one that is to come");
    clock_now++;
    expect_answer("get kept\r\n", "VALUE kept 0 1\r\ny\r\nEND\r\n", "the flush that was to come is given up");
    expect_answer("flush_all 1\r\nflush_all 1000\r\n", "OK\r\nOK\r\n", "two flushes that are to come");
    clock_now++;
    expect_answer("get kept\r\n", "VALUE kept 0 1\r\ny\r\nEND\r\n", "the first of two is given up");
    clock_now += 999;
    expect_answer("get kept\r\n", "END\r\n", "at the moment of the second");
    show("a flush in 30 days, and of two flushes the last counts");
}

/* --------------------------------------------------------------------------------------------------------------- due lanes */

static void tend_those_handed_over(void) {
    for (uint32_t i = 0; i < all.cache->lane_count; i++) {
        kl_step did = {.is_due = is_handed_over[i]};
        while (did.is_due != 0) kl_upkeep_step(&all.cache->lanes[i].lane, &did);
        is_handed_over[i] = false;
    }
}

/* A lane that a step leaves due is handed over, so no store has to do steps of upkeep itself. */
static void shows_due_lanes(void) {
    char text[400];
    kangaroo_counters counted;
    for (int i = 0; i < STORES; i++) {
        int length = snprintf(text, sizeof text, "set stored%d 0 0 250\r\n%0250d\r\n", i, i);
        expect(strcmp(ask(0, text, (size_t)length), "STORED\r\n") == 0, "a store");
        tend_those_handed_over();
    }
    expect_status(kangaroo_counters_read(all.cache, &counted, sizeof counted), KANGAROO_OK, "counters");
    show("%d stores: %lu steps of upkeep in %u lanes that were handed over, and %lu by stores", STORES, counted.upkeep_steps,
         all.cache->lane_count, counted.put_steps);
    expect(counted.upkeep_steps > STORES / 100 && counted.put_steps == 0, "each lane that is due is handed over");
}

/* -------------------------------------------------------------------------------------------------------------------- start */

static void open_all(const char *folder) {
    all.options = small_options();
    all.options.upkeep_threads = 0;
    all.cache = open_with(&all.options, folder);
    start_clock();
    start_numbers(&all.numbers);
    for (int i = 0; i < ALL_CLIENTS; i++) {
        workers[i].of = &all;
        expect(make_room(&workers[i].answers, ANSWERS_ENOUGH + KS_MOST_ANSWER), "room for answers");
    }
    for (int i = 0; i < CLIENTS; i++) expect((runners[i].stack = malloc(STACK_BYTES)) != NULL, "a stack");
}

static void close_all(const char *folder) {
    for (int i = 0; i < CLIENTS; i++) free(runners[i].stack);
    for (int i = 0; i < ALL_CLIENTS; i++) free_buffer(&workers[i].answers);
    close_cache(all.cache);
    remove_folder(folder);
}

int main(void) {
    char folder[PATH_BYTES];
    make_folder(folder);
    open_all(folder);
    shows_due_lanes();
    shows_moments();
    shows_flushes_to_come();
    for (size_t i = 0; i < sizeof trials / sizeof *trials; i++) run_trial(&trials[i]);
    close_all(folder);
    return 0;
}
