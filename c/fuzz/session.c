/* session: a client's bytes, cut in two ways, to two sessions over lanes alike. Both answer the same bytes, and each step
 * keeps what session.h says: it takes something, stays in its room, and leaves no more than KS_MOST_KEPT bytes. */
#include "fuzz.h"
#include "session.h"

enum { LANES = 2, PAGES = 8, PAGE_BYTES = 4096, GUARD = 0x5a, GUARDED = 64, CUT_MOST = 4096 };

/* Bytes that grow. */
typedef struct bytes {
    uint8_t *at;
    size_t length, room;
} bytes;

/* A session with its lanes, what it was not given yet, and what it answered. */
typedef struct client {
    ks_session session;
    kl_lane lanes[LANES];
    uint8_t *pages[LANES];
    uint64_t next, flushed, pending, lane_steps;
    bytes unread, answers;
    bool is_over;
} client;

static const kl_seed seed = {17, 29};
static const kl_shape shape = {.shards = 1, .lanes = LANES, .sets = 4, .memory_objects = 4, .segments = 2,
                               .segment_pages = 2, .log_objects = 64, .lease_slots = 8, .threshold = 1, .admit = 65536};

static void append(bytes *to, const uint8_t *from, size_t length) {
    if (to->room - to->length < length) {
        to->room = 2 * (to->length + length);
        to->at = realloc(to->at, to->room);
        expect(to->at != NULL, "memory");
    }
    if (length != 0) memcpy(to->at + to->length, from, length);
    to->length += length;
}

static void open_client(client *to, const ks_session *session) {
    *to = (client){.session = *session, .next = 1};
    for (uint32_t i = 0; i < LANES; i++) {
        to->pages[i] = calloc(PAGES, PAGE_BYTES);
        expect(to->pages[i] != NULL, "memory");
        kl_pages pages = {to->pages[i], PAGES};
        expect(kl_open(&shape, &seed, i, pages, &to->lanes[i]) == KANGAROO_OK, "a lane");
    }
}

static void close_client(client *of) {
    for (uint32_t i = 0; i < LANES; i++) {
        kl_close(&of->lanes[i]);
        free(of->pages[i]);
    }
    free(of->unread.at);
    free(of->answers.at);
}

/* ------------------------------------------------------------------------------------------------------------- steps */

static uint64_t make_access(client *of, const ks_turn *by) {
    switch (by->at) {
    case KS_DRAW: case KS_DRAW_FLUSH: return of->next++;
    case KS_SEE_FLUSHED: return of->flushed;
    case KS_SEE_PENDING: case KS_SEE_LOCKED: return of->pending;
    case KS_HIDE: case KS_SHOW: of->flushed = by->word; return 0;
    case KS_CLEAR: case KS_SET_LATER: of->pending = by->word; return 0;
    default: return 0;
    }
}

static void make_whole(client *of, ks_turn *it) {
    while (it->at != KS_WHOLE) ks_go_on(it, make_access(of, it));
}

static void step_in_lane(client *of, const ks_wanted *wanted, uint64_t now, uint8_t *answer, ks_done *done) {
    kl_lane *lane = &of->lanes[wanted->place.lane];
    kl_step upkeep;
    ks_turn turn;
    expect(wanted->place.lane < LANES, "a lane that there is");
    of->lane_steps++;
    ks_begin_turn(lane, wanted, now, &turn);
    make_whole(of, &turn);
    uint32_t stepped = ks_lane_step(&of->session, lane, &turn, of->unread.at, of->unread.length, answer, KS_MOST_ANSWER, done);
    expect(stepped <= KS_IS_DUE, "a lane takes the turn of its key");
    if (stepped == KS_IS_DUE) kl_upkeep_step(lane, &upkeep);
}

static void do_wanted(client *of, const ks_wanted *wanted, uint8_t *answer, ks_done *done) {
    uint64_t now = 1000 + of->lane_steps / 16;
    ks_turn flush;
    if (wanted->wants == KS_LANE) {
        step_in_lane(of, wanted, now, answer, done);
        return;
    }
    if (wanted->wants == KS_FLUSH) {
        ks_begin_flush(wanted->argument, now, &flush);
        make_whole(of, &flush);
    }
    ks_step(&of->session, wanted->wants == KS_SHUTDOWN, of->unread.at, of->unread.length, answer, KS_MOST_ANSWER, done);
}

static void make_step(client *of, const ks_wanted *wanted) {
    uint8_t answer[KS_MOST_ANSWER + GUARDED];
    ks_done done = {0};
    memset(answer + KS_MOST_ANSWER, GUARD, GUARDED);
    do_wanted(of, wanted, answer, &done);
    for (int i = 0; i < GUARDED; i++) expect(answer[KS_MOST_ANSWER + i] == GUARD, "no byte past the room");
    expect(done.outcome != KS_LOST, "an answer fits");
    expect(done.taken >= 1 && done.taken <= of->unread.length, "a step takes some of what there is");
    expect(done.answered <= KS_MOST_ANSWER, "it stays in its room");
    append(&of->answers, answer, done.answered);
    of->unread.length -= done.taken;
    memmove(of->unread.at, of->unread.at + done.taken, of->unread.length);
}

/* Gives a session some bytes more, and makes the steps that can be made. */
static void feed(client *of, const uint8_t *more, size_t length) {
    ks_wanted wanted;
    append(&of->unread, more, length);
    while (!of->is_over && of->unread.length != 0) {
        ks_want(&of->session, &seed, LANES, of->unread.at, of->unread.length, &wanted);
        if (wanted.wants == KS_MORE) {
            expect(of->unread.length < KS_MOST_KEPT, "little waits");
            return;
        }
        if (wanted.wants == KS_CLOSE) of->is_over = true;
        else make_step(of, &wanted);
    }
}

/* ------------------------------------------------------------------------------------------------------------ inputs */

/* A session that begins anew, or one of any bytes. */
static ks_session take_session(input *from) {
    ks_session session = {0};
    if (take_byte(from) % 8 != 7) return session;
    for (size_t i = 0; i < sizeof session; i++) ((uint8_t *)&session)[i] = take_byte(from);
    return session;
}

static void feed_in_pieces(client *of, input from, uint32_t state, uint32_t most) {
    while (from.left != 0) {
        state = state * 1664525 + 1013904223;
        size_t piece = 1 + (state >> 8) % most;
        if (piece > from.left) piece = from.left;
        feed(of, from.at, piece);
        from.at += piece;
        from.left -= piece;
    }
}

int LLVMFuzzerTestOneInput(const uint8_t *data, size_t length) {
    input from = {data, length};
    client whole, cut;
    uint32_t state = take_below(&from, 65536), most = 1 + take_below(&from, CUT_MOST);
    ks_session session = take_session(&from);
    open_client(&whole, &session);
    open_client(&cut, &session);
    feed(&whole, from.at, from.left);
    feed_in_pieces(&cut, from, state, most);
    expect(whole.is_over == cut.is_over, "both end, or none");
    expect(whole.answers.length == cut.answers.length, "as many bytes of answer");
    expect(whole.answers.length == 0 || memcmp(whole.answers.at, cut.answers.at, whole.answers.length) == 0, "the same");
    close_client(&whole);
    close_client(&cut);
    return 0;
}
