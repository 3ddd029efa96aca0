/* A connection, and what is done for it: all by its worker, so it has no lock.
 *
 * A turn is one read, the steps of what was read, and a send whenever the answers are ANSWERS_ENOUGH. What a client leaves half
 * sent is kept for it, and so is what it does not take; while it has not taken its answers it is not read. Answers of stats are
 * long for what is read: a turn has room for a few, and the next ones come in the client's next turn, after the others had theirs.
 * So a slow client costs at most READ_BYTES and KS_MOST_KEPT bytes that wait, and the answers of one send, ANSWERS_ENOUGH and one
 * more: of a step KS_MOST_ANSWER at most, or the lines of stats. An idle one costs its struct and its line of what is shown. */
#define _GNU_SOURCE
#include "server.h"
#include <netinet/in.h>
#include <netinet/tcp.h>
#include <stdlib.h>
#include <string.h>
#include <sys/epoll.h>
#include <sys/socket.h>
#include <unistd.h>

enum { DRAINED_BYTES = 65536 };

/* ------------------------------------------------------------------------------------------------------- what is shown */

uint64_t most_descriptors(const settings *of) {
    return of->conns + of->threads * 2 + OTHER_DESCRIPTORS;
}

bool make_shown(server *of) {
    of->shown_room = (uint32_t)most_descriptors(&of->settings);
    of->shown = calloc(of->shown_room, sizeof *of->shown);
    return of->shown != NULL;
}

/* What is shown of a descriptor, or NULL: more were open than this program opens, when it was started. */
static showing *shown_of(server *of, int fd) {
    return (uint32_t)fd < of->shown_room ? &of->shown[fd] : NULL;
}

/* Shows a descriptor that a client has got. Only the main thread does this. */
static void show(server *of, int fd) {
    showing *it = shown_of(of, fd);
    if (it == NULL) return;
    atomic_store(&it->state, CONN_WAITS);
    atomic_store(&it->last_moment, moment_now());
    if (atomic_fetch_add(&it->changes, 1) == 0) atomic_fetch_add(&of->shown_count, 1);
    if ((uint32_t)fd >= atomic_load(&of->shown_end)) atomic_store(&of->shown_end, (uint32_t)fd + 1);
}

/* Shows a descriptor no more: before it is closed, so that nobody takes the next one of its number for it. */
static void hide(server *of, int fd) {
    showing *it = shown_of(of, fd);
    if (it != NULL) atomic_fetch_add(&it->changes, 1);
}

static void show_state(worker *by, const conn *of, conn_state state) {
    showing *it = shown_of(by->of, of->fd);
    if (it != NULL) atomic_store_explicit(&it->state, state, memory_order_relaxed);
}

static void show_moment(worker *by, conn *of) {
    showing *it = shown_of(by->of, of->fd);
    uint64_t now = moment_now();
    atomic_store_explicit(&of->last_moment, now, memory_order_relaxed);
    if (it != NULL) atomic_store_explicit(&it->last_moment, now, memory_order_relaxed);
}

/* ------------------------------------------------------------------------------------------------------- open and close */

static void link_conn(worker *by, conn *of) {
    of->after = by->conns;
    if (by->conns != NULL) by->conns->before = of;
    by->conns = of;
    atomic_fetch_add(&by->conn_count, 1);
}

static void unlink_conn(worker *by, conn *of) {
    if (of->before != NULL) of->before->after = of->after;
    else by->conns = of->after;
    if (of->after != NULL) of->after->before = of->before;
    atomic_fetch_sub(&by->conn_count, 1);
}

/* Gives a connection to its worker, which may serve and close it before this returns: so under the lock. False: the system
 * refused, and the worker does not know of it. */
static bool enter(worker *by, conn *of) {
    struct epoll_event event = {.events = EPOLLIN, .data.ptr = of};
    pthread_mutex_lock(&by->list_lock);
    link_conn(by, of);
    bool is_watched = epoll_ctl(by->poll, EPOLL_CTL_ADD, of->fd, &event) == 0;
    if (!is_watched) unlink_conn(by, of);
    pthread_mutex_unlock(&by->list_lock);
    return is_watched;
}

/* Takes a connection off the list, and closes its descriptor. The close alone would not end the watching if a process that was
 * forked had the descriptor too. */
static void leave(worker *by, conn *of) {
    hide(by->of, of->fd);
    pthread_mutex_lock(&by->list_lock);
    unlink_conn(by, of);
    pthread_mutex_unlock(&by->list_lock);
    epoll_ctl(by->poll, EPOLL_CTL_DEL, of->fd, NULL);
    close(of->fd);
}

void conn_close(worker *by, conn *of) {
    tell(TELL_STEP, "<%d connection closed.", of->fd);
    leave(by, of);
    free_buffer(&of->unread);
    free_buffer(&of->unsent);
    free(of);
    atomic_fetch_sub(&by->of->curr_conns, 1);
}

/* Answers go out at once, and a client whose machine is gone is found out. A Unix socket refuses both, and needs neither. */
static void tune_socket(int fd) {
    int one = 1;
    setsockopt(fd, IPPROTO_TCP, TCP_NODELAY, &one, sizeof one);
    setsockopt(fd, SOL_SOCKET, SO_KEEPALIVE, &one, sizeof one);
}

bool conn_open(worker *by, int fd) {
    conn *of = calloc(1, sizeof *of);
    if (of == NULL) {
        close(fd);
        return false;
    }
    tune_socket(fd);
    of->fd = fd;
    atomic_init(&of->last_moment, moment_now());
    atomic_fetch_add(&by->of->curr_conns, 1);
    show(by->of, fd);
    tell(TELL_STEP, "<%d new client connection", fd);
    if (enter(by, of)) {
        atomic_fetch_add(&by->of->total_conns, 1);
        return true;
    }
    int cause = errno;
    atomic_fetch_sub(&by->of->curr_conns, 1);
    hide(by->of, fd);
    free(of);
    close(fd);
    errno = cause;
    return false;
}

/* --------------------------------------------------------------------------------------------------------------- sending */

/* Sends what the client takes at once, and drops it. False: the connection is done for. */
static bool send_some(worker *by, int fd, buffer *of) {
    size_t sent = 0;
    bool is_well = true;
    while (is_well && sent < of->length) {
        ssize_t more = send(fd, of->at + sent, of->length - sent, MSG_NOSIGNAL);
        if (more >= 0) sent += (size_t)more;
        else if (errno == EAGAIN || errno == EWOULDBLOCK) break;
        else if (errno != EINTR) is_well = false;
    }
    count_up(by, COUNT_bytes_written, sent);
    drop_bytes(of, sent);
    return is_well;
}

/* Sends the answers of a turn; what is not taken waits. False: the connection is done for. */
static bool send_answers(worker *by, conn *of) {
    buffer *answers = &by->answers;
    bool is_well = send_some(by, of->fd, answers);
    if (is_well) is_well = append_bytes(&of->unsent, answers->at, answers->length);
    answers->length = 0;
    return is_well;
}

/* Sends what waits. False: the connection is done for. */
static bool send_unsent(worker *by, conn *of) {
    if (!send_some(by, of->fd, &of->unsent)) return false;
    if (of->unsent.length == 0) free_buffer(&of->unsent);
    return true;
}

void conn_send_last(worker *by, conn *of) {
    if (of->unsent.length != 0) send_unsent(by, of);
}

/* --------------------------------------------------------------------------------------------------------------- reading */

/* Makes steps until no whole request is left, or the answers are enough for one send, or the turn is over. Gives how many bytes
 * were taken. */
static size_t make_steps(worker *by, conn *of, const uint8_t *bytes, size_t length) {
    size_t all = 0;
    step_end end = STEP_WENT_ON;
    while (end == STEP_WENT_ON && by->answers.length < ANSWERS_ENOUGH) {
        size_t taken;
        end = make_step(by, of, bytes + all, length - all, &taken);
        all += taken;
    }
    if (end == STEP_ENDS) of->is_ending = true;
    of->is_cut = end == STEP_ENDS_TURN;
    if (of->is_cut) count_up(by, COUNT_conn_yields, 1);
    return all;
}

/* Keeps what was not taken, for the next turn. False: memory was refused. */
static bool keep_unread(conn *of, const uint8_t *bytes, size_t length) {
    of->unread.length = 0;
    if (length != 0) return append_bytes(&of->unread, bytes, length);
    free_buffer(&of->unread);
    return true;
}

/* Answers bytes, as far as their answers are taken and the turn goes. False: the connection is done for. */
static bool answer(worker *by, conn *of, const uint8_t *bytes, size_t length) {
    for (;;) {
        size_t taken = make_steps(by, of, bytes, length);
        bool is_enough = by->answers.length >= ANSWERS_ENOUGH;
        bytes += taken;
        length -= taken;
        if (!send_answers(by, of)) return false;
        if (of->is_ending) return of->unsent.length != 0;
        if (of->unsent.length != 0 || of->is_cut || !is_enough) return keep_unread(of, bytes, length);
    }
}

/* Puts what the client left at the front of the worker's room for reading. Gives its length. */
static size_t take_unread(worker *by, conn *of) {
    size_t length = of->unread.length;
    if (length != 0) memcpy(by->in, of->unread.at, length);
    return length;
}

/* Reads once, and answers. False: the connection is done for. */
static bool read_and_answer(worker *by, conn *of) {
    size_t before = take_unread(by, of);
    if (before > KS_MOST_KEPT) return false; /* session.h says that this does not happen: there would be no room */
    ssize_t more = recv(of->fd, by->in + before, READ_BYTES, 0);
    if (more == 0) return false;
    if (more < 0) return errno == EAGAIN || errno == EWOULDBLOCK || errno == EINTR;
    count_up(by, COUNT_bytes_read, (uint64_t)more);
    if (more == READ_BYTES) count_up(by, COUNT_conn_yields, 1); /* there may be more: the others have their turn first */
    return answer(by, of, by->in, before + (size_t)more);
}

/* ----------------------------------------------------------------------------------------------------------------- turns */

/* Whether a client's next turn is for what it sent before, and not for what it sends: answers wait, or the last turn was cut. */
static bool goes_on(const conn *of) {
    return of->unsent.length != 0 || of->is_cut;
}

/* A turn of such a client: what it sent before is gone on with only once it has taken all answers. */
static bool turn_to_go_on(worker *by, conn *of) {
    if (!send_unsent(by, of)) return false;
    if (of->unsent.length != 0) return true;
    if (of->is_ending) return false;
    size_t length = take_unread(by, of);
    return length == 0 || answer(by, of, by->in, length);
}

static bool turn(worker *by, conn *of, uint32_t events) {
    if ((events & EPOLLERR) != 0) return false;
    by->looks_left = LOOKS_A_TURN;
    show_state(by, of, CONN_SERVED);
    show_moment(by, of);
    return goes_on(of) ? turn_to_go_on(by, of) : read_and_answer(by, of);
}

/* What a client waits for between two turns. One whose turn was cut waits for the next, as if it were served. */
static conn_state state_after_turn(const conn *of) {
    if (of->unsent.length != 0) return CONN_SENDS;
    if (of->is_cut) return CONN_SERVED;
    return of->unread.length != 0 ? CONN_HALF : CONN_WAITS;
}

/* Has the worker woken when there is something to do: at once, in turn with the others, if the client would take answers. False:
 * the system refused. */
static bool wait_for_right_event(worker *by, conn *of) {
    bool waits = goes_on(of);
    show_state(by, of, state_after_turn(of));
    if (waits == of->is_woken_to_send) return true;
    of->is_woken_to_send = waits;
    struct epoll_event event = {.events = waits ? EPOLLOUT : EPOLLIN, .data.ptr = of};
    return epoll_ctl(by->poll, EPOLL_CTL_MOD, of->fd, &event) == 0;
}

/* Ends a connection so that its last answer arrives: a close with bytes unread would have the system drop what it has not
 * sent yet. A client that goes on sending is not waited for. */
static void end_gently(worker *by, conn *of) {
    size_t drained = 0;
    ssize_t more = 1;
    if (of->is_ending) shutdown(of->fd, SHUT_WR);
    while (of->is_ending && more > 0 && drained < DRAINED_BYTES) {
        more = recv(of->fd, by->in, READ_BYTES, 0);
        drained += more > 0 ? (size_t)more : 0;
    }
    conn_close(by, of);
}

void conn_serve(worker *by, conn *of, uint32_t events) {
    if (!turn(by, of, events) || !wait_for_right_event(by, of)) end_gently(by, of);
}
