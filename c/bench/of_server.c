/* Requests to a server that speaks memcached's text protocol: a connection for each worker, on which some requests are
 * sent at once, and their answers read in order. */
#define _GNU_SOURCE
#include "run.h"
#include "words.h"
#include <errno.h>
#include <inttypes.h>
#include <netdb.h>
#include <netinet/in.h>
#include <netinet/tcp.h>
#include <poll.h>
#include <stdio.h>
#include <stdlib.h>
#include <string.h>
#include <sys/socket.h>
#include <sys/un.h>
#include <time.h>
#include <unistd.h>

enum { PIPELINE_MOST = 256, IN_BYTES = 65536, COMMAND_BYTES = KEY_ROOM + 64, SILENCE_MS = 10000 };

typedef struct entry {
    request asked;
    bool is_fill;
    uint64_t from; /* nanoseconds, from which it counts */
} entry;

struct connection {
    const char *server; /* its name on the command line */
    int file;
    uint32_t room, queued; /* entries: how many are sent at once, and how many wait for it */
    entry entries[PIPELINE_MOST];
    size_t out_length, out_sent, in_at, in_have;
    char in[IN_BYTES];
    char out[PIPELINE_MOST * (COMMAND_BYTES + KANGAROO_VALUE_MAX)];
};

/* ------------------------------------------------------------------------------------------------------- connecting */

static int connect_to_path(const char *path) {
    struct sockaddr_un address = {.sun_family = AF_UNIX};
    if (strlen(path) >= sizeof address.sun_path)
        refuse_words("--memcached %s: the path of a socket has at most 107 bytes", path);
    memcpy(address.sun_path, path, strlen(path) + 1);
    int file = socket(AF_UNIX, SOCK_STREAM | SOCK_CLOEXEC, 0);
    if (file < 0 || connect(file, (struct sockaddr *)&address, sizeof address) != 0)
        refuse_system("no connection to %s: %s", path, strerror(errno));
    return file;
}

static int connect_to_first(const struct addrinfo *found, const char *server) {
    int file = -1, cause = 0;
    for (; found != NULL && file < 0; found = found->ai_next) {
        file = socket(found->ai_family, found->ai_socktype | SOCK_CLOEXEC, found->ai_protocol);
        if (file < 0 || connect(file, found->ai_addr, found->ai_addrlen) == 0) continue;
        cause = errno;
        close(file);
        file = -1;
    }
    if (file < 0) refuse_system("no connection to %s: %s", server, strerror(cause));
    return file;
}

static int connect_to_host(const char *server) {
    char host[256];
    const char *colon = strrchr(server, ':');
    struct addrinfo wanted = {.ai_socktype = SOCK_STREAM}, *found;
    if (colon == NULL || colon == server || colon[1] == 0 || (size_t)(colon - server) >= sizeof host)
        refuse_words("--memcached %s is wrong: HOST:PORT is wanted, or the path of a socket with a / in it", server);
    memcpy(host, server, (size_t)(colon - server));
    host[colon - server] = 0;
    int cause = getaddrinfo(host, colon + 1, &wanted, &found);
    if (cause != 0) refuse_words("--memcached %s: %s", server, gai_strerror(cause));
    int file = connect_to_first(found, server), one = 1;
    freeaddrinfo(found);
    setsockopt(file, IPPROTO_TCP, TCP_NODELAY, &one, sizeof one);
    return file;
}

connection *connect_to(const bench_options *options) {
    connection *made = take_memory(1, sizeof *made);
    made->server = options->server;
    made->room = options->pipeline;
    made->file =
        strchr(options->server, '/') != NULL ? connect_to_path(options->server) : connect_to_host(options->server);
    return made;
}

void end_connection(connection *of) {
    if (of == NULL) return;
    close(of->file);
    free(of);
}

/* ------------------------------------------------------------------------------------------------- bytes in and out */

/* Sends and receives what can be, after at least one of both can. */
static void move_bytes(connection *of) {
    bool has_more = of->out_sent < of->out_length;
    struct pollfd ready = {.fd = of->file, .events = (short)(has_more ? POLLIN | POLLOUT : POLLIN)};
    memmove(of->in, of->in + of->in_at, of->in_have - of->in_at);
    of->in_have -= of->in_at;
    of->in_at = 0;
    if (of->in_have == IN_BYTES) refuse_system("%s: an answer of more than 65,536 bytes", of->server);
    int count = poll(&ready, 1, SILENCE_MS);
    if (count < 0 && errno == EINTR) return;
    if (count < 0) refuse_system("%s: %s", of->server, strerror(errno));
    if (count == 0) refuse_system("%s has answered nothing for 10 seconds", of->server);
    if (ready.revents & POLLOUT) {
        ssize_t sent =
            send(of->file, of->out + of->out_sent, of->out_length - of->out_sent, MSG_NOSIGNAL | MSG_DONTWAIT);
        if (sent > 0) of->out_sent += (size_t)sent;
        else if (errno != EAGAIN && errno != EINTR) refuse_system("%s takes no more: %s", of->server, strerror(errno));
    }
    if (!(ready.revents & (POLLIN | POLLHUP | POLLERR))) return;
    ssize_t got = recv(of->file, of->in + of->in_have, IN_BYTES - of->in_have, MSG_DONTWAIT);
    if (got > 0) of->in_have += (size_t)got;
    else if (got == 0) refuse_system("%s has ended the connection", of->server);
    else if (errno != EAGAIN && errno != EINTR) refuse_system("%s: %s", of->server, strerror(errno));
}

/* The next line that was received, without its end; NULL if it is not whole. `length` becomes that of the line. */
static const char *peek_line(const connection *of, size_t *length) {
    const char *line = of->in + of->in_at, *feed = memchr(line, '\n', of->in_have - of->in_at);
    if (feed == NULL) return NULL;
    *length = (size_t)(feed - line);
    if (*length > 0 && line[*length - 1] == '\r') --*length;
    return line;
}

static void take_line(connection *of) {
    const char *line = of->in + of->in_at, *feed = memchr(line, '\n', of->in_have - of->in_at);
    of->in_at += (size_t)(feed - line) + 1;
}

static bool is_line(const char *line, size_t length, const char *word) {
    return length == strlen(word) && memcmp(line, word, length) == 0;
}

static _Noreturn void refuse_answer(const connection *of, const char *line, size_t length) {
    refuse_system("%s answered %.*s", of->server, (int)(length < 200 ? length : 200), line);
}

/* --------------------------------------------------------------------------------------------------------- requests */

static void add_bytes(connection *of, const void *bytes, size_t length) {
    memcpy(of->out + of->out_length, bytes, length);
    of->out_length += length;
}

/* How long a server is to keep a value, as the protocol has it: 0 is for ever, up to 30 days are seconds from now on,
 * and more are seconds since 1970. */
static uint64_t lifetime_of(const request *asked) {
    enum { THIRTY_DAYS = 2592000 };
    if (asked->expires == KANGAROO_NEVER) return 0;
    uint64_t seconds = (asked->expires - asked->moment + 999) / 1000;
    return seconds <= THIRTY_DAYS ? seconds : (uint64_t)time(NULL) + seconds;
}

static void add_set(connection *of, const request *asked) {
    char words[64];
    uint8_t value[KANGAROO_VALUE_MAX];
    int length =
        snprintf(words, sizeof words, " 0 %" PRIu64 " %" PRIu64 "\r\n", lifetime_of(asked), asked->value_length);
    add_bytes(of, "set ", 4);
    add_bytes(of, asked->key, asked->key_length);
    add_bytes(of, words, (size_t)length);
    write_value(asked->number, (uint32_t)asked->value_length, value);
    add_bytes(of, value, (size_t)asked->value_length);
    add_bytes(of, "\r\n", 2);
}

static void add_command(connection *of, const entry *added) {
    const request *asked = &added->asked;
    if (asked->what == ACT_PUT) {
        add_set(of, asked);
        return;
    }
    if (asked->what == ACT_GET) add_bytes(of, "get ", 4);
    else add_bytes(of, "delete ", 7);
    add_bytes(of, asked->key, asked->key_length);
    add_bytes(of, "\r\n", 2);
}

/* Queues a fill after a miss, in the place of an entry that was answered. */
static void queue_fill(worker *me, const request *missed) {
    if (missed->value_length > KANGAROO_VALUE_MAX) {
        add_count(me->counted, TOO_LARGE, 1);
        return;
    }
    entry *made = &me->to->entries[me->to->queued++];
    if (&made->asked != missed) made->asked = *missed;
    made->asked.what = ACT_PUT;
    made->is_fill = true;
    made->from = 0;
}

/* ---------------------------------------------------------------------------------------------------------- answers */

static void count_answer(worker *me, const entry *of, latency_name name) {
    me->now = now_ns();
    count_value(&me->counted->latencies[name], me->now > of->from ? me->now - of->from : 0);
}

static void take_stored(worker *me, const entry *of, const char *line, size_t length) {
    count_answer(me, of, of->is_fill ? FILL : PUT);
    if (is_line(line, length, "STORED")) {
        add_count(me->counted, of->is_fill ? FILLS : PUTS, 1);
        add_count(me->counted, BYTES_STORED, of->asked.key_length + of->asked.value_length);
    } else if (length > 26 && memcmp(line, "SERVER_ERROR out of memory", 26) == 0) {
        add_count(me->counted, NO_MEMORY, 1);
    } else {
        refuse_answer(me->to, line, length);
    }
    take_line(me->to);
}

static void take_removed(worker *me, const entry *of, const char *line, size_t length) {
    if (!is_line(line, length, "DELETED") && !is_line(line, length, "NOT_FOUND")) refuse_answer(me->to, line, length);
    count_answer(me, of, REMOVAL);
    add_count(me->counted, REMOVALS, 1);
    take_line(me->to);
}

/* Reads "VALUE key flags bytes": the key is to be the one that was asked for. */
static size_t value_length(const connection *of, const char *line, size_t length, const request *asked) {
    char words[COMMAND_BYTES], key[KEY_ROOM];
    size_t bytes;
    if (length >= sizeof words) refuse_answer(of, line, length);
    memcpy(words, line, length);
    words[length] = 0;
    if (sscanf(words, "VALUE %255s %*u %zu", key, &bytes) != 2) refuse_answer(of, line, length);
    if (strlen(key) != asked->key_length || memcmp(key, asked->key, asked->key_length) != 0) {
        fprintf(stderr, "%s: %s answered with the key %s\n", program_name, of->server, key);
        report_wrong_hit("a get", asked, NULL, 0);
    }
    if (bytes > KANGAROO_VALUE_MAX)
        report_wrong_hit("a get (too long a value; its bytes were not read)", asked, NULL, 0);
    return bytes;
}

/* Takes the answer of a get; false if it is not whole yet. */
static bool take_got(worker *me, const entry *of, const char *line, size_t length, bool *is_miss) {
    connection *from = me->to;
    *is_miss = is_line(line, length, "END");
    if (*is_miss) {
        count_answer(me, of, GET_MISS);
        add_count(me->counted, GETS, 1);
        take_line(from);
        return true;
    }
    if (length < 6 || memcmp(line, "VALUE ", 6) != 0) refuse_answer(from, line, length);
    size_t bytes = value_length(from, line, length, &of->asked);
    const char *value = (const char *)memchr(line, '\n', from->in_have - from->in_at) + 1;
    if ((size_t)(from->in + from->in_have - value) < bytes + 7) return false;
    if (memcmp(value + bytes, "\r\nEND\r\n", 7) != 0)
        refuse_system("%s: a value does not end where it is to", from->server);
    count_answer(me, of, GET_SERVER);
    add_count(me->counted, GETS, 1);
    add_count(me->counted, HITS_SERVER, 1);
    check_hit(me, "a get", &of->asked, (const uint8_t *)value, bytes);
    from->in_at = (size_t)(value - from->in) + bytes + 7;
    return true;
}

/* Takes the answer of an entry; false if it is not whole yet. */
static bool take_answer(worker *me, uint32_t place) {
    const entry *of = &me->to->entries[place];
    size_t length;
    bool is_miss;
    const char *line = peek_line(me->to, &length);
    if (line == NULL) return false;
    if (of->asked.what == ACT_PUT) take_stored(me, of, line, length);
    else if (of->asked.what == ACT_REMOVE) take_removed(me, of, line, length);
    else if (!take_got(me, of, line, length, &is_miss)) return false;
    else if (is_miss && !me->of->options->is_plain) queue_fill(me, &of->asked);
    return true;
}

/* Sends all that is queued and reads the answers. The fills that follow are queued then. */
static void exchange(worker *me) {
    connection *with = me->to;
    uint32_t asked = with->queued, answered = 0;
    with->out_length = with->out_sent = 0;
    uint64_t now = now_ns();
    for (uint32_t i = 0; i < asked; i++) {
        add_command(with, &with->entries[i]);
        if (with->entries[i].from == 0) with->entries[i].from = now;
    }
    with->queued = 0;
    while (answered < asked) {
        if (take_answer(me, answered)) answered++;
        else move_bytes(with);
    }
}

/* The text protocol ends a key at a blank, so a replayed key may have none. */
static void check_key(const request *asked) {
    for (uint32_t i = 0; i < asked->key_length; i++)
        if ((unsigned char)asked->key[i] <= ' ' || asked->key[i] == 127)
            refuse_words("the key %.*s cannot be sent to a server: its byte %u is a blank or a control character",
                         (int)asked->key_length, asked->key, i + 1);
}

void ask_server(worker *me, uint64_t from) {
    connection *to = me->to;
    if (me->of->requests.replayed != NULL) check_key(&me->next);
    entry *made = &to->entries[to->queued++];
    *made = (entry){me->next, false, from};
    add_count(me->counted, OPERATIONS, 1);
    if (made->asked.what == ACT_PUT && made->asked.value_length > KANGAROO_VALUE_MAX) {
        add_count(me->counted, TOO_LARGE, 1);
        made->asked.what = ACT_REMOVE;
    }
    while (to->queued == to->room) exchange(me);
}

void finish_with_server(worker *me) {
    while (me->to->queued > 0) exchange(me);
}

/* Sends a command without a key, and waits for a line. */
static const char *ask_line(connection *of, const char *command, size_t *length) {
    const char *line;
    of->out_length = of->out_sent = 0;
    add_bytes(of, command, strlen(command));
    while ((line = peek_line(of, length)) == NULL) move_bytes(of);
    return line;
}

void empty_server(connection *of) {
    size_t length;
    const char *line = ask_line(of, "flush_all\r\n", &length);
    if (!is_line(line, length, "OK")) refuse_answer(of, line, length);
    take_line(of);
}

/* Reads "STAT name number"; false if the line is of another name. */
static bool read_stat_line(const char *line, size_t length, const char *name, uint64_t *number) {
    char word[32];
    size_t before = strlen("STAT ") + strlen(name) + 1;
    if (length <= before || length - before >= sizeof word || memcmp(line, "STAT ", 5) != 0) return false;
    if (memcmp(line + 5, name, strlen(name)) != 0 || line[before - 1] != ' ') return false;
    memcpy(word, line + before, length - before);
    word[length - before] = 0;
    return read_count(word, number);
}

bool read_statistic(connection *of, const char *name, uint64_t *number) {
    bool is_found = false, is_end = false;
    size_t length;
    const char *line = ask_line(of, "stats\r\n", &length);
    while (!is_end) {
        if (line != NULL) {
            is_found |= read_stat_line(line, length, name, number);
            is_end = is_line(line, length, "END") || is_line(line, length, "ERROR");
            take_line(of);
        } else {
            move_bytes(of);
        }
        line = peek_line(of, &length);
    }
    return is_found;
}
