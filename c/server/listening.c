/* Sockets that listen: those of the settings, or those that systemd handed over. And the accepting of connections, by the
 * main thread, which deals them out to the workers. */
#define _GNU_SOURCE
#include "server.h"
#include <fcntl.h>
#include <netdb.h>
#include <netinet/in.h>
#include <stdio.h>
#include <stdlib.h>
#include <string.h>
#include <sys/file.h>
#include <sys/socket.h>
#include <sys/stat.h>
#include <sys/un.h>
#include <unistd.h>

enum {
    FIRST_HANDED_OVER = 3,
    HOST_BYTES = 256,
    PORT_BYTES = 16,
    REFUSED_PAUSE_US = 10000,
    LOCK_TRIES = 200,
    LOCK_PAUSE_US = 1000
};

/* --------------------------------------------------------------------------------------------------------- by systemd */

/* How many sockets systemd handed over to this process. */
static int handed_over(void) {
    const char *pid = getenv("LISTEN_PID"), *count = getenv("LISTEN_FDS");
    int number = pid != NULL && count != NULL && atol(pid) == (long)getpid() ? atoi(count) : 0;
    unsetenv("LISTEN_PID");
    unsetenv("LISTEN_FDS");
    unsetenv("LISTEN_FDNAMES");
    return number;
}

static bool is_listening_stream(int fd) {
    int type = 0, listens = 0;
    socklen_t bytes = sizeof type;
    if (getsockopt(fd, SOL_SOCKET, SO_TYPE, &type, &bytes) != 0 || type != SOCK_STREAM) return false;
    bytes = sizeof listens;
    return getsockopt(fd, SOL_SOCKET, SO_ACCEPTCONN, &listens, &bytes) == 0 && listens != 0;
}

static bool take_over(server *of, int count) {
    if (count > MOST_LISTENERS) {
        tell(TELL_ERROR, "systemd handed %d sockets over; at most %d are served", count, MOST_LISTENERS);
        return false;
    }
    for (int fd = FIRST_HANDED_OVER; fd < FIRST_HANDED_OVER + count; fd++) {
        if (!is_listening_stream(fd)) {
            tell(TELL_ERROR, "descriptor %d that systemd handed over is no listening stream socket: use "
                              "ListenStream= and Accept=no", fd);
            return false;
        }
        fcntl(fd, F_SETFD, FD_CLOEXEC);
        fcntl(fd, F_SETFL, fcntl(fd, F_GETFL) | O_NONBLOCK);
        of->listeners[of->listener_count++] = fd;
    }
    return true;
}

/* ----------------------------------------------------------------------------------------------------------- by words */

/* Has a socket listen at an address. False: errno says why not. */
static bool add_listener(server *of, int fd, const struct sockaddr *address, socklen_t length) {
    if (fd < 0) return false;
    bool has_room = of->listener_count < MOST_LISTENERS;
    if (!has_room) errno = EMFILE;
    if (has_room && bind(fd, address, length) == 0 && listen(fd, (int)of->settings.backlog) == 0) {
        of->listeners[of->listener_count++] = fd;
        return true;
    }
    int cause = errno;
    close(fd);
    errno = cause;
    return false;
}

/* The address of a Unix socket. False: it was told why there is none. */
static bool address_of_file(const char *path, struct sockaddr_un *to) {
    *to = (struct sockaddr_un){.sun_family = AF_UNIX};
    if (strlen(path) < sizeof to->sun_path) {
        strcpy(to->sun_path, path);
        return true;
    }
    tell(TELL_ERROR, "-s %s: the path has more than %zu bytes", path, sizeof to->sun_path - 1);
    return false;
}

/* Connects to a socket, and gives what is wrong with that. */
static int cause_against_connecting(const struct sockaddr_un *address) {
    int fd = socket(AF_UNIX, SOCK_STREAM | SOCK_NONBLOCK | SOCK_CLOEXEC, 0), cause = 0;
    if (fd < 0 || connect(fd, (const struct sockaddr *)address, sizeof *address) != 0) cause = errno;
    if (fd >= 0) close(fd);
    return cause;
}

/* Whether nobody listens at a path: there is nothing, or what a dead server left. Otherwise it is told. What is no socket is
 * left to bind, which refuses it. */
static bool is_free(const struct sockaddr_un *address, bool *is_left) {
    const char *path = address->sun_path;
    struct stat is;
    *is_left = lstat(path, &is) == 0 && S_ISSOCK(is.st_mode);
    int cause = *is_left ? cause_against_connecting(address) : ENOENT;
    if (cause == ECONNREFUSED || cause == ENOENT) return true;
    if (cause == 0 || cause == EAGAIN)
        tell(TELL_ERROR, "-s %s: another server listens there; end it, or give another file", path);
    else
        tell(TELL_ERROR, "-s %s: nobody knows whether a server has this socket: %s; remove it, or give another file",
             path, strerror(cause));
    return false;
}

/* Makes the socket in place of one that a dead server left. */
static bool make_socket_file(server *of, const struct sockaddr_un *address, bool is_left) {
    if (is_left && unlink(address->sun_path) != 0 && errno != ENOENT) return false;
    mode_t before = umask((mode_t)~of->settings.socket_mode & 0777);
    int fd = socket(AF_UNIX, SOCK_STREAM | SOCK_NONBLOCK | SOCK_CLOEXEC, 0);
    bool is_made = add_listener(of, fd, (const struct sockaddr *)address, sizeof *address);
    umask(before);
    return is_made && note_file(&of->socket_file, AT_FDCWD, of->settings.socket_path);
}

/* Has other servers that start wait until this one listens: until then it would seem to be dead. Whoever can read the folder can
 * have this lock, so a server does not wait for long. */
static int lock_folder_of(const char *path) {
    int folder = open_folder_of(path, O_RDONLY);
    for (int i = 0; folder >= 0 && i < LOCK_TRIES && flock(folder, LOCK_EX | LOCK_NB) != 0; i++) usleep(LOCK_PAUSE_US);
    return folder;
}

/* Makes the socket, if no other server listens there. */
static bool listen_on_file(server *of, const struct sockaddr_un *address) {
    bool is_left = false;
    if (!is_free(address, &is_left)) return false;
    if (make_socket_file(of, address, is_left)) return true;
    tell(TELL_ERROR, "-s %s: %s", address->sun_path, strerror(errno));
    return false;
}

bool open_socket_file(server *of) {
    const char *path = of->settings.socket_path;
    struct sockaddr_un address;
    if (path == NULL || of->listener_count != 0) return true;
    if (!address_of_file(path, &address)) return false;
    int folder = lock_folder_of(path);
    bool listens = listen_on_file(of, &address);
    if (folder >= 0) close(folder);
    return listens;
}

static bool look_at_file(const server *of) {
    struct sockaddr_un address;
    bool is_left = false;
    return address_of_file(of->settings.socket_path, &address) && is_free(&address, &is_left);
}

/* Parts HOST, HOST:PORT, [HOST] or [HOST]:PORT. A HOST with more than one colon and no brackets is an IPv6 one. */
static bool part_address(const settings *of, const char *word, char host[HOST_BYTES], char port[PORT_BYTES]) {
    const char *end = word + strlen(word), *colon = strrchr(word, ':');
    bool is_bracketed = word[0] == '[';
    const char *closing = is_bracketed ? strchr(word, ']') : NULL;
    if (is_bracketed && closing == NULL) return false;
    if (is_bracketed) colon = closing[1] == ':' ? closing + 1 : NULL;
    else if (colon != NULL && strchr(word, ':') != colon) colon = NULL;
    if (is_bracketed && colon == NULL && closing[1] != 0) return false;
    const char *from = is_bracketed ? word + 1 : word, *past = is_bracketed ? closing : colon != NULL ? colon : end;
    if (past == from || past - from >= HOST_BYTES || (colon != NULL && strlen(colon + 1) >= PORT_BYTES)) return false;
    snprintf(host, HOST_BYTES, "%.*s", (int)(past - from), from);
    if (colon != NULL) snprintf(port, PORT_BYTES, "%s", colon + 1);
    else snprintf(port, PORT_BYTES, "%u", (unsigned)of->port);
    return true;
}

static bool listen_on_address(server *of, const struct addrinfo *at) {
    int one = 1;
    int fd = socket(at->ai_family, SOCK_STREAM | SOCK_NONBLOCK | SOCK_CLOEXEC, 0);
    if (fd < 0) return false;
    setsockopt(fd, SOL_SOCKET, SO_REUSEADDR, &one, sizeof one);
    if (at->ai_family == AF_INET6) setsockopt(fd, IPPROTO_IPV6, IPV6_V6ONLY, &one, sizeof one);
    return add_listener(of, fd, at->ai_addr, at->ai_addrlen);
}

/* Listens at each address of a host. One that the system does not know, such as IPv6 without IPv6, is passed over if another
 * serves. */
static bool listen_on_host(server *of, const char *word) {
    struct addrinfo hints = {.ai_flags = AI_PASSIVE | AI_NUMERICSERV, .ai_socktype = SOCK_STREAM}, *list = NULL;
    char host[HOST_BYTES], port[PORT_BYTES];
    if (!part_address(&of->settings, word, host, port)) {
        tell(TELL_ERROR, "-l %s: give HOST, HOST:PORT or [HOST]:PORT", word);
        return false;
    }
    int cause = getaddrinfo(host, port, &hints, &list);
    if (cause != 0) {
        tell(TELL_ERROR, "-l %s: %s", word, gai_strerror(cause));
        return false;
    }
    int before = of->listener_count, refused = 0;
    for (struct addrinfo *at = list; at != NULL; at = at->ai_next)
        if (!listen_on_address(of, at)) refused = errno;
    freeaddrinfo(list);
    if (of->listener_count > before && refused != EADDRINUSE) return true;
    tell(TELL_ERROR, "-l %s, port %s: %s", host, port, strerror(refused));
    return false;
}

static bool listen_on_hosts(server *of) {
    char *words = strdup(of->settings.listen), *rest = words;
    bool is_well = words != NULL;
    for (char *word; is_well && (word = strsep(&rest, ",")) != NULL;) is_well = listen_on_host(of, word);
    free(words);
    return is_well;
}

bool open_listeners(server *of) {
    int count = handed_over();
    if (count > 0) return take_over(of, count);
    return of->settings.socket_path != NULL ? look_at_file(of) : listen_on_hosts(of);
}

/* The file goes first: while its socket is open no other file gets its number. */
void close_listeners(server *of) {
    remove_file(&of->socket_file, 's', of->settings.socket_path);
    for (int i = 0; i < of->listener_count; i++) close(of->listeners[i]);
    of->listener_count = 0;
}

/* ----------------------------------------------------------------------------------------------------------- accepting */

static void refuse_client(server *of, int fd) {
    static const char text[] = "ERROR Too many open connections\r\n";
    atomic_fetch_add(&of->rejected_conns, 1);
    tell(TELL_FAULT, "a client was refused: %llu are connected (-c)", (unsigned long long)of->settings.conns);
    (void)!send(fd, text, sizeof text - 1, MSG_NOSIGNAL | MSG_DONTWAIT);
    close(fd);
}

/* The worker that has the fewest connections; of several, the first from the one whose turn it is. By turns alone, clients that
 * come again after others left could share a worker while another has none. */
static worker *choose_worker(server *of) {
    uint64_t threads = of->settings.threads, first = of->next_worker++;
    worker *chosen = &of->workers[first % threads];
    for (uint64_t i = 1; i < threads; i++) {
        worker *other = &of->workers[(first + i) % threads];
        if (atomic_load(&other->conn_count) < atomic_load(&chosen->conn_count)) chosen = other;
    }
    return chosen;
}

static void take_client(server *of, int fd) {
    if (atomic_load(&of->curr_conns) >= of->settings.conns) refuse_client(of, fd);
    else if (!conn_open(choose_worker(of), fd)) {
        atomic_fetch_add(&of->rejected_conns, 1);
        tell(TELL_FAULT, "a client was refused: %s", strerror(errno));
    }
}

/* Without descriptors a client would wait for ever, and wake us for ever: one that was kept aside is given up for it. */
static void refuse_by_spare(server *of, int listener) {
    close(of->spare);
    int fd = accept4(listener, NULL, NULL, SOCK_NONBLOCK | SOCK_CLOEXEC);
    if (fd >= 0) refuse_client(of, fd);
    of->spare = open("/dev/null", O_RDONLY | O_CLOEXEC);
}

/* Whether accepting is to be gone on with after a refusal. */
static bool goes_on_after(server *of, int listener, int cause) {
    if (cause == EAGAIN || cause == EWOULDBLOCK) return false;
    if (cause == EINTR || cause == ECONNABORTED || cause == EPROTO || cause == EPERM) return true;
    tell(TELL_FAULT, "accept: %s", strerror(cause));
    if (cause == EMFILE || cause == ENFILE) refuse_by_spare(of, listener);
    usleep(REFUSED_PAUSE_US); /* the next look at the socket tries again */
    return false;
}

void accept_all(server *of, int listener) {
    bool goes_on = true;
    while (goes_on && !atomic_load(&of->is_stopping)) {
        int fd = accept4(listener, NULL, NULL, SOCK_NONBLOCK | SOCK_CLOEXEC);
        if (fd >= 0) take_client(of, fd);
        else goes_on = goes_on_after(of, listener, errno);
    }
}
