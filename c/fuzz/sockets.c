/* sockets: clients of kangarood's workers, over pairs of sockets: what they send, in which pieces, what they read, and how they
 * go, is decoded from the input. A client that has sent all it sends is answered and closed, and no connection is left. */
#define _GNU_SOURCE
#include "server/server.h"
#include "folder.h"
#include <poll.h>
#include <sys/socket.h>

enum { CLIENTS = 4, WAIT_MS = 20000, READ_AT_ONCE = 4096 };

static server served;
/* One server for all inputs, in a folder of its own. */
static void start_server(void) {
    static char *words[] = {"kangarood", "-t", "1", "-m", "4", "--flash", "1M", "--sparse", "--folder", folder, NULL};
    if (served.cache != NULL) return;
    make_folder();
    read_words((int)(sizeof words / sizeof *words) - 1, words, &served.settings);
    options_of_cache(&served.settings, &served.options);
    start_clock();
    start_numbers(&served.numbers);
    expect(kangaroo_open(&served.options, folder, &served.cache, NULL) == KANGAROO_OK, "a cache");
    expect(start_workers(&served), "a worker");
}

/* ----------------------------------------------------------------------------------------------------------- clients */

static void open_client(int *client) {
    int pair[2];
    if (*client >= 0) return;
    expect(socketpair(AF_UNIX, SOCK_STREAM | SOCK_NONBLOCK | SOCK_CLOEXEC, 0, pair) == 0, "a pair of sockets");
    *client = pair[0];
    expect(conn_open(&served.workers[0], pair[1]), "a connection");
}

/* Whether a client's socket has come to its end, or to a fault. */
static bool read_some(int client) {
    uint8_t bytes[READ_AT_ONCE];
    ssize_t more = recv(client, bytes, sizeof bytes, 0);
    return more == 0 || (more < 0 && errno != EAGAIN && errno != EINTR);
}

/* Sends as much as the server takes at once; what it does not take is lost, as from a client that gives up. */
static void send_bytes(int client, input *from) {
    size_t length = take_below(from, 4096);
    if (length > from->left) length = from->left;
    if (client >= 0 && length != 0) (void)!send(client, from->at, length, MSG_NOSIGNAL);
    from->at += length;
    from->left -= length;
}

static void close_client(int *client) {
    if (*client >= 0) close(*client);
    *client = -1;
}

/* Waits until a client's socket has something to read. libFuzzer's own alarm interrupts a wait. */
static void wait_to_read(int client) {
    struct pollfd waits = {.fd = client, .events = POLLIN};
    int ready;
    do ready = poll(&waits, 1, WAIT_MS);
    while (ready < 0 && errno == EINTR);
    expect(ready > 0, "a client that sends no more is closed");
}

/* Sends no more, and reads until the server has closed. */
static void end_client(int *client) {
    if (*client < 0) return;
    shutdown(*client, SHUT_WR);
    while (!read_some(*client)) wait_to_read(*client);
    close_client(client);
}

static void wait_for_none(void) {
    for (int i = 0; i < WAIT_MS && atomic_load(&served.curr_conns) != 0; i++) usleep(1000);
    expect(atomic_load(&served.curr_conns) == 0, "no connection is left");
}

int LLVMFuzzerTestOneInput(const uint8_t *data, size_t length) {
    input from = {data, length};
    int clients[CLIENTS];
    start_server();
    set_verbosity(0);
    for (int i = 0; i < CLIENTS; i++) clients[i] = -1;
    while (from.left != 0) {
        uint8_t word = take_byte(&from);
        int *client = &clients[word / 16 % CLIENTS];
        open_client(client);
        switch (word % 16) {
        case 0: close_client(client); break;
        case 1: end_client(client); break;
        case 2: shutdown(*client, SHUT_WR); break;
        case 3: shutdown(*client, SHUT_RD); break;
        case 4: case 5: read_some(*client); break;
        case 6: usleep(200); break;
        default: send_bytes(*client, &from); break;
        }
    }
    for (int i = 0; i < CLIENTS; i++) end_client(&clients[i]);
    wait_for_none();
    return 0;
}
