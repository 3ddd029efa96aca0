"""Many clients, and clients that are slow, silent or too many."""
import os
import pathlib
import re
import socket
import time

from harness import IS_QUICK, MORE, Client, Skipped, all_at_once, equal, expect, free_port, grew_little, have_descriptors, server, shows, wait_for

MANY = int(os.environ.get("MANY", "1000"))


@shows(f"{MANY:,} clients at once are each served, and idle ones take little memory")
def many_clients():
    have_descriptors(MANY + 100)
    with server("-c", str(MANY + 10)) as it:
        before = it.kib()
        clients = [it.client() for _ in range(MANY)]
        for number, client in enumerate(clients):
            client.send(b"set k%d 0 0 4\r\n%04d\r\n" % (number % 500, number % 10000))
        for client in clients:
            equal(client.take(8), b"STORED\r\n", "each set")
        for client in clients:
            client.ask(b"mn\r\n", b"MN\r\n")
        grew_little(it, before, MANY)
        equal(clients[0].stats()["curr_connections"], str(MANY), "curr_connections")
        for client in clients:
            client.close()
        other = it.client()
        wait_for(lambda: other.stats()["curr_connections"] == "1", "all are closed")


@shows("a client that never reads is not read, takes little memory, and stops nobody; once it reads it gets all answers")
def never_reads():
    value = b"v" * 2000
    with server("-t", "1") as it:
        client, other, before = it.client(), it.client(), it.kib()
        client.ask(b"set v 0 0 2000\r\n" + value + b"\r\n", b"STORED\r\n")
        client.socket.setblocking(False)
        request, sent = b"get v\r\n", 0
        stuck = 0
        while stuck < 20:
            try:
                sent += client.socket.send(request[sent % len(request) :])
                stuck = 0
                expect(sent < 1 << 21, "the client is read on and on")
            except BlockingIOError:
                stuck += 1
                time.sleep(0.01)
        other.ask(b"mn\r\n", b"MN\r\n")
        grew_little(it, before, 1024)
        states = [value for name, value in other.stats(b"conns").items() if name.endswith(":state")]
        expect("conn_mwrite" in states, f"it waits to write: {states}")
        client.socket.settimeout(20)
        answer = b"VALUE v 0 2000\r\n" + value + b"\r\nEND\r\n"
        for _ in range(sent // len(request)):
            equal(client.take(len(answer)), answer, "each answer")


@shows("the memory of answers that a client took late, and of a request that came in pieces, is given back while the client stays")
def memory_of_clients():
    if MORE > 1:
        raise Skipped("the C library's own memory, which a sanitizer replaces")
    value, count = b"v" * 1000, 120
    one, gets = b"VALUE v 0 1000\r\n" + value + b"\r\nEND\r\n", 400
    sets = b"set w 0 0 1000 noreply\r\n%s\r\n" % value * 12  # they wait until the answers are taken
    with server("-t", "1", environment={"MALLOC_MMAP_THRESHOLD_": "1024"}) as it:  # each piece of memory is one of the system's
        asks, clients = it.client(), it.greeted(1 + count)
        asks.ask(b"set v 0 0 1000\r\n" + value + b"\r\n", b"STORED\r\n")
        for some in clients[:1], clients[1:]:  # the first has the server take what all share
            before = it.kib()
            for client in some:
                client.send(b"get v\r\n" * gets + sets)
            wait_for(lambda: sum(state == "conn_mwrite" for state in asks.stats(b"conns").values()) == len(some), "answers wait")
            for client in some:
                equal(client.take(gets * len(one)), one * gets, "the answers")
                client.send(b"set w 0 0 2000\r\n" + value + value[:500])
            for client in some:
                client.ask(value[500:] + b"\r\n", b"STORED\r\n", "a request that came in two pieces")
        grew_little(it, before, 2 * count)


@shows("a get of more keys than a line has, with 1 MB of answers, is answered whole")
def many_keys():
    with server() as it:
        client = it.client()
        client.ask(b"set v 0 0 1000\r\n" + b"v" * 1000 + b"\r\n", b"STORED\r\n")
        one = b"VALUE v 0 1000\r\n" + b"v" * 1000 + b"\r\n"
        client.ask(b"get" + b" v" * 1000 + b"\r\n", one * 1000 + b"END\r\n")


@shows("clients over -c are told and closed; once one leaves, another is served")
def too_many():
    with server("-c", "5") as it:
        clients = it.greeted(5)
        more = it.client()
        equal(more.take(100), b"ERROR Too many open connections\r\n", "the sixth is told")
        expect(more.is_closed(), "and closed")
        equal(clients[0].stats()["rejected_connections"], "1", "rejected_connections")
        clients[4].close()
        wait_for(lambda: clients[0].stats()["curr_connections"] == "4", "one has left")
        it.client().ask(b"mn\r\n", b"MN\r\n")


def switches(it):
    """How often each worker of a server was switched off its processor."""
    tasks = pathlib.Path(f"/proc/{it.process.pid}/task")
    texts = {task.name: (task / "status").read_text(encoding="ascii") for task in tasks.iterdir() if task.name != str(it.process.pid)}
    return {name: sum(map(int, re.findall(r"ctxt_switches:\s*(\d+)", text))) for name, text in texts.items() if "Name:\tkangarood\n" in text}


@shows("clients that come after others left get the workers that have fewer")
def dealt_out():
    with server("-t", "2") as it:
        clients = it.greeted(8)
        for client in clients[1::2]:  # one worker's
            client.close()
        wait_for(lambda: clients[0].stats()["curr_connections"] == "4", "four have left")
        clients = clients[::2] + [it.client() for _ in range(4)]
        before = switches(it)
        for _ in range(250):
            for client in clients:
                client.ask(b"mn\r\n", b"MN\r\n")
        fewer, more = sorted(count - before[name] for name, count in switches(it).items())[-2:]
        expect(3 * fewer > 2 * more, f"each worker has four of eight clients: one was switched {fewer} times, and the other {more}")


@shows("with idle_timeout a silent client is closed, and one that asks is not")
def idle():
    with server("-o", "idle_timeout=3") as it:
        silent, busy = it.client(), it.client()
        for _ in range(60):
            busy.ask(b"mn\r\n", b"MN\r\n")
            time.sleep(0.1)
        expect(silent.is_closed(), "the silent one is closed")
        equal(busy.stats()["idle_kicks"], "1", "idle_kicks")


@shows("clients over TCP on each address that -l names")
def over_tcp():
    first, second = free_port(), free_port()
    with server("-l", f"127.0.0.1:{first},[::1]:{second}" if has_ipv6() else f"127.0.0.1:{first},127.0.0.2:{second}",
                has_socket=False):
        Client(("127.0.0.1", first)).ask(b"mn\r\n", b"MN\r\n")
    with server("-p", str(first), has_socket=False) as it:
        client = Client(("127.0.0.1", first))
        client.ask(b"mn\r\n", b"MN\r\n")
        addresses = [value for name, value in client.stats(b"conns").items() if name.endswith(":listen_addr")]
        equal(addresses, [f"tcp:127.0.0.1:{first}"] * 2, "stats conns, of the socket that listens and of the client")


def has_ipv6():
    """Whether the machine has an IPv6 address of its own."""
    try:
        with socket.socket(socket.AF_INET6) as it:
            it.bind(("::1", 0))
        return True
    except OSError:
        return False


@shows("increments of 8 clients at once all count, and so do compare-and-store loops")
def at_once():
    rounds = 200 if IS_QUICK else 2000

    def count(it):
        client = it.client()
        for _ in range(rounds):
            client.send(b"incr n 1\r\n")
            client.take_to(b"\r\n")
            while True:
                client.send(b"gets c\r\n")
                answer = client.take_to(b"END\r\n").split()
                cas, value = answer[4], int(answer[5])
                client.send(b"cas c 0 0 8 %s\r\n%08d\r\n" % (cas, value + 1))
                if client.take_to(b"\r\n") == b"STORED\r\n":
                    break

    with server("-t", "4") as it:
        first = it.client()
        first.ask(b"set n 0 0 1\r\n0\r\nset c 0 0 8\r\n00000000\r\n", b"STORED\r\nSTORED\r\n")
        all_at_once([lambda: count(it)] * 8)
        first.ask(b"incr n 0\r\n", b"%d\r\n" % (8 * rounds))
        first.ask(b"get c\r\n", b"VALUE c 0 8\r\n%08d\r\nEND\r\n" % (8 * rounds))
