"""What is of one client and does not cross to another, and what crosses from clients to the threads that tend the cache."""
import pathlib
import signal
import subprocess
import time

import refusals
from harness import PROGRAM, Client, Skipped, equal, expect, free_port, server, shows, wait_for


def stop_for_a_while(it):
    """Stops the whole server until it is told to go on."""
    it.process.send_signal(signal.SIGSTOP)
    state = pathlib.Path(f"/proc/{it.process.pid}/stat")
    wait_for(lambda: state.read_text(encoding="ascii").rpartition(")")[2].split()[0] == "T", "it stops")


def values(first, count, length=1000):
    """Numbered keys, each with a value of its own."""
    return {b"k%d" % i: (b"%d." % i * length)[:length] for i in range(first, first + count)}


def store(client, items):
    """Stores items."""
    for key, value in items.items():
        client.ask(b"set %s 0 0 %d\r\n%s\r\n" % (key, len(value), value), b"STORED\r\n")


def answer_to_gets(items):
    """What is answered to a get of each item in turn."""
    return b"".join(b"VALUE %s 0 %d\r\n%s\r\nEND\r\n" % (key, len(value), value) for key, value in items.items())


@shows("answers to a client that has left go to no other client of its thread")
def answers_of_one_who_left():
    with server("-t", "1") as it:
        items = values(0, 5)
        store(it.client(), items)
        for _ in range(5):
            stop_for_a_while(it)
            gone = it.client()
            gone.send(b"".join(b"get %s\r\n" % key for key in items))
            gone.close()
            other = it.client()
            other.send(b"get nothing\r\nmn\r\n")
            it.process.send_signal(signal.SIGCONT)
            other.ask(b"mn\r\n", b"END\r\nMN\r\nMN\r\n", "the answers to another client")


@shows("what one client leaves half sent is not gone on with by another client of its thread")
def halves_of_two():
    with server("-t", "1") as it:
        one, other = it.client(), it.client()
        one.ask(b"set a 0 0 1\r\n1\r\nset one 0 0 9\r\nget", b"STORED\r\n")
        other.ask(b" a\r\n", b"ERROR\r\n")
        other.ask(b"set b 0 0 1\r\n2\r\nget a", b"STORED\r\n")
        one.ask(b" b\r\n\r\n\r\nget b a\r\n", b"STORED\r\nVALUE b 0 1\r\n2\r\nVALUE a 0 1\r\n1\r\nEND\r\n")
        other.ask(b" one\r\n", b"VALUE a 0 1\r\n1\r\nVALUE one 0 9\r\nget b\r\n\r\n\r\nEND\r\n")
        one.ask(b"get " + b"a " * 2000 + b"a", b"VALUE a 0 1\r\n1\r\n" * 2000, "keys of a get that is longer than a line")
        other.ask(b"mn\r\nset big 0 0 100000\r\n" + b"x" * 50_000, b"MN\r\nSERVER_ERROR object too large for cache\r\n")
        one.ask(b"\r\nget b\r\n", b"VALUE a 0 1\r\n1\r\nEND\r\nVALUE b 0 1\r\n2\r\nEND\r\n", "beside a block that is passed over")
        other.ask(b"x" * 50_000 + b"\r\nmn\r\n", b"MN\r\n")


# What a client may be in the middle of when it leaves, and what of it is answered until then.
LEFT_HALF_DONE = [
    (b"set half 0 0 9\r\n123", b""),
    (b"set big 0 0 100000\r\n" + b"x" * 20_000, b"SERVER_ERROR object too large for cache\r\n"),
    (b"set " + b"k" * 251 + b" 0 0 100000\r\n" + b"x" * 20_000, b"CLIENT_ERROR bad command line format\r\n"),
    (b"get " + b"a " * 4000, b"VALUE a 0 1\r\n1\r\n" * 2000),
    (b"gets " + b"a " * 4000, b"VALUE a 0 1 "),
    (b"gat 0 " + b"a " * 4000, b"VALUE a 0 1\r\n1\r\n" * 2000),
]


@shows("what a client leaves half done when it goes is gone on with by no client that comes after it")
def halves_of_one_who_left():
    with server("-t", "1") as it:
        asks = it.client()
        asks.ask(b"set a 0 0 1\r\n1\r\n", b"STORED\r\n")
        for sent, answer in LEFT_HALF_DONE:
            gone = it.client()
            gone.ask(sent, answer, f"up to where a client leaves: {sent[:30]}")
            gone.close()
            wait_for(lambda: asks.stats()["curr_connections"] == "1", "it has left")
            other = it.client()
            other.ask(b"get a\r\nmn\r\n", b"VALUE a 0 1\r\n1\r\nEND\r\nMN\r\n", f"the next client, after {sent[:30]}")
            other.close()
            wait_for(lambda: asks.stats()["curr_connections"] == "1", "it has left, too")


def answers_before_quit(client, items):
    """A client quits behind many gets, sends on, more than a server reads at once, and reads only later: it gets all of its answers, and
    then the end."""
    client.send(b"".join(b"get %s\r\n" % key for key in items) + b"quit\r\n" + b"x" * 20_000)
    time.sleep(0.2)
    equal(client.take(1 << 20), answer_to_gets(items), "the answers to a client that quits")


@shows("a client that quits gets all of its answers first, however late it reads them, and whatever it has sent after that")
def quits():
    port = free_port()
    for narrow in (PROGRAM["narrow"], None) if PROGRAM["narrow"] else (None,):
        environment = {"LD_PRELOAD": narrow, "NARROW": "3000"} if narrow else {}
        with server("-t", "1", "-p", str(port), has_socket=False, environment=environment) as it:
            items = values(0, 200)
            store(Client(("127.0.0.1", port)), items)
            for room in (1 << 12, 1 << 20):
                answers_before_quit(Client(("127.0.0.1", port), room), items)
        with server("-t", "1", environment=environment) as it:
            store(it.client(), items)
            answers_before_quit(it.client(), items)


@shows("answers come in their order, however little of them the system takes at once, and whatever more a client asks meanwhile")
def order_of_answers():
    if PROGRAM["narrow"] is None:
        raise Skipped("a library that narrows sends, which the sanitizers do not allow")
    with server("-t", "1", environment={"LD_PRELOAD": PROGRAM["narrow"], "NARROW": "3000"}) as it:
        items = values(0, 300)
        clients = [it.client() for _ in range(3)]
        store(clients[0], items)
        for client in clients:
            client.send(b"".join(b"get %s\r\n" % key for key in items))
        for client in clients:
            client.ask(b"version\r\nstats sizes\r\n", answer_to_gets(items) + b"VERSION 1.6.18\r\nSTAT sizes_status disabled\r\nEND\r\n",
                       "300 answers, and two after them")


@shows("whatever order two clients come in, the server answers as it does to whole commands in some order")
def orders():
    if PROGRAM["orders"] is None:
        raise Skipped("a program that is built without sanitizers")
    ran = subprocess.run([PROGRAM["orders"]], stdin=subprocess.DEVNULL, stdout=subprocess.PIPE, stderr=subprocess.STDOUT, timeout=600,
                         check=False)
    print("".join(f"  {line}\n" for line in ran.stdout.decode().splitlines()), end="", flush=True)
    equal(ran.returncode, 0, "the status of orders")


@shows("a lane that is due is handed to the threads that tend the cache, and they do steps of it")
def lanes_are_tended():
    with server("-m", "8", "--flash", "16M") as it:
        client = it.client()
        ends = time.monotonic() + 20
        number, seen = 0, {}
        while not seen or (int(seen["kangaroo_upkeep_steps"]) < 100 and time.monotonic() < ends):
            items = values(number, 2000, 500)
            client.send(b"".join(b"set %s 0 0 %d noreply\r\n%s\r\n" % (key, len(value), value) for key, value in items.items()))
            number += len(items)
            seen = client.stats()
        steps, helped = int(seen["kangaroo_upkeep_steps"]), int(seen["kangaroo_put_steps"])
        print(f"    {number} stores, {steps} steps of threads, {helped} of stores", flush=True)
        expect(steps >= 100, f"{steps} steps of threads after {number} stores, and {helped} of stores")


@shows("counts of all threads that serve are added up, and stats reset sets them to 0 for all")
def counts_of_all():
    with server("-t", "4") as it:
        clients = [it.client() for _ in range(8)]
        for client in clients:
            client.ask(b"set a 0 0 1\r\n1\r\nget a\r\nget b\r\n", b"STORED\r\nVALUE a 0 1\r\n1\r\nEND\r\nEND\r\n")
        counted = clients[0].stats()
        for name, wanted in (("cmd_set", 8), ("cmd_get", 16), ("get_hits", 8), ("get_misses", 8), ("total_items", 8)):
            equal(int(counted[name]), wanted, name)
        clients[1].ask(b"stats reset\r\n", b"RESET\r\n")
        counted = clients[2].stats()
        for name in ("cmd_set", "cmd_get", "get_hits", "get_misses", "total_items"):
            equal(int(counted[name]), 0, f"{name} after a reset")
        clients[3].ask(b"get a\r\n", b"VALUE a 0 1\r\n1\r\nEND\r\n")
        equal(int(clients[0].stats()["cmd_get"]), 1, "a get after a reset")


def spares(it):
    """How many descriptors of a server lead nowhere: of these one is kept for clients for whom there is none."""
    return it.descriptors().count("/dev/null")


@shows("through 200 clients that come and go -c are served, and no more")
def places_of_clients():
    with server("-c", "11", "-t", "3") as it:
        asks = it.client()
        for _ in range(20):
            clients = [it.client() for _ in range(10)]
            for client in clients:
                client.ask(b"mn\r\n", b"MN\r\n")
            expect(b"Too many" in it.client().take_to(b"\r\n"), "one more is refused")
            for client in clients:
                client.close()
            wait_for(lambda: asks.stats()["curr_connections"] == "1", "those that left are counted as gone")


@shows("a client for whom there is no descriptor is told so, and one is kept for the next such client")
def no_descriptor():
    it, _ = refusals.start("accept4", 1, " ready")
    try:
        expect(it.is_ready, it.said())
        before = spares(it)
        expect(b"Too many" in it.client().take_to(b"\r\n"), "it is told")
        wait_for(lambda: spares(it) == before, "a descriptor is kept for the next one")
        it.client().ask(b"mn\r\n", b"MN\r\n", "another client")
        equal(it.stop(), 0, "the status")
    finally:
        it.remove()


def wait_for_the_end_of_a_second(client):
    """Waits until a second of the server's clock is nearly over."""
    began = client.stats()["time"]
    wait_for(lambda: client.stats()["time"] != began, "the server's clock goes on")
    time.sleep(0.8)


@shows("of 40 silent clients each is closed once its time is over, and none that asks")
def many_idle():
    with server("-o", "idle_timeout=1", "-t", "2") as it:
        busy = it.client()
        wait_for_the_end_of_a_second(busy)  # so the next one begins long before their time is over
        began = time.monotonic()
        silent = it.greeted(40)
        while int(busy.stats()["curr_connections"]) > 1 and time.monotonic() < began + 20:
            time.sleep(0.05)
        took = time.monotonic() - began
        expect(1 < took < 8, f"it took {took:.1f} s")
        expect(all(client.is_closed() for client in silent), "each silent one is closed")
        equal(busy.stats()["idle_kicks"], "40", "idle_kicks")
