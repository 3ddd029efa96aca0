"""stats conns with many clients, that come and go, and that ask and do not read."""
import contextlib
import os
import resource
import threading
import time

from harness import IS_QUICK, MORE, Client, Skipped, all_at_once, equal, expect, have_descriptors, server, shows, wait_for

ASKERS = int(os.environ.get("ASKERS", "500" if IS_QUICK else "4000"))
NAMES = ["addr", "listen_addr", "state", "secs_since_last_cmd"]


def sockets(answer):
    """The sockets of an answer of stats conns, in its order: each has its four lines, one after the other."""
    lines = answer.decode().split("\r\n")
    equal(lines[-2:], ["END", ""], "the answer's end")
    words = [line.split(" ", 2) for line in lines[:-2]]
    expect(all(len(it) == 3 and it[0] == "STAT" for it in words), "each line has a name and a value")
    names = [it[1].split(":") for it in words]
    numbers = [int(number) for number, _ in names[::4]]
    equal(names, [[str(number), name] for number in numbers for name in NAMES], "names")
    return numbers


def asked(client):
    """The sockets that a client is shown."""
    client.send(b"stats conns\r\n")
    return sockets(client.take_to(b"END\r\n"))


@shows("stats conns shows each of 300 clients once, by its descriptor, also many times in one go and with other commands between")
def each_once():
    with server() as it:
        clients = it.greeted(300)
        first = asked(clients[0])
        equal(len(first), 301, "one listens and 300 are clients")
        equal(first[1:], sorted(set(first[1:])), "clients, in the order of their descriptors")
        clients[1].send(b"stats conns\r\nmn\r\n" * 40)
        for _ in range(40):
            equal(sockets(clients[1].take_to(b"END\r\n")), first, "each of 40 answers")
            equal(clients[1].take(4), b"MN\r\n", "the command after it")
        for client in clients[10:]:
            client.close()
        clients[2].ask(b"mn\r\n", b"MN\r\n")
        wait_for(lambda: len(asked(clients[2])) == 11, "those that have left are shown no more")


@shows("while clients come and go, stats conns shows each that stays once, and no socket twice or in half")
def while_others_come_and_go():
    ends = time.monotonic() + (1 if IS_QUICK else 5)

    def come_and_go(it):
        while time.monotonic() < ends:
            others = [it.client() for _ in range(20)]
            for other in others[::2]:
                with contextlib.suppress(OSError):  # it is one too many, and closed
                    other.send(b"mn\r\n")
            for other in others:
                other.close()

    def ask(it, stay):
        client = it.client()
        while time.monotonic() < ends:
            shown = asked(client)
            expect(len(shown) == len(set(shown)) and stay <= set(shown), "those that stay, and none twice")

    with server() as it:
        stay = [it.client() for _ in range(50)]
        for client in stay:
            client.ask(b"mn\r\n", b"MN\r\n")
        numbers = set(asked(stay[0]))
        all_at_once([lambda: come_and_go(it), lambda: ask(it, numbers)] * 2)


def waits_of_gets(it, seconds):
    """How long each get of a client took, in seconds, for so long."""
    client, waits, ends = it.client(), [], time.monotonic() + seconds
    while time.monotonic() < ends:
        began = time.monotonic()
        client.ask(b"get v\r\n", b"VALUE v 0 1\r\nv\r\nEND\r\n")
        waits.append(time.monotonic() - began)
    return sorted(waits)


def most_clients(wanted):
    """How many clients this process and a server can have: as many as are wanted, or what the system gives."""
    try:
        have_descriptors(wanted + 300)
        return wanted
    except Skipped:
        most = resource.getrlimit(resource.RLIMIT_NOFILE)[1] - 300
        have_descriptors(most + 300)
        print(f"    only {most} clients: the system gives no more descriptors")
        return most


def tell_waits(waits):
    """Prints what others waited."""
    print(f"    {len(waits)} gets of another, median {1e6 * waits[len(waits) // 2]:.0f} us, longest {1e3 * waits[-1]:.0f} ms")


@shows(f"{ASKERS:,} clients that ask stats conns and do not read make no other wait for long, and take little memory; then each reads it all")
def many_askers():
    count = most_clients(ASKERS)
    with server("-c", str(count + 10)) as it:
        it.client().ask(b"set v 0 0 1\r\nv\r\n", b"STORED\r\n")
        clients = it.greeted(count)
        before = it.kib()
        for client in clients:
            client.send(b"stats conns\r\n")
        waits = waits_of_gets(it, 2 if IS_QUICK else 20)
        each = (it.kib() - before) / count
        tell_waits(waits)
        expect(waits[-1] < 1 * MORE, f"a get waited {waits[-1]:.3f} s")
        expect(each < 64 * MORE, f"each client took {each:.1f} KiB")
        for client in clients[:: len(clients) // 20]:
            shown = sockets(client.take_to(b"END\r\n"))
            expect(len(shown) >= count, f"{len(shown)} sockets")


@shows("a client that sends 16 KiB of stats or of stats conns and reads fast makes no other wait for long")
def fast_asker():
    count = most_clients(1000)
    with server("-t", "1", "-c", str(count + 10)) as it:
        it.client().ask(b"set v 0 0 1\r\nv\r\n", b"STORED\r\n")
        clients = it.greeted(count)
        stops = threading.Event()

        def read(request):
            client = Client(it.path)
            while not stops.is_set():
                client.send(request * ((16 << 10) // len(request)))
                client.send(b"mn\r\n")
                while not stops.is_set() and not client.socket.recv(1 << 20).endswith(b"MN\r\n"):
                    continue

        readers = [threading.Thread(target=read, args=(request,)) for request in (b"stats conns\r\n", b"stats\r\n")]
        for reader in readers:
            reader.start()
        waits = waits_of_gets(it, 1 if IS_QUICK else 3)
        stops.set()
        for reader in readers:
            reader.join()
        tell_waits(waits)
        expect(waits[-1] < 0.5 * MORE, f"a get waited {waits[-1]:.3f} s")
