"""Each call of the system is refused in turn: the server ends with a message, or loses one client and serves the others."""
import os
import shutil

from harness import PROGRAM, Server, Skipped, equal, expect, shows, wait_for

# The C library's own look at the users, before signals are taken, does not survive refused memory. The second socket is that by
# which the test is told that the program serves.
AT_START = [("malloc", " starting", 400), ("epoll_ctl", "", 20), ("epoll_create1", "", 20), ("eventfd", "", 20), ("socket", "", 2),
            ("listen", "", 20)]
WHEN_READY = ["accept4", "recv", "send", "epoll_ctl", "epoll_wait", "malloc"]
SESSION = b"set r 0 0 1000\r\n" + b"r" * 1000 + b"\r\nget r r r\r\nstats\r\nset half 0 0 100\r\n"


def start(which, number, when):
    """A server to which one call is refused."""
    if PROGRAM["refuser"] is None:
        raise Skipped("a library that refuses, which the sanitizers do not allow")
    mark = f"/tmp/kangarood-mark-{os.getpid()}"
    if os.path.exists(mark):
        os.unlink(mark)
    words = {"REFUSE": f"{which} {number}{when}", "REFUSE_MARK": mark, "LD_PRELOAD": PROGRAM["refuser"]}
    return Server("-t", "2", environment=words), mark


def use(it):
    """A session that may be cut short, also while answers wait to be sent."""
    try:
        client = it.client()
        client.socket.settimeout(0.05)
        client.send(SESSION)
        client.take(1 << 14)
        client.send(b"x" * 50)
        client.take(1)
        client.close()
    except OSError:
        pass


@shows("at the start each call is refused in turn: it says what was refused and ends with status 71, or serves")
def at_start():
    for which, when, most in AT_START:
        for number in range(1, most):
            it, mark = start(which, number, when)
            try:
                if it.is_ready:
                    use_until(it, mark)
                    is_served_after(it, mark, f"{which} {number}")
                else:
                    equal(it.process.wait(10), 71, f"{which} {number}: the status")
                    expect("kangarood: " in it.said(), f"{which} {number}: it said {it.said()!r}")
                if not os.path.exists(mark):
                    break
            finally:
                it.remove()


@shows("once it serves each call is refused in turn: at most one client is lost, and others are served")
def when_ready():
    for which in WHEN_READY:
        for number in range(1, 60):
            it, mark = start(which, number, " ready")
            try:
                expect(it.is_ready, it.said())
                use_until(it, mark)
                is_served_after(it, mark, f"{which} {number}")
                if not os.path.exists(mark):
                    break
            finally:
                it.remove()


def is_served_after(it, mark, what):
    """A new client is served, or the next one if it is this one that is refused; no other is left; and the server ends well."""
    request, answer = b"set a 0 0 1\r\nx\r\nget a\r\n", b"STORED\r\nVALUE a 0 1\r\nx\r\nEND\r\n"
    was_refused = os.path.exists(mark)
    client = it.client()
    try:
        client.ask(request, answer, what)
    except (OSError, AssertionError):
        expect(not was_refused and os.path.exists(mark), f"{what}: a client is lost, and none was refused")
        client.close()
        client = it.client()
        client.ask(request, answer, what)
    if os.path.exists(mark):
        wait_for(lambda: client.stats()["curr_connections"] == "1", f"{what}: a client that is gone is still counted")
    equal(it.stop(), 0, f"{what}: status")


def use_until(it, mark):
    """Uses a server until a call was refused, or it was used a few times."""
    for _ in range(4):
        use(it)
        if os.path.exists(mark):
            return


def value_of(number):
    """The value of a key, of 1,000 bytes."""
    return (b"value %d, " % number * 1000)[:1000]


def fill_until_refused(client):
    """Stores values until memory was refused to many. Returns the numbers of keys that were stored, and of those refused."""
    stored, refused = [], []
    for first in range(0, 500_000, 100):
        client.send(b"".join(b"set k%d 0 0 1000\r\n%s\r\n" % (i, value_of(i)) for i in range(first, first + 100)))
        for number in range(first, first + 100):
            line = client.take_to(b"\r\n")
            expect(line == b"STORED\r\n" or line.startswith(b"SERVER_ERROR out of memory"), f"the answer to a set: {line}")
            (stored if line == b"STORED\r\n" else refused).append(number)
        if len(refused) > 1000:
            break
    return stored, refused


@shows("with half of the memory that -m says (ulimit -d) it ends at the start and says why, or tells clients that memory is out; each hit is right")
def half_of_memory():
    if PROGRAM["refuser"] is None or shutil.which("prlimit") is None:
        raise Skipped("prlimit, or with a sanitizer, which takes memory of its own")
    it = Server("-m", "64", under=["prlimit", f"--data={32 << 20}"])
    try:
        expect(not it.is_ready, "with the stacks of its threads a small one takes too much")
        equal(it.process.wait(10), 71, "the status")
        expect("kangarood: " in it.said(), f"it said {it.said()!r}")
    finally:
        it.remove()
    it = Server("-m", "400", "--object-bytes", "1000", "--bring-back", "0", under=["prlimit", f"--data={200 << 20}"])
    try:
        expect(it.is_ready, f"a large one starts: {it.said()}")
        client = it.client()
        stored, refused = fill_until_refused(client)
        expect(len(refused) > 1000, f"memory is refused: {len(stored)} were stored")
        values = {number: client.found(b"k%d" % number) for number in [*stored[-20000:], *refused]}
        expect(all(value in (None, value_of(number)) for number, value in values.items()), "each hit is right")
        expect(any(values[number] for number in stored[-20000:]), "there are hits")
        expect(not any(values[number] for number in refused), "a key whose store was refused has no value")
        equal(it.stop(), 0, f"the status after SIGTERM, having said {it.said()}")
    finally:
        it.remove()
