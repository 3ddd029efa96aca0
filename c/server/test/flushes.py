"""flush_all, at once and later, beside other commands; and expiry."""
import time

from harness import all_at_once, equal, expect, server, shows


@shows("flush_all hides all items of before, and none of after; -F refuses it")
def at_once():
    with server() as it:
        client = it.client()
        client.send(b"".join(b"set k%d 0 0 1 noreply\r\nx\r\n" % i for i in range(1000)))
        client.ask(b"flush_all\r\nset a 0 0 1\r\ny\r\n", b"OK\r\nSTORED\r\n")
        client.send(b"get " + b" ".join(b"k%d" % i for i in range(1000)) + b" a\r\n")
        equal(client.take_to(b"END\r\n"), b"VALUE a 0 1\r\ny\r\nEND\r\n", "what is left")
        client.ask(b"flush_all noreply\r\nget a\r\n", b"END\r\n")
    with server("-F") as it:
        client = it.client()
        client.ask(b"set a 0 0 1\r\ny\r\n", b"STORED\r\n")
        client.send(b"flush_all\r\n")
        expect(client.take_to(b"\r\n") != b"OK\r\n", "-F")
        client.ask(b"get a\r\n", b"VALUE a 0 1\r\ny\r\nEND\r\n")


@shows("a flush_all that is to come hides at its moment what was stored before it, and a later flush_all takes its place")
def later():
    with server() as it:
        client = it.client()
        client.ask(b"set a 0 0 1\r\ny\r\nflush_all 2\r\nget a\r\n", b"STORED\r\nOK\r\nVALUE a 0 1\r\ny\r\nEND\r\n")
        time.sleep(3.1)
        client.ask(b"get a\r\nset a 0 0 1\r\nz\r\n", b"END\r\nSTORED\r\n")
        client.ask(b"flush_all 1\r\nflush_all 1000\r\n", b"OK\r\nOK\r\n")
        time.sleep(2.1)
        client.ask(b"get a\r\n", b"VALUE a 0 1\r\nz\r\nEND\r\n")


@shows("an item with an expiry is there before it, and is not after it")
def expiry():
    with server() as it:
        client = it.client()
        client.ask(b"set a 0 2 1\r\ny\r\nget a\r\n", b"STORED\r\nVALUE a 0 1\r\ny\r\nEND\r\n")
        client.ask(b"set b 0 %d 1\r\ny\r\nset c 0 -1 1\r\ny\r\nget c\r\n" % (int(time.time()) + 100), b"STORED\r\nSTORED\r\nEND\r\n")
        time.sleep(3.1)
        client.ask(b"get a b\r\n", b"VALUE b 0 1\r\ny\r\nEND\r\n")


@shows("numbers that others increment through flushes never come back from before a flush")
def beside_increments():
    ends = time.monotonic() + 2

    def increment(it):
        client = it.client()
        while time.monotonic() < ends:
            client.send(b"add n 0 0 1\r\n0\r\nincr n 1\r\n")
            client.take_to(b"\r\n")
            client.take_to(b"\r\n")

    def flush(it):
        client = it.client()
        while time.monotonic() < ends:
            client.ask(b"set n 0 0 7\r\n1000000\r\nincr n 0\r\n", b"STORED\r\n")
            client.take_to(b"\r\n")
            client.ask(b"flush_all\r\n", b"OK\r\n")
            client.send(b"incr n 0\r\n")
            answer = client.take_to(b"\r\n")
            expect(answer == b"NOT_FOUND\r\n" or int(answer) < 1000000, f"a number of before a flush: {answer}")

    with server("-t", "4") as it:
        all_at_once([lambda: increment(it)] * 4 + [lambda: flush(it)])


@shows("numbers of items grow, also over a restart")
def numbers_grow():
    numbers = []
    for _ in range(2):
        with server() as it:
            client = it.client()
            for _ in range(3):
                client.ask(b"set a 0 0 1\r\ny\r\n", b"STORED\r\n")
                client.send(b"gets a\r\n")
                numbers.append(int(client.take_to(b"END\r\n").split()[4]))
    equal(numbers, sorted(set(numbers)), "numbers")
