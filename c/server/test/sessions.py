"""Bytes of clients: requests whole, in pieces, many at once, without end."""
import os
import random
import shutil
import subprocess
import sys
import threading
import time

from harness import IS_QUICK, MORE, PROGRAM, Client, Skipped, equal, expect, grew_little, server, shows

FIRST = [
    (b"set a 5 0 3\r\nabc\r\n", b"STORED\r\n"),
    (b"get a\r\n", b"VALUE a 5 3\r\nabc\r\nEND\r\n"),
    (b"get none a none\r\n", b"VALUE a 5 3\r\nabc\r\nEND\r\n"),
    (b"add a 0 0 1\r\nx\r\n", b"NOT_STORED\r\n"),
    (b"replace a 0 0 2\r\n10\r\n", b"STORED\r\n"),
    (b"incr a 32\r\n", b"42\r\n"),
    (b"append a 0 0 1\r\n7\r\n", b"STORED\r\n"),
    (b"prepend a 0 0 1 noreply\r\n1\r\nget a\r\n", b"VALUE a 0 4\r\n1427\r\nEND\r\n"),
    (b"decr a 10000\r\n", b"0\r\n"),
    (b"touch a 100\r\n", b"TOUCHED\r\n"),
    (b"gat 0 a\r\n", b"VALUE a 0 4\r\n0   \r\nEND\r\n"),
    (b"cas a 0 0 1 1\r\nx\r\n", b"EXISTS\r\n"),
    (b"delete a\r\n", b"DELETED\r\n"),
    (b"delete a\r\n", b"NOT_FOUND\r\n"),
    (b"get a\r\n", b"END\r\n"),
    (b"nonsense\r\n", b"ERROR\r\n"),
    (b"set big 0 0 5000\r\n" + b"x" * 5000 + b"\r\n", b"SERVER_ERROR object too large for cache\r\n"),
    (b"set a 0 0 2\r\nabc\n", b"CLIENT_ERROR bad data chunk\r\n"),
    (b"mn\r\n", b"MN\r\n"),
]


@shows("a first session: each classic command and its answer")
def first_session():
    with server() as it:
        client = it.client()
        for request, answer in FIRST:
            client.ask(request, answer)
        client.send(b"version\r\n")
        expect(client.take_to(b"\r\n").startswith(b"VERSION "), "version")
        client.send(b"quit\r\nget a\r\n")
        expect(client.is_closed(), "quit closes")


STREAM = (
    b"flush_all noreply\r\nset a 1 0 5\r\nfirst\r\nget a b a\r\nadd a 0 0 1\r\nx\r\nset b 0 0 4 noreply\r\n\r\n\r\n\r\nappend b 0 0 2\r\n..\r\n"
    b"gat 0 b\r\nset n 0 0 2\r\n41\r\nincr n 1\r\ntouch n 100\r\nmn\r\ndelete n\r\nbad\r\nverbosity 0 noreply\r\nget n b\r\n"
)
SPLIT_ANSWER = (
    b"STORED\r\nVALUE a 1 5\r\nfirst\r\nVALUE a 1 5\r\nfirst\r\nEND\r\nNOT_STORED\r\nSTORED\r\nVALUE b 0 6\r\n\r\n\r\n..\r\nEND\r\n"
    b"STORED\r\n42\r\nTOUCHED\r\nMN\r\nDELETED\r\nERROR\r\nVALUE b 0 6\r\n\r\n\r\n..\r\nEND\r\n"
)


def in_pieces(it, pieces, what):
    """Sends pieces one after the other, and expects the answer of the whole."""
    client = it.client()
    for piece in pieces:
        client.send(piece)
        time.sleep(0.0005)
    equal(client.take(len(SPLIT_ANSWER)), SPLIT_ANSWER, what)
    client.close()


@shows("requests that come in two pieces, cut at each byte, and byte by byte, are answered as the whole is")
def every_split():
    with server() as it:
        in_pieces(it, [STREAM], "whole")
        for at in range(1, len(STREAM), 3 if IS_QUICK else 1):
            in_pieces(it, [STREAM[:at], STREAM[at:]], f"cut at {at}")
        in_pieces(it, [STREAM[at : at + 1] for at in range(len(STREAM))], "byte by byte")


@shows("a pipeline of 10,000 sets and 10,000 gets in one go is answered in order")
def long_pipeline():
    count = 10000
    with server("-m", "64") as it:
        client = it.client()
        data = b"".join(b"set k%d 0 0 5\r\n%05d\r\n" % (i % 100, i) for i in range(count))
        data += b"".join(b"get k%d\r\n" % (i % 100) for i in range(count))
        threading.Thread(target=client.send, args=(data,), daemon=True).start()
        answer = b"STORED\r\n" * count
        answer += b"".join(b"VALUE k%d 0 5\r\n%05d\r\nEND\r\n" % (i % 100, count - 100 + i % 100) for i in range(count))
        equal(client.take(len(answer)), answer, "the pipeline's answer")


@shows("a client that closes in the middle of a request, at each byte of it, leaves nothing stored and others served")
def half_requests():
    request = b"set half 0 0 10\r\n0123456789\r\n"
    with server() as it:
        other = it.client()
        for at in range(len(request)):
            client = it.client()
            client.send(request[:at])
            client.close()
        other.ask(b"get half\r\nmn\r\n", b"END\r\nMN\r\n")


META = [
    (b"ms m 2 F7\r\nhi\r\n", b"HD\r\n"),
    (b"mg m v f\r\n", b"VA 2 f7\r\nhi\r\n"),
    (b"mg m k s\r\n", b"HD km s2\r\n"),
    (b"ms n 2\r\n41\r\nma n v\r\n", b"HD\r\nVA 2\r\n42\r\n"),
    (b"md m q\r\nmg m\r\n", b"EN\r\n"),
]


@shows("the meta commands that name a key are served, and me is refused by name")
def meta():
    with server() as it:
        client = it.client()
        client.ask(b"mg none\r\n", b"EN\r\n")
        for request, answer in META:
            client.ask(request, answer)
        client.ask(b"me m\r\n", b"CLIENT_ERROR me is not served\r\n")


@shows("64 MiB of digits without a line's end are refused, and take no memory")
def endless_line():
    with server() as it:
        client, before = it.client(), it.kib()
        try:
            for _ in range(64):
                client.send(b"7" * (1 << 20))
            expect(False, "the server takes a line of 64 MiB")
        except (ConnectionError, OSError):
            pass
        it.client().ask(b"mn\r\n", b"MN\r\n")
        grew_little(it, before, 1024)


@shows("a value of 64 MiB is passed over as it comes, takes no memory, and leaves no older value")
def endless_value():
    size = 64 << 20
    with server() as it:
        client, before = it.client(), it.kib()
        client.ask(b"set v 0 0 3\r\nold\r\n", b"STORED\r\n")
        client.send(b"set v 0 0 %d\r\n" % size)
        for _ in range(64):
            client.send(b"7" * (1 << 20))
        client.ask(b"\r\nget v\r\n", b"SERVER_ERROR object too large for cache\r\nEND\r\n")
        grew_little(it, before, 1024)


FLUSH = b"\r\nflush_all\r\n"
BAD_LINE = b"CLIENT_ERROR bad command line format\r\n"
LONG_KEY = b"k" * 251
# Lines that are refused, of a block of 9 bytes, and what is answered.
REFUSED_LINES = [
    (b"set k 0 9223372036854775808 9", BAD_LINE),
    (b"set k 0 x 9", BAD_LINE),
    (b"add k -1 0 +9", BAD_LINE),
    (b"set " + LONG_KEY + b" 0 0 9", BAD_LINE),
    (b"cas k 0 0 9 x", BAD_LINE),
    (b"cas k 0 0 9", b"ERROR\r\n"),
    (b"replace k 0 0 9 1 2 3", b"ERROR\r\n"),
    (b"append k 0 x 9 noreply", b""),
    (b"ms k 9 Tx", b"CLIENT_ERROR bad token in command line format\r\n"),
    (b"ms k 9 q q", b"CLIENT_ERROR duplicate flag\r\n"),
    (b"ms " + LONG_KEY + b" 9", BAD_LINE),
    (b"ms k 9" + b" O" * 17, b"CLIENT_ERROR options flags too long\r\n"),
]
# Lines of which nobody can tell how long their block is.
LINES_WITHOUT_LENGTH = [
    (b"set k 0 0 2147483648", BAD_LINE),
    (b"set k 0 0 4294967305", BAD_LINE),
    (b"set k 0 0 -9", BAD_LINE),
    (b"set k 0 0 9x", BAD_LINE),
    (b"set k 0 0", b"ERROR\r\n"),
    (b"prepend", b"ERROR\r\n"),
    (b"cas k 0 0 x 1 noreply", b""),
    (b"ms k x", BAD_LINE),
    (b"ms k", BAD_LINE),
]


@shows("a block of a refused line is never run as a request, however it is cut")
def refused_blocks():
    with server() as it:
        client = it.client()
        client.ask(b"set kept 0 0 2\r\nhi\r\n", b"STORED\r\n")
        for line, answer in REFUSED_LINES:
            client.ask(line + FLUSH + b"mn\r\n", answer + b"MN\r\n", line)
            for byte in line + FLUSH:
                client.send(bytes([byte]))
            client.ask(b"get kept\r\n", answer + b"VALUE kept 0 2\r\nhi\r\nEND\r\n", line)


@shows("a line whose block has no length that can be read closes its client")
def blocks_without_length():
    with server() as it:
        it.client().ask(b"set kept 0 0 2\r\nhi\r\n", b"STORED\r\n")
        for line, answer in LINES_WITHOUT_LENGTH:
            client = it.client()
            client.ask(line + FLUSH, answer, line)
            expect(client.is_closed(), f"closed after {line}")
        it.client().ask(b"get kept\r\n", b"VALUE kept 0 2\r\nhi\r\nEND\r\n")


# What libmemcached writes for -1, and other numbers beyond 32 bits: whether the value is there after them.
EXPIRIES = [
    (b"0", True), (b"-0", True), (b"100", True), (b"+100", True), (b"4294967396", True), (b"4294967296", True),
    (b"-1", False), (b"4294967295", False), (b"2147483648", False), (b"9223372036854775807", False), (b"-9223372036854775808", False),
]


@shows("an expiry of any width is taken, and a negative one has passed")
def expiries():
    with server() as it:
        client = it.client()
        for word, is_there in EXPIRIES:
            found = b"VALUE k 7 1\r\nx\r\nEND\r\n" if is_there else b"END\r\n"
            client.ask(b"set k 4294967303 " + word + b" +1\r\nx\r\n", b"STORED\r\n", word)
            client.ask(b"get k\r\n", found, word)
            client.ask(b"set k 7 0 1\r\nx\r\ntouch k " + word + b"\r\nget k\r\n", b"STORED\r\nTOUCHED\r\n" + found, word)
            client.ask(b"ms k 1 F7 T" + word + b"\r\nx\r\nget k\r\n", b"HD\r\n" + found, word)


# Flags beyond 32 bits, and what of them is kept.
FLAGS = [(b"7", b"7"), (b"4294967295", b"4294967295"), (b"4294967296", b"0"), (b"4294967297", b"1"), (b"18446744073709551615", b"4294967295")]


@shows("flags of any width keep their lower 32 bits, by set and by ms")
def flags():
    with server() as it:
        client = it.client()
        for word, kept in FLAGS:
            found = b"VALUE k " + kept + b" 1\r\nx\r\nEND\r\n"
            client.ask(b"set k " + word + b" 0 1\r\nx\r\nget k\r\n", b"STORED\r\n" + found, word)
            client.ask(b"ms k 1 F" + word + b"\r\nx\r\nget k\r\n", b"HD\r\n" + found, word)


@shows("bytes of the binary protocol end the connection")
def binary():
    with server() as it:
        client = it.client()
        client.send(b"\x80\x0a" + b"\0" * 22)
        expect(client.is_closed(), "a binary client is closed")
        it.client().ask(b"mn\r\n", b"MN\r\n")


@shows("random bytes end in answers or a close, and the server goes on")
def noise():
    random_bytes = random.Random(7)
    words = [b"get", b"set", b"ms", b"mg", b"incr", b"\r\n", b" ", b"\0", b"\x80", b"1", b"4294967296", b"noreply", b"k", b"\n", b"-1"]
    with server() as it:
        for _ in range(100 if IS_QUICK else 1000):
            client = it.client()
            client.socket.settimeout(0.002)
            try:
                client.send(b"".join(random_bytes.choice(words) + b" " * random_bytes.randrange(2) for _ in range(60)))
                client.send(random_bytes.randbytes(200))
                client.take(1 << 20)
            except OSError:
                pass
            client.close()
        Client(it.path).ask(b"mn\r\n", b"MN\r\n")


@shows("20,000 random commands, right and wrong ones, are answered as memcached 1.6.18 answers them, but for what docs/SERVER.md announces")
def beside_memcached():
    memcached = shutil.which("memcached")
    if memcached is None or b" 1.6.18" not in subprocess.run([memcached, "-V"], stdout=subprocess.PIPE, check=False).stdout:
        raise Skipped("memcached 1.6.18")
    compare = os.path.join(os.path.dirname(os.path.abspath(__file__)), "beside-memcached")
    words = [sys.executable, "-B", compare, memcached, PROGRAM["kangarood"], "20000" if MORE == 1 else "2000"]
    ran = subprocess.run(words, stdin=subprocess.DEVNULL, stdout=subprocess.PIPE, stderr=subprocess.STDOUT, timeout=600, check=False)
    said = ran.stdout.decode(errors="replace").splitlines()
    print(f"    {said[-1]}", flush=True)
    equal(ran.returncode, 0, "the status, having said:\n" + "\n".join(said[-40:]))
