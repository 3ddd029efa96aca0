"""--slow: which requests are told, and how; and what it costs if it is off."""
import contextlib
import mmap
import re
import struct
import tempfile
import time

from harness import PROGRAM, Skipped, equal, expect, server, shows, wait_for

LINE = re.compile(r'slow: us=(\d+) command=(\S+) outcome=(\S+) tier=(\S+) pages=(\d+) lane=(\S+) untold=(\d+) bytes=(-|"[ !#-\[\]-~\\]*"(?:\.\.)?)')
NAMES = ("us", "command", "outcome", "tier", "pages", "lane", "untold", "bytes")
A_SECOND = 10


class Delays:
    """What delayer.so and a test share."""

    def __init__(self, file):
        self.file, self.map = file, mmap.mmap(file.fileno(), 16)

    def set(self, seconds):
        """Has each lock wait for so long."""
        self.map[:8] = struct.pack("=q", int(seconds * 1_000_000))

    def reads(self):
        """How often the clock was read."""
        return struct.unpack("=q", self.map[8:])[0]


@contextlib.contextmanager
def delayed_server(*words):
    """A server with one thread whose locks a test delays."""
    if PROGRAM["delayer"] is None:
        raise Skipped("a library that delays, which the sanitizers do not allow")
    with tempfile.NamedTemporaryFile(prefix="kangarood-delay-") as file:
        file.write(bytes(16))
        file.flush()
        with server("-t", "1", *words, environment={"LD_PRELOAD": PROGRAM["delayer"], "DELAY_FILE": file.name}) as it:
            yield it, Delays(file)


def slow_lines(it):
    """What the server told of slow requests so far, in order."""
    told = [line.partition("kangarood: warning: ")[2] for line in it.said().splitlines() if "slow: " in line]
    for line in told:
        expect(LINE.fullmatch(line), f"a line of a slow request: {line}")
    return [dict(zip(NAMES, LINE.fullmatch(line).groups())) for line in told]


def next_second(it):
    """Waits until a worker may tell lines again."""
    del it
    time.sleep(1.1)


@shows("--slow=MS: a request that takes longer is told, with command, outcome, tier and microseconds, and no other is")
def slow_requests():
    with delayed_server("--slow=400") as (it, delays):
        client = it.client()
        client.ask(b"set a 0 0 1\r\nx\r\nget a\r\nget b\r\n", b"STORED\r\nVALUE a 0 1\r\nx\r\nEND\r\nEND\r\n")
        equal(slow_lines(it), [], "lines before there is a delay")
        delays.set(0.5)
        client.ask(b"get a\r\n", b"VALUE a 0 1\r\nx\r\nEND\r\n")
        client.ask(b"get b\r\n", b"END\r\n")
        client.ask(b"set a 0 0 1\r\ny\r\n", b"STORED\r\n")
        client.ask(b"mn\r\nversion\r\n", b"MN\r\nVERSION 1.6.18\r\n")
        delays.set(0.02)
        client.ask(b"get a\r\n", b"VALUE a 0 1\r\ny\r\nEND\r\n")
        delays.set(0)
        client.ask(b"get a\r\n", b"VALUE a 0 1\r\ny\r\nEND\r\n")
        wait_for(lambda: len(slow_lines(it)) >= 3, "three lines")
        lines = slow_lines(it)
        equal([(line["command"], line["outcome"], line["tier"]) for line in lines],
              [("get", "hit", "memory"), ("get", "miss", "-"), ("set", "stored", "-")], "what was told")
        expect(all(500_000 <= int(line["us"]) < 5_000_000 for line in lines), lines)
        expect(lines[0]["bytes"].endswith('a"') and lines[1]["bytes"].endswith('b"') and lines[2]["bytes"] == '"set a 0 0 1"', lines)
        equal({line["untold"] for line in lines}, {"0"}, "what was not told")


@shows("without --slow no clock is read for it, and with it two times a step at most")
def clock_reads():
    for words, most in (((), 0), (("--slow=1000",), 3 * 2 * 1000 + 100)):
        with delayed_server(*words) as (it, delays):
            client = it.client()
            client.ask(b"set a 0 0 1\r\nx\r\n", b"STORED\r\n")
            before = delays.reads()
            client.ask(b"get a\r\n" * 1000, b"VALUE a 0 1\r\nx\r\nEND\r\n" * 1000)
            read = delays.reads() - before
            expect(read <= most and (read != 0) == (most != 0), f"the clock was read {read} times with {words}")


@shows("--slow=0 tells each request, at most ten a second from each thread; the others are counted, and the next line has the count")
def limit_of_lines():
    with server("-t", "1", "--slow=0") as it:
        client = it.client()
        began, asked = time.monotonic(), 0
        for _ in range(3):
            client.ask(b"get a\r\n" * 500, b"END\r\n" * 500)
            asked += 500
            time.sleep(0.3)
        seconds = time.monotonic() - began
        lines = slow_lines(it)
        expect(A_SECOND <= len(lines) <= A_SECOND * (int(seconds) + 2), f"{len(lines)} lines in {seconds} s")
        next_second(it)
        client.ask(b"get a\r\n", b"END\r\n")
        wait_for(lambda: len(slow_lines(it)) > len(lines), "a line in another second")
        lines = slow_lines(it)
        equal(len(lines) + sum(int(line["untold"]) for line in lines), asked + 1, "lines, and those that were counted")


@shows("a slow line has the front of a request's line, with each byte that is not plain spelled; and nothing of a data block")
def bytes_of_lines():
    with server("-t", "1", "--slow=0") as it:
        client = it.client()
        keys = [b'a"b', b"back\\slash", b"\xff\x80", b"k" * 99, b"k" * 250]
        shown = ['a\\x22b"', 'back\\x5cslash"', '\\xff\\x80"', "k" * 90, "k" * 90]
        for key in keys:
            client.ask(b"get " + key + b"\r\n", b"END\r\n")
        wait_for(lambda: len(slow_lines(it)) == len(keys), "a line for each")
        for line, wanted in zip(slow_lines(it), shown):
            expect(wanted in line["bytes"], f"{wanted} in {line}")
        expect(slow_lines(it)[-1]["bytes"].endswith('"..') and len(slow_lines(it)[-1]["bytes"]) == 104, "a key that is shortened")
        next_second(it)
        client.ask(b"set a 0 0 6\r\nsecret\r\nset a 0 0 4000\r\n" + b"secret" * 666 + b"1234\r\nstats sizes\r\n",
                   b"STORED\r\nSERVER_ERROR object too large for cache\r\nSTAT sizes_status disabled\r\nEND\r\n")
        wait_for(lambda: slow_lines(it)[-1]["command"] == "stats", "a line of stats")
        expect("secret" not in it.said(), f"a data block is told: {it.said()}")
        equal(slow_lines(it)[-1]["bytes"], "-", "what is shown of stats")


@shows("the tier of a slow hit is the one that stats counts it in, and so are the pages that it read")
def tiers_of_lines():
    with server("-t", "1", "--slow=0", "-m", "2", "--flash", "16M", "--bring-back", "0", "--upkeep-threads", "0") as it:
        client, count = it.client(), 40_000
        for first in range(0, count, 1000):
            client.ask(b"".join(b"set k%d 0 0 100 noreply\r\n%0100d\r\n" % (n, n) for n in range(first, first + 1000)) + b"mn\r\n", b"MN\r\n")
        seen = {}
        for number in range(count - 1, 0, -count // 60):
            if len(seen) == 3:
                break
            next_second(it)
            before = client.stats()
            found = client.found(b"k%d" % number)
            after = client.stats()
            rose = [tier for tier in ("memory", "log", "set") if before[f"kangaroo_{tier}_hits"] != after[f"kangaroo_{tier}_hits"]]
            pages = int(after["kangaroo_pages_read"]) - int(before["kangaroo_pages_read"])
            wait_for(lambda: [line["command"] for line in slow_lines(it)[-3:]] == ["stats", "get", "stats"], "three lines")
            line = slow_lines(it)[-2]
            wanted = ("hit" if found else "miss", rose[0] if rose else "-", str(pages))
            equal((line["outcome"], line["tier"], line["pages"]), wanted, f"the line of k{number}")
            seen.update({tier: number for tier in rose})
        expect(len(seen) >= 2, f"tiers that were seen: {seen}")
