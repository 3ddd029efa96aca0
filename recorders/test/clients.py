"""Drives the recorded clients over real servers, and checks what they wrote and answered.

    clients.py session CLIENT PORT       each call once: its answer, its line, and what is refused
    clients.py calls CLIENT PORT OUT     four threads; check.py and `judge` look at OUT
    clients.py slow CLIENT               a server that answers late: each END is after its answer

CLIENT is pymemcache, pylibmc or redis. The status is 77 if this Python has it not."""
import io
import os
import re
import socket
import sys
import threading
import time

sys.dont_write_bytecode = True
HERE = os.path.dirname(os.path.abspath(__file__))
sys.path.insert(0, os.path.join(HERE, "..", "python"))
from recorded import DoesNotWait, NotRecorded
from recorder import Recorder

TAG = re.compile(r"rec\.[0-9a-f]{12}\.[0-9]+\|")


def pymemcache_of(port, **more):
    import pymemcache
    return pymemcache.Client(("127.0.0.1", port), default_noreply=False, **more)


def pylibmc_of(port, **more):
    import pylibmc
    return pylibmc.Client([f"127.0.0.1:{port}"], behaviors={"cas": True, **more})


def redis_of(port, **more):
    import redis
    return redis.Redis("127.0.0.1", port, **more)


def recorded(name):
    """Returns what makes a client of this name, and the class of its recorded one."""
    if name == "pymemcache":
        from recorded_client import RecordedClient
        return pymemcache_of, RecordedClient
    if name == "pylibmc":
        from recorded_pylibmc import RecordedPylibmc
        return pylibmc_of, RecordedPylibmc
    from recorded_redis import RecordedRedis
    return redis_of, RecordedRedis


class Session:
    """A recorded client over a text, and what it should have written."""

    def __init__(self, name, port, **more):
        make, self.kind = recorded(name)
        self.out, self.client, self.seen = io.BytesIO(), make(port), 0
        self.recorder = Recorder(self.out)
        self.it = self.kind(self.recorder, self.client, "me", **more)

    def lines(self):
        """Returns the lines that were written since the last call, without names, tags and numbers; an END of - stays."""
        lines = [it for it in self.out.getvalue().decode().splitlines() if not it.startswith("#")]
        new, self.seen = lines[self.seen:], len(lines)
        return [" ".join(["-"] * (it.split()[2] == "-") + re.sub(TAG, "T|", it).split()[3:]) for it in new]

    def expect(self, call, answer, *lines):
        """Makes a call, whose answer and lines have to be these. A line's last word may be a star: any number."""
        found, new = call(self.it), self.lines()
        want = [re.escape(it).replace(r"\*", r"\d+") for it in lines]
        if found != answer or len(new) != len(want) or not all(map(re.fullmatch, want, new)):
            sys.exit(f"clients.py: {self.kind.__name__}: answered {found!r} and wrote {new}, where {answer!r} and {list(lines)} were expected")

    def refuse(self, call, error, words):
        """Makes a call that has to be refused, with no line."""
        try:
            found = call(self.it)
        except error as it:
            if words in str(it) and not self.lines():
                return
            sys.exit(f"clients.py: {self.kind.__name__}: {error.__name__} says {it}, where {words} was expected, or a line was written")
        sys.exit(f"clients.py: {self.kind.__name__}: answered {found!r}, where it should refuse: {words}")

    def end(self):
        """Ends the recording, which has to be whole."""
        if self.recorder.close():
            sys.exit(f"clients.py: {self.kind.__name__}: {self.recorder.lost} lines were lost")


def shared_session(it, not_stored, key=b"k"):
    """What both clients of memcached do."""
    it.expect(lambda c: c.get(key), None, "miss k")
    it.expect(lambda c: c.get(key, b"none"), b"none", "miss k")
    it.expect(lambda c: c.gets(key), (None, None), "miss k")
    it.expect(lambda c: c.replace(key, b"v"), not_stored)
    it.expect(lambda c: c.set(key, b"v"), True, "put k T|v")
    it.expect(lambda c: c.add(key, b"w"), not_stored)
    it.expect(lambda c: c.get(key), b"v", "hit k T|v *")
    number = it.it.gets(key)[1]
    it.expect(lambda c: c.cas(key, b"x", number), True, "hit k T|v *", "put k T|x")
    it.expect(lambda c: c.cas(key, b"y", number), False)
    it.expect(lambda c: c.replace(key, b""), True, "put k T|")
    it.expect(lambda c: c.get(key), b"", "hit k T| *")
    it.expect(lambda c: c.delete(key), True, "remove k")
    it.expect(lambda c: c.delete(key), False, "remove k")
    it.expect(lambda c: c.add(key, b"z" * 100), True, f"put k T|{hashed(b'z' * 100)}")
    it.expect(lambda c: c.get(key), b"z" * 100, f"hit k T|{hashed(b'z' * 100)} *")
    it.refuse(lambda c: c.append(key, b"v"), NotRecorded, "append: no line describes it; name its keys by left_out")
    it.refuse(lambda c: c.incr(key, 1), NotRecorded, "incr: no line")
    it.refuse(lambda c: c.touch(key, 5), NotRecorded, "touch: a put of this key has an EXPIRES")
    it.refuse(lambda c: c.get_multi([key]), NotRecorded, "get_multi: it is of several keys")
    it.refuse(lambda c: c.flush_all(), NotRecorded, "flush_all: it is of several keys")
    it.refuse(lambda c: c.nothing(), AttributeError, "nothing")


def hashed(data):
    """Returns what stands for a long value."""
    import hashlib
    return "sha256." + hashlib.sha256(data).hexdigest()[:32]


def refused(call, error):
    """Returns whether a call ends in this error."""
    try:
        call()
    except error:
        return True
    return False


def session_of_pymemcache(port):
    import pymemcache
    it = Session("pymemcache", port)
    it.client.flush_all()
    shared_session(it, False)
    it.expect(lambda c: c.set("k", "text", expire=3), True, "put k T|text *")
    it.expect(lambda c: c.get("k"), b"text", "hit k T|text *")
    it.expect(lambda c: c.cas("absent", b"v", 7), None)
    it.expect(lambda c: c.set("k", b"v", noreply=True), True, "- put k T|v")
    it.expect(lambda c: c.delete("k", noreply=True), True, "- remove k")
    it.refuse(lambda c: c.gat("k", 3), (NotRecorded, AttributeError), "gat")
    it.expect(lambda c: refused(lambda: c.set("k", b"v" * 2000000), pymemcache.exceptions.MemcacheServerError), True, f"- put k T|{hashed(b'v' * 2000000)}")
    it.expect(lambda c: isinstance(c.stats(), dict), True)
    it.end()
    it = Session("pymemcache", port, left_out=lambda key: key.startswith(b"count:"), touches=True)
    it.expect(lambda c: c.set("count:a", b"5"), True)
    it.expect(lambda c: c.incr("count:a", 2), 7)
    it.expect(lambda c: c.append("count:a", b"0"), True)
    it.expect(lambda c: c.get("count:a"), b"70")
    it.expect(lambda c: c.set("k", b"v", expire=1), True, "put k T|v")
    it.expect(lambda c: c.touch("k", 100), True)
    it.expect(lambda c: c.delete("count:a"), True)
    it.end()
    it = Session("pymemcache", port)
    it.it = it.kind(it.recorder, pymemcache_of(port, key_prefix=b"shop:"), "me")
    it.expect(lambda c: c.set("k", b"v"), True, "put shop:k T|v")
    it.it = it.kind(it.recorder, it.client, "me")
    it.expect(lambda c: c.get("shop:k"), b"v", "hit shop:k T|v *")
    hasher = pymemcache.HashClient([("127.0.0.1", port)], default_noreply=False)
    it.it = it.kind(it.recorder, hasher, "me")
    it.expect(lambda c: c.add("shop:k", b"w"), False, "- put shop:k T|w")  # a HashClient also says so of a server that it takes for dead
    it.expect(lambda c: c.gets("shop:k")[0], b"v", "hit shop:k T|v *")
    it.it = it.kind(it.recorder, pymemcache.PooledClient(("127.0.0.1", port), default_noreply=False), "me")
    it.expect(lambda c: c.replace("shop:k", b"w"), True, "put shop:k T|w")
    for hasty in (pymemcache.Client(("127.0.0.1", port)), pymemcache.HashClient([("127.0.0.1", port)]), pymemcache.PooledClient(("127.0.0.1", port))):
        it.refuse(lambda c: it.kind(it.recorder, hasty, "me"), DoesNotWait, "default_noreply=False")
    it.it = it.kind(it.recorder, pymemcache_of(port, serde=pymemcache.serde.pickle_serde), "me")
    it.expect(lambda c: c.set("k", "text"), True, "put k T|text")
    it.expect(lambda c: c.get("k"), "text", "hit k T|text *")
    it.end()


def session_of_pylibmc(port):
    import pylibmc
    it = Session("pylibmc", port)
    it.client.flush_all()
    shared_session(it, False, "k")
    it.expect(lambda c: c.set("k", "text", time=3), True, "put k T|text *")
    it.expect(lambda c: c.get("k"), "text", "hit k T|text *")
    it.expect(lambda c: c.set(b"k", b"v" * 5000, min_compress_len=100), True, f"put k T|{hashed(b'v' * 5000)}")
    it.expect(lambda c: c.get("k"), b"v" * 5000, f"hit k T|{hashed(b'v' * 5000)} *")
    for hasty in ("buffer_requests", "_noreply"):
        it.refuse(lambda c: it.kind(it.recorder, pylibmc_of(port, **{hasty: True}), "me"), DoesNotWait, f"without the behavior {hasty}")
    it.refuse(lambda c: c.cas("absent", b"v", 7), pylibmc.NotFound, "memcached_cas")
    it.it = it.kind(it.recorder, pylibmc_of(port, namespace=b"shop:"), "me", prefix=b"shop:")
    it.expect(lambda c: c.set("k", b"v"), True, "put shop:k T|v")
    it.it = it.kind(it.recorder, it.client, "me", left_out=lambda key: key.startswith(b"count:"), touches=True)
    it.expect(lambda c: c.get("shop:k"), b"v", "hit shop:k T|v *")
    it.expect(lambda c: c.set("count:a", "5"), True)
    it.expect(lambda c: c.incr("count:a", 2), 7)
    it.expect(lambda c: c.set("k", b"v", time=1), True, "put k T|v")
    it.expect(lambda c: c.touch("k", 100), True)
    it.end()


def session_of_redis(port):
    import datetime
    import redis
    it = Session("redis", port)
    it.client.flushall()
    it.expect(lambda c: c.get("k"), None, "miss k")
    it.expect(lambda c: c.set("k", "v", xx=True), None)
    it.expect(lambda c: c.set("k", "v"), True, "put k T|v")
    it.expect(lambda c: c.set("k", "w", nx=True), None)
    it.expect(lambda c: c.setnx("k", "w"), False)
    it.expect(lambda c: c.get(b"k"), b"v", "hit k T|v *")
    it.expect(lambda c: c.getex("k"), b"v", "hit k T|v *")
    it.expect(lambda c: c.getset("k", b"x"), b"v", "put k T|x", "hit k T|v *")
    it.expect(lambda c: c.set("k", 7, get=True), b"x", "put k T|7", "hit k T|x *")
    it.expect(lambda c: c.getdel("k"), b"7", "remove k", "hit k T|7 *")
    it.expect(lambda c: c.getdel("k"), None, "remove k", "miss k")
    it.expect(lambda c: c.set("k", b"v", ex=3), True, "put k T|v *")
    it.expect(lambda c: c.set("k", b"v", px=datetime.timedelta(seconds=3)), True, "put k T|v *")
    it.expect(lambda c: c.set("k", b"v", exat=2000000000), True, "put k T|v")
    it.expect(lambda c: c.setex("k", 3, b"v"), True, "put k T|v *")
    it.expect(lambda c: c.psetex("k", 3000, b"v"), True, "put k T|v *")
    it.expect(lambda c: c.setnx("l", 1.5), True, "put l T|1.5")
    it.expect(lambda c: c.delete("k"), 1, "remove k")
    it.expect(lambda c: c.unlink("k"), 0, "remove k")
    it.expect(lambda c: (c.ttl("l"), c.exists("l"), c.ping()), (-1, 1, True))
    it.expect(lambda c: refused(lambda: c.set("k", b"v", ex=-1), redis.ResponseError), True, "- put k T|v")
    it.refuse(lambda c: c.delete("k", "l"), NotRecorded, "delete of 2 keys: make a call for each key")
    it.refuse(lambda c: c.incr("l"), NotRecorded, "incr: no line describes it")
    it.refuse(lambda c: c.expire("l", 3), NotRecorded, "expire: a put of this key has an EXPIRES")
    it.refuse(lambda c: c.getex("l", ex=3), NotRecorded, "getex: a put")
    it.refuse(lambda c: c.set("l", b"v", keepttl=True), NotRecorded, "set with keepttl: a put")
    it.refuse(lambda c: c.set("l", b"v", get=True, nx=True), NotRecorded, "set with get and nx or xx")
    for name in ("pipeline", "mget", "eval", "execute_command", "rename", "flushall"):
        it.refuse(lambda c: getattr(c, name)("k"), NotRecorded, f"{name}: it is of several keys, or of no known one")
    it.refuse(lambda c: c.geoadd("k"), NotRecorded, "geoadd: it is not among the calls that are recorded")
    it.refuse(lambda c: it.kind(it.recorder, it.client.pipeline(), "me"), DoesNotWait, "a pipeline or an asyncio client")
    it.it = it.kind(it.recorder, redis_of(port, decode_responses=True), "me", left_out=lambda key: key.startswith(b"count:"), touches=True)
    it.expect(lambda c: c.set("k", "text", ex=5), True, "put k T|text")
    it.expect(lambda c: c.get("k"), "text", "hit k T|text *")
    it.expect(lambda c: (c.expire("k", 100), c.persist("k"), c.pexpire("k", 9000)), (True, True, True))
    it.expect(lambda c: c.getex("k", ex=9), "text", "hit k T|text *")
    it.expect(lambda c: c.set("k", "other", keepttl=True), True, "put k T|other")
    it.expect(lambda c: c.set("count:a", 5), True)
    it.expect(lambda c: c.incr("count:a"), 6)
    it.expect(lambda c: c.append("count:a", "0"), 2)
    it.expect(lambda c: c.get("count:a"), "60")
    it.end()


def work(name, recorder, port, seed):
    """Makes calls of every kind at few keys."""
    make, kind = recorded(name)
    client, chance = kind(recorder, make(port), "%s-%d" % (name, seed)), seed
    for number in range(600):
        chance = (chance * 6364136223846793005 + 1442695040888963407) % 2**64
        key, roll, value = "key%d" % ((chance >> 33) % 8), (chance >> 40) % 100, bytes([97 + number % 26]) * (number % 100)
        if roll < 55:
            client.get(key)
        elif roll < 65:
            client.set(key, value, **{"redis": {"ex": 1}, "pymemcache": {"expire": 1}, "pylibmc": {"time": 1}}[name])
        elif roll < 75:
            client.set(key, value)
        elif roll < 83:
            client.set(key, value, nx=True) if name == "redis" else client.add(key, value)
        elif roll < 91:
            swap(name, client, key, value)
        else:
            client.delete(key)


def swap(name, client, key, value):
    """Reads a value and puts another one."""
    if name == "redis":
        client.getset(key, value) if len(value) % 2 else client.getdel(key)
        return
    found, number = client.gets(key)
    if found is None:
        client.replace(key, value)
        return
    try:
        client.cas(key, value, number)
    except Exception as error:  # of pylibmc: the key is gone
        if type(error).__name__ != "NotFound":
            raise


def calls(name, port, out):
    """Records four threads into a file."""
    with open(out, "ab", buffering=0) as file, Recorder(file) as recorder:
        threads = [threading.Thread(target=work, args=(name, recorder, port, n)) for n in range(1, 5)]
        for thread in threads:
            thread.start()
        for thread in threads:
            thread.join()
    if recorder.lost:
        sys.exit(f"clients.py: {recorder.lost} lines were lost")


def answer_to(request):
    """Returns what a server of either kind answers to a set, a get or a deletion, or None if the request is not whole."""
    first = request.upper()
    if first.startswith(b"SET "):
        return b"STORED\r\n" if request.count(b"\r\n") > 1 else None
    for begins, answer in ((b"GET", b"END\r\n"), (b"DELETE ", b"DELETED\r\n"), (b"*2\r\n$3\r\nGET", b"$-1\r\n"), (b"*2\r\n$3\r\nDEL", b":1\r\n"), (b"*3\r\n$3\r\nSET", b"+OK\r\n")):
        if first.startswith(begins):
            return answer if request.endswith(b"\r\n") else None
    return b"ERROR\r\n"


def answer_late(peer, moments):
    """Answers each request of a connection a tenth of a second late, and notes when."""
    request = b""
    while data := peer.recv(4096):
        request += data
        answer = answer_to(request)
        if answer:
            request = b""
            time.sleep(0.1)
            moments.append(time.monotonic_ns())
            peer.sendall(answer)


def accept(server, moments):
    """Takes connections, each by a thread."""
    while True:
        peer, _ = server.accept()
        threading.Thread(target=answer_late, args=(peer, moments), daemon=True).start()


def slow(name, **behaviors):
    """Each call ends after its answer was sent, not before."""
    server, moments = socket.create_server(("127.0.0.1", 0)), []
    threading.Thread(target=accept, args=(server, moments), daemon=True).start()
    it = Session(name, server.getsockname()[1])
    it.it = it.kind(it.recorder, recorded(name)[0](server.getsockname()[1], **behaviors), "me")
    it.it.set("k", b"v")
    it.it.get("k")
    it.it.delete("k")
    ends = [int(line.split()[2]) for line in it.out.getvalue().decode().splitlines() if not line.startswith("#")]
    if len(ends) != 3 or not all(moment <= end for moment, end in zip(moments[-3:], ends)):
        sys.exit(f"clients.py: {name}: answers were sent at {moments}, and the calls ended at {ends}")


def main():
    what, name = sys.argv[1:3]
    try:
        __import__(name)
    except ImportError:
        sys.exit(77)  # it is skipped
    if what == "session":
        globals()[f"session_of_{name}"](int(sys.argv[3]))
    elif what == "calls":
        calls(name, int(sys.argv[3]), sys.argv[4])
    else:
        slow(name)
        if name == "pylibmc":
            slow(name, no_block=True)


if __name__ == "__main__":
    main()
