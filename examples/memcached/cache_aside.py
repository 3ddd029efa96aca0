"""Loads memcached as a service does that looks each row up there first, records every call, and counts the stale hits.

    python3 cache_aside.py load OUT [--extstore FILE] [--seconds 45] [--callers 2] [--rows 30000] [--bytes 8000] [--seed 1]
    python3 cache_aside.py count FILE ..

`load` starts `memcached -m 64` on a free port of 127.0.0.1, with `-o ext_path=FILE:1G` if a file is named, and ends it afterwards. FILE is
written over, and stays. Each caller is a process with a connection and a recorder of its own; caller N writes OUT-N.txt. `count` needs no
judge: a hit is stale if a write of its key began after the put that it reads, and ended before the hit. Both print what they found."""
import argparse
import collections
import multiprocessing
import os
import random
import socket
import subprocess
import sys
import time

sys.dont_write_bytecode = True
sys.path.insert(0, os.path.join(os.path.dirname(os.path.abspath(__file__)), "..", "..", "recorders", "python"))
from recorded_client import RecordedClient
from recorder import Recorder

GETS, PUTS = 0.5, 0.4  # shares of the operations; the rest are removals
COUNTERS = ("version", "extstore_objects_written", "extstore_bytes_written", "extstore_compact_rescues", "get_extstore", "evictions")


class Client:
    """Has pymemcache's get, set and delete over one connection, and waits for each answer."""
    default_noreply = False

    def __init__(self, port):
        self.stream = socket.create_connection(("127.0.0.1", port)).makefile("rwb")

    def ask(self, request):
        self.stream.write(request)
        self.stream.flush()
        return self.stream.readline().split()

    def get(self, key):
        answer = self.ask(b"get %s\r\n" % key)
        if answer[:1] not in ([b"END"], [b"VALUE"]):
            raise ConnectionError(answer)
        return None if answer == [b"END"] else self.stream.read(int(answer[3]) + 7)[:-7]

    def set(self, key, value, expire=0, noreply=False):
        return self.ask(b"set %s 0 %d %d\r\n%s\r\n" % (key, expire, len(value), value)) == [b"STORED"]

    def delete(self, key, noreply=False):
        return self.ask(b"delete %s\r\n" % key) == [b"DELETED"]

    def stats(self):
        self.stream.write(b"stats\r\n")
        self.stream.flush()
        lines = iter(self.stream.readline, b"END\r\n")
        return dict(line.decode().split()[1:3] for line in lines)


def work(port, name, out, given):
    """One caller: gets a row and, if it is not there, puts it; or changes the row, which puts or removes it."""
    chance, filler = random.Random(f"{given.seed} {name}"), os.urandom(given.bytes)
    with open(out, "wb", buffering=0) as file, Recorder(file) as recorder:
        client, until = RecordedClient(recorder, Client(port), name), time.monotonic() + given.seconds
        while time.monotonic() < until:
            key, kind = b"row%d" % chance.randrange(given.rows), chance.random()
            if kind >= GETS + PUTS:
                client.delete(key)
            elif kind >= GETS or client.get(key) is None:
                client.set(key, filler)
    if recorder.lost:
        sys.exit(f"{out}: {recorder.lost} lines are missing")


def started(port, words):
    """Starts memcached, and returns its process after it takes connections."""
    user = ["-u", "nobody"] if os.getuid() == 0 else []
    server = subprocess.Popen(["memcached", "-l", "127.0.0.1", "-p", str(port), "-U", "0", *user, *words])
    for _ in range(100):
        try:
            socket.create_connection(("127.0.0.1", port)).close()
            return server
        except OSError:
            time.sleep(0.1)
    server.terminate()
    sys.exit("memcached did not start")


def load(given):
    """Runs the callers, and prints what the server counted."""
    with socket.socket() as it:
        it.bind(("127.0.0.1", 0))
        port = it.getsockname()[1]
    words = ["-m", "64"] + (["-o", f"ext_path={given.extstore}:1G"] if given.extstore else [])
    server = started(port, words)
    try:
        outs = [f"{given.out}-{n}.txt" for n in range(1, given.callers + 1)]
        callers = [multiprocessing.Process(target=work, args=(port, f"caller{n}", out, given)) for n, out in enumerate(outs, 1)]
        for caller in callers:
            caller.start()
        for caller in callers:
            caller.join()
        counted = Client(port).stats()
    finally:
        server.terminate()
        server.wait()
    print("memcached", *words, *(f"{name}={counted[name]}" for name in COUNTERS if name in counted), sep=" ")
    if any(caller.exitcode for caller in callers):
        sys.exit("a caller failed")
    return outs


def count(names):
    """Counts calls and hits, and the stale hits with the keys that they are of and how late they were."""
    acts, puts, writes, hits = collections.Counter(), {}, collections.defaultdict(list), []
    for name in names:
        for line in open(name, encoding="ascii"):
            if line.startswith("#"):
                continue
            _, start, end, act, key, *rest = line.split()
            acts[act] += 1
            if act == "put":
                puts[key, rest[0]] = float("inf") if end == "-" else int(end)
            elif act == "hit":
                hits.append((int(start), key, rest[0]))
            if act in ("put", "remove") and end != "-":
                writes[key].append((int(start), int(end)))
    late = []
    for start, key, value in hits:
        ended = puts.get((key, value), float("inf"))
        gone = min((end for begin, end in writes[key] if ended < begin and end < start), default=None)
        if gone is not None:
            late.append((start - gone, key))
    unknown = sum((key, value) not in puts for _, key, value in hits)
    print(f"{sum(acts.values())} calls ({', '.join(f'{number} {act}' for act, number in sorted(acts.items()))}), {unknown} hits that nobody put")
    far = f", from {min(late)[0] / 1e9:.3f} to {max(late)[0] / 1e9:.3f} s after the value was replaced or removed" if late else ""
    print(f"{len(late)} stale hits of {acts['hit']} hits, at {len({key for _, key in late})} keys{far}")


if __name__ == "__main__":
    parser = argparse.ArgumentParser()
    commands = parser.add_subparsers(dest="command", required=True)
    commands.add_parser("count").add_argument("files", nargs="+")
    loads = commands.add_parser("load")
    loads.add_argument("out")
    loads.add_argument("--extstore")
    for option, default in (("seconds", 45), ("callers", 2), ("rows", 30000), ("bytes", 8000), ("seed", 1)):
        loads.add_argument(f"--{option}", type=int, default=default)
    given = parser.parse_args()
    count(given.files if given.command == "count" else load(given))
