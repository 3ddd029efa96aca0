"""Drives the Python recorder: `drive.py calls PORT OUT` over memcached, `drive.py table OUT ONE_OF` over a table. test/run says what."""
import os
import sys
import threading

sys.dont_write_bytecode = True
ROOT = os.path.join(os.path.dirname(os.path.abspath(__file__)), "..", "..")
sys.path[:0] = [os.path.join(ROOT, "recorders", "python"), os.path.join(ROOT, "examples", "memcached")]
from cache_aside import Client
from recorded_client import DoesNotWait, RecordedClient
from recorder import Recorder


def work(recorder, port, seed):
    chance, client = seed, RecordedClient(recorder, Client(port), "python-%d" % seed)
    for number in range(600):
        chance = (chance * 6364136223846793005 + 1442695040888963407) % 2**64
        key, kind = b"key%d" % ((chance >> 33) % 8), (chance >> 40) % 100
        if kind < 60:
            client.get(key)
        elif kind < 92:
            client.set(key, bytes([ord("a") + number % 26]) * (number % 100), expire=int(kind < 70))
        else:
            client.delete(key)


def table(recorder):
    for key, value in [(bytes([b]), bytes([b]) * b) for b in range(256)] + [(b"key%d" % n, b"x" * n) for n in range(300)]:
        with recorder.get("a #-%", key) as call:
            call.found = None
        with recorder.put("-", key, value) as call:
            stored = call.stored
        with recorder.get("a #-%", key) as call:
            call.found = stored
        assert call.value == value
        with recorder.remove("", key):
            pass
        try:
            with recorder.put("late", key, b"", 10**9):
                raise ConnectionError
        except ConnectionError:
            pass
        with recorder.get("none", key):
            pass  # no answer, no line


class Hasty(Client):
    def __init__(self):
        self.default_noreply = True


def main():
    is_table = sys.argv[1] == "table"
    with open(sys.argv[2 if is_table else 3], "ab", buffering=0) as out, Recorder(out, int(sys.argv[3]) if is_table else 1) as recorder:
        threads = [threading.Thread(target=work, args=(recorder, int(sys.argv[2]), n)) for n in range(1, 5) if not is_table]
        for thread in threads:
            thread.start()
        if is_table:
            table(recorder)
        for thread in threads:
            thread.join()
        try:
            sys.exit("a client that does not wait was taken: %s" % RecordedClient(recorder, Hasty(), "hasty"))
        except DoesNotWait:
            pass
    lost = recorder.lost
    with recorder.remove("after", b"key0"):  # leaves no line
        pass
    assert recorder.close() == lost
    print("lost %d" % lost)


if __name__ == "__main__":
    main()
