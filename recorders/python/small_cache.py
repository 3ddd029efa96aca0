"""A small cache with threads, recorded: `python3 small_cache.py > calls.txt`, then `kangaroo judge calls.txt`.

With `--near` each thread keeps a copy of what it read last, and reads it again without asking the cache: a stale read."""
import random
import sys
import threading
import time
from recorder import Recorder


class Cache:
    """A table behind a lock."""
    def __init__(self):
        self.lock, self.table = threading.Lock(), {}

    def get(self, key):
        with self.lock:
            return self.table.get(key)

    def set(self, key, value):
        with self.lock:
            self.table[key] = value

    def delete(self, key):
        with self.lock:
            self.table.pop(key, None)


class Near:
    """Keeps a copy of the last value that was read, and forgets it only when its own thread writes that key."""
    def __init__(self, cache):
        self.cache, self.key, self.value = cache, None, None

    def get(self, key):
        if key != self.key:
            self.key, self.value = key, self.cache.get(key)
        return self.value

    def set(self, key, value):
        self.key = None if key == self.key else self.key
        self.cache.set(key, value)

    def delete(self, key):
        self.key = None if key == self.key else self.key
        self.cache.delete(key)


def work(recorder, cache, caller, seed):
    chance = random.Random(seed)
    for number in range(200):
        key, kind = b"key %d" % chance.randrange(4), chance.random()
        if kind < 0.7:
            with recorder.get(caller, key) as call:
                call.found = cache.get(key)
        elif kind < 0.95:
            with recorder.put(caller, key, b"%d" % number) as call:
                cache.set(key, call.stored)
        else:
            with recorder.remove(caller, key):
                cache.delete(key)
        time.sleep(0.0001)  # let the others have their turns


if __name__ == "__main__":
    cache = Cache()
    caches = [Near(cache) if "--near" in sys.argv[1:] else cache for _ in range(4)]
    with Recorder(sys.stdout.buffer) as recorder:
        threads = [threading.Thread(target=work, args=(recorder, it, "thread%d" % n, n)) for n, it in enumerate(caches)]
        for thread in threads:
            thread.start()
        for thread in threads:
            thread.join()
