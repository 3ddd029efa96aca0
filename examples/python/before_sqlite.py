"""A cache before sqlite: reads fill by a lease, writes go to the database and then remove. Threads read meanwhile."""
import os
import random
import sqlite3
import tempfile
import threading

from kangaroo import Cache, Refused

ROWS, READS, WRITES, READERS = 500, 10000, 2000, 3


def connect(folder):
    database = sqlite3.connect(os.path.join(folder, "rows.db"), timeout=60, isolation_level=None)
    database.execute("pragma journal_mode=wal")
    database.execute("pragma synchronous=off")
    return database


class Rows:
    """The rows of a database with a cache before it, for one thread."""

    def __init__(self, folder, cache):
        self.database, self.cache, self.asked = connect(folder), cache, 0

    def read(self, key):
        self.asked += 1
        row = self.database.execute("select v from t where k = ?", (key,)).fetchone()
        return row and row[0]

    def get(self, key):
        return self.cache.get_or_fill(key, self.read)

    def put(self, key, value):
        self.database.execute("insert or replace into t values (?, ?)", (key, value))
        self.cache.remove(key)  # behind the commit


def read_rows(folder, cache, written, tally):
    """Reads rows at random; a value that is older than what was written before the read began is wrong."""
    rows, wrong = Rows(folder, cache), 0
    for _ in range(READS):
        number = random.randrange(ROWS)
        least = written[number]
        wrong += int(rows.get(b"row %d" % number) or 0) < least
    tally.append((rows.asked, wrong))


def main():
    with tempfile.TemporaryDirectory() as folder, Cache(folder, flash_bytes=2**24, memory_bytes=2**24) as cache:
        connect(folder).execute("create table t (k blob primary key, v blob)")
        written, tally, rows = [0] * ROWS, [], Rows(folder, cache)
        given = (folder, cache, written, tally)
        readers = [threading.Thread(target=read_rows, args=given) for _ in range(READERS)]
        for it in readers:
            it.start()
        for version in range(1, WRITES + 1):
            number = random.randrange(ROWS)
            rows.put(b"row %d" % number, b"%d" % version)
            written[number] = version
        for it in readers:
            it.join()
        try:
            Cache(folder)
        except Refused as refused:
            print("a second cache on the folder:", refused)
        asked, wrong = (sum(it) for it in zip(*tally))
        print(f"{WRITES} writes, {READERS * READS} reads: {asked} asked the database, {wrong} were wrong")
        return wrong != 0 or len(tally) != READERS


if __name__ == "__main__":
    raise SystemExit(main())
