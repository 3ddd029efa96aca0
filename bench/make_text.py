#!/usr/bin/env python3
"""make_text.py CALLS KEYS: writes a history of 16 callers as text that is accepted, its lines shuffled, for `kangaroo judge`.

Each call takes effect at a point of its own between its start and its end; calls of other callers overlap it."""
import random
import sys

CALLERS = 16


def lines(calls, keys):
    chance, table, free, now = random.Random(7), {}, [0] * CALLERS, 0
    for number in range(calls):
        caller = chance.randrange(CALLERS)
        now = max(now + chance.randrange(1, 20), free[caller] + 2)
        start = max(free[caller] + 1, now - chance.randrange(1, 200))
        free[caller] = end = now + chance.randrange(1, 200)
        front, key, kind = f"c{caller} {start} {end}", f"key{chance.randrange(keys)}", chance.random()
        if kind < 0.6:
            value = table.get(key)
            yield f"{front} miss {key}\n" if value is None else f"{front} hit {key} {value}\n"
        elif kind < 0.95:
            table[key] = f"value{number}"
            yield f"{front} put {key} {table[key]}\n"
        else:
            table.pop(key, None)
            yield f"{front} remove {key}\n"


if __name__ == "__main__":
    made = list(lines(int(sys.argv[1]), int(sys.argv[2])))
    random.Random(8).shuffle(made)
    sys.stdout.writelines(made)
