#!/usr/bin/env python3
"""Writes a trace of a cache's calls in a published form to standard output. No part of the gate.

usage: make_cache_trace.py FORM LINES KEYS [SEED]

FORM is kvcache (CacheLib: key,op,size,op_count,key_size, with a first line of these names) or twitter (time,key,key size,
value size,client,operation,TTL). Of 100 calls 90 are gets, 8 are puts and 2 are removals, of KEYS keys by Zipf's law with
exponent 0.9; a key's values have one size, of 20 to 400 bytes. In the twitter form 1,000 calls are made in a second, and
each fourth put has a TTL of 60 seconds. The same words write the same bytes.
"""
import itertools
import random
import sys

ACTS = {"kvcache": ("GET", "SET", "DELETE"), "twitter": ("get", "set", "delete")}
BATCH = 10000


def drawn(lines, keys, chance):
    """Triples of a key's number, its size and the number of an act."""
    weights = list(itertools.accumulate(1 / rank**0.9 for rank in range(1, keys + 1)))
    numbers = list(range(keys))
    chance.shuffle(numbers)
    for key in chance.choices(numbers, cum_weights=weights, k=lines):
        share = chance.random()
        yield key, 20 + key * 7919 % 381, 0 if share < 0.9 else 1 if share < 0.98 else 2


def kvcache_lines(calls, chance):
    yield "key,op,size,op_count,key_size"
    for key, size, act in calls:
        times = 2 if act == 0 and chance.random() < 0.05 else 1
        yield f"{key},{ACTS['kvcache'][act]},{size},{times},{max(16 + key % 20, len(str(key)))}"


def twitter_lines(calls, chance):
    for place, (key, size, act) in enumerate(calls):
        word = f"key:{key:012x}"
        lifetime = 60 if act == 1 and chance.random() < 0.25 else 0
        yield f"{place // 1000},{word},{len(word)},{size if act != 2 else 0},{key % 16},{ACTS['twitter'][act]},{lifetime}"


def main():
    if len(sys.argv) not in (4, 5) or sys.argv[1] not in ACTS:
        sys.stderr.write(__doc__)
        return 2
    form, lines, keys = sys.argv[1], int(sys.argv[2]), int(sys.argv[3])
    chance = random.Random(int(sys.argv[4]) if len(sys.argv) == 5 else 1)
    written = (kvcache_lines if form == "kvcache" else twitter_lines)(drawn(lines, keys, chance), chance)
    while batch := list(itertools.islice(written, BATCH)):
        sys.stdout.write("\n".join(batch) + "\n")
    return 0


sys.exit(main())
