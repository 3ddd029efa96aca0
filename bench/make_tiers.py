#!/usr/bin/env python3
"""Writes a script whose calls are answered by one tier to standard output.

usage: make_tiers.py TIER OBJECTS CALLS

TIER is where OBJECTS objects are brought first, and what the CALLS calls behind that are:

memory  gets of objects in memory
buffer  gets of objects of the log whose segment is being filled; the other objects lie on the device
device  gets of objects of the log on the device
set     gets of objects in the sets
put     puts of those keys anew, each of which pushes a pair out of memory into the log, with the flush steps and
        moves that the log needs for it

With CALLS 0 the script ends where these calls would begin, so the difference of two runs is what they take.
"""
import sys

# records of a page, pages of a segment
RECORDS = 64
PAGES = 16


def flush_segment(out):
    """One step seals the segment, one writes each page."""
    out.write("flush\n" * (PAGES + 1))


def main():
    tier, objects, calls = sys.argv[1], int(sys.argv[2]), int(sys.argv[3])
    out = sys.stdout
    held = RECORDS * PAGES
    segments = max(2, min(256, objects // (held // 2) + 3))
    sets = max(1, objects // 16)
    memory = objects if tier == "memory" else 1
    out.write(f"config 1 {sets} {memory} {segments} {PAGES} {2 * objects + 2 * held} 1 65536\n")
    # the last bytes are alike: keys that differ in their last byte alone would often have one tag
    key = "{:06}key".format
    in_buffer = min(objects, held // 2)
    for i in range(objects):
        out.write(f"put {key(i)} value{i:06} 0\n")
        full = i % (held // 2) == held // 2 - 1
        if tier not in ("memory", "buffer") and full or tier == "buffer" and i == objects - in_buffer - 1:
            flush_segment(out)
        if tier == "buffer" and full and i < objects - in_buffer - 1:
            flush_segment(out)
    if tier != "memory":
        out.write("put last value 0\n")
    if tier in ("device", "set", "put"):
        flush_segment(out)
    if tier in ("set", "put"):
        out.write("move\n" * (sets + segments + 1))
    first = objects - in_buffer if tier == "buffer" else 0
    for i in range(calls):
        number = first + i * 7919 % (objects - first)
        if tier == "put":
            out.write(f"put {key(number)} value{i % 1000000:06} 0\n")
            if i % (held // 2) == held // 2 - 1:
                flush_segment(out)
                out.write("move\n" * (held // 2))
        else:
            out.write(f"get {key(number)}\n")


main()
