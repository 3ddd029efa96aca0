#!/usr/bin/env python3
"""Writes a large accepted trace to standard output.

usage: make_trace.py [--timeless] CALLS [KEYS [LENGTH]]

One caller makes CALLS calls of KEYS keys (1000 if not given), of which each second is a put of 100 bytes
and each other a get of some key: a hit of what was put last, or a miss where nothing was. With LENGTH each
key has so many bytes, else as few as its number takes. Call number i starts at 3i + 1 and ends at 3i + 3,
and the certificate is 0, 1, 2 and so on, so the checker accepts it. Each put expires at 2 CALLS and call number i is made at
moment i; with --timeless the trace is of the older form, which says no times.
"""
import struct
import sys


def main():
    timeless = sys.argv[1:2] == ["--timeless"]
    given = [int(word) for word in sys.argv[1 + timeless:]]
    calls, keys, length = (given + [1000, 0][len(given) - 1:])[:3]
    out = sys.stdout.buffer
    out.write((b"KGTRACE1" if timeless else b"KGTRACE2") + struct.pack(">I", calls))
    latest = {}
    for i in range(calls):
        step = 7919 if i % 2 == 0 else 104729
        key = (b"k%d" % (i // 2 * step % keys)).ljust(length, b"k")
        numbers = struct.pack(">HQQ", 0, 3 * i + 1, 3 * i + 3)
        named = bytes([len(key)]) + key
        if i % 2 == 0:
            value = (b"%d," % i * 60)[:100]
            latest[key] = value
            time = b"" if timeless else struct.pack(">Q", 2 * calls)
            out.write(b"\x01" + numbers + named + struct.pack(">H", 100) + value + time)
        elif key in latest:
            time = b"" if timeless else struct.pack(">Q", i)
            out.write(b"\x03" + numbers + named + struct.pack(">H", 100) + latest[key] + time)
        else:
            out.write(b"\x04" + numbers + named)
    for i in range(calls):
        out.write(struct.pack(">I", i))


main()
