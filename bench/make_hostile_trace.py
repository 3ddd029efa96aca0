#!/usr/bin/env python3
"""Writes an accepted trace whose keys were picked to be slow to standard output.

usage: make_hostile_trace.py PUTS [plain]

PUTS puts of the empty value, each at a key of its own of 32 bytes, one after the other. All keys have one
and the same hash under the hasher whose seed is known (the toolchain's FoldHasher): it multiplies the
second eight bytes, xored with a constant, into its state, so eight bytes equal to that constant make the
state 0 whatever stood before. A map with that hasher looks through all keys at each put. With `plain` the
trace has the same size and the keys are not so.
"""
import struct
import sys

# the constant of FoldHasher
MULTIPLIER = 0x9E37_79B9_7F4A_7C15


def main():
    puts = int(sys.argv[1])
    plain = len(sys.argv) > 2 and sys.argv[2] == "plain"
    second = MULTIPLIER ^ 1 if plain else MULTIPLIER
    behind = struct.pack("<Q", second) + b"0123456789abcdef"
    out = sys.stdout.buffer
    out.write(b"KGTRACE1" + struct.pack(">I", puts))
    for i in range(puts):
        numbers = struct.pack(">HQQ", 0, 3 * i + 1, 3 * i + 3)
        key = struct.pack("<Q", i) + behind
        out.write(b"\x01" + numbers + bytes([len(key)]) + key + b"\x00\x00")
    for i in range(puts):
        out.write(struct.pack(">I", i))


main()
