#!/usr/bin/env python3
"""Writes a script of gets of held objects to standard output.

usage: make_gets.py GETS [OBJECTS]

A configuration with room for OBJECTS objects in memory (100 if not given), a put of each, and GETS gets of
them in a scattered order, each of which is a hit.
"""
import sys


def main():
    gets = int(sys.argv[1])
    objects = int(sys.argv[2]) if len(sys.argv) > 2 else 100
    out = sys.stdout
    out.write(f"config 1 1 {objects} 2 1 8 1 65536\n")
    for i in range(objects):
        out.write(f"put key{i} value{i} 0\n")
    for i in range(gets):
        out.write(f"get key{i * 7919 % objects}\n")


main()
