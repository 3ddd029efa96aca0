#!/usr/bin/env python3
"""make_faults.py SHAPE LINES: writes a history as text that `kangaroo judge` rejects for very many faults, to measure what listing them takes.

SHAPE is one of
  wrong   half of the lines put one value at one key, one after the other; after a removal each other line hits it: each hit has
          all those puts, each replaced
  flag    a flag at one key is put in turn, on and off, and after each put the other value is read
  expired half of the lines put one value that expires; each other line hits it at a moment at which it had
  unread  half of the lines are puts of one value that overlap; one put of another value is read before and after them, and each
          other line hits the first value between: it can have read each of those puts, and would be crossed
"""
import sys


def wrong(count):
    for number in range(count // 2):
        yield f"p {10 + 2 * number} {11 + 2 * number} put k v\n"
    gone = 10 + count
    yield f"p {gone} {gone + 1} remove k\n"
    for number in range(count // 2 - 1):
        yield f"g {gone + 2 + 2 * number} {gone + 3 + 2 * number} hit k v\n"


def flag(count):
    for number in range(count // 2):
        put, other = ("on", "off") if number % 2 == 0 else ("off", "on")
        yield f"p {10 + 4 * number} {11 + 4 * number} put flag {put}\n"
        yield f"g {12 + 4 * number} {13 + 4 * number} hit flag {other}\n"


def expired(count):
    for number in range(count // 2):
        yield f"p {10 + 2 * number} {11 + 2 * number} put k v 5\n"
    for number in range(count // 2):
        yield f"g {10 + count + 2 * number} {11 + count + 2 * number} hit k v 5\n"


def unread(count):
    last = 10 * count
    yield f"o 0 {last} put k w\n"
    for number in range(count // 2 - 2):
        yield f"p{number % 60000} 0 {last} put k v\n"
    yield "r 1 2 hit k w\n"
    for number in range(count // 2 - 1):
        yield f"g {3 + 2 * number} {4 + 2 * number} hit k v\n"
    yield f"r {last - 2} {last - 1} hit k w\n"


if __name__ == "__main__":
    shapes = {"wrong": wrong, "flag": flag, "expired": expired, "unread": unread}
    if len(sys.argv) != 3 or sys.argv[1] not in shapes:
        sys.exit(__doc__)
    sys.stdout.writelines(shapes[sys.argv[1]](int(sys.argv[2])))
