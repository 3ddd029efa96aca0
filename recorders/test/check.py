"""Reads what a recorder wrote, by rules of its own, and exits with a message at the first thing that is wrong.

    check.py calls FILE ..          lines, stamps, tags, the last line; no hit is stale
    check.py table FILE ONE_OF      what `drive table` has to leave, word for word
    check.py full                   standard input is what a driver printed over /dev/full"""
import hashlib
import re
import sys
from urllib.parse import unquote_to_bytes

LINE = re.compile(r"[!-~]+ (\d+) (\d+|-) (?:(put) ([!-~]+) ([!-~]+)( \d+)?|(hit) ([!-~]+) ([!-~]+) (\d+)|(miss|remove) ([!-~]+))")
TAG = re.compile(r"(rec\.[0-9a-f]{12})\.[0-9]+\|")
TABLE_CALLS = 5


def need(holds, what):
    if not holds:
        sys.exit("check.py: " + what)


def read(name):
    """Returns a file's calls, as (start, end, act, key, value, time, line), after its first and last line were looked at."""
    text = open(name, "rb").read().decode("ascii")
    lines = text.split("\n")
    head = re.fullmatch(r"# recorder (rec\.[0-9a-f]{12}), 1 of \d+ keys", lines[0])
    need(head, f"{name}: the first line names no recorder")
    need(lines.pop() == "" and lines.pop() == f"# whole: {len(lines) - 1} calls", f"{name}: it is not whole")
    calls = []
    for number, line in enumerate(lines[1:], 2):
        it = LINE.fullmatch(line)
        need(it and len(line) <= 8192, f"{name}:{number}: no call: {line}")
        act = it[3] or it[7] or it[11]
        start, end = int(it[1]), None if it[2] == "-" else int(it[2])
        need(end is None and act in ("put", "remove") or end is not None and start <= end < 2**63, f"{name}:{number}: stamps")
        calls.append((start, end, act, it[4] or it[8] or it[12], it[5] or it[9], it[6] or it[10], line))
        need(act != "put" or TAG.match(it[5])[1] == head[1], f"{name}:{number}: a put without this recorder's tag")
    return calls


def check_calls(names):
    calls = [call for name in names for call in read(name)]
    puts = {(key, value): (start, end, time) for start, end, act, key, value, time, _ in calls if act == "put"}
    values = [value for _, _, act, _, value, _, _ in calls if act == "put"]
    need(len(values) == len(set(values)), "a value was put twice")
    need({"put", "hit", "miss", "remove"} == {it[2] for it in calls}, "a kind of call is missing")
    need(any(time for _, _, time in puts.values()), "no put has an expiry")
    writes = {}
    for start, end, act, key, *_ in calls:
        if act in ("put", "remove") and end is not None:
            writes.setdefault(key, []).append((start, end))
    for start, end, act, key, value, time, line in calls:
        if act == "hit":
            need((key, value) in puts, f"nobody put the value: {line}")
            began, ended, expires = puts[key, value]
            need(began <= end and (expires is None or int(time) < int(expires)), f"before its put or after its expiry: {line}")
            need(ended is None or not any(ended < s and e < start for s, e in writes[key]), f"stale: {line}")
    print(f"{len(calls)} calls are right by check.py")


def word(data):
    """Spells bytes as the recorders do."""
    special = {b"": "-", b"-": "%2D"}
    return special.get(data) or "".join(chr(b) if 33 <= b <= 126 and b not in b"%#" else f"%{b:02X}" for b in data)


def is_kept(key, one_of):
    number = 0xCBF29CE484222325
    for byte in key:
        number = ((number ^ byte) * 0x100000001B3) % 2**64
    return (number ^ number >> 32) % one_of == 0


def check_table(name, one_of):
    """Every byte as a key and in values, lengths of values to 299, and all calls of the kept keys."""
    pairs = [(bytes([b]), bytes([b]) * b) for b in range(256)] + [(b"key%d" % n, b"x" * n) for n in range(300)]
    kept = [(key, value) for key, value in pairs if is_kept(key, one_of)]
    calls = read(name)
    need(len(calls) == TABLE_CALLS * len(kept), f"{name}: {len(calls)} calls of {len(kept)} keys")
    for at, (key, value) in enumerate(kept):
        five = [re.sub(r"rec\.[0-9a-f]{12}\.[0-9]+\|", "TAG|", it[6]).split(" ") for it in calls[TABLE_CALLS * at:TABLE_CALLS * (at + 1)]]
        short = value if len(value) <= 64 else b"sha256." + hashlib.sha256(value).hexdigest()[:32].encode()
        spelled = "TAG|" + (word(short) if short not in (b"", b"-") else short.decode())
        wanted = [["a%20%23-%25", "miss", word(key)], ["%2D", "put", word(key), spelled], ["a%20%23-%25", "hit", word(key), spelled],
                  ["-", "remove", word(key)], ["late", "put", word(key), "TAG|"]]
        found = [[it[0], *it[3:]] for it in five]
        found[2].pop()  # the moment
        need(found == wanted, f"{name}: {found} and not {wanted}")
        need(five[4][2] == "-", f"{name}: a refused put has an end: {five[4]}")
        need(all(unquote_to_bytes(it[4]) == key for it in five), f"{name}: a key reads back otherwise: {five}")
    print(f"{len(calls)} lines of {len(kept)} keys are as docs/FORMATS.md has them")


if __name__ == "__main__":
    if sys.argv[1] == "calls":
        check_calls(sys.argv[2:])
    elif sys.argv[1] == "table":
        check_table(sys.argv[2], int(sys.argv[3]))
    else:
        said = sys.stdin.read()
        need(re.fullmatch(r"lost [1-9]\d*\n", said), f"over a full device the driver printed: {said}")
        print(f"{said.strip()} over a full device, and the service went on")
