#!/usr/bin/env python3
"""Times builds of the program beside one another. No part of the gate.

usage: compare_programs.py OLD NEW [RUNS [WORD]]
       compare_programs.py --parts CALLERS LANES OPERATIONS RUNS PROGRAM...
       compare_programs.py --workers LANES OPERATIONS RUNS PROGRAM...

Each of the programs (`crates/bench_driver/out/bench_driver` of several trees) is run RUNS times, in turn, so that what the machine
does meanwhile meets all. Run it on an idle machine.

Without a first word in -- it is scripts, runs, loads and judging by two programs, RUNS times (5 if not given) after one that does
not count. A line has the load, the median seconds and the peak memory of both, and the ratio of the new one to the old one. With
WORD only the loads are run whose names have it.

--parts is the run of a load, OPERATIONS of all callers together. The least seconds are printed, and the most memory: of the whole
without a terminal, and of each part by the steps that the program tells at one: the calls, the end of the cache with the laying
out, the judging, and the writing. At a terminal the program looks each 50 milliseconds whether its callers have ended, so the
calls' part is too long by up to that.

--workers is the run of a load, OPERATIONS of each of four callers, with 1, 2, 4 and 8 workers. Of the run with the least seconds
there are the seconds, those of the processor, and the hits.
"""
import collections
import os
import pty
import statistics
import subprocess
import sys
import tempfile
import time

HERE = os.path.dirname(os.path.abspath(__file__))
# what ends the calls, the end of the cache, and the judging
STEPS = [b"laying the calls out", b"judging", b"writing the trace"]
Spent = collections.namedtuple("Spent", "seconds processor kib")


def made(folder, name, *words):
    """Returns the path of what a script of this folder writes."""
    path = f"{folder}/{name}"
    with open(path, "wb") as it:
        subprocess.run([sys.executable, f"{HERE}/{words[0]}", *words[1:]], stdout=it, check=True)
    return path


def run_of(folder, callers, lanes, operations, *more):
    """Returns the words of a run with so many operations of each caller."""
    return ["run", "--trace", f"{folder}/trace", "--callers", str(callers), "--lanes", str(lanes), "--operations", str(operations), *more]


def loads(folder):
    """Returns the loads: their names, the words of the program, and what it reads."""
    hundred = made(folder, "hundred", "make_gets.py", "1000000")
    many = made(folder, "many", "make_gets.py", "1000000", "200000")
    history = made(folder, "history", "make_text.py", "1000000", "1000")
    serve = ["serve-load", "--lanes", "4", "--operations", "1000000"]
    return [
        ("script, 1,000,000 gets of 100 objects", ["script"], hundred),
        ("script, 1,000,000 gets of 200,000 objects", ["script"], many),
        ("run, 1 caller, 400,000 operations", run_of(folder, 1, 4, 400000), os.devnull),
        ("run, 4 callers, 400,000 operations", run_of(folder, 4, 4, 100000), os.devnull),
        ("serve-load, 1 caller, 1,000,000 operations", [*serve, "--callers", "1"], os.devnull),
        ("serve-load, 4 callers, 4,000,000 operations", [*serve, "--callers", "4"], os.devnull),
        ("judge, 1,000,000 calls", ["judge", history], os.devnull),
    ]


def spent(program, words, read=os.devnull, write=os.devnull):
    """Returns what a run takes of seconds, of seconds of the processor and of memory. It has to end well."""
    start = time.perf_counter()
    with open(read, "rb") as it, open(write, "wb") as to:
        one = subprocess.Popen([program, *words], stdin=it, stdout=to, stderr=subprocess.DEVNULL)
        _, status, used = os.wait4(one.pid, 0)
    if status != 0:
        raise SystemExit(f"{program} {' '.join(words)}: status {os.waitstatus_to_exitcode(status)}")
    return Spent(time.perf_counter() - start, used.ru_utime + used.ru_stime, used.ru_maxrss)


def in_turn(programs, runs, measure):
    """Returns, for each program in the order given, what its runs measure."""
    found = [[] for _ in programs]
    for _ in range(runs):
        for program, its in zip(programs, found):
            its.append(measure(program))
    return found


def compare(folder, old, new, runs="5", word=""):
    """Prints a line for each load."""
    for name, words, read in [it for it in loads(folder) if word in it[0]]:
        both = in_turn((old, new), 1 + int(runs), lambda program: spent(program, words, read))
        was, now = (statistics.median(it.seconds for it in its[1:]) for its in both)
        had, has = (max(it.kib for it in its[1:]) for its in both)
        print(f"{name}: {was:.3f} s and {had / 1024:.0f} MiB, {now:.3f} s and {has / 1024:.0f} MiB,"
              f" ratio {now / was:.2f} and {has / had:.2f}", flush=True)


def parts(line):
    """Returns the seconds of each part of a run at a terminal."""
    start = time.perf_counter()
    pid, terminal = pty.fork()
    if pid == 0:
        os.execv(line[0], line)
    told, moments = b"", [start]
    while True:
        try:
            more = os.read(terminal, 4096)
        except OSError:
            more = b""
        if not more:
            break
        told += more
        while len(moments) <= len(STEPS) and STEPS[len(moments) - 1] in told:
            moments.append(time.perf_counter())
    _, status = os.waitpid(pid, 0)
    moments.append(time.perf_counter())
    if status != 0 or len(moments) < len(STEPS) + 2:
        raise SystemExit(f"{' '.join(line)}: status {os.waitstatus_to_exitcode(status)}, {len(moments) - 2} of {len(STEPS)} steps told")
    return [later - earlier for earlier, later in zip(moments, moments[1:])]


def compare_parts(folder, callers, lanes, operations, runs, *programs):
    """Prints a line for each program."""
    words = run_of(folder, callers, lanes, int(operations) // int(callers))
    wholes = in_turn(programs, int(runs), lambda program: spent(program, words))
    shares = in_turn(programs, int(runs), lambda program: parts([os.path.abspath(program), *words]))
    for program, whole, share in zip(programs, wholes, shares):
        least = [min(it) for it in zip(*share)]
        print(f"{callers} callers, {lanes} lanes, {program}: {min(it.seconds for it in whole):.2f} s,",
              f"{max(it.kib for it in whole) // 1024} MiB; calls, finish, judge, write:", " ".join(f"{it:.2f}" for it in least))


def compare_workers(folder, lanes, operations, runs, *programs):
    """Prints a line for each number of workers and program."""
    said = f"{folder}/said"

    def measure(program):
        took = spent(program, words, write=said)
        with open(said, encoding="utf-8") as it:
            return took, it.read().splitlines()[1]

    for workers in (1, 2, 4, 8):
        words = run_of(folder, 4, lanes, operations, "--workers", str(workers))
        for program, its in zip(programs, in_turn(programs, int(runs), measure)):
            took, hits = min(its)
            print(f"{workers} workers, {program}: {took.seconds:.2f} s, processor {took.processor:.2f} s, {hits}", flush=True)


# what the first word asks for, and the fewest and the most words after it
KINDS = {"--parts": (compare_parts, 5, 99), "--workers": (compare_workers, 4, 99)}


def main():
    """Compares."""
    kind, fewest, most = KINDS.get("".join(sys.argv[1:2]), (compare, 2, 4))
    words = sys.argv[1:] if kind is compare else sys.argv[2:]
    if not fewest <= len(words) <= most:
        raise SystemExit(__doc__)
    with tempfile.TemporaryDirectory() as folder:
        kind(folder, *words)


if __name__ == "__main__":
    main()
