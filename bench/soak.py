#!/usr/bin/env python3
"""Loads the cache that serves for long, and shows that no hit is wrong and that memory does not grow.

Usage: soak.py PROGRAM FOLDER [--operations N] [--callers N] [--pause SECONDS] [--limit BYTES] [-- WORDS OF serve-load ..]

PROGRAM is kangaroo; FOLDER takes the files of the lanes. Values expire, gets lease, workers do the upkeep, and the objects of
the keys are more than four times what memory keeps. OPERATIONS is for all callers together.

With --pause the process is stopped and goes on again at random moments, for so many seconds; each rest and each run is of 0.01 to
3 seconds. With --limit the process may take no more than so many bytes of data (RLIMIT_DATA). What is printed: the report, the
pauses, and the least and the most memory after the first tenth of the samples. The status is 1 if a hit was wrong, or if a tier had
none; 3 if the program was refused memory; else 0.
"""
import argparse
import json
import os
import random
import resource
import signal
import subprocess
import sys
import time

TIERS = ["hits-memory", "hits-log", "hits-set"]
LOAD = ["--lanes", "4", "--sets", "4093", "--memory", "2048", "--segments", "16", "--segment-pages", "16"]
LOAD += ["--entries", "16384", "--keys", "40000", "--leases", "4093", "--ttl", "200000", "--value-bytes", "100"]


def resident(pid):
    """KiB that a process has in memory for itself: not the pages of files that it maps."""
    with open(f"/proc/{pid}/status", encoding="ascii") as it:
        found = [line.split()[1] for line in it if line.startswith("RssAnon:")]
    return int(found[0]) if found else 0


def pause(pid, end, tossed):
    """Stops the process and has it go on until the moment `end`; returns how often."""
    count = 0
    while time.monotonic() < end:
        os.kill(pid, signal.SIGSTOP)
        time.sleep(tossed.uniform(0.01, 3))
        os.kill(pid, signal.SIGCONT)
        time.sleep(tossed.uniform(0.01, 3))
        count += 1
    return count


def watch(child, pauses):
    """Samples the memory of a process until it ends. With pauses each sample comes after a minute of them at most."""
    samples, stops, end = [], 0, time.monotonic() + pauses
    tossed = random.Random(1)
    while child.poll() is None:
        samples.append(resident(child.pid))
        left = end - time.monotonic()
        if pauses and left > 0:
            stops += pause(child.pid, time.monotonic() + min(left, 60), tossed)
        else:
            time.sleep(0.5)
    return samples, stops


def main():
    words = sys.argv[1:]
    more = words[words.index("--") + 1 :] if "--" in words else []
    words = words[: words.index("--")] if "--" in words else words
    told = argparse.ArgumentParser()
    told.add_argument("program")
    told.add_argument("folder")
    told.add_argument("--operations", type=int, default=10_000_000)
    told.add_argument("--callers", type=int, default=4)
    told.add_argument("--pause", type=float, default=0)
    told.add_argument("--limit", type=int, default=0)
    given = told.parse_args(words)
    line = [given.program, "serve-load", "--json", "--device", given.folder, "--callers", str(given.callers)]
    line += ["--operations", str(given.operations // given.callers), *LOAD, *more]

    def bound():
        if given.limit:
            resource.setrlimit(resource.RLIMIT_DATA, (given.limit, given.limit))

    began = time.monotonic()
    child = subprocess.Popen(line, stdout=subprocess.PIPE, stderr=subprocess.PIPE, preexec_fn=bound)
    samples, stops = watch(child, given.pause)
    said, refused = child.communicate()
    taken = time.monotonic() - began
    print(f"{' '.join(line[1:])}\n{taken:.1f} s, status {child.returncode}, {stops} pauses")
    if refused:
        print(refused.decode(errors="replace").strip())
    if child.returncode not in (0, 1):
        return child.returncode
    report = json.loads(said)
    print(said.decode().strip())
    later = samples[len(samples) // 10 :] or samples
    print(f"memory of its own: {min(later)} to {max(later)} KiB in {len(later)} samples")
    lacks = [tier for tier in TIERS if not report.get(tier)]
    if lacks:
        print(f"no hit of {', '.join(lacks)}: this load does not reach all tiers")
    return 1 if child.returncode or lacks else 0


if __name__ == "__main__":
    sys.exit(main())
