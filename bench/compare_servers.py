#!/usr/bin/env python3
"""compare_servers.py [--runs N] [--ms N] [--cells "CELL;.."] [--free] FOLDER NAME=PROGRAM..: builds of kangarood, or memcached, side by side.

Each cell is a load of bench/load_server.c, which is compiled first. In each of N runs (10) it is made on each server in turn, in an order that
changes from run to run. A row has the middle of the runs, with the least and the greatest, and the ratio of the middle to the first server's.
PROGRAM may have words, as "c/out/kangarood --pin-threads". The server is kept on the first half of the processors, and the load on the second half, each
with a thread a processor; with --free both go where the system has them go. FOLDER is in memory (tmpfs), and any user can reach it.
Figures need an idle machine."""
import argparse
import collections
import contextlib
import os
import shutil
import socket
import statistics
import subprocess
import sys
import time

HERE = os.path.dirname(os.path.abspath(__file__))
MEMORY, FLASH = {"keys": 100_000}, {"keys": 1_500_000}
CELLS = {
    "1 connection, 1 in flight": {**MEMORY, "connections": 1, "flight": 1},
    "1 connection, 16 in flight": {**MEMORY, "connections": 1, "flight": 16},
    "4 connections, 1 in flight": {**MEMORY, "connections": 4, "flight": 1},
    "4 connections, 16 in flight": {**MEMORY, "connections": 4, "flight": 16},
    "8 connections, 16 in flight": {**MEMORY, "connections": 8, "flight": 16},
    "gets of 100 keys, 4 connections": {**MEMORY, "connections": 4, "flight": 1, "of_get": 100},
    "1,000 connections": {**MEMORY, "connections": 1000, "flight": 1},
    "a connection for each get": {**MEMORY, "connections": 2, "flight": 1, "churn": 1},
    "a set among ten, 4 connections, 16 in flight": {**MEMORY, "connections": 4, "flight": 16, "sets": 10},
    "values of 1,000 bytes, 4 connections, 16 in flight": {"keys": 40_000, "bytes": 1000, "connections": 4, "flight": 16},
    "1,500,000 keys, 4 connections, 16 in flight": {**FLASH, "connections": 4, "flight": 16},
    "1,500,000 keys, gets of 100 keys": {**FLASH, "connections": 4, "flight": 1, "of_get": 100},
}


class Server:
    """A server in a folder of its own."""

    def __init__(self, name, program, words, processors):
        self.name, self.folder = name, os.path.join(words.folder, name)
        shutil.rmtree(self.folder, ignore_errors=True)
        os.makedirs(f"{self.folder}/cache")
        for path in (self.folder, f"{self.folder}/cache"):
            os.chmod(path, 0o777)
        self.path = f"{self.folder}/socket"
        files = [] if "memcached" in os.path.basename(program.split()[0]) else [f"--folder={self.folder}/cache", "--flash=1G", "--sparse"]
        user = ["-u", "nobody"] if os.geteuid() == 0 else []
        command = [*program.split(), *files, *user, "-t", str(len(processors)), "-c", "2000", "-m", "64", "-s", self.path, "-a", "0777"]
        self.process = subprocess.Popen(command, preexec_fn=lambda: os.sched_setaffinity(0, processors))
        self.wait()

    def wait(self):
        """Waits until it serves."""
        for _ in range(1000):
            with socket.socket(socket.AF_UNIX) as it, contextlib.suppress(OSError):
                it.connect(self.path)
                return
            time.sleep(0.02)
        raise SystemExit(f"{self.name} does not serve")

    def seconds(self):
        """The processor time that its threads have taken."""
        taken = 0
        for task in os.listdir(f"/proc/{self.process.pid}/task"):
            with contextlib.suppress(FileNotFoundError), open(f"/proc/{self.process.pid}/task/{task}/schedstat", encoding="ascii") as it:
                taken += int(it.read().split()[0])
        return taken / 1e9

    def stop(self):
        """Ends it."""
        self.process.terminate()
        self.process.wait()
        shutil.rmtree(self.folder, ignore_errors=True)


class Load:
    """The program that loads servers, and the processors it is kept on."""

    def __init__(self, words, processors):
        self.words, self.processors = words, processors
        self.program = os.path.join(words.folder, "load_server")
        subprocess.run([os.environ.get("CC", "cc"), "-std=c11", "-O2", "-pthread", f"{HERE}/load_server.c", "-o", self.program], check=True)

    def run(self, server, cell, **more):
        """Makes a load; returns requests, keys and microseconds of the server a second, the hit ratio, and p50 and p99."""
        threads = 1 if "ms" in more and more["ms"] == 0 else min(cell["connections"], len(self.processors))
        given = {**cell, **more, "threads": threads}
        if given.get("ms") == 0:
            given.update(connections=1, flight=16)
        if not self.words.free:
            given["cpu"] = min(self.processors)
        before = server.seconds()
        said = subprocess.run([self.program, server.path, *(f"{name}={value}" for name, value in given.items())], stdout=subprocess.PIPE,
                              check=True, encoding="ascii").stdout.split()
        seconds, requests, asked, hits, p50, p99, _ = map(float, said)
        return {"requests a second": requests / seconds, "hits": hits / asked if asked else 0, "p50, us": p50, "p99, us": p99,
                "server, us a request": 1e6 * (server.seconds() - before) / max(requests, 1)}


def fill(load, servers, cell):
    """Sets each key of a cell on each server, twice: so none is only in the pages of before."""
    for it in servers:
        for seed in (1, 2):
            load.run(it, {name: value for name, value in cell.items() if name in ("keys", "bytes")} | {"connections": 1}, ms=0, seed=seed)


def spell(values, name):
    """A cell of the table: the middle, the least and the greatest."""
    digits = {"hits": 3, "p50, us": 1, "server, us a request": 2}.get(name, 0)
    middle, least, greatest = (f"{it:,.{digits}f}" for it in (statistics.median(values), min(values), max(values)))
    return f"{middle} ({least} to {greatest})"


def measure(words, load, servers, name):
    """Makes the runs of a cell, and prints its rows."""
    runs = collections.defaultdict(list)
    fill(load, servers, CELLS[name])
    for number in range(words.runs):
        turn = number % len(servers)
        for it in [*servers[turn:], *servers[:turn]]:
            runs[it.name].append(load.run(it, CELLS[name], ms=words.ms, seed=number + 10))
    first = statistics.median(ran["requests a second"] for ran in runs[servers[0].name])
    for it in servers:
        of = runs[it.name]
        middle = statistics.median(ran["requests a second"] for ran in of)
        cells = [spell([ran[kind] for ran in of], kind) for kind in of[0]]
        print(f"| {name} | {it.name} | {middle / first:.2f} | {' | '.join(cells)} |", flush=True)


def main():
    """Runs the cells."""
    parser = argparse.ArgumentParser(description=__doc__, formatter_class=argparse.RawDescriptionHelpFormatter)
    parser.add_argument("--runs", type=int, default=10)
    parser.add_argument("--ms", type=int, default=2000)
    parser.add_argument("--cells", default="")
    parser.add_argument("--free", action="store_true")
    parser.add_argument("folder")
    parser.add_argument("servers", nargs="+")
    words = parser.parse_args()
    own = sorted(os.sched_getaffinity(0))
    half = len(own) // 2 or 1
    of_server, of_load = (own, own) if words.free else (own[:half], own[half:] or own)
    os.makedirs(words.folder, exist_ok=True)
    load, servers = Load(words, of_load), []
    try:
        servers.extend(Server(*it.split("=", 1), words, of_server) for it in words.servers)
        kinds = ("requests a second", "hits", "p50, us", "p99, us", "server, us a request")
        print(f"| load | server | ratio | {' | '.join(kinds)} |\n|{'---|' * (3 + len(kinds))}")
        for name in CELLS:
            if not words.cells or any(word in name for word in words.cells.split(";")):
                measure(words, load, servers, name)
    finally:
        for it in servers:
            it.stop()


if __name__ == "__main__":
    sys.exit(main())
