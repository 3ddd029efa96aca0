#!/usr/bin/env python3
"""measure_server.py PART FOLDER OUT: kangarood under loads of kangaroo-bench. The report of each run stays as JSON in the folder OUT, and
a table is printed.

PART    beside   kangarood, memcached with extstore, and memcached, at 64 MiB of memory and 1 GiB of flash: 1 and 4 connections with 1
                 and 16 requests in flight. The three in turn, each five times; some 12 minutes. plot.py draws the table server-bars.csv
        hits     the same three and the same stream, after 40 million calls: it needs no idle machine; some 5 minutes
        dips     one request at a time on four connections, in short runs after loads of puts: kangarood with and without a thread for
                 upkeep, and memcached, in turn; some 3 minutes
        threads  kangarood with 4, 16 and 32 threads, in turn, with all in memory; some 3 minutes
        waits    kangarood with 4 to 64 threads whose memory is limited to 256 MiB, over 1 GiB of flash; some 6 minutes. It needs the
                 rights of root
FOLDER  has room for 2 GiB, and any user can reach it. It is on a device for `waits`, and in memory (tmpfs) for the others.
The programs are those of `make -C c kangaroo-bench server`, and memcached on the PATH. Figures need an idle machine with four processors."""
import collections
import contextlib
import csv
import json
import os
import shutil
import socket
import subprocess
import sys
import time

HERE = os.path.dirname(os.path.abspath(__file__))
BENCH, KANGAROOD = (os.path.join(HERE, "..", "c", "out", name) for name in ("kangaroo-bench", "kangarood"))
SOME = {
    "kangarood": [KANGAROOD, "--folder={folder}/cache", "--flash=1G", "--sparse"],
    "kangarood without upkeep threads": [KANGAROOD, "--folder={folder}/cache", "--flash=1G", "--sparse", "--upkeep-threads=0"],
    "memcached with extstore": ["memcached", "-o", "ext_path={folder}/extstore:1G,ext_item_size=64"],
    "memcached": ["memcached"],
}
FILE = {"out": None, "folder": None}
LOADS = ((4, 16), (4, 1), (1, 16), (1, 1))  # connections, requests in flight
THREE = ("kangarood", "memcached with extstore", "memcached")
STREAM = ("--keys", "10M", "--distribution", "zipf:0.99", "--sizes", "fixed:100")


class Failed(Exception):
    """A server or a run that ended otherwise than it is to."""


class Server:
    """A server in a folder of its own, by words that memcached and kangarood both have."""

    def __init__(self, name, words, enter=None):
        self.name, self.folder = name, os.path.join(FILE["folder"], name.replace(" ", "-"))
        shutil.rmtree(self.folder, ignore_errors=True)
        os.makedirs(f"{self.folder}/cache")
        for path in (self.folder, f"{self.folder}/cache"):
            os.chmod(path, 0o777)
        self.path = f"{self.folder}/socket"
        user = ["-u", "nobody"] if os.geteuid() == 0 else []
        usual = [] if "-t" in words else ["-t", "4"]
        self.words = [it.format(folder=self.folder) for it in words]
        self.process = subprocess.Popen([*self.words, *user, *usual, "-c", "1000", "-m", "64", "-s", self.path, "-a", "0777"],
                                        preexec_fn=enter)
        self.wait()

    def wait(self):
        """Waits until it serves."""
        for _ in range(1000):
            with socket.socket(socket.AF_UNIX) as it, contextlib.suppress(OSError):
                it.connect(self.path)
                return
            if self.process.poll() is not None:
                break
            time.sleep(0.02)
        raise Failed(f"{self.name} does not serve")

    def run(self, name, connections, flight, *words):
        """Loads it, and returns what came of it."""
        print(f"{self.name}: {name}", file=sys.stderr, flush=True)
        command = [BENCH, "--memcached", self.path, "--server-process", str(self.process.pid), "--threads", str(connections),
                   "--pipeline", str(flight), "--json", *words]
        before = self.counts()
        with open(f"{FILE['out']}/{self.name.replace(' ', '-')}-{name}.json", "w+", encoding="utf-8") as out:
            driver = subprocess.Popen(command, stdout=out)
            _, status, use = os.wait4(driver.pid, 0)
            driver.returncode = status
            if status != 0:
                raise Failed(f"{' '.join(command)}: status {status}; the server's is {self.process.poll()}")
            out.seek(0)
            return Run(json.load(out), self.counts() - before, use.ru_nvcsw)

    def counts(self):
        """What the system counts of its threads: switches, moves to other processors, waits for pages, the time of upkeep, and what the
        host took of the machine's processors, in hundredths of a second."""
        counts = collections.Counter()
        tasks = f"/proc/{self.process.pid}/task"
        for task in os.listdir(tasks):
            status = dict(line.split(":", 1) for line in text_of(f"{tasks}/{task}/status").splitlines())
            counts["slept"] += int(status["voluntary_ctxt_switches"])
            counts["stopped"] += int(status["nonvoluntary_ctxt_switches"])
            if status["Name"].strip() == "kangaroo":
                counts["upkeep ns"] += int(text_of(f"{tasks}/{task}/schedstat").split()[0])
            for line in text_of(f"{tasks}/{task}/sched").splitlines():
                if line.startswith("se.nr_migrations"):
                    counts["moved"] += int(line.split(":")[1])
        counts["pages"] = int(text_of(f"/proc/{self.process.pid}/stat").rsplit(")", 1)[1].split()[9])
        counts["stolen"] = int(text_of("/proc/stat").split()[8])
        return counts

    def stop(self):
        """Ends it."""
        self.process.terminate()
        self.process.wait()
        shutil.rmtree(self.folder, ignore_errors=True)


def requests_of(part):
    """How many requests were made in a part of a run: a fill is one too."""
    return part["operations"] + part["fills"] + part["no_memory"]


class Run:
    """What came of a run. Its counts, and its number of requests, are those of the warm-up too."""

    def __init__(self, report, counts, driver_slept):
        it = report["measured"]
        self.hits, self.processor = it["hit_ratio"], it["server_processor_us_per_request"]
        self.written = it["write_amplification"] or 0
        self.rates = it["gets"] / it["seconds"], requests_of(it) / it["seconds"]
        latency = it["latency_ns"].get("get", {"p50": 0, "p99": 0, "p99.9": 0})
        self.p50, self.p99, self.p999 = (latency[name] / 1000 for name in ("p50", "p99", "p99.9"))
        self.requests, self.counts, self.driver_slept = requests_of(report["all"]), counts, driver_slept


def text_of(path):
    """What a file has; nothing if it is not there any more, or the system has no such."""
    try:
        with open(path, encoding="ascii") as it:
            return it.read()
    except OSError:
        return ""


@contextlib.contextmanager
def servers(words_of, **how):
    """Servers by name, which are ended."""
    started = {}
    try:
        for name, words in words_of.items():
            started[name] = Server(name, words, **how)
        yield started
    finally:
        for it in started.values():
            it.stop()


def span(numbers, decimals=0):
    """The least and the greatest of some numbers."""
    texts = [f"{it:,.{decimals}f}" for it in (min(numbers), max(numbers))]
    return texts[0] if texts[0] == texts[1] else " to ".join(texts)


def row(*cells):
    """A line of a table."""
    print("| " + " | ".join(str(it) for it in cells) + " |")


def head(*cells):
    """The first lines of a table."""
    row(*cells)
    print("|" + "---|" * len(cells))


# ------------------------------------------------------------------------------------------------------------------- beside

def beside():
    """The three servers, each fresh, and kept from load to load."""
    runs = collections.defaultdict(list)
    for again in range(1, 6):
        for name in THREE:
            with servers({name: SOME[name]}) as it:
                for seed, (connections, flight) in enumerate(LOADS, 1):
                    more = ("--warmup", "10M", "--operations", "4M") if seed == 1 else ("--keep", "--seed", str(seed), "--seconds", "6")
                    ran = it[name].run(f"{connections}-{flight}-{again}", connections, flight, *STREAM, *more)
                    runs[name, connections, flight].append(ran)
    head("connections, in flight", "", "hits", "gets a second", "requests a second", "p50, us", "p99, us", "CPU, us a request")
    write_bars(runs)
    for connections, flight in LOADS:
        for name in THREE:
            of = runs[name, connections, flight]
            row(f"{connections}, {flight}", name, span([it.hits for it in of], 3), span([it.rates[0] for it in of]),
                span([it.rates[1] for it in of]), span([it.p50 for it in of], 1), span([it.p99 for it in of]),
                span([it.processor for it in of], 2))


def write_bars(runs):
    """Writes the table of which plot.py draws bars."""
    with open(f"{FILE['out']}/server-bars.csv", "w", newline="", encoding="utf-8") as file:
        table = csv.writer(file, lineterminator="\n")
        ends = ("lowest", "highest")
        table.writerow(["connections", "in_flight", "server", *(f"{it}_{end}" for it in ("hit_ratio", "gets_per_second", "p99_us") for end in ends)])
        for (name, connections, flight), of in sorted(runs.items(), key=lambda it: (LOADS.index(it[0][1:]), THREE.index(it[0][0]))):
            values = [[it.hits for it in of], [it.rates[0] for it in of], [it.p99 for it in of]]
            table.writerow([connections, flight, name, *(f"{end(it):.6g}" for it in values for end in (min, max))])


def hits():
    """What each keeps of the stream."""
    head("", "hits", "bytes written to flash for each stored")
    for name in THREE:
        with servers({name: SOME[name]}) as it:
            ran = it[name].run("hits", 4, 16, *STREAM, "--warmup", "40M", "--operations", "10M")
            row(name, f"{ran.hits:.3f}", f"{ran.written:.1f}")


# --------------------------------------------------------------------------------------------------------------------- dips

def dips():
    """Gets one at a time, right after puts, and again: of keys that memory has room for, and of more."""
    names = ("kangarood", "kangarood without upkeep threads", "memcached")
    runs = collections.defaultdict(list)
    with servers({name: SOME[name] for name in names}) as it:
        for keys in ("200K", "1M"):
            load = ("--keys", keys, "--distribution", "uniform", "--sizes", "fixed:100", "--pattern", "plain", "--keep")
            for number in range(8):
                for name in names:
                    it[name].run("puts", 4, 16, *load, "--mix", "0:100:0", "--operations", "300K", "--seed", str(number + 1))
                    for when in ("after puts", "again"):
                        ran = it[name].run(f"gets-{keys}-{when.replace(' ', '-')}-{number}", 4, 1, *load, "--mix", "100:0:0", "--seconds",
                                           "1", "--seed", str(number + 100))
                        runs[keys, name, when].append(ran)
    head("keys", "", "gets", "p50 of each run, us", "p99, us", "a request: slept", "stopped", "moved", "slept of the driver",
         "upkeep, ms a run", "taken by the host, ms a run")
    for (keys, name, when), of in runs.items():
        shares = [[ran.counts[kind] / ran.requests for ran in of] for kind in ("slept", "stopped", "moved")]
        row(keys, name, when, " ".join(f"{ran.p50:.1f}" for ran in sorted(of, key=lambda ran: ran.p50)), span([ran.p99 for ran in of]),
            *(span(share, 3) for share in shares), span([ran.driver_slept / ran.requests for ran in of], 2),
            span([ran.counts["upkeep ns"] / 1e6 for ran in of], 1), span([10 * ran.counts["stolen"] for ran in of]))


# ---------------------------------------------------------------------------------------------------------- threads, waits

def with_threads(count):
    """The words of kangarood with so many threads."""
    return [*SOME["kangarood"], "-t", str(count)]


def threads():
    """More threads, where no thread waits for a device."""
    load = (*STREAM, "--keep")
    loads = ((4, 16), (4, 1), (64, 1))
    runs = collections.defaultdict(list)
    with servers({f"kangarood -t {count}": with_threads(count) for count in (4, 16, 32)}) as started:
        for it in started.values():
            it.run("fill", 4, 16, *load, "--operations", "8M")
        for again in range(4):
            for connections, flight in loads:
                for name, it in started.items():
                    ran = it.run(f"{connections}-{flight}-{again}", connections, flight, *load, "--seconds", "3", "--seed", str(again + 2))
                    runs[connections, flight, name].append(ran)
    head("connections, in flight", "", "requests a second", "middle of them", "p50, us", "p99, us", "processor, us a request")
    for (connections, flight, name), of in runs.items():
        rates = sorted(it.rates[1] for it in of)
        row(f"{connections}, {flight}", name, span(rates), f"{(rates[1] + rates[2]) / 2:,.0f}", span([it.p50 for it in of], 1),
            span([it.p99 for it in of]), span([it.processor for it in of], 2))


class Group:
    """A group of processes whose memory is limited: by the first version of the system's groups if they are there, else the second."""

    def __init__(self):
        first = "/sys/fs/cgroup/memory"
        is_first = os.path.isdir(first)
        self.path = f"{first if is_first else '/sys/fs/cgroup'}/kangaroo-{os.getpid()}"
        self.file, self.none = (f"{self.path}/memory.limit_in_bytes", "-1") if is_first else (f"{self.path}/memory.max", "max")
        os.mkdir(self.path)

    def enter(self):
        """Has the process that calls be of the group."""
        with open(f"{self.path}/cgroup.procs", "w", encoding="ascii") as it:
            it.write(str(os.getpid()))

    def limit(self, mib):
        """Sets the limit, once the system has let enough pages go; None: no limit."""
        for _ in range(100):
            subprocess.run(["sync"], check=True)
            try:
                with open(self.file, "w", encoding="ascii") as it:
                    it.write(self.none if mib is None else str(mib << 20))
                return
            except OSError:
                time.sleep(0.1)
        raise Failed(f"{self.file}: the system does not take {mib} MiB")

    def remove(self):
        """Removes it. Nobody is in it any more."""
        os.rmdir(self.path)


def cells_of(ran):
    """What a row says of a run in which threads wait."""
    return (f"{ran.hits:.3f}", *(f"{it:,.0f}" for it in (*ran.rates, ran.p50, ran.p99, ran.p999)), f"{ran.counts['pages'] / ran.requests:.2f}")


def waits():
    """Threads that wait for the device."""
    load = ("--keys", "8M", "--sizes", "fixed:100", "--keep")
    rows, group = [], Group()
    for count in (4, 8, 16, 32, 64):
        group.limit(None)
        with servers({f"kangarood -t {count}": with_threads(count)}, enter=group.enter) as started:
            it = started[f"kangarood -t {count}"]
            it.run("fill", 4, 16, *load, "--pattern", "plain", "--mix", "0:100:0", "--distribution", "uniform", "--operations", "8M")
            group.limit(256)
            for connections in sorted({count, 64}):
                words = (*load, "--distribution", "zipf:0.9", "--warmup", "3s", "--seconds", "8")
                try:
                    rows.append((f"-t {count}", connections, *cells_of(it.run(f"waits-{connections}", connections, 1, *words))))
                except Failed as cause:
                    rows.append((f"-t {count}", connections, cause))
                    break
    group.remove()
    head("", "connections", "hits", "gets a second", "requests a second", "p50, us", "p99, us", "p99.9, us", "waits a request")
    for it in rows:
        row(*it)


def main():
    """Runs a part."""
    parts = {"beside": beside, "hits": hits, "dips": dips, "threads": threads, "waits": waits}
    if len(sys.argv) != 4 or sys.argv[1] not in parts:
        sys.stderr.write(f"{__doc__}\n")
        sys.exit(2)
    FILE["folder"], FILE["out"] = (os.path.abspath(it) for it in sys.argv[2:])
    os.makedirs(FILE["folder"], exist_ok=True)
    os.makedirs(FILE["out"], exist_ok=True)
    try:
        parts[sys.argv[1]]()
    except Failed as cause:
        sys.exit(f"measure_server.py: {cause}")


if __name__ == "__main__":
    main()
