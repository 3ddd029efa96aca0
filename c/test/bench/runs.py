#!/usr/bin/env python3
"""Runs kangaroo-bench and rivals as their users do, and holds what they print against what must be so.

usage: runs.py FOLDER       FOLDER has kangaroo-bench, kangaroo-bench-lies and rivals; QUICK makes the traces short
"""
import csv
import json
import os
import re
import shutil
import socket
import subprocess
import sys
import tempfile
import time

HERE = os.path.dirname(os.path.abspath(__file__))
ROOT = os.path.dirname(os.path.dirname(os.path.dirname(HERE)))
QUICK = os.environ.get("QUICK", "0") not in ("", "0")
SMALL = ["--flash", "16M", "--memory", "2M", "--sparse"]


class Failed(Exception):
    pass


def expect(is_so, what):
    if not is_so:
        raise Failed(what)


def show(text):
    print("  " + text, flush=True)


class Bench:
    """The programs, and a folder that is removed at the end."""

    def __init__(self, programs, folder):
        self.programs, self.folder = programs, folder
        self.cache = os.path.join(folder, "cache")
        os.mkdir(self.cache)

    def run(self, program, *words, given=None):
        return subprocess.run([os.path.join(self.programs, program), *words], input=given, capture_output=True, text=True, timeout=600)

    def path(self, name):
        return os.path.join(self.folder, name)

    def read(self, program, *words, given=None):
        """The report of a run that must be right."""
        done = self.run(program, *words, "--json", given=given)
        expect(done.returncode == 0, f"{' '.join(words)}: status {done.returncode}, {done.stderr.strip()}")
        return json.loads(done.stdout)

    def read_cache(self, *words, given=None):
        return self.read("kangaroo-bench", "--folder", self.cache, *SMALL, *words, given=given)

    def refused(self, status, said, program, *words, given=None):
        """A run that must end with a status, nothing on standard output, and one line that says so."""
        done = self.run(program, *words, given=given)
        text = " ".join(words)
        expect(done.returncode == status, f"{text}: status {done.returncode}, and not {status}: {done.stderr.strip()}")
        expect(said in done.stderr, f"{text}: {done.stderr.strip()!r} does not say {said!r}")
        expect(done.stdout == "", f"{text}: printed a report")
        expect(done.stderr.startswith(program.removesuffix("-lies") + ": "), f"{text}: the line does not begin with the program's name")


# ------------------------------------------------------------------------------------------------------------ refusals

LIMIT = ["--operations", "10"]
DRIVER_REFUSALS = [
    ([], "nothing ends the run"),
    (LIMIT, "--folder is missing"),
    (["--folder", "F"], "nothing ends the run"),
    (["--folder"], "--folder has no value"),
    (["--folder", "F", *LIMIT, "--folder", "F"], "--folder is given twice"),
    (["--folder", "F", *LIMIT, "--kyes", "5"], "--kyes is no option: --help names all"),
    (["--folder", "F", *LIMIT, "more"], "more is no option"),
    (["--folder", "F", *LIMIT, "--json=1"], "--json takes no value"),
    (["--folder", "F", *LIMIT, "--seconds", "1"], "--seconds and --operations are both given"),
    (["--folder", "F", "--operations", "0"], "--operations 0 is wrong"),
    (["--folder", "F", *LIMIT, "--keys", "1"], "--keys 1 is wrong"),
    (["--folder", "F", *LIMIT, "--keys", "1k"], "--keys 1k is wrong"),
    (["--folder", "F", *LIMIT, "--distribution", "zipf:1"], "--distribution zipf:1 is wrong"),
    (["--folder", "F", *LIMIT, "--distribution", "hot:0.1"], "--distribution hot:0.1 is wrong"),
    (["--folder", "F", *LIMIT, "--distribution", "pareto"], "--distribution pareto is wrong"),
    (["--folder", "F", *LIMIT, "--sizes", "fixed:2049"], "--sizes fixed:2049 is wrong"),
    (["--folder", "F", *LIMIT, "--sizes", "uniform:9:8"], "--sizes uniform:9:8 is wrong"),
    (["--folder", "F", *LIMIT, "--sizes", "lognormal:100:0"], "--sizes lognormal:100:0 is wrong"),
    (["--folder", "F", *LIMIT, "--key-bytes", "15"], "--key-bytes 15 is wrong"),
    (["--folder", "F", *LIMIT, "--pattern", "aside"], "--pattern aside is wrong"),
    (["--folder", "F", *LIMIT, "--mix", "90:9:2"], "--mix 90:9:2 is wrong"),
    (["--folder", "F", *LIMIT, "--mix", "90:9:1"], "--mix has puts, and a look-aside load has none"),
    (["--folder", "F", *LIMIT, "--threads", "0"], "--threads 0 is wrong"),
    (["--folder", "F", *LIMIT, "--threads", "257"], "--threads 257 is wrong"),
    (["--folder", "F", *LIMIT, "--warmup", "5m"], "--warmup 5m is wrong"),
    (["--folder", "F", *LIMIT, "--rate", "-1"], "--rate -1 is wrong"),
    (["--folder", "F", *LIMIT, "--expiry", "0"], "--expiry 0 is wrong"),
    (["--folder", "F", *LIMIT, "--admit", "101"], "--admit 101 is wrong"),
    (["--folder", "F", *LIMIT, "--threshold", "33"], "--threshold 33 is wrong"),
    (["--folder", "F", *LIMIT, "--flash", "1Q"], "--flash 1Q is wrong"),
    (["--folder", "F", *LIMIT, "--flash", "64G", "--memory", "1M"], "--memory does not fit the other options"),
    (["--folder", "F", *LIMIT, "--lanes", "4"], "does not fit the other options"),
    (["--folder", "F", *LIMIT, "--lanes", "4", "--flash", "1G"], "--flash means nothing beside --lanes"),
    (["--folder", "F", *LIMIT, "--pipeline", "4"], "--pipeline means nothing without --memcached"),
    (["--folder", "F", "--memcached", "127.0.0.1:1", *LIMIT], "--folder means nothing beside --memcached"),
    (["--memcached", "127.0.0.1:1", *LIMIT, "--memory", "1G"], "--memory means nothing beside --memcached"),
    (["--memcached", "127.0.0.1:1", *LIMIT, "--sets", "9"], "--sets means nothing beside --memcached"),
    (["--memcached", "localhost", *LIMIT], "--memcached localhost is wrong: HOST:PORT is wanted"),
    (["--memcached", "127.0.0.1:1", *LIMIT, "--pipeline", "257"], "--pipeline 257 is wrong"),
    (["--folder", "F", "--replay", "T", "--keys", "5"], "--keys means nothing beside --replay"),
    (["--folder", "F", "--replay", "T", "--mix", "100:0:0"], "--mix means nothing beside --replay"),
    (["--folder", "F", "--replay", "no-such-file"], "--replay no-such-file: No such file"),
    (["calls"], "--folder is missing"),
    (["calls", "--folder", "F", "--operations", "999"], "--operations is below 1,000"),
    (["calls", "--folder", "F", "--flash", "1G"], "--flash is no option"),
    (["memory"], "--folder is missing"),
    (["memory", "--folder", "F", *LIMIT], "--operations is no option"),
    (["memory", "--folder", "F", "--lanes", "4"], "does not fit the other options"),
]
RIVALS_REFUSALS = [
    ([], "nothing ends the run"),
    ([*LIMIT, "--threads", "2"], "--threads is no option"),
    ([*LIMIT, "--warmup", "5s"], "--warmup in seconds means nothing here"),
    ([*LIMIT, "--index-bits", "0"], "--index-bits 0 is wrong"),
    ([*LIMIT, "--flash", "64G", "--memory", "1M"], "--memory is too small"),
    (["--replay", "-"], "--replay - means nothing here"),
]


def test_refusals(bench):
    for words, said in DRIVER_REFUSALS:
        bench.refused(2, said, "kangaroo-bench", *words)
    for words, said in RIVALS_REFUSALS:
        bench.refused(2, said, "rivals", *words)
    bench.refused(3, "no cache in", "kangaroo-bench", "--folder", bench.path("none"), *SMALL, *LIMIT)
    bench.refused(3, "no connection to", "kangaroo-bench", "--memcached", bench.path("none"), *LIMIT)
    for program in ("kangaroo-bench", "kangaroo-bench calls", "kangaroo-bench memory", "rivals"):
        done = bench.run(*program.split(), "--help")
        expect(done.returncode == 0 and done.stdout.startswith(f"usage: {program} "), f"{program} --help")
        expect(max(len(line) for line in done.stdout.splitlines()) <= 120, f"{program} --help has a line of more than 120 columns")
    show(f"{len(DRIVER_REFUSALS) + len(RIVALS_REFUSALS)} commands with bad words are refused, each by name; a folder and a server that are not there too")


# ------------------------------------------------------------------------------------------------------------ runs

def check_part(part, operations=None):
    expect(operations is None or part["operations"] == operations, f"{part['operations']} operations, and not {operations}")
    expect(part["gets"] + part["puts"] + part["removals"] + part["no_memory"] >= part["operations"], "each operation is counted")
    hits = sum(part["hits_" + tier] for tier in ("memory", "log", "set", "server"))
    expect(part["hits"] == hits <= part["gets"], "hits are those of the tiers")
    expect(part["gets"] == 0 or abs(part["hit_ratio"] - hits / part["gets"]) < 1e-6, "the hit ratio is hits by gets")


def check_report(report, operations=None, warmup=0):
    check_part(report["measured"], operations)
    check_part(report["all"], None if operations is None else operations + warmup)
    latencies = report["measured"]["latency_ns"]
    expect(latencies.get("get", {"calls": 0})["calls"] == report["measured"]["gets"], "a latency for each get")
    for name, row in latencies.items():
        values = [row[key] for key in ("p50", "p90", "p99", "p99.9", "most")]
        expect(values == sorted(values), f"percentiles of {name} rise")
        curve = [value for _, value in row["curve"]]
        expect(curve == sorted(curve) and curve[-1] == row["most"], f"the curve of {name} rises to the most")


def check_fills(report):
    """A look-aside load fills after each miss."""
    part = report["all"]
    misses = part["gets"] - part["hits"]
    expect(part["fills"] + part["fills_stale"] + part["no_memory"] == misses and part["puts"] == 0, "a fill after each miss, and no put")


def check_counters(report):
    counters, part = report["counters"], report["all"]
    if report["load"]["pattern"] == "lookaside" and "replay" not in report["load"]:
        check_fills(report)
    expect(counters["memory_hits"] == part["hits_memory"] and counters["set_hits"] == part["hits_set"], "hits are those that the cache counted")
    expect(counters["puts"] == part["puts"] and counters["fills_stored"] == part["fills"], "puts and fills are those that the cache counted")
    expect(counters["bytes_put"] == part["bytes_stored"], "bytes stored are those that the cache counted")
    pages = counters["log_pages_written"] + counters["set_pages_written"]
    expect(part["flash_bytes_written"] == 4096 * pages, "bytes written are the pages that the cache counted")


def test_runs(bench):
    operations = 20000 if QUICK else 100000
    words = ["--keys", "50K", "--operations", str(operations), "--warmup", "10K"]
    for distribution in ("uniform", "zipf:0.9", "hot:0.1:0.9"):
        for pattern in (["--pattern", "lookaside"], ["--pattern", "plain"], ["--mix", "95:0:5"]):
            for sizes, threads in (("fixed:100", "1"), ("uniform:0:300", "2"), ("lognormal:200:0.7", "2")):
                report = bench.read_cache(*words, "--distribution", distribution, *pattern, "--sizes", sizes, "--threads", threads)
                check_report(report, operations, 10000)
                check_counters(report)
                expect(report["all"]["hits"] > 0, "some hits")
    text = bench.run("kangaroo-bench", "--folder", bench.cache, *SMALL, *words)
    expect(text.returncode == 0 and "hit ratio of gets" in text.stdout and "after it" in text.stdout, "the report as text")
    show("27 runs: each distribution with each pattern and sizes; what they count is what the cache counts")


def test_sameness(bench):
    words = ["--keys", "20K", "--operations", "50K", "--pattern", "plain", "--mix", "60:30:10", "--sizes", "uniform:0:300"]
    parts = [bench.read_cache(*words, "--seed", seed)["all"] for seed in "112"]
    first, second, other = ([part[name] for name in ("gets", "puts", "removals", "bytes_stored")] for part in parts)
    expect(first == second != other, "the same seed makes the same requests, and another seed others")
    long_lived = bench.read_cache("--keys", "100", "--operations", "2K", "--rate", "1000", "--seed", "7")["all"]
    short_lived = bench.read_cache("--keys", "100", "--operations", "2K", "--rate", "1000", "--seed", "7", "--expiry", "1")["all"]
    expect(1.9 < long_lived["seconds"] < 4, f"2,000 operations at 1,000 a second took {long_lived['seconds']} s")
    expect(short_lived["hit_ratio"] < long_lived["hit_ratio"], "what expires is missed")
    shape = "--shards 1 --lanes 2 --sets 63 --memory-objects 100 --segments 8 --segment-pages 2 --log-objects 1000".split()
    report = bench.read("kangaroo-bench", "--folder", bench.cache, "--operations", "20K", *shape, "--admit=50", "--threshold=3")
    expect(report["options"]["sets"] == 63 and report["options"]["threshold"] == 3 and report["options"]["admit_percent"] == 50, "options as given")
    expect(report["counters"]["declined"] > 0, "half of the objects are declined")
    show("a seed, a rate, an expiry, a shape, an admission and a threshold do what they say")


def test_series(bench):
    path = bench.path("series.csv")
    bench.read_cache("--keys", "50K", "--warmup", "1s", "--seconds", "2", "--series", path)
    with open(path) as file:
        rows = list(csv.DictReader(file))
    expect([row["phase"] for row in rows].count("warmup") == 1 and 2 <= len(rows) <= 4, f"{len(rows)} lines of the series")
    for row in rows:
        expect(None not in row and None not in row.values(), "each line has all fields")
        expect(0 <= float(row["hit_ratio"]) <= 1 and float(row["operations_per_second"]) > 0 and int(row["own_memory"]) > 0, "figures of a second")
        expect(float(row["get_p50_us"]) <= float(row["get_p99_us"]) <= float(row["get_most_us"]), "percentiles of a second rise")
    bench.refused(2, "--series /no/such/folder: No such file", "kangaroo-bench", "--folder", bench.cache, *SMALL, *LIMIT, "--series", "/no/such/folder")
    show(f"a series of {len(rows)} seconds")


def test_commands(bench):
    done = bench.run("kangaroo-bench", "calls", "--folder", bench.cache, "--sparse", "--operations", "20K")
    expect(done.returncode == 0, f"calls: status {done.returncode}, {done.stderr.strip()}")
    for line in ("put ", "upkeep left ", "get in memory ", "get of nothing ", "removal ", "gets  *4 threads: ",
                 "gets and puts  *2 threads: ", "own memory .* after 200000 operations", "  puts  *[1-9]"):
        expect(re.search(f"^{line}", done.stdout, re.M), f"calls prints no line {line!r}")
    done = bench.run("kangaroo-bench", "memory", "--folder", bench.cache, *SMALL)
    numbers = re.match(r"\d+ lanes of \d+ sets: estimated (\d+) bytes, measured (\d+)\nbits an object of the sets: .*\n\Z", done.stdout)
    expect(done.returncode == 0 and numbers, f"memory: status {done.returncode}, {done.stdout}{done.stderr}")
    # a sanitizer makes what is measured more
    expect(0 < int(numbers[1]) < 2 * int(numbers[2]), "what an opening takes is at least half of the estimate")
    show("what calls and an opening take")


# ------------------------------------------------------------------------------------------------------------ traces

def count_acts(form, path):
    """How many gets, puts and removals a trace asks for."""
    counts = {"gets": 0, "puts": 0, "removals": 0}
    names = {"get": "gets", "set": "puts", "delete": "removals"}
    with open(path) as file:
        for row in csv.reader(file):
            if row[0] != "key":
                counts[names[row[5 if form == "twitter" else 1].lower()]] += 1 if form == "twitter" else int(row[3])
    return counts


def test_traces(bench):
    lines = 100000 if QUICK else 1000000
    paths = {form: bench.path(form + ".csv") for form in ("kvcache", "twitter")}
    makers = []
    for form, path in paths.items():
        with open(path, "w") as file:
            makers.append(subprocess.Popen([sys.executable, os.path.join(ROOT, "bench/make_cache_trace.py"), form, str(lines), "20000"], stdout=file))
    expect(all([maker.wait() == 0 for maker in makers]), "make_cache_trace.py")
    for form, path in paths.items():
        acts = count_acts(form, path)
        calls = sum(acts.values())
        for words in ([], ["--threads", "2"], ["--pattern", "plain"]):
            report = bench.read_cache("--replay", path, *words)
            check_report(report, calls)
            check_counters(report)
            expect({name: report["all"][name] for name in acts} == acts, f"gets, puts and removals are those of the trace: {acts}")
        report = bench.read_cache("--replay", path, "--warmup", "1000", "--operations", "5K")
        check_report(report, 5000, 1000)
        rivals = bench.read("rivals", "--replay", path, *SMALL[:-1], "--warmup", "1000")
        expect(all(design["all"][name] == acts[name] for design in rivals["designs"] for name in acts), "rivals replay it too")
    check_report(bench.read_cache("--replay", "-", given="3,GET,10,4,5\n3,SET,20,1,5"), 5)
    show(f"traces of both forms, {lines} lines each, with 1 and 2 threads, through kangaroo-bench and rivals")


def test_bad_traces(bench):
    replay = ["kangaroo-bench", "--folder", bench.cache, *SMALL, "--replay", "-"]
    good = "".join(f"{i},GET,10,1,5\n" for i in range(5000))
    bench.refused(2, "-:1: no line of a trace: it has neither", *replay, given="a,b,c\n")
    bench.refused(2, "- has no lines", *replay, given="")
    bench.refused(2, "-:5001: no line of a trace of CacheLib's form: its op is none of", *replay, given=good + "1,GOT,1,1,1\n")
    bench.refused(2, "-:5002: no line of a trace of CacheLib's form: it has not the 5 fields", *replay, "--threads", "2",
                  given="key,op,size,op_count,key_size\n" + good + "1,a,1,2,3,get,0\n")
    bench.refused(2, "-:2: no line of a trace of Twitter's form: its TTL is no number", *replay, given="1,a,1,2,3,get,0\n1,a,1,2,3,get,x\n")
    bench.refused(2, "-:2: no line of a trace of Twitter's form: its key has more than 250 bytes", *replay, given="1,a,1,2,3,get,0\n1,a,251,2,3,get,0\n")
    bench.refused(2, "-:1: a line of more than 4,096 bytes", *replay, given="1,GET,1,1," + "1" * 100000)
    large = bench.read_cache("--replay", "-", given="1,SET,5000,1,5\n1,GET,5000,1,5\n1,GET,5000,1,5\n")["all"]
    expect(large["too_large"] == 3 and large["hits"] == 0, "values that are too large are not stored")
    show("lines that are of neither form are refused by file and number; values that are too large are counted")


# ------------------------------------------------------------------------------------------------------------ servers

class Server:
    """A server on a socket in the folder, or on a port of this machine if the name is a number."""

    def __init__(self, bench, words, name):
        self.port = int(name) if name.isdigit() else 0
        self.path = f"127.0.0.1:{self.port}" if self.port else bench.path(name)
        words = [word.replace("SOCKET", self.path).replace("PORT", str(self.port)) for word in words]
        self.process = subprocess.Popen(words, stdin=subprocess.PIPE, stdout=subprocess.DEVNULL, stderr=subprocess.DEVNULL)

    def listens(self):
        with socket.socket(socket.AF_INET if self.port else socket.AF_UNIX) as tried:
            return tried.connect_ex(("127.0.0.1", self.port) if self.port else self.path) == 0

    def __enter__(self):
        for _ in range(200):
            if self.listens():
                return self
            time.sleep(0.05)
        raise Failed("a server that listens")

    def __exit__(self, *_):
        self.process.stdin.close()
        self.process.terminate()
        self.process.wait()
        if os.path.exists(self.path):
            os.unlink(self.path)


def liar(bench, lie):
    return Server(bench, [sys.executable, "-B", os.path.join(HERE, "liar.py"), "SOCKET", lie], "liar-" + lie)


def test_server(bench):
    with liar(bench, "none") as server:
        for words in ([], ["--pipeline", "7", "--threads", "2"], ["--pattern", "plain", "--mix", "60:30:10", "--pipeline", "16"]):
            report = bench.read("kangaroo-bench", "--memcached", server.path, "--keys", "1K", "--operations", "5K", "--warmup", "1K", *words)
            check_report(report, 5000, 1000)
            expect(report["all"]["hits_server"] > 0, "hits of the server")
            if "plain" not in words:
                check_fills(report)
            part = report["all"]
            expect(part["flash_bytes_written"] == 10 * (part["fills"] + part["puts"]), "bytes that the server says it has written")
        kept = bench.read("kangaroo-bench", "--memcached", server.path, "--keys", "1K", "--operations", "1K", "--keep")
        emptied = bench.read("kangaroo-bench", "--memcached", server.path, "--keys", "1K", "--operations", "1K")
        expect(kept["all"]["hits"] > emptied["all"]["hits"], "--keep leaves what the server holds")
        traced = "".join(f"{i // 9},key{i % 50},6,{i % 50 * 40},1,{'delete' if i % 20 == 0 else 'get'},0\n" for i in range(2000))
        check_report(bench.read("kangaroo-bench", "--memcached", server.path, "--replay", "-", given=traced), 2000)
        bench.refused(2, "the key a b cannot be sent to a server: its byte 2", "kangaroo-bench", "--memcached", server.path,
                      "--replay", "-", given="1,a b,3,2,3,get,0\n")
    with liar(bench, "full") as server:
        report = bench.read("kangaroo-bench", "--memcached", server.path, "--keys", "1K", "--operations", "1K")
        expect(report["all"]["no_memory"] == 1000 and report["all"]["hits"] == 0, "a server without memory")
    for lie, said in (("end", "has ended the connection"), ("noise", "answered HELLO")):
        with liar(bench, lie) as server:
            bench.refused(3, said, "kangaroo-bench", "--memcached", server.path, "--keys", "1K", "--operations", "5K")
    show("a server: look-aside and plain, pipelines, a trace, no memory; an answer that is none, and a lost connection, end with status 3")


def free_port():
    with socket.socket() as tried:
        tried.bind(("127.0.0.1", 0))
        return str(tried.getsockname()[1])


def test_memcached(bench):
    if shutil.which("memcached") is None:
        show("no memcached here: it was not tried")
        return
    user = ["-u", "root"] if os.geteuid() == 0 else []
    with Server(bench, ["memcached", *user, "-s", "SOCKET", "-m", "64", "-t", "1"], "memcached") as server:
        words = ["--memcached", server.path, "--keys", "20K", "--operations", "20K", "--threads", "2", "--sizes", "uniform:0:2048"]
        for more in (["--pipeline", "64"], ["--pattern", "plain", "--pipeline", "3", "--expiry", "100"]):
            report = bench.read("kangaroo-bench", *words, *more, "--server-process", str(server.process.pid))
            check_report(report, 20000)
            expect(report["memory"]["own_at_end"] > 0, "the memory of the server")
            expect(0.1 < report["all"]["server_processor_us_per_request"] < 1000, "what the server used of processors for a request")
    with Server(bench, ["memcached", *user, "-l", "127.0.0.1", "-p", "PORT", "-U", "0", "-t", "1"], free_port()) as server:
        check_report(bench.read("kangaroo-bench", "--memcached", server.path, "--keys", "5K", "--operations", "5K", "--pipeline", "9"), 5000)
    show("memcached itself, by a socket's path and by a port, with pipelines")


def test_wrong_hits(bench):
    for lie in ("byte", "other", "short", "key"):
        with liar(bench, lie) as server:
            bench.refused(1, "a wrong hit by a get of the key" if lie != "key" else "answered with the key", "kangaroo-bench",
                          "--memcached", server.path, "--keys", "1K", "--operations", "5K")
    with liar(bench, "none") as server:
        bench.read("kangaroo-bench", "--memcached", server.path, "--keys", "1K", "--operations", "1K", "--sizes", "fixed:100")
        bench.refused(1, "a wrong hit by a get of the key", "kangaroo-bench", "--memcached", server.path, "--keys", "1K",
                      "--operations", "1K", "--sizes", "fixed:90", "--keep")
    for words in (["--threads", "1"], ["--threads", "2"], ["--pattern", "plain", "--threads", "2"]):
        command = ["--folder", bench.cache, *SMALL, "--keys", "10K", "--operations", "50K", *words]
        done = bench.run("kangaroo-bench-lies", *command)
        expect(done.returncode == 1 and "a wrong hit by a get of the key" in done.stderr, "a cache that lies once ends the run with status 1")
        expect("expected 100 bytes: " in done.stderr and "found    100 bytes: " in done.stderr, "what was expected and what was found")
        expect(done.stderr.count("a wrong hit") == 1 and done.stdout == "", "one wrong hit is reported, and nothing else")
        expect(bench.run("kangaroo-bench", *command).returncode == 0, "the same run of a cache that does not lie is right")
    show("a wrong byte, another key's value, a value cut short, an answer for another key: each ends with status 1")


# ------------------------------------------------------------------------------------------------------------ the rest

def test_rivals(bench):
    words = ["--keys", "100K", "--operations", "200K", "--warmup", "200K", "--flash", "4M", "--memory", "400K", "--sizes", "uniform:20:180"]
    report = bench.read("rivals", *words)
    sets, log = (design["measured"] for design in report["designs"])
    for part in (sets, log):
        check_part(part, 200000)
        expect(0.2 < part["hit_ratio"] < 0.9, "a hit ratio within reason")
    expect(20 < sets["write_amplification"] < 40, f"sets write a page an object: {sets['write_amplification']}")
    expect(0.9 < log["write_amplification"] < 1.4, f"a log writes each object once: {log['write_amplification']}")
    half = bench.read("rivals", *words, "--admit", "50")["designs"][0]["measured"]
    expect(half["write_amplification"] < 0.7 * sets["write_amplification"] and half["hit_ratio"] < sets["hit_ratio"], "half of the objects")
    even = [*words, "--distribution", "uniform"]
    for design in bench.read("rivals", *even)["designs"]:
        expect(0.25 < design["measured"]["hit_ratio"] < 0.42, "of 100,000 keys 4 MiB hold some 32,000 objects of 132 bytes")
    poor = bench.read("rivals", *even, "--index-bits", "400")["designs"][1]["measured"]
    expect(0.05 < poor["hit_ratio"] < 0.12, "an index of 360 KB, at 400 bits an object, holds 7,200 of 100,000")
    puts = "--keys 5K --flash 4M --memory 64K --warmup 200K --operations 100K --pattern plain --mix 50:50:0".split()
    for design in bench.read("rivals", *puts)["designs"]:
        expect(design["measured"]["hit_ratio"] > 0.999, "a newer value takes the place of the older: so all keys have room")
    for design in bench.read("rivals", *puts, "--distribution", "uniform", "--admit", "50")["designs"]:
        expect(0.45 < design["measured"]["hit_ratio"] < 0.6, "half of the newer values are declined, and the older ones are gone")
    back = bench.read("rivals", *words, "--bring-back")["designs"][0]["measured"]
    expect(back["hits_memory"] > sets["hits_memory"], "hits that are brought back to memory")
    check_part(bench.read("rivals", *words, "--pattern", "plain", "--mix", "50:30:20")["designs"][0]["all"], 400000)
    whole = bench.read("rivals", "--keys", "1K", "--operations", "20K", "--flash", "4M", "--memory", "400K")["designs"]
    expect(all(design["all"]["fills"] == design["all"]["gets"] - design["all"]["hits"] < 1001 for design in whole), "what fits is missed once")
    show("rivals: hit ratios, and bytes written to flash, are what the designs imply")


def has_matplotlib(python):
    return shutil.which(python) is not None and subprocess.run([python, "-c", "import matplotlib"], capture_output=True).returncode == 0


def test_plots(bench):
    with_it = [python for python in (sys.executable, "/usr/bin/python3") if has_matplotlib(python)]
    plot = [(with_it or [sys.executable])[0], "-B", os.path.join(ROOT, "bench/plot.py")]
    report, series = bench.path("report.json"), bench.path("plotted.csv")
    with open(report, "w") as file:
        json.dump(bench.read_cache("--keys", "20K", "--seconds", "1", "--series", series), file)
    svg = bench.path("plot.svg")
    done = subprocess.run([*plot, "latency", svg, report], capture_output=True, text=True)
    if not with_it:
        expect(done.returncode == 3 and "python3-matplotlib" in done.stderr, "plot.py says what it needs")
        show("plot.py says that it needs matplotlib, which is not here: no plot was drawn")
        return
    others = {"hit-ratio-over-time": series, "server-bars": os.path.join(ROOT, "docs/benchmarks/server-bars.csv")}
    for kind in ("hit-ratio-by-memory", "write-amplification", "latency", "gets-by-threads", *others):
        done = subprocess.run([*plot, kind, svg, others.get(kind, report)], capture_output=True, text=True)
        expect(done.returncode == 0, f"plot.py {kind}: {done.stderr.strip()}")
        with open(svg) as file:
            expect("<svg" in file.read(), f"plot.py {kind} writes an SVG")
    done = subprocess.run([*plot, "latency", svg, series], capture_output=True, text=True)
    expect(done.returncode == 2 and "is no report" in done.stderr, "plot.py refuses a file that is no report")
    show("six kinds of plot")


TESTS = [test_refusals, test_runs, test_sameness, test_series, test_commands, test_traces, test_bad_traces, test_server, test_memcached,
         test_wrong_hits, test_rivals, test_plots]


def main():
    with tempfile.TemporaryDirectory(prefix="kangaroo-bench-") as folder:
        bench = Bench(os.path.abspath(sys.argv[1]), folder)
        chosen = [test for test in TESTS if len(sys.argv) < 3 or test.__name__ in sys.argv[2:]]
        for test in chosen:
            try:
                test(bench)
            except Failed as fault:
                print(f"  FAILED: {test.__name__}: {fault}")
                return 1
    return 0


sys.exit(main())
