#!/usr/bin/env python3
"""Runs the program with memory refused, each request for it in turn. No part of the gate.

usage: refuse_memory.py check [PROGRAM]          traces of its own, by `check`
       refuse_memory.py judge PROGRAM TEXT...    these texts, by `judge`
       refuse_memory.py scripts [PROGRAM]        scripts
       refuse_memory.py runs [PROGRAM]           a small load
       refuse_memory.py tests PROGRAM TEST...    tests: PROGRAM is a crate's program of tests that the gate built, such as
                                                 crates/recorded_tests/out/recorded_tests_tests, each TEST a test's full name

It loads refuse_memory.c, which it compiles with cc, into the program (crates/bench_driver/out/bench_driver if not given), whose
malloc and realloc then refuse one request, or each of more than so many bytes. Where none was refused the program must answer as
usual. Where one was it may do without it and answer as usual too, or else must do this:

- check, judge: end with `out of memory`, status 3 and nothing on standard output. A header that counts 268,435,456 calls which do
  not come must be judged where no request of more than 64 KiB is granted;
- scripts: end with `out of memory`, status 3, and the whole replies of the lines before the one that met it, from the first on;
- runs: tell four lines with a caller that stopped, status 3; or end with `out of memory`, status 3, and no lines. Where it tells
  lines `check` says the same of the trace;
- tests: fail by telling want of memory (a request of the test's own); nothing that a test asserts may be untrue.
"""
import collections
import os
import re
import struct
import subprocess
import sys
import tempfile

HERE = os.path.dirname(os.path.abspath(__file__))
BUILT = os.path.join(HERE, "../crates/bench_driver/out/bench_driver")
OUT_OF_MEMORY = (3, b"", b"out of memory\n")
CALLERS, OPERATIONS = 3, 40
LOAD = f"--callers {CALLERS} --operations {OPERATIONS} --lanes 2 --sets 2 --memory 2 --entries 16 --segments 2 --segment-pages 1 --keys 9".split()
LINES = re.compile(rb"calls (\d+)\nhits \d+\nstopped (\d+)\n(accepted \1 calls\n)\Z")
TEST_TOLD = (b"AllocError", b"AllocFailed", b"OutOfMemory", b"out of memory")


def compiled(name, folder):
    """The path of a library that is loaded into a program, made of a source of this folder."""
    library = os.path.join(folder, f"{name}.so")
    subprocess.run(["cc", "-shared", "-fPIC", "-O1", "-o", library, os.path.join(HERE, f"{name}.c")], check=True)
    return library


def run(library, words, refuses, reads=os.devnull, folder=None):
    """What the library told when it refused, and what the program answered: its status, its output and its errors."""
    told, tell = os.pipe()
    environment = {"LD_PRELOAD": library, "REFUSE_TOLD": str(tell), **{name: str(number) for name, number in refuses.items()}}
    with open(reads, "rb") as it:
        ended = subprocess.run(words, stdin=it, capture_output=True, env=environment, pass_fds=[tell], timeout=60, cwd=folder)
    os.close(tell)
    met = os.read(told, 1)
    os.close(told)
    return met, (ended.returncode, ended.stdout, ended.stderr)


def sweep(library, name, words, way, usual="did without", patience=1, refuses={}, **given):
    """Refuses each request in turn, until so many runs in a row had none refused. Yields what was told of each other run, and in
    which way it ended."""
    number = idle = 0
    while idle < patience:
        number += 1
        met, ended = run(library, words, {"REFUSE_AT": number, **refuses}, **given)
        how = way(ended)
        if how is None or not met and how != usual:
            sys.exit(f"{name}: request {number} refused: {bool(met)}, answer {ended}")
        idle = 0 if met else idle + 1
        if met:
            yield met, how


def count_ways(*words, **given):
    """In which ways the runs of a sweep ended, and how many of them."""
    return collections.Counter(how for _, how in sweep(*words, **given))


def tell(what, ways):
    print(f"{what} of {sum(ways.values())} requests, each refused in turn, {ways['told']} were told")


def sweep_judged(library, name, words, answer):
    """Judges once with each request refused."""
    ways = count_ways(library, name, words, {answer: "did without", OUT_OF_MEMORY: "told"}.get)
    tell(f"{name}: `{answer[1].decode().strip()}`;", ways)


def trace(calls):
    """The bytes of an accepted trace of so many calls, puts and hits of ten keys."""
    made = [sys.executable, os.path.join(HERE, "make_trace.py"), str(calls), "10"]
    return subprocess.run(made, stdout=subprocess.PIPE, check=True).stdout


def try_check(library, folder, program=BUILT):
    header = b"KGTRACE1" + struct.pack(">I", 1 << 28)
    rejected = bytearray(trace(2000))
    rejected[-1] = 0
    cases = [
        ("no call", b"KGTRACE1" + bytes(4), 0, b"accepted 0 calls\n"),
        ("a header that counts 2^28 calls", header, 2, b"bad trace Truncated at 12\n"),
        ("2,000 calls", trace(2000), 0, b"accepted 2000 calls\n"),
        ("2,000 calls with no certificate", trace(2000)[:-8000], 2, None),
        ("2,000 calls, the last place wrong", bytes(rejected), 1, None),
    ]
    file = os.path.join(folder, "trace")
    words = [program, "check", file]
    for name, content, status, line in cases:
        with open(file, "wb") as out:
            out.write(content)
        _, answer = run(library, words, {})
        if answer[0] != status or line not in (None, answer[1]):
            sys.exit(f"{name}: {answer}")
        sweep_judged(library, name, words, answer)
        if content == header and run(library, words, {"REFUSE_ABOVE": 1 << 16}) != (b"", answer):
            sys.exit(f"{name}: it asks for more than 64 KiB")


def try_judge(library, folder, program, *texts):
    for text in texts:
        words = [program, "judge", text]
        sweep_judged(library, text, words, run(library, words, {})[1])


def all_tiers():
    """A script that brings objects to their pages, replaces and removes some, and asks for the verdict and the trace."""
    lines = ["config 1 3 2 2 1 16 1 65536"]
    for number in range(60):
        lines.append(f"put k{number % 11} v{number} {number}")
        lines += ["flush", "move"] if number % 3 == 0 else []
        lines += [f"get k{(number * 7) % 11}"]
        lines += [f"remove k{number % 5}"] if number % 10 == 9 else []
    return "\n".join([*lines, "verdict", "trace", ""]).encode()


def try_scripts(library, folder, program=BUILT):
    file = os.path.join(folder, "script")
    with open(file, "wb") as out:
        out.write(all_tiers())
    cases = [(name, os.path.join(HERE, "../examples", name)) for name in ("first.script", "second.script")]
    for name, script in [*cases, ("all tiers", file)]:
        words = [program, "script"]
        _, usual = run(library, words, {}, script)

        def way(ended):
            status, replies, errors = ended
            whole = usual[1].startswith(replies) and (not replies or replies.endswith(b"\n"))
            told = (status, b"", errors) == OUT_OF_MEMORY and whole
            return "did without" if ended == usual else "told" if told else None

        tell(f"{name}:", count_ways(library, name, words, way, reads=script))


def try_runs(library, folder, program=BUILT):
    file = os.path.join(folder, "trace")

    def way(ended):
        status, said, errors = ended
        found = LINES.match(said)
        if not found or errors:
            return "out of memory" if ended == OUT_OF_MEMORY else None
        calls, stopped = int(found[1]), int(found[2])
        judged = subprocess.run([program, "check", file], capture_output=True)
        if judged.returncode or judged.stdout != found[3]:
            return None
        if status == 0 and stopped == 0 and calls == CALLERS * OPERATIONS:
            return "did without"
        return "stopped" if status == 3 and 0 < stopped <= CALLERS and calls < CALLERS * OPERATIONS else None

    # how many requests there are depends on how the threads run
    ways = count_ways(library, "run", [program, "run", "--trace", file, *LOAD], way, patience=50)
    print(", ".join(f"{how}: {count}" for how, count in sorted(ways.items())))


def try_tests(library, folder, program, *tests):
    def way(ended):
        said = ended[1] + ended[2]
        told = b"its result gives status 1" in said and any(it in said for it in TEST_TOLD)
        return "passed" if ended[0] == 0 else "told want of memory" if told else None

    for test in tests:
        ways = count_ways(library, test, [os.path.abspath(program), test], way, usual="passed", folder=folder)
        print(f"{test}: " + ", ".join(f"{how} {count}" for how, count in sorted(ways.items())), flush=True)


KINDS = {"check": try_check, "judge": try_judge, "scripts": try_scripts, "runs": try_runs, "tests": try_tests}


def main():
    kind, *words = sys.argv[1:] or [""]
    wants_more = kind in ("judge", "tests")
    if kind not in KINDS or (len(words) < 2 if wants_more else len(words) > 1):
        raise SystemExit(__doc__)
    with tempfile.TemporaryDirectory() as folder:
        KINDS[kind](compiled("refuse_memory", folder), folder, *words)


if __name__ == "__main__":
    main()
