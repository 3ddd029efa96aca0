#!/usr/bin/env python3
"""Runs the program with one of its reads and writes refused or cut short, each in turn. No part of the gate.

usage: refuse_io.py [--soak OPERATIONS] [PROGRAM]

With --soak it only runs a load over files with so many operations of each of four callers, of whose pages one read or write in a
hundred fails, and demands that the run is accepted and that check agrees. Else it loads refuse_io.c, which it compiles with cc, into the program (crates/bench_driver/out/bench_driver if not given), whose
read, write, pread or pwrite number N then fails with EIO, EINTR or ENOSPC, or moves half of its bytes. It does so with a
script, with the judging of a trace, and with a run over files, for each N until none is met, and demands of each answer that it
is the usual one, or says that the input, a file or the output failed:

- script: the usual replies; or `file fault`, status 3, and the replies of some whole lines, from the first on (of a write that
  failed any part of what was to be written);
- check: the usual line; or `bad trace ReadFault at` a byte, status 2; or `file fault`, status 3;
- run --device: four lines, accepted, with which check agrees, whatever page failed; or `file fault`, a line that says which
  file, and status 3.
"""
import collections
import errno
import os
import re
import subprocess
import sys
import tempfile

sys.dont_write_bytecode = True
from refuse_memory import BUILT, HERE, compiled, sweep

HOWS = {"EIO": errno.EIO, "EINTR": errno.EINTR, "ENOSPC": errno.ENOSPC, "cut short": 0}
CALLS = {"r": "read", "w": "write", "p": "pread", "q": "pwrite"}
LOAD = "--callers 2 --operations 250 --lanes 2 --sets 3 --memory 1 --entries 64 --segments 4 --segment-pages 2 --keys 30 --value-bytes 1000 --gets 50".split()
FAULTS = (b"file fault\nthe input was not read whole\n", b"file fault\nthe output was not written whole\n")
LINES = re.compile(rb"calls 500\nhits \d+\nstopped 0\n(accepted 500 calls\n)\Z")


def file_fault(ended, usual):
    """Whether a fault of a file is told behind a part of the usual output."""
    status, said, errors = ended
    return "file fault" if status == 3 and errors in FAULTS and usual.startswith(said) else None


class Sweep:
    def __init__(self, library, program, folder):
        self.library, self.program, self.folder = library, program, folder

    def sweep(self, name, words, way, **given):
        """Meets each call in turn, and counts the answers by the call and by how it failed."""
        counts = collections.Counter()
        for how, error in HOWS.items():
            fails = {"usual": "as usual", "refuses": {"REFUSE_ERROR": error}}
            met = sweep(self.library, f"{name}, {how}", [self.program, *words], way, **fails, **given)
            counts.update((CALLS[letter.decode()], how, said) for letter, said in met)
        print(f"{name}: {sum(counts.values())} met")
        for (call, how, said), count in sorted(counts.items()):
            print(f"    {call} {how}: {said} {count}")

    def script(self):
        script = os.path.join(HERE, "../examples/second.script")
        usual = subprocess.run([self.program, "script"], stdin=open(script, "rb"), capture_output=True).stdout

        def way(ended):
            return "as usual" if ended == (0, usual, b"") else file_fault(ended, usual)

        self.sweep("script", ["script"], way, reads=script)

    def check(self, trace):
        usual = subprocess.run([self.program, "check", trace], capture_output=True).stdout

        def way(ended):
            status, said, errors = ended
            if ended == (0, usual, b""):
                return "as usual"
            if status == 2 and not errors and re.fullmatch(rb"bad trace ReadFault at \d+\n", said):
                return "ReadFault"
            return file_fault(ended, usual)

        self.sweep("check", ["check", trace], way)

    def over_files(self, trace):
        devices = os.path.join(self.folder, "devices")
        os.mkdir(devices)

        def way(ended):
            status, said, errors = ended
            found = LINES.match(said)
            if status == 0 and found and not errors:
                judged = subprocess.run([self.program, "check", trace], capture_output=True)
                return "as usual" if (judged.returncode, judged.stdout) == (0, found[1]) else None
            return "file fault" if status == 3 and re.fullmatch(rb"file fault\n[^\n]+\n", errors) else None

        # how many calls there are depends on how the threads run
        self.sweep("run --device", ["run", "--trace", trace, "--device", devices, *LOAD], way, patience=20)

    def soak(self, trace, operations):
        """Fails each hundredth call of the devices of a long run."""
        devices = os.path.join(self.folder, "devices")
        os.mkdir(devices)
        told = os.path.join(self.folder, "told")
        with open(told, "wb") as tell:
            environment = {"LD_PRELOAD": self.library, "REFUSE_EACH": "100", "REFUSE_TOLD": str(tell.fileno()), "REFUSE_ERROR": str(errno.EIO)}
            words = [self.program, "run", "--trace", trace, "--device", devices, "--operations", operations]
            ended = subprocess.run(words, capture_output=True, env=environment, pass_fds=[tell.fileno()])
        judged = subprocess.run([self.program, "check", trace], capture_output=True)
        if ended.returncode or ended.stderr or judged.returncode or not ended.stdout.endswith(judged.stdout):
            sys.exit(f"{ended.returncode} {ended.stdout} {ended.stderr} {judged.stdout}")
        met = collections.Counter(open(told, "r").read())
        print(f"{ended.stdout.decode()}failed: {met['p']} reads, {met['q']} writes")


def main():
    words = sys.argv[1:]
    operations = words[1] if words[:1] == ["--soak"] else None
    words = words[2:] if operations else words
    program = os.path.abspath(words[0] if words else BUILT)
    with tempfile.TemporaryDirectory() as folder:
        trace = os.path.join(folder, "trace")
        swept = Sweep(compiled("refuse_io", folder), program, folder)
        if operations:
            swept.soak(trace, operations)
            return
        swept.script()
        swept.over_files(trace)
        # one whole trace of some pieces
        subprocess.run([program, "run", "--trace", trace, "--operations", "100"], capture_output=True, check=True)
        swept.check(trace)


main()
