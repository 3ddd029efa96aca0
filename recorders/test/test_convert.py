"""Tries recorders/convert on the inputs of convert_cases.py, and prints how many were right. With KANGAROO=PATH what it writes is judged, too."""
import contextlib
import io
import os
import subprocess
import sys
import tempfile

sys.dont_write_bytecode = True
HERE = os.path.dirname(os.path.abspath(__file__))
sys.path.insert(0, os.path.join(HERE, ".."))
from convert_cases import BAD, CSV, GOOD, JUDGED, LOGS, REFUSED
from converters.main import main as convert

CONVERT = [sys.executable, os.path.join(HERE, "..", "convert")]
EXAMPLES = os.path.join(HERE, "..", "..", "examples", "histories")
# the words of the examples, as the pages have them
OF_EXAMPLES = {"csv": "--start sent --end answered --op method --key key --value value --result status --caller client --unit ms",
               "jsonl": "--start time --took ms --op op --key request.key --value value --unit rfc3339", "jepsen": "", "porcupine": ""}


class Tally:
    """What was tried, and what was wrong."""

    def __init__(self):
        self.right, self.wrong = 0, 0

    def note(self, name, holds, found):
        """Counts a case, and prints what was found if it is wrong."""
        self.right, self.wrong = self.right + bool(holds), self.wrong + (not holds)
        if not holds:
            print(f"test_convert.py: {name}: {found}")


class Standard(io.StringIO):
    """Stands for a standard stream of the program, by its bytes too."""

    def __init__(self, data=b""):
        super().__init__()
        self.buffer = io.BytesIO(data)


def run(words, data=b"", folder=None):
    """Runs the program on an input, in a file if there is a folder, else as standard input. Returns its status, its text and its messages."""
    name = "-"
    if folder:
        name = os.path.join(folder, "input")
        with open(name, "wb") as file:
            file.write(data)
    out, said, before = Standard(), io.StringIO(), sys.stdin
    sys.stdin = Standard(data)
    try:
        with contextlib.redirect_stdout(out), contextlib.redirect_stderr(said):
            status = convert([*words.split(), name])
    finally:
        sys.stdin = before
    return status, out.buffer.getvalue(), said.getvalue()


def try_good(tally, folder):
    """Each good input becomes just these lines, and a last one that says so."""
    for name, words, data, lines in GOOD:
        calls = sum(not it.startswith(b"#") for it in lines.splitlines())
        status, text, _ = run(words, data, folder)
        tally.note(name, (status, text) == (0, lines + b"# whole: %d calls\n" % calls), (status, text))


def try_bad(tally, folder):
    """Each bad input is refused at its place with its words, and leaves a text that ends in a bad line."""
    for name, words, data, (place, what) in BAD:
        for at in (folder, None):
            status, text, said = run(words, data, at)
            begins = f"convert: {os.path.join(at, 'input') if at else 'standard input'}:{place}: "
            is_cut = text.endswith(b"  cut\n# not whole: the input was refused\n")
            tally.note(name, status == 2 and said.startswith(begins) and what in said and is_cut and "Traceback" not in said, (status, said, text[-80:]))


def try_words(tally):
    """Wrong words are refused, with what is wanted."""
    for words, what in REFUSED:
        ended = subprocess.run([*CONVERT, *words.split()], stdin=subprocess.DEVNULL, stdout=subprocess.PIPE, stderr=subprocess.PIPE, encoding="utf-8")
        tally.note(f"the words {words}", ended.returncode == 2 and what in ended.stderr and not ended.stdout, (ended.returncode, ended.stderr))
    for words in ("", "csv", "jsonl", "jepsen", "porcupine"):
        ended = subprocess.run([*CONVERT, *words.split(), "--help"], stdout=subprocess.PIPE, stderr=subprocess.PIPE, encoding="utf-8")
        tally.note(f"the help of {words}", ended.returncode == 0 and "Statuses: 0 done" in ended.stdout and not ended.stderr, ended.stderr)


def try_logs(tally, folder):
    """A log that can't be judged is told by its first line, whatever form was said."""
    for name, data in LOGS:
        status, _, said = run(CSV, data, folder)
        tally.note(f"a log of {name}", status == 2 and f"looks like the log {name}: " in said, (status, said))


def try_files(tally, folder):
    """What can't be read or written ends with status 3."""
    absent = os.path.join(folder, "absent")
    for words, what in ((f"jepsen {absent}", f"convert: {absent}: No such file"), (f"jepsen {folder}", f"convert: {folder}: Is a directory")):
        ended = subprocess.run([*CONVERT, *words.split()], stdout=subprocess.PIPE, stderr=subprocess.PIPE, encoding="utf-8")
        tally.note(words, ended.returncode == 3 and what in ended.stderr, (ended.returncode, ended.stderr))
    history = os.path.join(EXAMPLES, "jepsen.edn")
    if os.path.exists("/dev/full"):
        with open("/dev/full", "wb") as full:
            ended = subprocess.run([*CONVERT, "jepsen", history], stdout=full, stderr=subprocess.PIPE, encoding="utf-8")
        tally.note("a full device", ended.returncode == 3 and "No space left" in ended.stderr and "Traceback" not in ended.stderr, (ended.returncode, ended.stderr))
    reader, writer = os.pipe()
    os.close(reader)
    ended = subprocess.run([*CONVERT, "jepsen", history], stdout=writer, stderr=subprocess.PIPE, encoding="utf-8")
    os.close(writer)
    tally.note("a closed pipe", ended.returncode == 3 and ended.stderr == "convert: standard output: it was closed before all was written\n", (ended.returncode, ended.stderr))


def try_examples(tally):
    """The examples become the texts that lie beside them."""
    for form, name in (("jepsen", "jepsen.edn"), ("porcupine", "porcupine.log"), ("csv", "calls.csv"), ("jsonl", "calls.jsonl")):
        with open(os.path.join(EXAMPLES, f"{form}.txt"), "rb") as wanted:
            ended = subprocess.run([*CONVERT, form, *OF_EXAMPLES[form].split(), os.path.join(EXAMPLES, name)], stdout=subprocess.PIPE)
            tally.note(f"the example {name}", (ended.returncode, ended.stdout) == (0, wanted.read()), ended)


def try_judge(tally, folder, kangaroo):
    """In each form a right history is accepted, and one with a stale read rejected. A text that was cut off is refused."""
    for words, right, stale in JUDGED:
        for data, wanted in ((right, "accepted"), (stale, "rejected hit"), (right + b"\xff\n", "bad line")):
            _, text, _ = run(words, data)
            name = os.path.join(folder, "judged.txt")
            with open(name, "wb") as file:
                file.write(text)
            ended = subprocess.run([kangaroo, "judge", name], stdout=subprocess.PIPE, encoding="utf-8")
            tally.note(f"judged {words.split()[0]}", ended.stdout.startswith(wanted), (wanted, ended.stdout, text))


def main():
    tally, kangaroo = Tally(), os.environ.get("KANGAROO")
    with tempfile.TemporaryDirectory() as folder:
        try_good(tally, folder)
        try_bad(tally, folder)
        try_words(tally)
        try_logs(tally, folder)
        try_files(tally, folder)
        try_examples(tally)
        if kangaroo:
            try_judge(tally, folder, kangaroo)
    print(f"{tally.right} inputs of convert are right, {tally.wrong} are wrong" + ("" if kangaroo else "; none was judged: there is no program in KANGAROO"))
    sys.exit(tally.wrong > 0)


if __name__ == "__main__":
    main()
