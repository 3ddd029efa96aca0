"""The command line of recorders/convert."""
import argparse
import os
import sys
from .calls import ACTS, ACTS_TAKEN, FIELDS, RESULTS, RESULTS_TAKEN, Calls
from .jepsen import Jepsen
from .lines import Lines
from .logs import LOGS, recognized, why_not
from .porcupine import Porcupine
from .tables import Csv, JsonLines, Table
from .text import HASHED_OVER, Bad, Text

PROGRAM = "convert"
DONE, REFUSED, FAULT = 0, 2, 3
ABOUT = """Turns recorded calls into text for `kangaroo judge`, on standard output. FORM says what is read:

  csv, jsonl   rows, or objects of JSON in a line each, with the columns that you name
  jepsen       a history of Jepsen's registers as EDN
  porcupine    a log of Porcupine's key-value model

FILE is read once and in order (twice if --map leaves out keys); - is standard input. `convert FORM --help` lists a form's options."""
STATUSES = """A line that is wrong ends the conversion with `convert: FILE:LINE:COLUMN: what is wrong: what to do`. Lines and columns are counted from
1, columns in bytes. The text then ends in a line that `judge` refuses; a whole one ends in `# whole: N calls`.
Statuses: 0 done, 2 bad input or a bad command line, 3 a file could not be read or written."""
TABLE = """What a row is. --op says what was done: get, put or remove. --result says how it went:
  hit, miss   of a get. Without --result a get with a value is a hit, and one without (an empty field, null or no member) a miss
  stored      done, as it was asked: a get with a value is then a hit, and one with null or no member a miss
  failed      surely not done: the row has no line
  unknown     perhaps done: a put or a remove has - for END, a get has no line
A row without --end or --took, or with -, is an open call: a put or a remove has - for END, a get has no line.

These words are known, in either case. --map and --map-result add more:
{words}
Stamps become nanoseconds. --took, with one of --start and --end, gives the time that a call took; what its digits leave out makes
the call longer. All stamps have to be of one clock."""


def pair(takes):
    """Returns what reads NAME=MEANING, with one of these meanings."""
    def read(text):
        name, equals, meaning = text.rpartition("=")
        if not equals or meaning not in takes:
            raise argparse.ArgumentTypeError(f"give NAME=MEANING, where MEANING is {', '.join(takes[:-1])} or {takes[-1]}, not {text}")
        return name.lower().encode(), meaning.encode()
    return read


def size(text):
    """Reads the number of bytes over which values are hashed."""
    if not text.isdigit() or int(text) > 2048:
        raise argparse.ArgumentTypeError(f"give a number of bytes from 0 to 2048, not {text}")
    return int(text)


def delimiter(text):
    """Reads the byte between fields."""
    found = {"tab": "\t"}.get(text, text)
    if len(found.encode()) != 1 or found in '"\r\n':
        raise argparse.ArgumentTypeError(f"give one character of ASCII that is no quote, or tab, not {text}")
    return found.encode()


def add_common(form):
    """Adds what all forms have."""
    form.add_argument("file", metavar="FILE", help="what is read; - is standard input")
    form.add_argument("--hash-over", type=size, default=HASHED_OVER, metavar="BYTES",
                      help=f"write a hash for each value of more bytes, {HASHED_OVER} without this; 0 hashes all values")
    form.add_argument("--skip-bad", action="store_true", help="pass over bad lines, and say how many there were")


def add_table(form, noun):
    """Adds the options of rows."""
    for name, what in (("start", "START: read before the request was sent"), ("end", "END: read after the answer came"),
                       ("took", "how long the call took, in place of --start or --end"), ("op", "what was done"), ("key", "the key"),
                       ("value", "the value that was read or put"), ("result", "how it went"), ("caller", "who called; all are one without it"),
                       ("ttl", "the lifetime of a put, 0 for ever; it expires so long after its END, and two seconds")):
        form.add_argument(f"--{name}", metavar=noun, required=name in ("op", "key", "value"), help=what)
    form.add_argument("--unit", choices=("ns", "us", "ms", "s", "rfc3339"), default="ns",
                      help="of stamps, ns without this; also of --took, which with rfc3339 is in ms")
    form.add_argument("--ttl-unit", choices=("ns", "us", "ms", "s"), default="s", help="of --ttl, s without this")
    form.add_argument("--map", type=pair(ACTS_TAKEN), action="append", default=[], metavar="NAME=ACT",
                      help="an operation NAME is a get, put or remove; skip passes over its rows, leave leaves out all rows of its keys")
    form.add_argument("--map-result", type=pair(RESULTS_TAKEN), action="append", default=[], metavar="NAME=RESULT", help="a result NAME is one of the five")
    form.add_argument("--hash-keys", action="store_true", help=f"write a hash for each key of more than {HASHED_OVER} bytes")


def parser():
    """Returns what reads the command line."""
    plain = argparse.RawDescriptionHelpFormatter
    refused = "\n".join(f"  {name:16} {why}" for name, _, why in LOGS)
    top = argparse.ArgumentParser(PROGRAM, description=ABOUT, formatter_class=plain, allow_abbrev=False,
                                  epilog=f"{STATUSES}\n\nThese logs are refused, since they can't be judged:\n{refused}")
    forms = top.add_subparsers(dest="form", metavar="FORM", required=True)
    words = "".join(f"  {it:8} {known}\n" for it, known in {**ACTS, **RESULTS}.items())
    for name, noun, what in (("csv", "COLUMN", "rows with columns"), ("jsonl", "MEMBER", "objects of JSON, one a line")):
        form = forms.add_parser(name, help=what, description=f"Reads {what}.", formatter_class=plain, allow_abbrev=False,
                                epilog=f"{TABLE.format(words=words)}\n\n{STATUSES}")
        add_table(form, noun)
        add_common(form)
    forms.choices["csv"].add_argument("--delimiter", type=delimiter, default=b",", metavar="CHARACTER", help="what separates fields, a comma without this; or tab")
    forms.choices["csv"].add_argument("--no-header", action="store_true", help="the first line is a row; name columns by their numbers, from 1")
    for name, what in (("jepsen", "a history of Jepsen's registers, EDN"), ("porcupine", "a log of Porcupine's key-value model")):
        form = forms.add_parser(name, help=what, description=f"Reads {what}. Each key is first put its first value.", formatter_class=plain,
                                allow_abbrev=False, epilog=STATUSES)
        add_common(form)
    forms.choices["jepsen"].add_argument("--initial", default="nil", metavar="VALUE", help="what each register has at first, nil without this")
    for name, _, _ in LOGS:
        forms.add_parser(name, add_help=False, allow_abbrev=False).add_argument("file", nargs="*")
    return top


def check_table(options, top):
    """Refuses options of rows that do not go together."""
    if options.took is None and not (options.start and options.end):
        top.error("give --start and --end, or one of them with --took")
    if options.took is not None and bool(options.start) == bool(options.end):
        top.error("with --took give one of --start and --end")
    options.map, options.map_result, options.columns = dict(options.map), dict(options.map_result), {it: getattr(options, it) for it in FIELDS}
    if b"leave" in options.map.values() and options.file == "-":
        top.error("with =leave FILE is read twice, so it can't be standard input")


def source_of(options, file):
    """Returns what reads a form."""
    lines = Lines(file)
    if options.form == "jepsen":
        return Jepsen(lines, options.initial.encode("utf-8", "surrogateescape"), options.hash_over)
    if options.form == "porcupine":
        return Porcupine(lines, options.hash_over)
    rows = JsonLines(lines, options.columns) if options.form == "jsonl" else Csv(lines, options.columns, options.delimiter, not options.no_header)
    return Table(rows, Calls(options))


class Passed:
    """The bad lines that were passed over: how many, and the first."""

    def __init__(self):
        self.count, self.first = 0, None

    def note(self, where):
        """Notes one."""
        self.count, self.first = self.count + 1, self.first or where


def pour(source, text, passed, where):
    """Writes all calls of a source. A bad line is passed over if `passed` is given."""
    source.begin()
    while True:
        try:
            found = source.read()
        except Bad as bad:
            if passed is None or bad.ends:
                raise
            passed.note(where(bad))
            continue
        if found is None:
            break
        if found[1]:
            text.add(*found)
    if source.count == 0 and not (passed and passed.count):
        raise Bad("the input has no call: is it the right file?", line=1, ends=True)


def say(what):
    """Writes a message."""
    print(f"{PROGRAM}: {what}", file=sys.stderr)


def notes_of(source, passed):
    """Returns what is to be said of a text that is whole."""
    calls = getattr(source, "calls", None)
    notes = [f"{passed.count} bad lines were passed over"] if passed and passed.count else []
    if isinstance(calls, Calls):
        notes += [f"{len(calls.left)} keys were left out"] if calls.left else []
        notes += [f"{calls.without_line} rows of gets without an answer, or of calls that failed, have no line"] if calls.without_line else []
    return notes


def convert(options, file, out):
    """Converts a file, and returns the status."""
    name, text, passed = options.file if options.file != "-" else "standard input", Text(out), Passed() if options.skip_bad else None
    source = source_of(options, file)
    try:
        pour(source, text, passed, lambda bad: "%s:%d:%d: %s" % (name, *source.place(bad), bad.what))
    except Bad as bad:
        say("%s:%d:%d: %s" % (name, *source.place(bad), bad.what))
        say_log(source)
        text.cut()
        return REFUSED
    notes = notes_of(source, passed)
    text.close(notes)
    for note in notes:
        say(f"{name}: {note}")
    if passed and passed.count:
        say(f"the first: {passed.first}")
    return DONE


def say_log(source):
    """Says so if one of the first lines is that of a log which can't be judged."""
    file = source.lines.file if hasattr(source, "lines") else source.rows.lines.file
    try:
        file.seek(0)
        log = recognized([file.readline(4096), file.readline(4096)])
    except (OSError, ValueError):
        return
    if log:
        say(f"the file looks like the log {log}: {why_not(log)}")


def main(words):
    """Runs the command line, and returns the status."""
    top = parser()
    options = top.parse_args(words)
    if options.form in [name for name, _, _ in LOGS]:
        say(f"{options.form}: {why_not(options.form)}")
        return REFUSED
    if options.form in ("csv", "jsonl"):
        check_table(options, top)
    try:
        with (sys.stdin.buffer if options.file == "-" else open(options.file, "rb")) as file:
            return convert(options, file, sys.stdout.buffer)
    except BrokenPipeError:
        os.dup2(os.open(os.devnull, os.O_WRONLY), sys.stdout.fileno())
        say("standard output: it was closed before all was written")
    except OSError as error:
        say(f"{error.filename or 'a file'}: {error.strerror}")
    except KeyboardInterrupt:
        say("interrupted: the text is not whole")
    return FAULT
