"""`kangaroo judge` from Python: `judge(lines)` returns its answer as a dict. The program does the judging; nothing of it is here."""
import contextlib
import json
import os
import subprocess
import tempfile

PROGRAM = os.path.join(os.path.dirname(os.path.abspath(__file__)), "kangaroo")
ANSWERED = (0, 1, 4)  # accepted, rejected, undecided


class Refused(ValueError):
    """The program gave no verdict: a line is bad, an option is wrong, there are too few calls, or memory or a file failed. The text
    is the program's message. `status` is its exit status, and `answer` its JSON object, or None if it wrote none."""

    def __init__(self, message, status, answer=None):
        super().__init__(message, status, answer)
        self.message, self.status, self.answer = message, status, answer

    def __str__(self):
        return self.message


def judge(lines, **options):
    """Judges recorded calls, and returns the JSON object of `kangaroo judge --json` as a dict.

    `lines` is the whole text, as bytes or as str, or anything that gives its lines, such as an open file: these are passed on one by
    one. An option of the program is a keyword: `judge(lines, explain=True, at_least=1000)` is `--explain --at-least 1000`.
    `verdict` is "accepted", "rejected" or "undecided". What has no verdict raises Refused.
    """
    with tempfile.TemporaryFile() as out, tempfile.TemporaryFile() as err:
        command = [PROGRAM, "judge", "--json", *words_of(options), "-"]
        with subprocess.Popen(command, stdin=subprocess.PIPE, stdout=out, stderr=err) as ran:
            try:
                feed(ran.stdin, lines)
            except BaseException:
                ran.kill()
                close(ran.stdin)
                raise
        return answer_of(ran.returncode, whole(out), whole(err))


def words_of(options):
    """Returns the words of the command line for these options."""
    words = []
    for name, value in options.items():
        option = "--" + name.replace("_", "-")
        if value is True:
            words.append(option)
        elif value is not None and value is not False:
            words.append(f"{option}={value}")
    return words


def feed(to, lines):
    """Writes a text, or its lines, to the program's input, and closes it. The program may have answered before it has read all."""
    parts = [lines] if isinstance(lines, (bytes, bytearray, memoryview, str)) else map(ended, lines)
    for part in parts:
        try:
            to.write(encoded(part))
        except BrokenPipeError:
            break
    close(to)


def close(to):
    """Closes the program's input. What it does not read any more is lost."""
    with contextlib.suppress(BrokenPipeError):
        to.close()


def ended(line):
    """Returns a line as bytes, with its end."""
    line = encoded(line)
    return line if line.endswith(b"\n") else line + b"\n"


def encoded(text):
    """Returns a text as bytes."""
    return text.encode("utf-8", "surrogateescape") if isinstance(text, str) else bytes(text)


def whole(file):
    """Returns what was written to a file, as text."""
    file.seek(0)
    return file.read().decode("utf-8", "replace")


def answer_of(status, out, err):
    """Returns the answer, or raises Refused with the program's message."""
    try:
        answer = json.loads(out)
    except ValueError:
        answer = None
    if answer is not None and status in ANSWERED:
        return answer
    message = err.strip() or out.strip() or f"kangaroo judge ended with status {status}"
    if answer and "cause" in answer:
        message = f"bad line {answer['line']}: {answer['cause']}\n{message}"
    raise Refused(message, status, answer)
