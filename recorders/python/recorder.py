"""Records the calls of a cache's client as lines for `kangaroo judge`. The page is ../README.md.

    with open("calls-1.txt", "wb", buffering=0) as out, Recorder(out) as recorder:
        with recorder.put("worker1", b"color", b"red") as call:     # START is read here
            client.set(b"color", call.stored, noreply=False)        # wait for the answer; END is read after it

No error of the recorder reaches the service: it stops recording, and counts the lines that it did not write."""
import hashlib
import itertools
import os
import re
import threading
import time

TAG = re.compile(rb"rec\.[0-9a-f]{12}\.[0-9]{1,20}\|")
TEXT_TAG = re.compile(TAG.pattern.decode())
NAME_MOST, KEY_MOST, VALUE_MOST, NUMBER_MOST, NOTHING = 64, 255, 64, 2**63 - 1, object()
CODED = [chr(it) if 33 <= it <= 126 and it not in b"%#" else "%%%02X" % it for it in range(256)]


def word(data):
    """Returns bytes as a word of a line: percent-encoded, a hyphen if there are none."""
    return {b"": "-", b"-": "%2D"}.get(data) or "".join(map(CODED.__getitem__, data))


def plain(key):
    """Returns a key as bytes, if it is a text."""
    return key.encode("utf-8", "replace") if isinstance(key, str) else key


def value_word(value):
    """Returns a value as a word: its tag, and either all of the rest or, if that is long, its hash."""
    data = value.encode("utf-8", "surrogatepass") if isinstance(value, str) else value
    tag = TAG.match(data)
    head, rest = (tag[0], data[tag.end():]) if tag else (b"", data)
    return word(data if len(rest) <= VALUE_MOST else head + b"sha256." + hashlib.sha256(rest).hexdigest()[:32].encode())


def key_hash(key):
    """Returns the FNV-1a hash of a key, 64 bits, its upper half folded into the lower. It decides whether the key is recorded."""
    number = 14695981039346656037
    for byte in key:
        number = (number ^ byte) * 1099511628211 % 2**64
    return number ^ number >> 32


class Call:
    """One call, from START at the begin of its block to END at the end. If the block raises, END is `-`: no answer came."""

    def __init__(self, recorder, act, caller, key, stored=None, lifetime=0):
        self.recorder, self.act, self.caller, self.key, self.stored, self.lifetime = recorder, act, caller, plain(key), stored, lifetime
        self.found, self.failed = NOTHING, False  # set `failed` after a write that was refused: then END is `-` too
        self.undone = False  # set it if the answer says that the write was surely not done: then it has no line

    def __enter__(self):
        self.start = time.monotonic_ns()
        return self

    def __exit__(self, kind, _error, _trace):
        self.end = time.monotonic_ns()
        self.failed = self.failed or kind is not None
        self.recorder.note(self)
        return False

    @property
    def value(self):
        """What a get found, without its tag; None if it found nothing."""
        tags = {bytes: TAG, str: TEXT_TAG}.get(type(self.found))
        tag = tags.match(self.found) if tags else None
        return None if self.found is NOTHING else self.found[tag.end():] if tag else self.found

    def line(self):
        """Returns the call's line, or nothing for a get without an answer."""
        name = word(str(self.caller).encode("utf-8", "replace")[:NAME_MOST])
        end, act, rest = ("-" if self.failed else str(self.end)), self.act, []
        if self.undone:
            return b""
        if act == "get":
            if self.failed or self.found is NOTHING:
                return b""
            act, rest = ("miss", []) if self.found is None else ("hit", [value_word(self.found), str(self.start)])
        elif act == "put":
            expires = self.end + int(self.lifetime)
            rest = [value_word(self.stored)] + ([str(expires)] if self.lifetime and not self.failed and expires <= NUMBER_MOST else [])
        return (" ".join([name, str(self.start), end, act, word(self.key), *rest]) + "\n").encode()


class Recorder:
    """A recording on a binary file. Any thread may use it. It records one key in `one_of`. Use one in each process."""

    def __init__(self, out, one_of=1):
        self.out, self.one_of, self.process = out, max(1, one_of), os.getpid()
        self.run, self.puts, self.lock = os.urandom(6).hex(), itertools.count(1), threading.Lock()
        self.calls, self.lost, self.stopped, self.closed = -1, 0, False, False
        self.write(("# recorder rec.%s, 1 of %d keys\n" % (self.run, self.one_of)).encode())

    def put(self, caller, key, value, lifetime=0):
        """Records a put. Let the block store `stored` of what it is given. `lifetime` is in nanoseconds, 0 for never."""
        if self.is_recorded(plain(key)) and isinstance(value, (bytes, str)):
            tag = "rec.%s.%d|" % (self.run, next(self.puts))
            value = tag + value if isinstance(value, str) else tag.encode() + value
        return Call(self, "put", caller, key, value, lifetime)

    def remove(self, caller, key):
        """Records a removal."""
        return Call(self, "remove", caller, key)

    def get(self, caller, key):
        """Records a hit or a miss. Let the block set `found` to the value that was read, or to None."""
        return Call(self, "get", caller, key)

    def is_recorded(self, key):
        """Returns whether calls of this key are recorded."""
        return isinstance(key, bytes) and 1 <= len(key) <= KEY_MOST and key_hash(key) % self.one_of == 0 and self.process == os.getpid()

    def note(self, call):
        """Writes the line of a call that has ended, if its key is recorded."""
        try:
            line = call.line() if self.is_recorded(call.key) else b""
        except Exception:  # a value that is no bytes, or no memory: there is a hole
            line = None
        if line != b"" and not self.closed:
            self.write(line)

    def write(self, line):
        """Writes a line whole, or counts it as lost. None stops the recording."""
        with self.lock:
            try:
                while line and not self.stopped:
                    written = self.out.write(line)
                    line = line[written:] if written else None
                self.out.flush()
            except Exception:
                line = None
            self.stopped = self.stopped or line is None
            self.lost, self.calls = self.lost + self.stopped, self.calls + (not self.stopped)

    def close(self):
        """Writes the last line, and returns how many lines were not written: 0 if the recording is whole. The file stays open."""
        if self.process != os.getpid() or self.closed:
            return self.lost
        if not self.stopped:
            self.write(b"# whole: %d calls\n" % self.calls)
        if self.stopped:
            try:
                self.out.write(b"  cut\n# not whole: %d lines were not written\n" % self.lost)
                self.out.flush()
            except Exception:
                pass
        self.closed = self.stopped = True
        return self.lost

    def __enter__(self):
        return self

    def __exit__(self, *_):
        self.close()
