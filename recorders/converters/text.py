"""The text that is written: its words, its limits and its end. docs/FORMATS.md has the format, in "Histories as text"."""
import hashlib
import re

NUMBER_MOST, NAME_MOST, KEY_MOST, VALUE_MOST, CALLERS_MOST, CALLS_MOST = 2**63 - 1, 64, 255, 2048, 65536, 268435456
HASHED_OVER = 64  # as the recorders have it
HELD_MOST = 4096  # lines that are written at once
PLAIN = re.compile(rb'[!"$&-~]+')  # bytes that stand for themselves
TAG = re.compile(rb"rec\.[0-9a-f]{12}\.[0-9]{1,20}\|")
CODED = [bytes([it]) if PLAIN.fullmatch(bytes([it])) else b"%%%02X" % it for it in range(256)]


class Bad(Exception):
    """A line that is no call: what is wrong and what to do, and where it stands. If it `ends` the input, it can't be passed over."""

    def __init__(self, what, column=1, field=None, line=None, ends=False):
        super().__init__(what)
        self.what, self.column, self.field, self.line, self.ends = what, column, field, line, ends


def shown(data):
    """Returns some bytes for a message, in quotes and cut after 40."""
    return '"%s"%s' % (data[:40].decode("utf-8", "backslashreplace"), " .." if len(data) > 40 else "")


def word(data):
    """Returns bytes as a word: percent-encoded, and a hyphen if there are none."""
    if PLAIN.fullmatch(data) and data != b"-":
        return data
    return {b"": b"-", b"-": b"%2D"}.get(data) or b"".join(map(CODED.__getitem__, data))


def hashed(data):
    """Returns what stands for long bytes: the first 32 digits that sha256sum prints of them."""
    return b"sha256." + hashlib.sha256(data).hexdigest()[:32].encode()


def key_word(data, hashes=False):
    """Returns a key as a word."""
    if hashes and len(data) > HASHED_OVER:
        data = hashed(data)
    if not 1 <= len(data) <= KEY_MOST:
        raise Bad(f"a key has 1 to {KEY_MOST} bytes, and this one has {len(data)}: leave out its calls (--skip-bad)"
                  + (", or give --hash-keys" if data else ""), field="key")
    return word(data)


def value_word(data, over=HASHED_OVER):
    """Returns a value as a word. If it is longer than `over`, its hash stands for it. A recorder's tag is kept."""
    if len(data) <= over:
        return word(data)
    tag = TAG.match(data)
    head, rest = (tag[0], data[tag.end():]) if tag else (b"", data)
    return word(data if len(rest) <= over and len(data) <= VALUE_MOST else head + hashed(rest))


class Text:
    """What is written. Its last line says that it is whole; else it ends in a line that `judge` refuses."""

    def __init__(self, out):
        self.out, self.held, self.calls = out, [], 0

    def add(self, lines, count=1):
        """Adds lines, of so many calls."""
        self.held.append(lines)
        self.calls += count
        if len(self.held) >= HELD_MOST:
            self.flush()

    def flush(self):
        """Writes the lines that are held."""
        self.out.write(b"".join(self.held))
        self.held.clear()
        self.out.flush()

    def close(self, notes):
        """Ends a whole text, with notes before its last line."""
        self.held += [b"# %s\n" % it.encode() for it in notes] + [b"# whole: %d calls\n" % self.calls]
        self.flush()

    def cut(self):
        """Ends a text that has not all calls, so that nobody takes it for a whole one."""
        self.held.append(b"  cut\n# not whole: the input was refused\n")
        self.flush()
