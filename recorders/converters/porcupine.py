"""Logs of Porcupine's key-value model. An append is resolved by the gets that show it, so the whole log is read first."""
import re
from .text import Bad, key_word, value_word

PARTS = (rb"\{:process ", rb"(\d+)", rb", :type ", rb":(invoke|ok)", rb", :f ", rb":(get|put|append)", rb", :key ", rb'"(.*)"', rb", :value ",
         rb'(?:nil|"(.*)")', rb"\}")
LINE = re.compile(b"".join(PARTS))


def fault(line):
    """Returns the fault of a line that is no operation, at the column up to which it is one."""
    reach = max((it.end() for it in (re.match(b"".join(PARTS[:n]), line) for n in range(1, len(PARTS) + 1)) if it), default=0)
    return Bad('no operation, such as {:process 1, :type :ok, :f :get, :key "k", :value "v"}', reach + 1)


class Porcupine:
    """Reads the whole log, and then gives the lines of each operation."""

    def __init__(self, lines, over=64):
        self.lines, self.over, self.count = lines, over, 0
        self.begun, self.operations, self.held, self.at, self.seen = {}, [], {}, None, set()

    def begin(self):
        """There is nothing to read before the first line."""

    def place(self, bad):
        """Returns the line and the column of a fault."""
        return bad.line or self.lines.number, bad.column

    def read(self):
        """Returns the lines of the next operation and how many calls they have, or None at the end."""
        if self.at is None:
            line = self.lines.read()
            if line is not None:
                self.count += 1
                self.take(line)
                return b"", 0
            self.held = {key: wholes(self.operations, key) for key in {it[4] for it in self.operations if it[3] == b"append"}}
            self.at = 0
        if self.at == len(self.operations):
            return None
        self.at += 1
        return self.calls(*self.operations[self.at - 1])

    def take(self, line):
        """Takes the beginning or the end of an operation, as [process, start, end, act, key, text]."""
        it = LINE.fullmatch(line)
        if not it:
            raise fault(line)
        process, kind, act, key, value = it.groups()
        key_word(key)
        if (value is None) != (act == b"get" and kind == b"invoke") or not value and act == b"append":
            raise Bad(f"no :value of :{kind.decode()} :{act.decode()}: the beginning of a get has nil, and all others a text", it.end(4) + 11)
        if (kind == b"invoke") == (process in self.begun):
            raise Bad(f"process {process.decode()} began twice, or ended what it had not begun: a line is missing", it.start(1) + 1)
        begun = self.begun.pop(process, [process, self.lines.number, b"-", act, key, value])
        if begun[3:5] != [act, key] or act != b"get" and begun[5] != value:
            raise Bad(f"process {process.decode()} did not begin this :{act.decode()}: it began line {begun[1]}", it.start(3))
        if kind == b"ok":
            begun[2], begun[5] = self.lines.number, value
        else:
            self.begun[process] = begun
            self.operations.append(begun)

    def calls(self, process, start, end, act, key, text):
        """Returns the lines of an operation."""
        held = self.held.get(key, {})
        whole = held.get(text, b"nobody read what line %d made" % start) if act == b"append" else text
        name, stamps = key_word(key), b"%b %d %b" % (process, start, b"%d" % end if end != b"-" else end)
        lines = [] if key in self.seen else [b"setup 0 0 put %b -\n" % name]
        self.seen.add(key)
        if end != b"-" and (act == b"get" or act == b"append" and text in held):
            lines.append(b"%b hit %b %b\n" % (stamps, name, value_word(text if act == b"get" else whole[:-len(text)], self.over)))
        if act != b"get":
            lines.append(b"%b put %b %b\n" % (stamps, name, value_word(whole, self.over)))
        return b"".join(lines), len(lines)


def wholes(operations, key):
    """Returns what the key held after each put, and after each append that a get shows."""
    texts = sorted((text, line, act) for _, line, _, act, it, text in operations if it == key and act != b"get" and text)
    for (one, _, _), (two, line, _) in zip(texts, texts[1:]):
        if two.startswith(one):
            raise Bad("appends are covered only if no text begins with another text written to its key", line=line, ends=True)
    found, any_text = {text: text for text, _, act in texts if act == b"put"}, re.compile(b"|".join(re.escape(it[0]) for it in texts))
    for text in (text for _, _, _, act, it, text in operations if it == key and act == b"get" and text):
        it = any_text.match(text)
        while it and it[0] and found.setdefault(it[0], text[:it.end()]) == text[:it.end()]:
            it = any_text.match(text, it.end())
    return found
